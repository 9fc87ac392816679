// The set-up as a program in each language: both parties of the pattern in one process, or one party that speaks to the
// other over the network. The programs compile and run as they are, and checks/web/run does so.
import { FUNDAMENTAL } from './patterns.mjs';
import { c } from './programs/c.mjs';
import { cParty } from './programs/c-party.mjs';
import { go } from './programs/go.mjs';
import { goParty } from './programs/go-party.mjs';
import { javascript } from './programs/javascript.mjs';
import { javascriptParty } from './programs/javascript-party.mjs';
import { python } from './programs/python.mjs';
import { pythonParty } from './programs/python-party.mjs';
import { rust } from './programs/rust.mjs';
import { rustParty } from './programs/rust-party.mjs';

const MADE = {
  C: [c, cParty, '.c'],
  Go: [go, goParty, '.go'],
  Rust: [rust, rustParty, '.rs'],
  JavaScript: [javascript, javascriptParty, '.mjs'],
  Python: [python, pythonParty, '.py'],
};
export { LANGUAGES } from './languages.mjs';

/**
 * What the programs need to know of a pattern and its set-up. `knows` says whose static key is in the other party's
 * set-up.
 */
function factsOf(plan, { text, prologue, interval, mode, window }) {
  const { section, base, before, psks, oneWay } = plan;
  return {
    section, psks, oneWay, prologue, interval, mode, window,
    name: base.toLowerCase(),
    isNamed: FUNDAMENTAL.includes(base),
    lines: text.trimEnd().split('\n'),
    isDatagrams: mode === 'datagrams',
    isStream: mode === 'stream',
    has: plan.static,
    knows: { initiator: before.responder.includes('s'), responder: before.initiator.includes('s') },
    knowsEphemeral: { initiator: before.responder.includes('e'), responder: before.initiator.includes('e') },
  };
}

/**
 * What the program of one party needs to know besides: `hasOwn` and `hasOther` say which static keys there are,
 * `knowsOther` whether it has the other party's beforehand, and `isEarly` whether message 1 encrypts its payload.
 */
function partyOf(role, plan, { has, knows, knowsEphemeral }) {
  const isServer = role === 'responder';
  const [own, other] = isServer ? ['server', 'client'] : ['client', 'server'];
  return {
    own, other, isServer, hasOwn: has[role], hasOther: has[isServer ? 'initiator' : 'responder'],
    knowsOther: knows[role],
    isEarly: plan.messages[0].pieces.some(({ kind, sealed }) => kind === 'payload' && sealed),
    hasEphemeral: knowsEphemeral.initiator || knowsEphemeral.responder,
  };
}

/**
 * The program of a pattern in a language, of both parties or of the one with this role: its text, and the name of its
 * file.
 */
export function program(language, plan, setup, role) {
  const [both, party, ending] = MADE[language];
  const facts = factsOf(plan, setup);
  if (!role) return { name: facts.name + ending, text: both(facts) };
  const of = partyOf(role, plan, facts);
  return { name: `${facts.name}-${of.own}${ending}`, text: party({ ...facts, ...of }) };
}
