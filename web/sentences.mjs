// What has happened in a run, in sentences: message and token by name, then the cause, in the order of the command. No
// DOM here.
import { shown } from './bytes.mjs';
import { CAUSES } from './faults.mjs';
import { OTHER, ROLES } from './party.mjs';

export const named = (role) => role[0].toUpperCase() + role.slice(1);

/** How a message is called; also in a sentence whose subject is the writer. */
export function messageName({ role, kind, n, number, transport, isDatagram, isEnd }, isOfSubject = false) {
  const writer = kind === undefined || kind === 'wrote' ? role : OTHER[role];
  if (number !== undefined) return `message ${number + 1}`;
  if (isEnd) return `the end of ${isOfSubject ? 'its' : `the ${writer}’s`} stream (transport message ${transport})`;
  const name = isDatagram ? `datagram ${n}` : `transport message ${transport}`;
  return isOfSubject ? `its ${name}` : `${name} of the ${writer}`;
}

const list = (numbers) =>
  (numbers.length > 4 ? `${numbers.slice(0, 4).join(', ')} and ${numbers.length - 4} more` : numbers.join(', '));

function changedWords(flips = []) {
  if (flips.length === 0) return '';
  return ` Changed on the way: ${flips.length === 1 ? 'byte' : 'bytes'} ${list(flips)}.`;
}

/** The token at which the library says that a message was refused. */
function tokenName(run, { number, token }) {
  if (token === undefined) return '';
  const name = run.plan.messages[number]?.tokens[token];
  return name ? `, token ${name}` : ', payload';
}

/** Said where another transport message than the next one came. */
const dueWords = ({ transport, due }) =>
  (transport !== undefined && due !== undefined && transport !== due ? ` Transport message ${due} was due.` : '');

/** Whether a psk is mixed in before this place of a message. */
function isPskMixed({ plan }, { number, token }) {
  const before = plan.messages.slice(0, number).flatMap(({ tokens }) => tokens);
  return [...before, ...plan.messages[number].tokens.slice(0, token)].includes('psk');
}

/** Said of a refused message of parties with different psks. */
const psksWords = (run, entry) =>
  (run.hasOwnPsks && entry.token !== undefined && isPskMixed(run, entry) ? ' The parties’ psks differ.' : '');

/** What a refusal leaves. */
function leaves(run, { role, token, code }) {
  if (token !== undefined) return ' Its handshake has ended.';
  if (run[role].isBroken) return ' Its stream is broken: it reads nothing more, and sends nothing, no end either.';
  return code === 13 ? '' : ' It goes on as before.';
}

const WHAT = {
  wrote: (run, entry) => {
    const { role, message, payload, isEnd } = entry;
    return `${named(role)} wrote ${messageName(entry, true)}: `
      + `${message.length} bytes${isEnd ? '' : `, payload ${shown(payload)}`}.`;
  },
  unwritten: (run, { role, code }) => `${named(role)} wrote nothing: `
    + `${CAUSES[code] ?? `code ${code}`}. It goes on as before.`,
  accepted: (run, entry) => `${named(entry.role)} accepted ${messageName(entry)}: `
    + `payload ${shown(entry.payload)}.${changedWords(entry.flips)}`,
  refused: (run, entry) =>
    `${named(entry.role)} refused ${messageName(entry)}${tokenName(run, entry)}: `
      + `${CAUSES[entry.code] ?? `code ${entry.code}`}.`
      + `${changedWords(entry.flips)}${dueWords(entry)}${psksWords(run, entry)}${leaves(run, entry)}`,
  ended: (run, entry) => `${named(entry.role)} accepted ${messageName(entry)}: all of it has come.`,
  waits: (run, entry) => `${named(entry.role)} has ${entry.wanted} bytes of `
    + `${messageName(entry)}, and waits for the rest.`,
  unread: (run, entry) => `${named(entry.role)} didn’t read ${messageName(entry)}: `
    + `${run[entry.role].isBroken ? 'its stream is broken' : 'the stream had ended'}.`,
  closed: (run, { reports }) => 'The connection has ended. '
    + `${ROLES.map((role) => `The ${role} reports ${reports[role]}`).join('. ')}.`,
};

export const sentenceOf = (run, entry) => WHAT[entry.kind](run, entry);

/** The word for what an entry is. */
export const CHIPS = {
  wrote: 'written', unwritten: 'refused', accepted: 'delivered', refused: 'refused', ended: 'delivered',
  waits: 'unfinished', unread: 'not read', closed: 'closed',
};

/** What has become of a written message. */
export function fateOf({ comings }) {
  if (comings.length === 0) return 'not delivered';
  const good = comings.filter((kind) => ['accepted', 'ended'].includes(kind)).length;
  const refused = comings.filter((kind) => kind === 'refused').length;
  const times = (count) => (count > 1 ? ` ${count} times` : '');
  return [
    good && `delivered${times(good)}`,
    refused && `refused${times(refused)}`,
    !good && !refused && 'not read',
  ].filter(Boolean).join(', ');
}

/** Where both parties stand: whose turn it is, and after the handshake what each has sent. */
export function stateOf(run, turn) {
  if (!run) return 'No keys are drawn yet.';
  if (turn) return turn;
  if (run.isClosed) return 'The connection is closed: begin again with new keys.';
  const of = (role) => {
    const party = run[role];
    if (party.ended) return `the ${role}’s handshake has ended: begin again with new keys`;
    if (party.isBroken) return `the ${role}’s stream is broken`;
    if (party.sealer) {
      return `the ${role} ${party.hasEnded ? 'has ended its stream' : 'is open'} (sent `
        + `${party.sent}, accepted ${party.taken})`;
    }
    return `the ${role} has passed ${party.handshake.stage.passed} of ${run.plan.messages.length}`;
  };
  return `${named(of('initiator'))}; ${of('responder')}.`;
}
