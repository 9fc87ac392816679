// What a run has come to, for the picture and the button of the next step. There is no DOM here.
import { OTHER, ROLES } from './party.mjs';
import { fateOf } from './sentences.mjs';

/** The state of a written message in a word, with its class. */
function stateOf(item) {
  if (!item) return { word: '', cls: 'due' };
  const word = fateOf(item);
  if (item.comings.length === 0) return { word: 'on its way', cls: 'way' };
  return { word, cls: item.comings.includes('refused') ? 'bad' : 'good' };
}

/** The messages that a party has written after its handshake, in order. */
const laterOf = (run, role) =>
  (run.setup.mode === 'datagrams'
    ? run[role].datagrams
    : run[role].written.filter(({ number }) => number === undefined));

/** What the picture shows of a run; `item` is the message that is shown at its place. */
export function seenOf(run, item) {
  if (!run) return undefined;
  const messages = run.plan.messages.map(({ from }, n) => {
    const written = run[from].written.find(({ number }) => number === n);
    return { state: stateOf(written), isNow: Boolean(written) && written === item };
  });
  const isDatagrams = run.setup.mode === 'datagrams';
  const transport = Object.fromEntries(ROLES.map((role) => {
    const all = laterOf(run, role);
    const last = all.includes(item) ? item : all.at(-1);
    if (!last) return [role, { state: { word: '', cls: 'due' } }];
    const name = isDatagrams ? `datagram ${last.n}` : `transport message ${last.transport}`;
    return [role, { state: stateOf(last), isNow: last === item, name, length: last.message.length }];
  }));
  return { messages, transport, isDatagrams };
}

const changed = ({ flips }) =>
  (flips.size === 0 ? '' : ` with ${flips.size === 1 ? `byte ${[...flips][0]}` : `${flips.size} bytes`} changed`);

/** The oldest message after the handshake that hasn't come, if it can come now. */
function waiting(run) {
  if (!run.isOpen || run.isClosed) return undefined;
  const all = ROLES.flatMap((role) =>
    laterOf(run, role).filter(({ comings }) => comings.length === 0).map((item) => ({ to: OTHER[role], item })),
  );
  return all.find(({ to }) => !run[to].isBroken && !run[to].sawEnd);
}

/** Who may write a payload next: the parties take turns. */
function nextWriter(run) {
  if (!run.isOpen || run.isClosed) return undefined;
  const able = ROLES.filter((role) => run.silenceOf(role) === undefined && !(run.plan.oneWay && role === 'responder'));
  const last = [...run.log].reverse().find(({ kind, number }) => kind === 'wrote' && number === undefined)?.role;
  return able.find((role) => role !== last) ?? able[0];
}

/** The next step of a run: `{ step, role, item, label }`, where `step` is begin, deliver or write. */
export function nextStep(run, isStale) {
  if (!run) return { step: 'begin', label: 'Draw keys and begin' };
  if (isStale) return { step: 'begin', label: 'Begin again with this set-up' };
  const { pending, next } = run;
  if (pending) {
    return {
      step: 'deliver',
      role: pending.to,
      item: pending.item,
      label: `Deliver message ${pending.item.number + 1} to the ${pending.to}${changed(pending.item)}`,
    };
  }
  if (next) {
    return { step: 'write', role: next, label: `Write message ${run[next].handshake.stage.passed + 1} as the ${next}` };
  }
  const late = waiting(run);
  if (late) {
    const { item, to } = late;
    const name = item.isDatagram
      ? `datagram ${item.n}`
      : item.isEnd ? `the end of the ${OTHER[to]}’s stream` : `transport message ${item.transport}`;
    return { step: 'deliver', role: to, item, label: `Deliver ${name} to the ${to}${changed(item)}` };
  }
  const writer = nextWriter(run);
  if (writer) return { step: 'write', role: writer, label: `Send a payload as the ${writer}` };
  return { step: 'begin', label: 'Begin again with new keys' };
}

/** Whose turn it is, in a sentence; '' once both are open. */
export function turnOf(run) {
  const { pending, next, plan } = run;
  if (pending) {
    return `Message ${pending.item.number + 1} of ${plan.messages.length} is on its way, `
      + `and the ${pending.to} waits for it.`;
  }
  return next
    ? `It is the ${next}’s turn to write message ${run[next].handshake.stage.passed + 1} of ${plan.messages.length}.`
    : '';
}
