// Channels with a relay between both parties that damages one byte or message: over TCP at each byte, and over
// WebSockets of the package ws at each byte and message: node relays.mjs [tcp] [ws]. What the parties report has to be
// what the theorem on streams allows.
import assert from 'node:assert/strict';
import { load } from '../../bindings/js/noise.mjs';
import { overTcp } from '../../bindings/js/test/connections.mjs';
import { NOTHING, check, damaged, party } from '../../bindings/js/test/law.mjs';
import { relayed } from './live/carriers.mjs';

Error.stackTraceLimit = 0;    // thousands of errors are made
const AT_ONCE = 64;
/** Where nothing happened for so many milliseconds, the relay breaks the connection. */
const IDLE = 400;

async function byTcp(faults) {
  const [peer, there] = await overTcp();
  const near = await relayed(peer, faults);
  const ends = [near, there];
  return { ends, sent: (role) => ends[role].bytesWritten, close: () => [peer, ...ends].forEach((it) => it.destroy()) };
}

/** Passes messages, with a fault, and the close. */
function pass(from, to, fault, act) {
  let [count, bytes] = [0, 0];
  from.on('message', (data) => {
    act();
    const pieces = damaged(Uint8Array.from(data), fault, bytes, count);
    bytes += data.length;
    count += 1;
    if (pieces) for (const piece of pieces) to.send(piece);
    else for (const it of [from, to]) it.terminate();
  });
  from.on('close', () => to.close());
  from.on('error', () => {});
}

const byWebSocket = (pair) => async (faults) => {
  const [[near, one], [two, there]] = await Promise.all([pair(), pair()]);
  for (const it of [near, two]) if (it.readyState === 0) await new Promise((resolve) => { it.once('open', resolve); });
  const ends = [near, there];
  const [sent, messages] = [[0, 0], [0, 0]];
  const breaks = () => [one, two, ...ends].forEach((it) => it.terminate());
  let timer = setTimeout(breaks, IDLE);
  const act = () => {
    clearTimeout(timer);
    timer = setTimeout(breaks, IDLE);
  };
  for (const [role, it] of ends.entries()) {
    const send = it.send.bind(it);
    it.send = (data) => { sent[role] += data.length; messages[role] += 1; send(data); };
  }
  pass(one, two, faults[0], act);
  pass(two, one, faults[1], act);
  return { ends, sent: (role) => sent[role], messages: (role) => messages[role], close: () => {
    clearTimeout(timer);
    breaks();
  } };
};

/** One session, in which both parties send, end, and read. */
async function session(connect, faults) {
  const link = await connect(faults);
  for (const it of link.ends) it.on('error', () => {});
  const reports = await Promise.all([0, 1].map((role) => party(link, role, 'ends')));
  link.close();
  for (const role of [0, 1]) check({ link, reports }, role, 'ends');
  return { link, reports };
}

/** Each fault at each of `places(link, role, kind)`, in each direction. */
async function all(connect, kinds, places) {
  const whole = await session(connect, [NOTHING, NOTHING]);
  assert.ok(whole.reports.every(({ gotEnd, error }) => gotEnd && !error), 'without a fault');
  const faults = (direction, kind) => Array.from(
    { length: places(whole.link, direction, kind) }, (_, at) => ({ direction, kind, at, bit: at % 8 }),
  );
  const runs = [0, 1].flatMap((direction) => kinds.flatMap((kind) => faults(direction, kind)));
  const last = runs.map(({ direction, kind }) => places(whole.link, direction, kind) - 1);
  let next = 0;
  const worker = async () => {
    while (next < runs.length) {
      const n = next;
      next += 1;
      const { direction, ...fault } = runs[n];
      const { reports } = await session(connect, direction === 0 ? [fault, NOTHING] : [NOTHING, fault]);
      const isAfter = fault.kind === 'repeat' && fault.at === last[n];    // what repeats the last comes after the end
      assert.ok(isAfter || !reports[1 - direction].gotEnd, JSON.stringify(runs[n]));
    }
  };
  await Promise.all(Array.from({ length: AT_ONCE }, worker));
  return runs.length;
}

await load();
const words = process.argv.slice(2);
if (words.includes('tcp')) {
  const count = await all(byTcp, ['flip', 'cut', 'repeat', 'drop'], (link, role) => link.sent(role));
  console.log(`js: ${count} channels over TCP behind a relay that damages one byte`);
}
if (words.includes('ws')) {
  const { webSockets } = await import('./ws.mjs');
  const { pair, close } = await webSockets();
  const kinds = ['flip', 'cut', 'repeat', 'drop', 'shorten', 'lengthen'];
  const count = await all(
    byWebSocket(pair), kinds, (link, role, kind) => (kind === 'flip' ? link.sent(role) : link.messages(role)),
  );
  console.log(
    `js: ${count} channels over WebSockets of the package ws behind a relay that damages one byte or message`,
  );
  close();
}
