// What two parties of a channel may report, whatever is between them: each has the first payloads that the other has
// written, in order; it reports an end only if the other has ended and all of it came; and else it throws. After a
// refusal it sends nothing. X25519 is a toy, as in checks/c-library/relay.py: the result of two public keys is their
// xor.
import assert from 'node:assert/strict';
import { NoiseError, NoiseSocket } from '../noise.mjs';
import { text } from './connections.mjs';

export const TEXTS = [
  ['a first text', 'b', 'the last of the client'].map(text),
  ['1', 'what the server has to say', 'and good bye'].map(text),
];
/** When each party ends its stream: at once, once the other's has ended, or, without receiving at all, by close. */
export const ORDERS = [
  ['ends', 'ends'],
  ['waits', 'ends'],
  ['ends', 'waits'],
  ['closes', 'ends'],
  ['ends', 'closes'],
  ['closes', 'closes'],
];
export const NOTHING = { kind: 'nothing' };

function keyOf(role, ofStatic) {
  const publicKey = Uint8Array.from({ length: 32 }, (_, i) => (17 + 60 * role + 101 * ofStatic + 7 * i) % 256);
  return { publicKey, agree: (remote) => publicKey.map((byte, i) => byte ^ remote[i]) };
}
export const OPTIONS = [0, 1].map((role) => ({
  pattern: 'XX', responder: role === 1, interval: 2, staticKey: keyOf(role, 1), ephemeralKey: keyOf(role, 0),
  verify: (key) => Buffer.compare(key, keyOf(1 - role, 1).publicKey) === 0,
}));

/** What a fault makes of a message, as several messages, or undefined where it cuts the connection. */
export function damaged(message, { kind, at, bit }, from, number) {
  const isInside = at >= from && at < from + message.length;
  if (kind === 'flip' && isInside) return [message.map((byte, n) => (n === at - from ? byte ^ (1 << bit) : byte))];
  if (at !== number) return [message];
  if (kind === 'cut') return undefined;
  return {
    drop: [],
    repeat: [message, message],
    shorten: [message.slice(0, -1)],
    lengthen: [Uint8Array.of(...message, 0)],
  }[kind] ?? [message];
}

/** Sends what a party has to send, and ends it, unless the other party's end comes first, or `close` is to do it. */
async function sendAll(channel, texts, order, report) {
  try {
    for (const it of texts) await channel.send(it);
    report.hasEnded = order !== 'waits';
    if (order === 'ends') await channel.end();
  } catch (error) {
    report.unsent = error;    // what came can still be received
  }
}

/** What one end does, and what it reports. */
export async function party(link, role, order) {
  const report = { got: [], hasEnded: false, gotEnd: false };
  try {
    const channel = await NoiseSocket.open(link.ends[role], OPTIONS[role]);
    await sendAll(channel, TEXTS[role], order, report);
    if (order !== 'closes') {
      for await (const payload of channel) report.got.push(payload);
      report.gotEnd = true;
      report.hasEnded = !report.unsent;
    }
    await channel.close();
  } catch (error) {
    report.error = error;
    report.sent = link.sent(role);
  }
  return report;
}

/** Whether an end's report is one that the theorem on streams allows. */
export function check({ link, reports }, role, order) {
  const [mine, other, written] = [reports[role], reports[1 - role], TEXTS[1 - role]];
  assert.deepEqual(mine.got, written.slice(0, mine.got.length), 'what was received is a front of what was written');
  if (mine.gotEnd) {
    assert.ok(other.hasEnded && mine.got.length === written.length, 'an end, and not all of it came');
  } else if (order !== 'closes') {
    assert.ok(mine.error instanceof NoiseError, `neither an end nor a refusal: ${mine.error}`);
  }
  if (mine.error) assert.equal(link.sent(role), mine.sent, 'something is sent after a refusal');
}
