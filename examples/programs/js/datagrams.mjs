// datagrams.mjs: the rules of docs/UDP.md that need no keys of a handshake. vectors/datagrams.json has their cases,
// which `node datagrams-test.mjs vectors/datagrams.json` runs.
import { createHash, createHmac, randomBytes, timingSafeEqual } from 'node:crypto';

export const [TRANSPORT, COOKIE_REPLY, WITH_COOKIE] = [8, 9, 10];    // kinds above the numbers of messages
export const INDEX = 8;
export const COOKIE = 16;    // the length of a cookie, and of the hash in its reply
export const OVERHEAD = 1 + INDEX + 8 + 16;
const [REPLY, TIMES, PERIOD, MOST_A_SECOND] = [1 + 2 * COOKIE, 3, 120, 32];

const sha256 = (bytes) => createHash('sha256').update(bytes).digest();
const equal = (one, other) => one.length === other.length && timingSafeEqual(one, other);

/** What a datagram is, of a pattern with so many messages. */
export function kindOf(datagram, messages) {
  const [first] = datagram;
  if (first === undefined) return 'none';
  if (first < messages) return 'message';
  if (first === TRANSPORT && datagram.length >= OVERHEAD) return 'transport';
  if (first === COOKIE_REPLY && datagram.length === REPLY) return 'cookie reply';
  return first === WITH_COOKIE && datagram.length > 1 + COOKIE ? 'with cookie' : 'none';
}

/** Whether `length` bytes may go to an address from which `came` bytes came, and to which `sent` went. */
export const maySend = (came, sent, length, shown) => shown || sent + length <= TIMES * came;

/**
 * What a responder does at a first message in a datagram of `came` bytes, to which `answer` bytes would be sent:
 * 'answer', 'cookie' or 'none'. `shown` is whether a right cookie came with it.
 */
export function firstMessage(halfDone, busy, shown, came, answer) {
  if (shown || (halfDone < busy && maySend(came, 0, answer, false))) return 'answer';
  return maySend(came, 0, REPLY, false) ? 'cookie' : 'none';
}

/** Whether a session's address becomes that of a datagram that opened; `newest` is undefined before the first one. */
export const moves = (nonce, newest) => newest === undefined || nonce > newest;

/** Which handshake is closed where there are too many: its place in a list of their hosts, the oldest first. */
export function givesWay(begun) {
  const open = begun.some((it) => !it.done) ? begun.filter((it) => !it.done) : begun;
  const counts = new Map();
  for (const { host } of open) counts.set(host, (counts.get(host) ?? 0) + 1);
  const most = Math.max(...counts.values());
  return begun.indexOf(open.find((it) => counts.get(it.host) === most));
}

/** The 16 bytes of an IPv6 address, or the 4 of an IPv4 address, also of one in ::ffff:0:0/96. */
function ipBytes(text) {
  if (!text.includes(':')) return Buffer.from(text.split('.').map(Number));
  const dotted = /^(.*:)(\d+)\.(\d+)\.(\d+)\.(\d+)$/.exec(text.split('%')[0]);
  const hex = (high, low) => ((Number(high) << 8) | Number(low)).toString(16);
  const plain = dotted ? `${dotted[1]}${hex(dotted[2], dotted[3])}:${hex(dotted[4], dotted[5])}` : text.split('%')[0];
  const [before, after] = plain.split('::').map((it) => it.split(':').filter(Boolean));
  const groups = after ? [...before, ...Array(8 - before.length - after.length).fill('0'), ...after] : before;
  const bytes = Buffer.from(groups.map((it) => it.padStart(4, '0')).join(''), 'hex');
  return bytes.subarray(0, 12).equals(Buffer.from('00000000000000000000ffff', 'hex')) ? bytes.subarray(12) : bytes;
}

/** What a cookie has of an address and a port. */
export function addressBytes({ address, port }) {
  const ip = ipBytes(address);
  return Buffer.concat([Uint8Array.of(ip.length === 4 ? 4 : 6), ip, Uint8Array.of(port >> 8, port & 255)]);
}

/** By what half-done handshakes are counted: an IPv4 address, or the first 64 bits of an IPv6 address. */
export const hostOf = ({ address }) => ipBytes(address).subarray(0, 8).toString('hex');

/** The cookie of an address and a first message. */
export const cookieOf = (secret, from, message) =>
  createHmac('sha256', secret).update(addressBytes(from)).update(sha256(message)).digest().subarray(0, COOKIE);

/** The datagram with a cookie. */
export const replyOf = (message, cookie) =>
  Buffer.concat([Uint8Array.of(COOKIE_REPLY), sha256(message).subarray(0, COOKIE), cookie]);

/** The datagram with which a cookie is answered. */
export const withCookie = (cookie, message) => Buffer.concat([Uint8Array.of(WITH_COOKIE), cookie, message]);

/** The cookie in a reply; undefined if the reply is for another message. */
export const cookieIn = (reply, message) =>
  equal(reply.subarray(1, 1 + COOKIE), sha256(message).subarray(0, COOKIE)) ? reply.subarray(1 + COOKIE) : undefined;

/** The index of a session, by the last message of its handshake. */
export const indexOf = (last) => Buffer.from(last.subarray(-INDEX)).toString('hex');

/** A responder's secrets: one makes cookies for 120 seconds, and counts for 120 more. `now` is in seconds. */
export class Cookies {
  #draw;
  #secrets = []; // with the time when each was drawn, the newest first

  constructor(draw = () => randomBytes(32)) {
    this.#draw = draw;
  }

  // Those that count; the first one makes cookies.
  #right(now) {
    this.#secrets = this.#secrets.filter((it) => now - it.drawn < 2 * PERIOD);
    if (this.#secrets.length === 0 || now - this.#secrets[0].drawn >= PERIOD) {
      this.#secrets.unshift({ secret: this.#draw(), drawn: now });
    }
    return this.#secrets.map((it) => it.secret);
  }

  make(from, message, now) {
    return cookieOf(this.#right(now)[0], from, message);
  }

  accept(cookie, from, message, now) {
    return this.#right(now).map((secret) => equal(cookie, cookieOf(secret, from, message))).includes(true);
  }
}

/** How many handshakes of each host were begun by a cookie in this second. */
export class Rate {
  #second = -1;
  #counts = new Map();

  allow(host, now) {
    if (Math.floor(now) !== this.#second) [this.#second, this.#counts] = [Math.floor(now), new Map()];
    const count = this.#counts.get(host) ?? 0;
    if (count < MOST_A_SECOND) this.#counts.set(host, count + 1);
    return count < MOST_A_SECOND;
  }
}
