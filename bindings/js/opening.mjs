// How a channel is opened: who may be the other party, and the messages of the handshake.
import { NoiseError } from './codes.mjs';
import { carrierOf } from './carriers.mjs';
import { Handshake } from './handshake.mjs';
import { Incoming } from './incoming.mjs';
import { KeyPair } from './keys.mjs';
import { staticKeysOf } from './layout.mjs';
import { optionsOf } from './setup.mjs';
import { findMessage, frameOf } from './stream.mjs';
import { Waiting } from './waiting.mjs';
import { EARLY } from './websocket.mjs';

/**
 * Refuses options that don't say who may be the other party, and a `verify` that would never be called; tells
 * whether it is to be called. The package for Go decides alike.
 */
function hasToVerify({ pattern, responder, remoteStatic, psks = [], pskFor }, verify, acceptAnyKey) {
  if (verify !== undefined && typeof verify !== 'function') throw new TypeError('verify has to be a function');
  const isKeyed = staticKeysOf(pattern)[responder ? 'initiator' : 'responder'];
  if (acceptAnyKey !== true) {
    if (verify && !isKeyed) {
      throw new TypeError('verify would never be called: the other party has no static key in this pattern');
    }
    if (!verify && !remoteStatic && !pskFor && psks.length === 0) throw new NoiseError('NOISE_UNAUTHENTICATED');
  }
  return verify !== undefined && isKeyed;
}

/** Whether messages of a handshake ask the program, for a result of X25519 or a psk. */
const asksProgram = ({ staticKey, ephemeralKey, pskFor }) =>
  pskFor !== undefined || [staticKey, ephemeralKey].some((key) => key !== undefined && !(key instanceof KeyPair));

/** A number of bytes, from 0 on. */
function sizeOf(value, what) {
  if (!Number.isSafeInteger(value) || value < 0) throw new RangeError(`${what} has to be a number of bytes`);
  return value;
}

/**
 * How much may wait over a WebSocket: 1 MiB until the last message of the handshake has come, `backlog` then, and
 * while `verify` or `pskFor` is asked 1 MiB more than what waits.
 */
class Bound {
  #carrier;
  #backlog;
  #limit = EARLY;

  constructor(carrier, backlog) {
    this.#carrier = carrier;
    this.#backlog = backlog;
  }

  hasLast() {
    this.#limit = this.#backlog;
    this.#carrier.limit = this.#limit;
  }

  /** A call that asks the program. */
  asking(ask) {
    return ask && (async (remoteStatic) => {
      this.#carrier.limit = Math.min(this.#carrier.held + EARLY, this.#backlog);
      const answer = await ask(remoteStatic);
      this.#carrier.limit = this.#limit;
      return answer;
    });
  }
}

/**
 * Waits for what asks the program. A connection that breaks meanwhile ends `waiting`, and so does the end of what the
 * other party sends, where something has still to come, at least the end of its stream.
 */
async function asked(work, { carrier, incoming, waiting, isMute }) {
  let isOver = false;
  const lost = (error) => { if (!isOver) waiting.end(error); };
  carrier.broken?.then(lost);
  if (!isMute) incoming.watch().catch(lost);
  try {
    return await waiting.for(work());
  } finally {
    isOver = true;
  }
}

/**
 * Passes the messages of a handshake, each of at most `limit` bytes, as long as `waiting` isn't over. Gives the
 * frames that are kept back: that of the last message, if this party writes it, leaves with the first payload.
 */
async function pass(it) {
  const { carrier, incoming, handshake, verify, limit, waiting, bound } = it;
  const step = it.asks ? (work) => asked(work, it) : (work) => waiting.for(work());
  let isDue = verify !== undefined;
  const kept = [];
  for (;;) {
    const { done, writesNext, messages, passed } = handshake.stage;
    const { remoteStatic } = handshake;
    if (isDue && (done || remoteStatic)) {
      isDue = false;
      if ((await asked(() => verify(remoteStatic), it)) !== true) throw new NoiseError('NOISE_REFUSED');
    }
    if (done) return kept;
    const isLast = passed + 1 === messages;
    if (writesNext) {
      const frame = frameOf(await step(() => handshake.write()));
      if (isLast) kept.push(frame);
      else await waiting.for(carrier.write([frame]));
      continue;
    }
    const found = await waiting.for(incoming.next(findMessage, { limit: limit + 2 }));    // 2 bytes of its length
    if (!found) throw new NoiseError('NOISE_CUT');
    if (isLast) bound.hasLast();    // the other party may send payloads at once
    await step(() => handshake.read(found.value));
  }
}

/**
 * @typedef {object} SocketOptions
 * @property {number} [interval] Each direction is rekeyed after so many of its messages, the same number at both
 * parties; 0 is never.
 * @property {(remoteStatic: Uint8Array) => boolean | Promise<boolean>} [verify] Called once, as soon as the other
 * party's static key is known, before anything else is sent or read. Unless it returns true itself, the connection
 * is closed, and `open` throws NOISE_REFUSED. In a pattern in which the other party has no static key it is a
 * TypeError.
 * @property {boolean} [acceptAnyKey] Talks to anybody, where none of `verify`, `remoteStatic`, `psks` and `pskFor`
 * says who it may be. Without it `open` throws NOISE_UNAUTHENTICATED.
 * @property {import('./waiting.mjs').Signal} [signal] Ends the call of `open`, whatever it waits for: it destroys
 * the connection, and throws the signal's reason.
 * @property {number} [handshakeLimit] How many bytes a handshake message may have: 4096, if nothing is said. At
 * more `open` throws NOISE_TOO_LONG.
 * @property {number} [backlog] How many bytes of a WebSocket that can't be paused may wait until they are received:
 * 64 MiB, if nothing is said, each message with 256 more. At more the connection is closed, and `receive` throws
 * NOISE_BACKLOG. Until the last message of the handshake has come that is 1 MiB, and while `verify` or `pskFor` is
 * asked 1 MiB more than what waits then.
 */
/**
 * The set-up of a handshake, and of a channel.
 * @typedef {import('./setup.mjs').HandshakeOptions & SocketOptions} NoiseSocketOptions
 */

/** Ends waiting once a signal aborts, and gives a function that lets go of the signal. */
function endBy(signal, waiting) {
  if (signal === undefined) return () => {};
  const abort = () => waiting.end(signal.reason);
  signal.addEventListener('abort', abort);
  if (signal.aborted) abort();
  return () => signal.removeEventListener('abort', abort);
}

/**
 * Passes a handshake over a connection: the carrier, what came over it, unless the other party sends nothing
 * (Noise, 7.4), the stream, and the frames that are kept back.
 */
export async function opened(connection, options) {
  const carrier = carrierOf(connection);
  const waiting = new Waiting();
  let handshake;
  let letGo;
  try {
    const { interval = 0, verify, acceptAnyKey, signal, handshakeLimit = 4096, backlog = 1 << 26, ...setup } =
      optionsOf(options, true);
    const limit = sizeOf(handshakeLimit, 'handshakeLimit');
    const bound = new Bound(carrier, sizeOf(backlog, 'backlog'));
    handshake = new Handshake(
      typeof setup.pskFor === 'function' ? { ...setup, pskFor: bound.asking(setup.pskFor) } : setup,
    );
    const isDue = hasToVerify(setup, verify, acceptAnyKey);
    letGo = endBy(signal, waiting);
    carrier.overflowed = (error) => waiting.end(error);
    await waiting.for(carrier.ready());
    const incoming = new Incoming(() => carrier.pull());
    // In a one-way pattern only the initiator sends.
    const [isOneWay, isFirst] = [handshake.stage.messages === 1, !setup.responder];
    const isMute = isOneWay && isFirst;    // the other party
    const kept = await pass({
      carrier, incoming, handshake, limit, waiting, bound, isMute,
      asks: asksProgram(setup), verify: isDue ? bound.asking(verify) : undefined,
    });
    carrier.overflowed = undefined;    // the next call of receive throws it
    bound.hasLast();
    const stream = handshake.finishStream({ interval });
    return { carrier, incoming: isMute ? undefined : incoming, mayWrite: isFirst || !isOneWay, stream, kept };
  } catch (error) {
    waiting.end(error);
    carrier.destroy(error);
    throw error;
  } finally {
    letGo?.();
    handshake?.dispose();
  }
}
