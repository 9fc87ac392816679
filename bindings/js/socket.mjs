// A channel over what moves bytes: a WebSocket, one message a frame, or a pair of WHATWG streams or a stream of
// Node, each message after its length.
import { SHARED } from './batch.mjs';
import { NoiseError } from './codes.mjs';
import { bytesOf, copyOf } from './bytes.mjs';
import { PASS_ON, duplexOf } from './duplex.mjs';
import { opened } from './opening.mjs';
import { OWN, mustBeOwn } from './own.mjs';
import { Sending } from './sending.mjs';
import { MOST } from './stream.mjs';
import { LINGER, Turns, Waiting, mustGoOn, unlessAborted, within } from './waiting.mjs';
import { Written } from './written.mjs';

/** A payload of so many bytes leaves at once, where nothing waits to be sent: a copy would cost more than a write. */
const ALONE = 1 << 14;
// how long a channel that is left waits for the other party, once all is sent, and how many bytes it reads
const BRIEF = { patience: 200, most: 1 << 20 };

const SENT = Promise.resolve();

/** @typedef {import('./waiting.mjs').Signal} Signal */

/**
 * An open channel: `send` and `receive` move payloads. It closes at the first message that is refused.
 * @implements {AsyncIterable<Uint8Array>}
 */
export class NoiseSocket {
  #carrier;
  #incoming;
  #stream;
  #receiving = new Waiting();
  #sending;
  #receives = new Turns();
  #isEnded;    // by the other party, or it sends nothing
  #closing;
  #isDestroyed = false;
  #readable;
  #written;    // to `writable`
  #duplex;
  #mayWrite;    // not the responder of a one-way pattern
  #look = (held, count) => this.#stream.read(held, count);

  /** @private */
  constructor(mark, parts) {
    mustBeOwn(mark);
    const { carrier, incoming, mayWrite, stream, kept } = parts;
    this.#mayWrite = mayWrite;
    this.#carrier = carrier;
    this.#incoming = incoming;
    this.#stream = stream;
    this.#sending = new Sending(carrier, stream, kept);
    this.#isEnded = !incoming;
    /**
     * The handshake hash.
     * @readonly
     * @type {Uint8Array}
     */
    this.hash = stream.hash;
    /**
     * The other party's static key, if it has one.
     * @readonly
     * @type {Uint8Array | undefined}
     */
    this.remoteStatic = stream.remoteStatic;
    // who does nothing at once doesn't keep the other party waiting
    if (kept.length > 0) setTimeout(() => this.#flushLater());
  }

  /**
   * Passes a handshake, without payloads, over a WebSocket, over `{readable, writable}`, or over a stream of Node.
   * What a WebSocket got before this call isn't seen. Where it throws, the connection is destroyed. Where the
   * connection breaks it throws NOISE_CUT, also while `verify`, `pskFor` or `agree` hasn't answered. The last
   * message of the handshake, if this party writes it, leaves with what is sent at once after this call, or else
   * soon after it.
   * @param {import('./carriers.mjs').Connection} connection
   * @param {import('./opening.mjs').NoiseSocketOptions} options
   * @returns {Promise<NoiseSocket & import('./platform.js').Disposes>}
   */
  static async open(connection, options) {
    return new NoiseSocket(OWN, await opened(connection, options));
  }

  /** Throws what ended the channel: NOISE_DISPOSED where this party has closed it, or a signal did. */
  #mustBeOpen() {
    const { isOver, reason: cause } = this.#receiving;
    if (isOver) throw cause instanceof NoiseError ? cause : new NoiseError('NOISE_DISPOSED', { cause });
  }

  /** Ends all at once: whatever waits rejects, and the connection is destroyed. */
  #fail(error) {
    if (this.#isDestroyed) return;
    this.#isDestroyed = true;
    this.#receiving.end(error);
    this.#sending.end(error);
    this.#stream.dispose();
    this.#carrier.destroy(error);
  }

  /** Passes on what was written to `duplex`; whether some of it has to wait, and what is sent now after it. */
  #isBehind() {
    return this.#duplex !== undefined && this.#duplex[PASS_ON]();
  }

  /** A call of the duplex, behind what it holds. A signal that aborts ends the channel. */
  async #byDuplex(call, signal) {
    const abort = () => this.#fail(signal.reason);
    signal?.addEventListener('abort', abort);
    try {
      await new Promise((resolve, reject) => { call((error) => (error ? reject(error) : resolve())); });
    } catch (error) {
      mustGoOn(signal);
      this.#mustBeOpen();
      throw error;
    } finally {
      signal?.removeEventListener('abort', abort);
    }
  }

  /** Waits until what the duplex holds is sent. */
  #held() {
    const { writable } = this.#duplex;
    return this.#byDuplex((done) => (writable ? this.#duplex.write('', done) : this.#duplex.end(done)));
  }

  /** Work in its turn. What has begun when the signal aborts was sent in part: the channel ends. */
  async #inTurn(signal, work) {
    let isBegun = false;
    const abort = () => { if (isBegun) this.#fail(signal.reason); };
    signal?.addEventListener('abort', abort);
    try {
      await this.#sending.take(() => {
        isBegun = true;
        return work();
      }, signal);
    } finally {
      signal?.removeEventListener('abort', abort);
    }
  }

  /**
   * Sends a payload, and waits until the connection has taken it. One of more than 65519 bytes comes as several,
   * and of an empty one nothing is sent. In a loop of such calls the program's timers and other connections have
   * their turn. A signal that aborts before the payload's turn takes nothing from the channel; later it ends the
   * channel, since the other party may get a part.
   * @param {Uint8Array} payload
   * @param {{ signal?: Signal }} [options]
   * @returns {Promise<void>}
   */
  send(payload, options = {}) {
    // No async function: payloads of one batch have one promise, and none has another around it.
    try {
      const { signal } = options;
      this.#mustBeOpen();
      mustGoOn(signal);
      bytesOf(payload, 'payload');
      if (this.#isBehind()) {
        if (!this.#duplex.writable) throw new NoiseError('NOISE_CLOSED');
        const copy = copyOf(payload, 'payload');
        return this.#byDuplex((done) => this.#duplex.write(copy, done), signal);
      }
      if (signal || payload.length > SHARED) return this.#sendCopy(copyOf(payload, 'payload'), signal);
      if (payload.length < ALONE || !this.#sending.isIdle) return this.#sending.add(payload);
      return this.#sending.putAll([payload]) ?? SENT;
    } catch (error) {
      return Promise.reject(error);
    }
  }

  async #sendCopy(payload, signal) {
    await this.#inTurn(signal, async () => {
      for (let at = 0; at < payload.length; at += MOST) {
        await this.#sending.putPayload(payload.subarray(at, at + MOST));
      }
    });
  }

  /**
   * Ends what this party sends, after all that was written to `writable` and `duplex`, and waits until the connection
   * has taken the end: the other party's `receive` gives undefined then. This party goes on to receive.
   * @param {{ signal?: Signal }} [options]
   * @returns {Promise<void>}
   */
  async end({ signal } = {}) {
    this.#mustBeOpen();
    mustGoOn(signal);
    if (this.#written?.isBehind) await unlessAborted(this.#written.all(), signal);
    if (this.#isBehind()) {
      await this.#byDuplex((done) => this.#duplex.end(done), signal);
      return;
    }
    await (signal ? this.#inTurn(signal, () => this.#sending.putEnd()) : this.#sending.addEnd());
    this.#duplex?.end();    // nothing can be written to it any more
  }

  /**
   * Sends the last message of the handshake, where it is kept back, and waits until the connection has taken all
   * that was sent. A signal that aborts ends the waiting alone: what was sent still leaves.
   * @param {{ signal?: Signal }} [options]
   * @returns {Promise<void>}
   */
  async flush({ signal } = {}) {
    this.#mustBeOpen();
    mustGoOn(signal);
    if (this.#isBehind()) await unlessAborted(this.#held(), signal);
    await unlessAborted(this.#sending.take(() => this.#sending.put()), signal);
  }

  #flushLater() {
    // the next call of send rejects
    if (this.#sending.hasKept) this.#sending.take(() => this.#sending.put()).catch(() => {});
  }

  /**
   * The next payload, or undefined once the other party has ended its stream, and all of it came. Where the
   * connection has ended before that, it throws NOISE_CUT, and to the initiator of a one-way pattern nothing comes:
   * NOISE_ONE_WAY. Calls at once are served in order. A signal that aborts takes nothing from the channel: the next
   * call gets the payload.
   * @param {{ signal?: Signal }} [options]
   * @returns {Promise<Uint8Array | undefined>}
   */
  async receive({ signal } = {}) {
    this.#mustBeOpen();
    mustGoOn(signal);
    if (!this.#incoming) throw new NoiseError('NOISE_ONE_WAY');
    this.#flushLater();
    const found = this.came(OWN);
    return found ? found.value : this.#receives.take(() => this.#next(signal), signal);
  }

  /**
   * The next payload as `value`, or undefined in its place for the end, where it has come and nobody waits for it.
   * @private
   */
  came(mark) {
    mustBeOwn(mark);
    this.#mustBeOpen();
    if (!this.#receives.isIdle) return undefined;
    try {
      const found = this.#incoming.found(this.#look);
      if (found) this.#isEnded = found.value === undefined;
      return found;
    } catch (error) {
      this.#fail(error);
      throw error;
    }
  }

  async #next(signal) {
    if (this.#receiving.isOver) throw this.#receiving.reason;
    const wait = (promise) => unlessAborted(promise, signal);
    try {
      const found = await this.#receiving.for(this.#incoming.next(this.#look, { wait }));
      if (!found && this.#stream.isCut(this.#incoming.left)) throw new NoiseError('NOISE_CUT');
      this.#isEnded = found?.value === undefined;
      return found?.value;
    } catch (error) {
      const isStopped = signal?.aborted && error === signal.reason;
      if (!isStopped && !this.#receiving.isOver) this.#fail(error);    // it isn't where this party closes
      throw error;
    }
  }

  /**
   * The payloads, until the other party has ended its stream. Who leaves a loop over them before closes the
   * connection, as Symbol.asyncDispose does.
   * @returns {AsyncIterableIterator<Uint8Array>}
   */
  async* [Symbol.asyncIterator]() {
    let isOver = false;
    try {
      for (let payload; (payload = await this.receive()) !== undefined;) yield payload;
      isOver = true;
    } finally {
      if (!isOver) await this.leave(OWN);
    }
  }

  /**
   * What comes, as a stream of WHATWG of bytes, for `pipeTo` and Node's `pipeline`, and for reads into a buffer of
   * the reader's (`getReader({ mode: 'byob' })`). Who cancels it closes the connection, as Symbol.asyncDispose does.
   * @returns {import('./platform.js').PayloadReadable}
   */
  get readable() {
    this.#readable ??= new ReadableStream({
      type: 'bytes',
      pull: async (controller) => {
        const payload = await this.receive();
        if (payload !== undefined) {
          controller.enqueue(payload);
          return;
        }
        controller.close();
        controller.byobRequest?.respond(0);    // a read into a buffer of the reader's ends, too
      },
      cancel: () => { this.leave(OWN); },
    });
    return this.#readable;
  }

  /**
   * What is sent, as a stream of WHATWG: closing it is `end`, and aborting it is `destroy`.
   * @returns {import('./platform.js').PayloadWritable}
   */
  get writable() {
    this.#written ??= new Written(this);
    return this.#written.stream;
  }

  /**
   * The channel as a Duplex of Node, for what takes a socket of TCP, as http.Agent: `end` is the end of this party's
   * stream, and 'end' comes with the other's. Without `allowHalfOpen`, which can be set, this party's ends then.
   * `destroy` is that of the channel, also after 'finish', until both streams are ended: then it is `close`, and what
   * was written still leaves. Writes and `send` keep their order. Elsewhere than in Node it throws.
   * @returns {import('./platform.js').ChannelDuplex}
   */
  get duplex() {
    if (!this.#duplex) {
      this.#duplex = duplexOf(this, this.#carrier.stream, {
        readable: this.#incoming !== undefined,
        writable: this.#mayWrite,
      });
      if (this.#sending.hasEnded) this.#duplex.end();
    }
    return this.#duplex;
  }

  /**
   * Sends payloads together, which don't change until they are sent: a promise, or nothing where the connection has
   * taken them.
   * @private
   */
  sendAll(mark, payloads) {
    mustBeOwn(mark);
    this.#mustBeOpen();
    if (payloads.reduce((sum, { length }) => sum + length, 0) <= SHARED) return this.#sending.putAll(payloads);
    const send = (it) => (it.length <= SHARED ? this.#sending.add(it) : this.#sendCopy(copyOf(it, 'payload')));
    return Promise.all(new Set(payloads.map(send)));    // payloads of one batch have one promise
  }

  /**
   * Ends what this party sends, unless it is ended, and closes the connection once all is sent and the other party
   * has ended its stream or closed the connection, or after `timeout` milliseconds. It never rejects: `end` does
   * where the end can't be sent. What still comes is dropped, and calls that wait for a payload throw
   * NOISE_DISPOSED.
   * @param {{ timeout?: number }} [options]
   * @returns {Promise<void>}
   */
  close({ timeout = LINGER } = {}) {
    const isBehind = this.#isBehind() || this.#written?.isBehind;
    this.#closing ??= isBehind ? this.#closeBehind(timeout) : this.#close(timeout, { isWhole: true });
    return this.#closing;
  }

  /** Closes behind what is held back. Where that isn't sent in time there is no end: it would say that it was. */
  async #closeBehind(timeout) {
    const until = performance.now() + timeout;
    let isWhole = false;
    const held = [this.#written?.all(), this.#isBehind() ? this.#held() : undefined];
    await within(timeout, Promise.all(held).then(() => { isWhole = true; }));
    await this.#close(Math.max(until - performance.now(), 0), { isWhole });
  }

  /**
   * Closes the connection once all is sent, but without an end of what this party sends: the other party gets what
   * was sent, and then NOISE_CUT, unless `end` was called before. It may go on to send for ever: for 200
   * milliseconds it has the time to close, and at most 1 MiB is read.
   * @private
   */
  leave(mark) {
    mustBeOwn(mark);
    this.#closing ??= this.#close(LINGER, { isWhole: false, ...BRIEF });
    return this.#closing;
  }

  async #close(timeout, { isWhole, patience = Infinity, most = Infinity }) {
    if (this.#receiving.isOver) return;
    this.#isBehind();    // what was written to the duplex in this turn leaves, too
    this.#receiving.end(new NoiseError('NOISE_DISPOSED'));
    this.#carrier.discard(most);
    // It was ended before, or the responder of a one-way pattern has none.
    if (isWhole) this.#sending.addEnd().catch(() => {});
    await within(timeout, this.#sending.take(async () => {
      await this.#sending.put();
      await this.#carrier.close(patience, this.#isEnded);
    }));
    this.#fail(new NoiseError('NOISE_CUT'));
  }

  /**
   * Ends all at once, without an end of what this party sends: the other party sees a cut. After `close` it does
   * nothing.
   * @returns {void}
   */
  destroy() {
    this.#fail(new NoiseError('NOISE_DISPOSED'));
  }
}
if (Symbol.dispose) NoiseSocket.prototype[Symbol.dispose] = NoiseSocket.prototype.destroy;
if (Symbol.asyncDispose) NoiseSocket.prototype[Symbol.asyncDispose] = function left() { return this.leave(OWN); };
