// A channel as a stream of Node, with what programs call on a socket of TCP.
import { OWN } from './own.mjs';
import { LINGER, LONGEST, afterTurn } from './waiting.mjs';

/** Names a method of the stream that only this package calls. */
export const PASS_ON = Symbol('passOn');

/** What a socket below tells of both ends. */
const OF_SOCKET = [
  'autoSelectFamilyAttemptedAddresses', 'bytesRead', 'bytesWritten', 'localAddress', 'localFamily', 'localPort',
  'remoteAddress', 'remoteFamily', 'remotePort',
];

/**
 * So many bytes wait before `write` returns false: with those that came last they are one frame. With the 16 KiB that a
 * socket has in Node 20 there would be three.
 */
const MARK = 3 << 14;

/** The class, of Node's: a browser has none, and a bundler for browsers would follow an import. */
function classOf() {
  const stream = globalThis.process?.getBuiltinModule?.('stream');
  if (!stream) throw new TypeError('only Node has streams of this kind: take readable and writable');
  return class ChannelDuplex extends stream.Duplex {
    #channel;
    #below;
    #timer;
    #isReading = false;    // it passes on what came
    #isWanted = false;
    #late;    // destroys it, though not all is sent
    #isSoon = false;
    #passing = 0;    // of so many bytes the channel has still to send
    timeout;
    connecting = false;

    constructor(channel, below, sides) {
      super({ allowHalfOpen: false, writableHighWaterMark: MARK, ...sides });
      this.#channel = channel;
      this.#below = below;
    }

    _read() {
      this.#isWanted = true;
      if (this.#isReading) return;    // who gets a payload may call for the next one
      this.#channel.receive().then((payload) => this.#pass(payload), (error) => this.destroy(error));
    }

    /** Passes a payload on, and those that came behind it, as long as they are wanted. */
    #pass(payload) {
      this.#touch();
      this.#isReading = true;
      try {
        for (let found = { value: payload }; found; found = this.#found()) {
          this.#isWanted = false;
          if (!this.push(found.value ?? null) && !this.#isWanted) return;
        }
      } finally {
        this.#isReading = false;
      }
      if (this.#isWanted) this._read();
    }

    #found() {
      try {
        return this.#channel.came(OWN);
      } catch (error) {
        this.destroy(error);
        return undefined;
      }
    }

    /** What is written in one turn of the event loop is passed on together. */
    write(...words) {
      if (this.writableCorked === 0 && this.writable) {
        this.cork();
        afterTurn(() => this.uncork());
      }
      return super.write(...words);
    }

    _write(chunk, _, done) {
      this._writev([{ chunk }], done);
    }

    _writev(chunks, done) {
      this.#touch();
      this.#passing = this.writableLength;    // there are no others
      const sent = () => { this.#passing = 0; this.#touch(); done(); };
      let taken;
      try {
        taken = this.#channel.sendAll(OWN, chunks.map(({ chunk }) => chunk));
      } catch (error) {
        done(error);
        return;
      }
      if (taken) taken.then(sent, done);
      else sent();
    }

    /**
     * Passes on what was written, so that it keeps its place before what the channel sends by other calls; whether
     * some can't be, since what was written before isn't sent.
     */
    [PASS_ON]() {
      if (this.destroyed) return false;
      while (this.writableCorked > 0) this.uncork();
      return this.writableLength > this.#passing;
    }

    /** The stream may be ended already, by the channel's own `end`. */
    _final(done) {
      this.#channel.end().then(() => done(), (error) => done(error.code === 'NOISE_CLOSED' ? null : error));
    }

    /**
     * A loop over a stream destroys it at the end. Where this party's stream is ended then, too, what was written still
     * leaves, and the stream destroys itself.
     */
    destroy(error, ...words) {
      const isEnding = this.readableEnded && this.writableEnded && !this.writableFinished;
      if (error || !isEnding || this.destroyed) return super.destroy(error, ...words);
      this.#late ??= setTimeout(() => super.destroy(), LINGER);
      return this;
    }

    /** Closes in order where both streams have ended, and is a cut elsewhere. */
    _destroy(error, done) {
      clearTimeout(this.#timer);
      clearTimeout(this.#late);
      if (error || !this.writableFinished || !(this.readableEnded || this.#isSoon)) {
        this.#channel.destroy();
        done(error);
      } else if (this.readableEnded) this.#channel.close().then(() => done(null));
      else {
        this.#channel.leave(OWN);
        done(null);
      }
    }

    /** As of a socket, 'close' says whether there was an error. */
    emit(event, ...words) {
      return event === 'close' ? super.emit(event, Boolean(this.errored)) : super.emit(event, ...words);
    }

    destroySoon() {
      this.#isSoon = true;
      if (this.writable) this.end();
      if (this.writableFinished) this.destroy();
      else this.once('finish', this.destroy);
    }

    /** Resets the connection, where a socket can do so: its other party may lose what has come, too. */
    resetAndDestroy() {
      this.#below?.resetAndDestroy?.();
      return super.destroy();
    }

    #touch() {
      this.#timer?.refresh();
    }

    /** As of a socket: 'timeout' comes where nothing came or was sent for so long, and nothing else happens. */
    setTimeout(milliseconds, listener) {
      if (!(milliseconds >= 0)) throw new RangeError('a timeout has to be a number of milliseconds, from 0 on');
      if (this.destroyed) return this;
      clearTimeout(this.#timer);
      this.timeout = Math.min(milliseconds, LONGEST);
      this.#timer = undefined;
      if (milliseconds > 0) {
        this.#timer = setTimeout(() => this.emit('timeout'), this.timeout).unref();
        if (listener) this.once('timeout', listener);
      } else if (listener) this.removeListener('timeout', listener);
      return this;
    }

    setKeepAlive(...words) {
      this.#below?.setKeepAlive?.(...words);
      return this;
    }

    setNoDelay(...words) {
      this.#below?.setNoDelay?.(...words);
      return this;
    }

    ref() {
      this.#below?.ref?.();
      return this;
    }

    unref() {
      this.#below?.unref?.();
      return this;
    }

    address() {
      return this.#below?.address?.() ?? {};
    }

    get pending() { return false; }

    get readyState() {
      if (this.readable && this.writable) return 'open';
      if (this.readable) return 'readOnly';
      return this.writable ? 'writeOnly' : 'closed';
    }

    static {
      for (const name of OF_SOCKET) {
        Object.defineProperty(this.prototype, name, {
          configurable: true,
          get() { return this.#below?.[name]; },
        });
      }
    }
  };
}

let Made;

/** The stream of a channel over a carrier of which Node's stream, if there is one, is `below`. */
export function duplexOf(channel, below, sides) {
  Made ??= classOf();
  return new Made(channel, below, sides);
}
