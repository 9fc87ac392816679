// A WebSocket as a carrier: each message is a frame without its two bytes of length.
import { NoiseError } from './codes.mjs';
import { frameOf, messageOf } from './stream.mjs';
import { drain, pause, within } from './waiting.mjs';

/**
 * What is used of a WebSocket of a browser, of Node or of the package ws, which alone has `pause`, `resume` and
 * `terminate`.
 * @typedef {object} WebSocketLike
 * @property {string} binaryType
 * @property {number} readyState
 * @property {number} bufferedAmount
 * @property {(data: any) => void} send
 * @property {() => void} close
 * @property {(type: any, listener: any) => void} addEventListener
 * @property {(type: any, listener: any) => void} removeEventListener
 * @property {() => void} [pause]
 * @property {() => void} [resume]
 * @property {() => void} [terminate]
 */

const cut = (cause) => new NoiseError('NOISE_CUT', { cause });

/** What a WebSocket may have taken and not sent, in bytes: at more a write waits. */
const UNSENT = 1 << 20;
/** At more bytes that wait to be pulled a WebSocket that can be paused is, until less than the half wait. */
const ENOUGH = 1 << 16;
/** What a message that waits costs beside its bytes. */
const EACH = 256;
/** What may wait until the last message of a handshake has come, in bytes. */
export const EARLY = 1 << 20;

/** The messages of a WebSocket that weren't pulled yet, at most `limit` bytes: at more it is over, by NOISE_BACKLOG. */
class Backlog {
  #messages = [];
  #first = 0;    // of those that weren't pulled
  #size = 0;
  #waiting = [];
  #end;
  limit = EARLY;

  get size() {
    return this.#size;
  }

  /** Whether there was room. */
  push(message) {
    const next = this.#waiting.shift();
    if (next) {
      next.resolve(message);
      return true;
    }
    this.#size += message.length + EACH;
    if (this.#size > this.limit) return false;
    this.#messages.push(message);
    return true;
  }

  /** What came before is still pulled, unless it is dropped. */
  end(error, isDropped) {
    if (isDropped) [this.#messages, this.#first, this.#size] = [[], 0, 0];
    this.#end ??= { error };
    for (const { resolve, reject } of this.#waiting.splice(0)) if (error) reject(error); else resolve(undefined);
  }

  /**
   * The first message. Those that were pulled are dropped many at a time: to move the others for each would take
   * time by its square.
   */
  #next() {
    const message = this.#messages[this.#first];
    this.#messages[this.#first] = undefined;
    this.#first += 1;
    if (this.#first * 2 >= this.#messages.length) {
      this.#messages.splice(0, this.#first);
      this.#first = 0;
    }
    this.#size -= message.length + EACH;
    return message;
  }

  async pull() {
    if (this.#first < this.#messages.length) return this.#next();
    if (this.#end?.error) throw this.#end.error;
    return this.#end ? undefined : new Promise((resolve, reject) => { this.#waiting.push({ resolve, reject }); });
  }
}

/** Waits for the first of some events. */
function firstOf(target, events) {
  return new Promise((resolve) => {
    const came = () => {
      for (const event of events) target.removeEventListener(event, came);
      resolve();
    };
    for (const event of events) target.addEventListener(event, came);
  });
}

/** Pauses a socket while more than enough waits, where it can be paused. */
function flowOf(socket, backlog) {
  let isPaused = false;
  const canPause = typeof socket.pause === 'function' && typeof socket.resume === 'function';
  return {
    came: () => {
      if (!canPause || isPaused || backlog.size <= ENOUGH) return;
      isPaused = true;
      socket.pause();
    },
    went: () => {
      if (!isPaused || backlog.size >= ENOUGH / 2) return;
      isPaused = false;
      socket.resume();
    },
  };
}

/** In the place of a text message, which is none of Noise. */
const TEXT = new Uint8Array(0);
const bytesIn = (data) => (typeof data === 'string' ? TEXT : new Uint8Array(data));

/** The frame of a message. */
function framed(message) {
  if (message === TEXT) {
    throw new NoiseError('NOISE_SHORT', {
      message: 'a text message came over the WebSocket, and a message of Noise is a binary one',
    });
  }
  return frameOf(message);
}

/** The carrier over a WebSocket. */
export function ofWebSocket(socket) {
  socket.binaryType = 'arraybuffer';
  const backlog = new Backlog();
  const flow = flowOf(socket, backlog);
  let cause;    // Node tells it, and a browser doesn't
  let lose;
  const broken = new Promise((resolve) => { lose = resolve; });
  const listeners = {
    error: ({ error }) => { cause ??= error; },
    message: ({ data }) => {
      if (backlog.push(bytesIn(data))) flow.came();
      else overflow();
    },
    close: ({ wasClean }) => {
      const error = wasClean === false ? cut(cause) : undefined;
      backlog.end(error, false);
      if (error) lose(error);
    },
  };
  for (const [event, listener] of Object.entries(listeners)) socket.addEventListener(event, listener);

  /** An error without a listener would end a program of Node: that listener stays, and holds nothing that came. */
  function discard(error) {
    for (const event of ['message', 'close']) socket.removeEventListener(event, listeners[event]);
    backlog.end(error, true);
    flow.went();
  }

  function destroy(reason) {
    discard(reason);
    if (typeof socket.terminate === 'function') socket.terminate();    // of the package ws
    else socket.close();
  }

  function overflow() {
    const error = new NoiseError('NOISE_BACKLOG');
    destroy(error);
    carrier.overflowed?.(error);
  }

  const mustBeOpen = () => { if (socket.readyState !== 1) throw cut(cause); };
  const carrier = {
    broken,
    ready: async () => {
      if (socket.readyState === 0) await firstOf(socket, ['open', 'close', 'error']);
      mustBeOpen();
    },
    write: async (frames) => {
      mustBeOpen();
      for (const frame of frames) {
        socket.send(messageOf(frame));
        while (socket.bufferedAmount > UNSENT) {
          await pause(10);
          mustBeOpen();
        }
      }
    },
    pull: async () => {
      const message = await backlog.pull();
      flow.went();
      return message && framed(message);
    },
    discard: () => discard(undefined),
    close: async (patience) => {
      if (socket.readyState === 3) return;
      const ended = firstOf(socket, ['close', 'error']);
      socket.close();
      while (socket.bufferedAmount > 0 && socket.readyState !== 3) await pause(10);
      await within(patience, ended);
    },
    destroy,
    /** How many bytes wait to be pulled, and may wait. */
    get held() { return backlog.size; },
    set limit(bytes) { backlog.limit = bytes; },
  };
  return carrier;
}

/** The carrier over a WebSocketStream: what came waits in the browser, which makes the other party wait in turn. */
export function ofWebSocketStream(socket) {
  let reader;
  let writer;
  const broken = (error) => { throw cut(error); };
  const opened = socket.opened.then(({ readable, writable }) => {
    [reader, writer] = [readable.getReader(), writable.getWriter()];
  });
  const closed = socket.closed.then(() => {}, () => {});
  const lost = new Promise((resolve) => { socket.closed.catch((error) => resolve(cut(error))); });
  opened.catch(() => {});    // `ready` may not be called
  const read = () => reader.read().then(({ value, done }) => (done ? undefined : framed(bytesIn(value))), broken);
  return {
    broken: lost,
    ready: () => opened.catch(broken),
    write: async (frames) => {
      try {
        for (const frame of frames) await writer.write(messageOf(frame));
      } catch (error) {
        broken(error);
      }
    },
    pull: read,
    discard: (most) => {
      drain(() => reader.read().then(({ value, done }) => (done ? undefined : bytesIn(value))), most);
    },
    close: async (patience) => {
      await writer.close();
      await within(patience, closed);
    },
    destroy: (reason) => {
      for (const half of [writer?.abort(reason), reader?.cancel(reason)]) half?.catch(() => {});
      socket.close();
    },
  };
}
