// A stream of Node, as a socket of TCP, as a carrier.
import { NoiseError } from './codes.mjs';
import { drain, within } from './waiting.mjs';

/**
 * What is used of a stream of Node, as a socket of TCP.
 * @typedef {AsyncIterable<Uint8Array> & {
 *   pipe: unknown,
 *   iterator?: (options: { destroyOnReturn: boolean }) => AsyncIterator<Uint8Array>,
 *   readonly connecting?: boolean,
 *   readonly destroyed?: boolean,
 *   readonly errored?: Error | null,
 *   readonly writable?: boolean,
 *   readonly writableLength?: number,
 *   allowHalfOpen?: boolean,
 *   setNoDelay?: (isOn: boolean) => unknown,
 *   on: (event: 'error' | 'close', listener: (error: Error) => void) => unknown,
 *   write: (bytes: Uint8Array, done: (error?: Error | null) => void) => boolean,
 *   end: (done: () => void) => unknown,
 *   destroy: () => unknown,
 * }} NodeStream
 */

const cut = (cause) => new NoiseError('NOISE_CUT', { cause });

/** Some frames as one piece. Those that stand one after another in the same memory aren't copied. */
export function joined(frames) {
  if (frames.length === 1) return frames[0];
  const [{ buffer, byteOffset }] = frames;
  let end = byteOffset;
  const areInRow = frames.every((frame) => {
    const isNext = frame.buffer === buffer && frame.byteOffset === end;
    end += frame.length;
    return isNext;
  });
  if (areInRow) return new Uint8Array(buffer, byteOffset, end - byteOffset);
  const bytes = new Uint8Array(frames.reduce((size, { length }) => size + length, 0));
  let at = 0;
  for (const frame of frames) {
    bytes.set(frame, at);
    at += frame.length;
  }
  return bytes;
}

const NOTHING = new Uint8Array(0);
/** Memory for fewer bytes costs less than to keep it. */
const LARGE = 4096;
/** The memory of frames that a socket has passed to the system: the next frames that need half of it take it. */
let spare = NOTHING;

function takeSpare(size) {
  if (size > spare.length || 2 * size < spare.length) return undefined;
  const taken = spare.subarray(0, size);
  spare = NOTHING;
  return taken;
}

/** Whether a stream keeps no bytes once it has passed them to the system, as a socket does: others may hand them on. */
function isSocket(stream) {
  const prototype = globalThis.process?.getBuiltinModule?.('net')?.Socket.prototype;
  return prototype !== undefined && Object.getPrototypeOf(stream) === prototype && stream.write === prototype.write;
}

/** The functions `room` and `write` of a carrier. */
function writerOf(stream, broken) {
  const isPlain = isSocket(stream);
  const write = (frames) => {
    const bytes = joined(frames);
    let outcome;
    let settle = (error) => { outcome = { error }; };
    stream.write(bytes, (error) => settle(error));
    // A socket passes what it is given to the system in the call, and has nothing left then. What fails isn't writable
    // any more.
    if (stream.writable === true && stream.writableLength === 0) {
      if (isPlain && bytes.length >= LARGE) spare = new Uint8Array(bytes.buffer);
      return undefined;
    }
    return new Promise((resolve, reject) => {
      settle = (error) => { if (error) reject(broken(error)); else resolve(); };
      if (outcome) settle(outcome.error);
    });
  };
  return { room: isPlain ? takeSpare : undefined, write };
}

/**
 * Calls for the chunks of a socket, by its events: its iterator would stop reading from the system after each. Where a
 * chunk comes that nobody has called for, the socket is paused.
 */
function pullsOf(socket, finished) {
  const chunks = [];
  const calls = [];
  let over;
  const settle = () => {
    while (calls.length > 0 && (chunks.length > 0 || over)) {
      const { resolve, reject } = calls.shift();
      if (chunks.length > 0) resolve({ value: chunks.shift() });
      else if (over.error) reject(over.error);
      else resolve({ done: true });
    }
  };
  let begin = () => {
    begin = undefined;
    finished(socket, { writable: false }, (error) => { over = { error }; settle(); });
    socket.on('data', (chunk) => {
      if (calls.length === 0) socket.pause();
      chunks.push(chunk);
      settle();
    });
  };
  const next = () => new Promise((resolve, reject) => {
    begin?.();
    calls.push({ resolve, reject });
    settle();
    if (calls.length > 0 && socket.isPaused()) socket.resume();
  });
  return { next };
}

/**
 * The chunks of a stream. The iterator of a plain loop destroys a stream of which all was read: what is written may not
 * be sent yet.
 */
function chunksOf(stream) {
  if (isSocket(stream)) return pullsOf(stream, globalThis.process.getBuiltinModule('stream').finished);
  return stream.iterator?.({ destroyOnReturn: false }) ?? stream[Symbol.asyncIterator]();
}

/** By Duplex.toWeb of Node 20 an error after the close would end the program. */
export function ofNode(stream) {
  // The other party may have ended its half, and still take what is sent.
  if (stream.allowHalfOpen === false) stream.allowHalfOpen = true;
  stream.setNoDelay?.(true);    // a frame that waits for the one before to be acknowledged waits for 40 ms
  const chunks = chunksOf(stream);
  let drained;
  let first = stream.errored ?? undefined;    // later ones only say that the stream was destroyed
  stream.on('error', (error) => { first ??= error; });
  const closed = new Promise((resolve) => { stream.on('close', () => resolve(cut(first))); });
  const broken = (error) => cut(first ?? error);
  const valueOf = ({ value, done }) => (done ? undefined : value);
  const read = () => chunks.next().then(valueOf, (error) => { throw broken(error); });
  return {
    stream,
    broken: closed,
    ready: async () => {},
    ...writerOf(stream, broken),
    pull: read,
    discard: (most) => { drained = drain(read, most); },
    close: async (patience, isOver) => {
      // The end of one that was destroyed never calls back.
      if (!stream.connecting && !stream.destroyed) await new Promise((resolve) => { stream.end(resolve); });
      if (!isOver) await within(patience, drained);
      stream.destroy();
    },
    destroy: () => { stream.destroy(); },
  };
}
