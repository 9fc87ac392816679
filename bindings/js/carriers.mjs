// What moves the frames of a channel: a WebSocket, a WebSocketStream, a pair of WHATWG streams, or a stream of Node.
// Each has
//   ready()          waits until it is open;
//   room(size)       memory for a frame of so many bytes, where it has some: that of one that was written before;
//   write(frames)    sends frames together, and gives a promise that waits until the carrier has taken them, or
//                    nothing where it has;
//   pull()           the next bytes that came, or undefined where the connection has ended;
//   discard(most)    drops what comes from now on, so that the other party can read on, and reads no more after so many
//                    bytes;
//   close(patience, isOver)  once all is sent that was written, ends this party's half; unless it `isOver`, since the
//                    other party has ended its stream, waits after `discard` until that has closed its half, at most so
//                    many milliseconds: what is closed before may reset a connection of TCP, and what was sent may be
//                    lost;
//   stream           the stream of Node that it is over, if it is over one;
//   broken           a promise of the error, once the connection has broken, and what came and wasn't pulled is lost;
//   destroy(reason)  ends it at once: what isn't sent yet is dropped, and no listener stays;
// and a WebSocket calls `overflowed`, where one was set, with the error by which it has destroyed itself.
import { NoiseError } from './codes.mjs';
import { joined, ofNode } from './nodestream.mjs';
import { drain, within } from './waiting.mjs';
import { ofWebSocket, ofWebSocketStream } from './websocket.mjs';

/**
 * What is used of a pair of WHATWG streams of bytes, and of a WebSocketStream.
 * @typedef {{ readable: { getReader: () => any }, writable: { getWriter: () => any } }} StreamPair
 * @typedef {{ opened: Promise<any>, closed: Promise<any>, close: () => void }} WebSocketStreamLike
 * @typedef {import('./websocket.mjs').WebSocketLike | WebSocketStreamLike | StreamPair |
 * import('./nodestream.mjs').NodeStream} Connection
 */

const cut = (cause) => new NoiseError('NOISE_CUT', { cause });

function ofStreams({ readable, writable }) {
  const reader = readable.getReader();
  const writer = writable.getWriter();
  let unsent = 0;
  let isClosing = false;
  let drained;
  const broken = new Promise((resolve) => {
    for (const { closed } of [reader, writer]) closed.catch((error) => resolve(cut(error)));
  });
  const read = () =>
    reader.read().then(({ value, done }) => (done ? undefined : value), (error) => { throw cut(error); });
  const end = () => {
    isClosing = true;
    return writer.close();
  };
  return {
    broken,
    ready: async () => {},
    write: async (frames) => {
      unsent += 1;
      try {
        await writer.write(joined(frames));
      } catch (error) {
        throw cut(error);
      } finally {
        unsent -= 1;
      }
    },
    pull: read,
    discard: (most) => { drained = drain(read, most); },
    close: async (patience, isOver) => {
      await end();
      if (!isOver) await within(patience, drained);
      await reader.cancel();
    },
    destroy: (reason) => {
      for (const done of [unsent > 0 || isClosing ? writer.abort(reason) : end(), reader.cancel(reason)]) {
        done.catch(() => {});
      }
    },
  };
}

function carrierBy(it) {
  if (typeof it?.opened?.then === 'function') return ofWebSocketStream(it);
  if (typeof it?.readable?.getReader === 'function') return ofStreams(it);
  if (typeof it?.pipe === 'function') return ofNode(it);
  if (typeof it?.addEventListener === 'function') return ofWebSocket(it);
  throw new TypeError('a channel goes over a WebSocket, { readable, writable } or a stream of Node');
}

/** What has a carrier that isn't destroyed. */
const inUse = new WeakSet();

/** The carrier that these make. Of two each would take a part of what comes. */
export function carrierOf(it) {
  if (inUse.has(it)) throw new TypeError('open was called on this connection before: a connection has one channel');
  const carrier = carrierBy(it);
  const { destroy } = carrier;
  inUse.add(it);
  carrier.destroy = (reason) => {
    inUse.delete(it);
    destroy(reason);
  };
  return carrier;
}
