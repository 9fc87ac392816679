// Streams with an end, by the proved channel of the library: it makes and finds frames, and says where a stream
// ends, and when it is broken.
import { bytesOf } from './bytes.mjs';
import { code, must } from './codes.mjs';
import { library } from './module.mjs';
import { Sealed } from './transport.mjs';

const ROOM = 65552;    // more than the longest frame has
/** How many bytes a payload of one frame has at most. */
export const MOST = 65519;
/** How much longer a frame is than its payload. */
const OVERHEAD = 18;

/** A message after its length: its frame. NOISE_LENGTH where no frame has so many bytes. */
export function frameOf(message) {
  const lib = library();
  const room = lib.view(lib.at.message, ROOM);
  must(lib.x.noise_frame_message(lib.at.message, ROOM, message.length, lib.at.result));
  room.set(message, 2);
  return room.slice(0, lib.streamResult().len);
}

/**
 * What the library finds at the start of these bytes, of which it is shown so many: the message of a frame, or how
 * many more are wanted.
 */
export function findMessage(held, count) {
  const lib = library();
  held.copyTo(lib.view(lib.at.message, count));
  const number = lib.x.noise_frame_find(lib.at.message, count, lib.at.result);
  const result = lib.streamResult();
  if (number === code.MORE) return { wanted: result.wanted };
  must(number);
  return { wanted: 0, used: result.used, value: lib.view(lib.at.message + result.from, result.len).slice() };
}

/** The message of a whole frame. */
export function messageOf(frame) {
  return findMessage({ copyTo: (place) => place.set(frame) }, frame.length).value;
}

/** Both directions of a stream. */
export class Stream extends Sealed {
  /** @private */
  static kinds = ['streamSender', 'streamReceiver'];

  /** The frame of so many bytes of the module's memory, in memory that `room` has for it, or in its own. */
  #frame(sender, length, room) {
    const lib = library();
    const number = lib.x.noise_stream_write(sender, lib.at.payload, length, lib.at.message, ROOM, lib.at.result);
    lib.wipe('payload', length);
    must(number);
    const frame = lib.view(lib.at.message, lib.streamResult().len);
    const bytes = room?.(frame.length);
    if (!bytes) return new Uint8Array(frame);    // `slice` takes longer
    bytes.set(frame);
    return bytes;
  }

  /**
   * The frames of a payload that comes in an array of parts, as few as there can be, one after another in the same
   * memory: what `room` has for so many bytes, or their own. Of no bytes there is none, unless the library refuses
   * them.
   */
  write(parts, room) {
    const lib = library();
    const [sender] = this.halves;
    if (!Array.isArray(parts)) throw new TypeError('a payload comes in an array of its parts');
    const size = parts.reduce((sum, part) => sum + bytesOf(part, 'a part of a payload').length, 0);
    const whole = size + OVERHEAD * Math.ceil(size / MOST);
    const all = size > MOST ? room?.(whole) ?? new Uint8Array(whole) : undefined;
    let [used, filled] = [0, 0];
    const behind = (length) => { used += length; return all.subarray(used - length, used); };
    const frames = [];
    const seal = () => { frames.push(this.#frame(sender, filled, all ? behind : room)); filled = 0; };
    for (const part of parts) {
      for (let at = 0; at < part.length;) {
        const taken = Math.min(MOST - filled, part.length - at);
        lib.fill('payload', filled, taken === part.length ? part : part.subarray(at, at + taken));
        [at, filled] = [at + taken, filled + taken];
        if (filled === MOST) seal();
      }
    }
    if (filled > 0 || size === 0) seal();
    return size > 0 ? frames : [];
  }

  /** The frame of the end. */
  end() {
    const lib = library();
    const [sender] = this.halves;
    must(lib.x.noise_stream_end(sender, lib.at.message, ROOM, lib.at.result));
    return lib.view(lib.at.message, lib.streamResult().len).slice();
  }

  /**
   * What the library reads at the start of these bytes, of which it is shown so many: a payload, undefined for the
   * end, or how many more are wanted.
   */
  read(held, count) {
    const lib = library();
    const [, receiver] = this.halves;
    held.copyTo(lib.view(lib.at.message, count));
    const number = lib.x.noise_stream_read(receiver, lib.at.message, count, lib.at.result);
    const result = lib.streamResult();
    if (number === code.MORE) return { wanted: result.wanted };
    if (number === code.CLOSED && !this.isCut(0)) return { wanted: 0, used: 0 };    // it came before
    if (number === code.END) return { wanted: 0, used: result.used };
    must(number);
    const value = new Uint8Array(lib.view(lib.at.message + result.from, result.len));
    lib.wipe('message', count);
    return { wanted: 0, used: result.used, value };
  }

  /** Whether a connection that ends with so many bytes left cuts the stream. */
  isCut(left) {
    const lib = library();
    const [, receiver] = this.halves;
    return lib.x.noise_stream_is_cut(receiver, left) !== code.OK;
  }
}
