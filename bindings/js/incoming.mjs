// The bytes that came over a connection and aren't used yet, and what they begin with.
import { bytesOf } from './bytes.mjs';
import { NoiseError } from './codes.mjs';

/** Chunks of fewer bytes are copied together: one of its own would cost many times a byte. */
const SMALL = 2048;

/** Bytes that came, in the chunks in which they did, which are only read: others may have them, too. */
class Held {
  #chunks = [];
  #room = 0;    // behind the last chunk, which is of these objects' own then
  length = 0;

  add(chunk) {
    if (chunk.length === 0) return;
    this.length += chunk.length;
    if (chunk.length >= SMALL) {
      this.#room = 0;
      this.#chunks.push(chunk);
      return;
    }
    if (chunk.length > this.#room) this.#extend();
    const last = this.#chunks.at(-1);
    const longer = new Uint8Array(last.buffer, last.byteOffset, last.length + chunk.length);
    longer.set(chunk, last.length);
    this.#chunks[this.#chunks.length - 1] = longer;
    this.#room -= chunk.length;
  }

  /** Makes room behind the last chunk. */
  #extend() {
    this.#chunks.push(new Uint8Array(new ArrayBuffer(2 * SMALL), 0, 0));
    this.#room = 2 * SMALL;
  }

  /** Copies the first bytes to a place, as many as it has. */
  copyTo(place) {
    let at = 0;
    for (const chunk of this.#chunks) {
      const part = chunk.length > place.length - at ? chunk.subarray(0, place.length - at) : chunk;
      place.set(part, at);
      at += part.length;
      if (at === place.length) return;
    }
  }

  /** Drops the first bytes. */
  drop(count) {
    this.length -= count;
    let left = count;
    let whole = 0;
    for (; whole < this.#chunks.length && this.#chunks[whole].length <= left; whole += 1) {
      left -= this.#chunks[whole].length;
    }
    this.#chunks.splice(0, whole);
    if (left > 0) this.#chunks[0] = this.#chunks[0].subarray(left);
    if (this.#chunks.length === 0) this.#room = 0;
  }
}

/** So many bytes are shown to the library at first, where they are there: it says how many it wants. */
const GLANCE = 64;

/** What comes, by `pull`, which gives the next bytes, or undefined once the connection has ended. */
export class Incoming {
  #pull;
  #pulling;    // what is under way: a call that is ended leaves it to the next
  #held = new Held();
  #wanted = 0;    // of so many bytes at least the next use is

  constructor(pull) {
    this.#pull = pull;
  }

  /** How many bytes came and aren't used. */
  get left() {
    return this.#held.length;
  }

  #pulled() {
    if (!this.#pulling) {
      this.#pulling = Promise.resolve(this.#pull());
      this.#pulling.catch(() => {});    // nobody may wait for it any more
    }
    return this.#pulling;
  }

  /** Throws once the connection breaks, or ends where nothing came that isn't used. It uses nothing itself. */
  async watch() {
    if (this.left === 0 && (await this.#pulled()) === undefined) throw new NoiseError('NOISE_CUT');
  }

  /**
   * What `look` makes of the first bytes, `{ value }`, or undefined where it needs more of them. `look(held,
   * count)` gets these bytes, and says `wanted`, how many more it needs, or else `used` and `value`. NOISE_TOO_LONG
   * where it needs more than `limit` in all.
   */
  found(look, limit = Infinity) {
    const held = this.#held;
    let count = Math.max(this.#wanted, Math.min(held.length, GLANCE));
    while (count <= held.length) {
      const { wanted, used, value } = look(held, count);
      if ((wanted > 0 ? count + wanted : used) > limit) throw new NoiseError('NOISE_TOO_LONG');
      if (wanted === 0) {
        held.drop(used);
        this.#wanted = 0;
        return { value };
      }
      count += wanted;
    }
    this.#wanted = count;
    return undefined;
  }

  /**
   * The same, once enough came, or undefined where the connection has ended before that. `wait` passes a promise
   * on, and may end the waiting: no byte is lost then.
   */
  async next(look, { limit, wait = (promise) => promise } = {}) {
    for (;;) {
      const found = this.found(look, limit);
      if (found) return found;
      const chunk = await wait(this.#pulled());
      this.#pulling = undefined;
      if (chunk === undefined) return undefined;
      this.#held.add(bytesOf(chunk, 'what comes from the stream'));
    }
  }
}
