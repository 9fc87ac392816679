// Payloads that leave together: those that are sent in one turn of the event loop.

/** How many bytes payloads of one batch have together, at most. */
export const SHARED = 1 << 17;
/** So much memory at least is taken at once. */
const LEAST = 4096;

const NOTHING = new Uint8Array(0);
/** The memory of a batch that has left: the next takes it. */
let spare = NOTHING;

/** Memory for so many bytes at least, with the first bytes of another. */
function memoryFor(size, before, length) {
  let memory = spare;
  if (memory.length >= size) spare = NOTHING;
  else memory = new Uint8Array(Math.max(LEAST, 2 ** Math.ceil(Math.log2(size))));
  if (length > 0) memory.set(before.subarray(0, length));
  return memory;
}

export class Batch {
  #memory = NOTHING;
  #length = 0;
  /** Whether the stream ends after it. */
  isLast = false;
  /** Settles once it has left. */
  sent = new Promise((resolve, reject) => { this.resolve = resolve; this.reject = reject; });

  hasRoom(size) {
    return !this.isLast && this.#length + size <= SHARED;
  }

  /** Copies a payload, which may change afterwards. */
  add(payload) {
    const length = this.#length + payload.length;
    if (length > this.#memory.length) this.#extend(length);
    this.#memory.set(payload, this.#length);
    this.#length = length;
  }

  #extend(length) {
    const old = this.#memory;
    this.#memory = memoryFor(length, old, this.#length);
    if (this.#length > 0) old.fill(0, 0, this.#length);
  }

  get bytes() {
    return this.#memory.subarray(0, this.#length);
  }

  /** Overwrites the copies, and lets the next batch take their memory. */
  dispose() {
    this.#memory.fill(0, 0, this.#length);
    if (this.#memory.length > spare.length) spare = this.#memory;
    this.#memory = NOTHING;
    this.#length = 0;
  }
}
