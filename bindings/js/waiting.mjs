// Promises that settle: work in turns, and waiting that something else can end.

/**
 * What is used of an AbortSignal.
 * @typedef {object} Signal
 * @property {boolean} aborted
 * @property {any} reason
 * @property {(type: 'abort', listener: () => void) => void} addEventListener
 * @property {(type: 'abort', listener: () => void) => void} removeEventListener
 */

/** Throws a signal's reason once it has aborted. */
export function mustGoOn(signal) {
  if (signal?.aborted) throw signal.reason;
}

/** Settles as a promise does, or rejects for a signal's reason once that aborts. */
export function unlessAborted(promise, signal) {
  if (!signal) return promise;
  return new Promise((resolve, reject) => {
    const abort = () => reject(signal.reason);
    const settle = (how) => (value) => { signal.removeEventListener('abort', abort); how(value); };
    signal.addEventListener('abort', abort);
    promise.then(settle(resolve), settle(reject));
    if (signal.aborted) abort();
  });
}

/**
 * Work in turns: each begins once the one before has settled, and at once where there is none, unless its signal
 * has aborted before.
 */
export class Turns {
  #last = Promise.resolve();
  #count = 0;
  #isHeld = false;
  #release;    // calls what waits for the end of a turn that is held

  /** Whether nothing is under way, and nothing waits. */
  get isIdle() {
    return this.#count === 0;
  }

  take(work, signal) {
    return this.isIdle && !signal?.aborted ? this.#begin(work) : this.#queue(work, signal);
  }

  /** Takes a turn, where nothing is under way, until it is released. */
  hold() {
    this.#count += 1;
    this.#isHeld = true;
  }

  release() {
    this.#count -= 1;
    this.#isHeld = false;
    this.#release?.();
    this.#release = undefined;
  }

  async #begin(work) {
    this.#count += 1;
    let done;
    this.#last = new Promise((resolve) => { done = resolve; });
    try {
      return await work();
    } finally {
      this.#count -= 1;
      done();
    }
  }

  #queue(work, signal) {
    this.#count += 1;
    if (this.#isHeld && !this.#release) this.#last = new Promise((resolve) => { this.#release = resolve; });
    return new Promise((resolve, reject) => {
      let isOver = false;
      const abort = () => { isOver = true; reject(signal.reason); };
      const begin = () => {
        signal?.removeEventListener('abort', abort);
        return isOver ? undefined : work();
      };
      const settle = (how) => (value) => { this.#count -= 1; how(value); };
      signal?.addEventListener('abort', abort);
      if (signal?.aborted) abort();
      this.#last = this.#last.then(begin).then(settle(resolve), settle(reject));
    });
  }
}

/**
 * Waits for promises, until it is ended: whatever waits rejects then, for that reason, and so does what would wait
 * later.
 */
export class Waiting {
  #rejects = new Set();
  #end;

  get isOver() {
    return this.#end !== undefined;
  }

  get reason() {
    return this.#end?.reason;
  }

  end(reason) {
    if (this.#end) return;
    this.#end = { reason };
    for (const reject of this.#rejects) reject(reason);
    this.#rejects.clear();
  }

  for(promise) {
    return new Promise((resolve, reject) => {
      const settle = (how) => (value) => { this.#rejects.delete(reject); how(value); };
      Promise.resolve(promise).then(settle(resolve), settle(reject));
      if (this.#end) reject(this.#end.reason);
      else this.#rejects.add(reject);
    });
  }
}

/** How long a channel that is closed waits for the other party to close the connection, in milliseconds. */
export const LINGER = 5000;

/** The longest time of a timer: a longer one would run out at once. */
export const LONGEST = 2 ** 31 - 1;

/** Waits until a promise settles, at most so many milliseconds. */
export function within(milliseconds, promise) {
  return new Promise((resolve) => {
    const timer = milliseconds === Infinity ? undefined : setTimeout(resolve, Math.min(milliseconds, LONGEST));
    const done = () => { clearTimeout(timer); resolve(); };
    promise.then(done, done);
  });
}

export const pause = (milliseconds) => new Promise((resolve) => { setTimeout(resolve, milliseconds); });

/**
 * Lets timers and connections have their turn, in Node. A browser has no such call, and needs none: it takes
 * nothing at once.
 */
export const turn = () => new Promise((resolve) => { (globalThis.setImmediate ?? queueMicrotask)(resolve); });

const { nextTick } = globalThis.process ?? {};
const settled = Promise.resolve();

/**
 * Calls something once all that runs in this turn of the event loop has run, and before its next: in Node after what
 * promises that settle meanwhile call, and elsewhere after what waits for those that have settled.
 */
export function afterTurn(call) {
  settled.then(nextTick ? () => { nextTick(call); } : call);
}

/** Drops what is read until the end. After `most` bytes it reads no more, and stays pending. */
export async function drain(read, most = Infinity) {
  try {
    for (let left = most; left > 0;) {
      const chunk = await read();
      if (!chunk) return;
      left -= chunk.length;
    }
  } catch {
    return;    // it broke, and nothing is left to drop
  }
  await new Promise(() => {});
}
