// What a channel sends: frames in turn, after those that the handshake has kept back. Payloads that are sent in one
// turn of the event loop share frames, which are written together.
import { Batch } from './batch.mjs';
import { Turns, Waiting, afterTurn, turn } from './waiting.mjs';

/**
 * So many times in a row something is sent before timers and connections have their turn: what is always taken at
 * once would keep them waiting.
 */
const IN_A_ROW = 32;

export class Sending {
  #carrier;
  #stream;
  #kept;
  #waiting = new Waiting();
  #turns = new Turns();
  #inARow = 0;
  #batch;    // the last in the queue, as long as it takes payloads
  /** Whether this party has ended its stream. */
  hasEnded = false;

  constructor(carrier, stream, kept) {
    this.#carrier = carrier;
    this.#stream = stream;
    this.#kept = kept;
  }

  /** Whether nothing is being sent, and nothing waits for it. */
  get isIdle() {
    return this.#turns.isIdle;
  }

  /** Whether frames are kept back, and may still be sent. */
  get hasKept() {
    return this.#kept.length > 0 && !this.#waiting.isOver;
  }

  /** Whatever is being sent rejects, and so does what would be later. */
  end(error) {
    this.#waiting.end(error);
  }

  /** Throws once something couldn't be sent, or was refused: what comes after it isn't sealed. */
  #mustGoOn() {
    if (this.#waiting.isOver) throw this.#waiting.reason;
  }

  /** Work in its turn, after all that was sent before. */
  take(work, signal) {
    this.#batch = undefined;
    return this.#turns.take(work, signal);
  }

  /** Sends a copy of a payload of at most SHARED bytes, with what else is sent in this turn of the event loop. */
  add(payload) {
    if (!this.#batch?.hasRoom(payload.length)) this.#begin();
    this.#batch.add(payload);
    return this.#batch.sent;
  }

  /** Ends the stream after what was sent before, and together with that where it still waits. */
  addEnd() {
    if (!this.#batch?.hasRoom(0)) this.#begin();
    this.#batch.isLast = true;
    return this.#batch.sent;
  }

  #begin() {
    const batch = new Batch();
    this.#batch = batch;
    if (this.#turns.isIdle) {
      this.#turns.hold();
      afterTurn(() => this.#leave(batch));
    } else {
      this.#turns.take(() => this.#putBatch(batch)).then(batch.resolve, batch.reject);
    }
  }

  /** Sends a batch that nothing is before, in the turn that is held for it. */
  #leave(batch) {
    let written;
    try {
      written = this.#putBatch(batch);
    } catch (error) {
      written = Promise.reject(error);
    }
    const settle = (how) => (value) => { this.#turns.release(); how(value); };
    if (written) {
      written.then(settle(batch.resolve), settle(batch.reject));
      return;
    }
    this.#turns.release();
    batch.resolve();
  }

  /** Sends a batch: a promise, or nothing where the connection has taken it at once. */
  #putBatch(batch) {
    if (this.#batch === batch) this.#batch = undefined;
    try {
      return this.#putParts([batch.bytes], batch.isLast);
    } finally {
      batch.dispose();
    }
  }

  #end() {
    const frame = this.#stream.end();
    this.hasEnded = true;
    return frame;
  }

  /** Seals a payload that comes in parts, and the end where it `isLast`: a promise, or nothing, as `put`. */
  #putParts(parts, isLast) {
    this.#mustGoOn();
    const frames = this.#stream.write(parts, this.#carrier.room);
    if (isLast) frames.push(this.#end());
    return frames.length > 0 ? this.put(frames) : undefined;
  }

  /** Seals a payload at once: a promise, or nothing where the connection has taken it. */
  putPayload(payload) {
    return this.#putParts([payload]);
  }

  /**
   * Seals a payload of at most SHARED bytes in its turn, which comes in parts that don't change until then: a promise,
   * or nothing where the connection has taken it.
   */
  putAll(parts) {
    if (!this.#turns.isIdle) return this.take(() => this.#putParts(parts));
    const taken = this.#putParts(parts);
    return taken && this.take(() => taken);
  }

  putEnd() {
    this.#mustGoOn();
    return this.put([this.#end()]);
  }

  /** Sends frames, after what was kept back: a promise, or nothing where the connection has taken them at once. */
  put(frames = []) {
    this.#mustGoOn();
    const all = this.#kept.length > 0 ? [...this.#kept.splice(0), ...frames] : frames;
    if (all.length === 0) return undefined;
    const written = this.#carrier.write(all);
    this.#inARow += 1;
    if (this.#inARow < IN_A_ROW) return written && this.#taken(written);
    this.#inARow = 0;
    return this.#taken(Promise.all([written, turn()]));
  }

  async #taken(written) {
    try {
      await this.#waiting.for(written);
    } catch (error) {
      this.#waiting.end(error);
      throw error;
    }
  }
}
