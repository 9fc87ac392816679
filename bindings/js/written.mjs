// A channel as a WritableStream of WHATWG, which knows whether all that was written to it is sent.

export class Written {
  #count = 0;    // of the writes that aren't sent
  #isOver = false;
  #waits = [];

  /** A stream of what a channel sends: closing it ends that, and aborting it destroys the channel. */
  constructor(channel) {
    const write = async (payload) => {
      try {
        await channel.send(payload);
      } catch (error) {
        this.#end(error);
        throw error;
      }
      this.#count -= 1;
      if (this.#count === 0) this.#settle();
    };
    /** @type {WritableStream<Uint8Array>} */
    this.stream = new WritableStream({
      write,
      close: () => { this.#end(); return channel.end(); },
      abort: (reason) => { this.#end(reason); channel.destroy(); },
    }, { highWaterMark: 1, size: () => this.#add() });
  }

  /** The size of what is written, for which the stream asks in the call. */
  #add() {
    if (!this.#isOver) this.#count += 1;
    return 1;
  }

  /** Whether something was written that isn't sent. */
  get isBehind() {
    return this.#count > 0;
  }

  /** Waits until all that was written is sent, and rejects where some of it couldn't be. */
  all() {
    if (!this.isBehind) return undefined;
    return new Promise((...both) => { this.#waits.push(both); });
  }

  /** Nothing more is sent: what was written after the stream's end, or after an error, is refused. */
  #end(...errors) {
    this.#isOver = true;
    this.#count = 0;
    this.#settle(...errors);
  }

  #settle(...errors) {
    for (const [resolve, reject] of this.#waits.splice(0)) (errors.length > 0 ? reject : resolve)(errors[0]);
  }
}
