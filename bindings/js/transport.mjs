// What follows a handshake: a transport, for messages in order, datagrams, for a network that loses, repeats and
// reorders, or cipher states.
import { NoiseError, must } from './codes.mjs';
import { freeLater, letGo, library } from './module.mjs';
import { bytesOf } from './bytes.mjs';
import { OWN, mustBeOwn } from './own.mjs';

/**
 * The half that seals.
 * @typedef {object} Sealer
 * @property {Uint8Array} hash The handshake hash.
 * @property {Uint8Array | undefined} remoteStatic
 * @property {(payload: Uint8Array) => Uint8Array} seal
 * @property {() => void} dispose Overwrites both halves.
 */
/**
 * The half that opens.
 * @typedef {object} Opener
 * @property {Uint8Array} hash The handshake hash.
 * @property {Uint8Array | undefined} remoteStatic
 * @property {(message: Uint8Array) => Uint8Array} open
 * @property {() => void} dispose Overwrites both halves.
 */

/** What all have: two opaque structs, the half that seals and the half that opens. */
export class Sealed {
  #halves;

  /** @protected */
  constructor(mark, halves, session) {
    mustBeOwn(mark);
    const { hash, remoteStatic } = session;
    this.#halves = halves;
    /**
     * The handshake hash.
     * @readonly
     * @type {Uint8Array}
     */
    this.hash = hash;
    /**
     * The other party's static key, if it has one.
     * @readonly
     * @type {Uint8Array | undefined}
     */
    this.remoteStatic = remoteStatic;
    freeLater(this, this.constructor.kinds.map((kind, n) => [kind, halves[n]]));
  }

  /**
   * The places of the half that seals and of the half that opens.
   * @protected
   */
  get halves() {
    if (this.#halves === undefined) throw new NoiseError('NOISE_DISPOSED');
    return this.#halves;
  }

  /**
   * Another object in the place of this one, which is used up.
   * @protected
   */
  moved(mark) {
    const { halves, hash, remoteStatic } = this;
    letGo(this);
    this.#halves = undefined;
    return new this.constructor(mark, halves, { hash, remoteStatic });
  }

  /** @protected */
  sealBy(call, payload, overhead) {
    const lib = library();
    const [sender] = this.halves;
    if (bytesOf(payload, 'payload').length > 65519) throw new NoiseError('NOISE_TOO_LONG');
    const number = call(
      sender,
      ...lib.put('payload', payload),
      lib.at.message,
      payload.length + overhead,
      lib.at.result,
    );
    lib.wipe('payload', payload.length);
    must(number);
    return lib.view(lib.at.message, lib.result().len).slice();
  }

  /** @protected */
  openBy(call, message) {
    const lib = library();
    const [, receiver] = this.halves;
    must(call(receiver, ...lib.put('message', bytesOf(message, 'message')), lib.at.result));
    const result = lib.result();
    const payload = lib.view(lib.at.message + result.from, result.len).slice();
    lib.wipe('message', message.length);
    return payload;
  }

  /**
   * Overwrites the structs, and frees their memory. Later calls throw NOISE_DISPOSED.
   * @returns {void}
   */
  dispose() {
    if (this.#halves === undefined) return;
    letGo(this);
    this.constructor.kinds.forEach((kind, n) => library().free(kind, this.#halves[n]));
    this.#halves = undefined;
  }
}

/** What the halves of an object have in common. */
function commonOf(both) {
  const dispose = () => both.dispose();
  return {
    hash: both.hash,
    remoteStatic: both.remoteStatic,
    dispose,
    ...(Symbol.dispose && { [Symbol.dispose]: dispose }),
  };
}
const sealerOf = (both) => Object.freeze({ ...commonOf(both), seal: (payload) => both.seal(payload) });
const openerOf = (both) => Object.freeze({ ...commonOf(both), open: (message) => both.open(message) });

/** Messages in order, over a stream: each has 16 bytes more than its payload. */
export class Transport extends Sealed {
  /** @private */
  static kinds = ['sender', 'receiver'];

  /**
   * Seals a payload of at most 65519 bytes as the next message.
   * @param {Uint8Array} payload
   * @returns {Uint8Array}
   */
  seal(payload) {
    return this.sealBy(library().x.noise_seal, payload, 16);
  }

  /**
   * Opens the next message. A refused one changes nothing; over a stream close at the first.
   * @param {Uint8Array} message
   * @returns {Uint8Array}
   */
  open(message) {
    return this.openBy(library().x.noise_open, message);
  }

  /**
   * The nonces of the next message that is sealed and of the next that is opened.
   * @returns {{ send: bigint, receive: bigint }}
   */
  get nonces() {
    const lib = library();
    const [sender, receiver] = this.halves;
    return {
      send: lib.nonce(lib.x.noise_sender_nonce, sender),
      receive: lib.nonce(lib.x.noise_receiver_nonce, receiver),
    };
  }

  /**
   * Two halves in the place of this object, which is used up.
   * @returns {[Sealer, Opener]}
   */
  split() {
    const both = this.moved(OWN);
    return [sealerOf(both), openerOf(both)];
  }
}

/** Datagrams, each with its nonce in front: 24 bytes more than the payload. */
export class Datagrams extends Sealed {
  /** @private */
  static kinds = ['datagramSender', 'datagramReceiver'];

  /**
   * Seals a payload of at most 65519 bytes as a datagram.
   * @param {Uint8Array} payload
   * @returns {Uint8Array}
   */
  seal(payload) {
    return this.sealBy(library().x.noise_datagram_seal, payload, 24);
  }

  /**
   * Opens a datagram. A refused one changes nothing: drop it, and wait for the next.
   * @param {Uint8Array} datagram
   * @returns {Uint8Array}
   */
  open(datagram) {
    return this.openBy(library().x.noise_datagram_open, datagram);
  }

  /**
   * The nonce of the next datagram that is sealed.
   * @returns {bigint}
   */
  get nonce() {
    const [sender] = this.halves;
    return library().nonce(library().x.noise_datagram_sender_nonce, sender);
  }

  /**
   * Two halves in the place of this object, which is used up. That which seals has its `nonce`, too.
   * @returns {[Sealer & { readonly nonce: bigint }, Opener]}
   */
  split() {
    const both = this.moved(OWN);
    const sealer = { ...commonOf(both), seal: (payload) => both.seal(payload), get nonce() { return both.nonce; } };
    return [Object.freeze(sealer), openerOf(both)];
  }
}
for (const Kind of [Transport, Datagrams]) if (Symbol.dispose) Kind.prototype[Symbol.dispose] = Kind.prototype.dispose;
