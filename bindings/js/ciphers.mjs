// Cipher states (Noise, 5.1), for a protocol whose packets have associated data, name their nonces or have a form
// of their own.
import { NoiseError, code, must } from './codes.mjs';
import { freeLater, letGo, library } from './module.mjs';
import { bytesOf } from './bytes.mjs';
import { OWN, mustBeOwn } from './own.mjs';

const ROOM = 65552;    // more than the longest message has

/** One direction. The one for sending only encrypts, the other only decrypts. */
export class CipherState {
  #place;

  /** @private */
  constructor(mark, place) {
    mustBeOwn(mark);
    this.#place = place;
    freeLater(this, [['cipher', place]]);
  }

  #here() {
    if (this.#place === undefined) throw new NoiseError('NOISE_DISPOSED');
    return this.#place;
  }

  /** Runs a call on bytes in place, and gives what it has made of them. */
  #inPlace(ad, bytes, call) {
    const lib = library();
    const words = lib.put('prologue', bytesOf(ad, 'ad'));
    lib.put('message', bytes);
    const number = call(this.#here(), ...words, lib.at.message, lib.at.result);
    const result = lib.result();
    const made = number === code.OK ? lib.view(lib.at.message + result.from, result.len).slice() : undefined;
    lib.wipe('message', bytes.length);
    must(number);
    return made;
  }

  /**
   * EncryptWithAd: the message of at most 65519 bytes of plaintext, 16 bytes longer. Neither `ad`, at most 65535
   * bytes, nor the nonce is in it.
   * @param {Uint8Array} ad
   * @param {Uint8Array} plaintext
   * @returns {Uint8Array}
   */
  encryptWithAd(ad, plaintext) {
    const { length } = bytesOf(plaintext, 'plaintext');
    if (length > 65519) throw new NoiseError('NOISE_TOO_LONG');
    const { noise_cipher_encrypt: encrypt } = library().x;
    return this.#inPlace(ad, plaintext, (place, at, count, buffer, result) =>
      encrypt(place, at, count, buffer, ROOM, length, result),
    );
  }

  /**
   * DecryptWithAd: the plaintext of a message. A refused one changes nothing.
   * @param {Uint8Array} ad
   * @param {Uint8Array} message
   * @returns {Uint8Array}
   */
  decryptWithAd(ad, message) {
    const size = bytesOf(message, 'message').length;
    const { noise_cipher_decrypt: decrypt } = library().x;
    return this.#inPlace(ad, message, (place, at, count, buffer, result) =>
      decrypt(place, at, count, buffer, size, result),
    );
  }

  /**
   * Rekey (Noise, 11.3): the key that follows from this one takes its place. The nonce stays.
   * @returns {void}
   */
  rekey() {
    must(library().x.noise_cipher_rekey(this.#here()));
  }

  /**
   * The nonce of the next message. Setting it (Noise, 11.4) is for receiving: a key never encrypts two texts at one
   * nonce.
   * @type {bigint}
   */
  get nonce() {
    return library().nonce(library().x.noise_cipher_nonce, this.#here());
  }

  set nonce(nonce) {
    if (typeof nonce !== 'bigint' || nonce < 0n || nonce >= 1n << 64n) {
      throw new RangeError('a nonce is a BigInt from 0 to 2^64 - 1');
    }
    must(library().x.noise_cipher_set_nonce(this.#here(), nonce));
  }

  /**
   * Overwrites the struct, and frees its memory. Later calls throw NOISE_DISPOSED.
   * @returns {void}
   */
  dispose() {
    if (this.#place === undefined) return;
    letGo(this);
    library().free('cipher', this.#place);
    this.#place = undefined;
  }
}
if (Symbol.dispose) CipherState.prototype[Symbol.dispose] = CipherState.prototype.dispose;

/** The two of a handshake. */
export class Ciphers {
  /** @private */
  static kinds = ['cipher', 'cipher'];

  /** @private */
  constructor(mark, places, session) {
    mustBeOwn(mark);
    const [send, receive] = places;
    const { hash, remoteStatic } = session;
    /**
     * Encrypts what this party sends.
     * @type {CipherState}
     */
    this.send = new CipherState(OWN, send);
    /**
     * Decrypts what it receives.
     * @type {CipherState}
     */
    this.receive = new CipherState(OWN, receive);
    /**
     * The handshake hash.
     * @type {Uint8Array}
     */
    this.hash = hash;
    /**
     * The other party's static key, if it has one.
     * @type {Uint8Array | undefined}
     */
    this.remoteStatic = remoteStatic;
    Object.freeze(this);
  }
}
