// Key pairs. A handshake asks an object with `publicKey`, 32 bytes, and `agree(remote)`, which gives the result of
// X25519 or a promise of it. Those that are made here are WebCrypto's: the private key stays inside the browser.

import { bytesOf, equal } from './bytes.mjs';
import { NoiseError } from './codes.mjs';
import { OWN, mustBeOwn } from './own.mjs';

const NAME = 'X25519';
/** What is before a secret key in PKCS #8 (RFC 8410, 7). */
const PKCS8 = Uint8Array.of(48, 46, 2, 1, 0, 48, 5, 6, 3, 43, 101, 110, 4, 34, 4, 32);
/** X25519 of a secret key and this point is the public key (RFC 7748, 6.1). */
const BASE_POINT = new Uint8Array(32).fill(9, 0, 1);

/** A call of WebCrypto. In a page that isn't a secure context there is none, and not each browser has X25519. */
async function byCrypto(call, ...words) {
  const { subtle } = globalThis.crypto ?? {};
  if (!subtle) throw new NoiseError('NOISE_UNSUPPORTED');
  try {
    return await subtle[call](...words);
  } catch (cause) {
    throw cause?.name === 'NotSupportedError' ? new NoiseError('NOISE_UNSUPPORTED', { cause }) : cause;
  }
}

const imported = (remote) => byCrypto('importKey', 'raw', remote, { name: NAME }, true, []);
const agreed = async (secret, key) =>
  new Uint8Array(await byCrypto('deriveBits', { name: NAME, public: key }, secret, 256));

/**
 * What a handshake asks of its key pairs. Of those that are made here it imports each public key once, and has each
 * result computed once.
 */
export class Agreements {
  #imports = [];
  #begun = [];

  #imported(remote) {
    const met = this.#imports.find(({ bytes }) => equal(bytes, remote));
    if (met) return met.key;
    const key = imported(remote);
    this.#imports.push({ bytes: remote, key });
    return key;
  }

  #begin(pair, remote) {
    const met = this.#begun.find((it) => it.pair === pair && equal(it.bytes, remote));
    if (met) return met.result;
    const result = KeyPair.agreed(OWN, pair, this.#imported(remote));
    result.catch(() => {});    // nobody may ask for it
    this.#begun.push({ pair, bytes: remote, result });
    return result;
  }

  /**
   * The result for a pair and a public key; that of `next`, a pair that is asked for the same key later, or
   * undefined, is begun beside it.
   */
  of(pair, remote, next) {
    if (!(pair instanceof KeyPair)) return pair.agree(remote.slice());    // the agent's own, to do with as it likes
    const result = this.#begin(pair, remote);
    if (next instanceof KeyPair) this.#begin(next, remote);
    return result;
  }
}

/**
 * Whatever answers for a key pair of X25519.
 * @typedef {object} DH
 * @property {Uint8Array} publicKey 32 bytes.
 * @property {(remote: Uint8Array) => Uint8Array | Promise<Uint8Array>} agree Gives the result of X25519 for this
 * pair and a public key, whose bytes are a copy. A result of all zeros is refused.
 */

/** A key pair of WebCrypto's X25519, whose private key isn't extractable from it. */
export class KeyPair {
  #secret;

  /** @private */
  constructor(mark, secret, publicKey) {
    mustBeOwn(mark);
    this.#secret = secret;
    /**
     * 32 bytes.
     * @readonly
     * @type {Uint8Array}
     */
    this.publicKey = publicKey;
    Object.freeze(this);
  }

  /**
   * Draws a key pair.
   * @returns {Promise<KeyPair>}
   */
  static async generate() {
    const pair = await byCrypto('generateKey', { name: NAME }, false, ['deriveBits']);
    return new KeyPair(OWN, pair.privateKey, new Uint8Array(await byCrypto('exportKey', 'raw', pair.publicKey)));
  }

  /**
   * The result of X25519 for this private key and a public key of 32 bytes. It rejects where the result would be
   * all zeros.
   * @param {Uint8Array} remote
   * @returns {Promise<Uint8Array>}
   */
  async agree(remote) {
    return agreed(this.#secret, await imported(bytesOf(remote, 'a public key', 32)));
  }

  /**
   * The same of a pair and a promise of a public key as WebCrypto has it.
   * @private
   */
  static async agreed(mark, pair, remote) {
    mustBeOwn(mark);
    return agreed(pair.#secret, await remote);
  }

  /**
   * The pair of a secret key of 32 bytes, from a file for example. The bytes stay the caller's to overwrite.
   * @param {Uint8Array} bytes
   * @returns {Promise<KeyPair>}
   */
  static async fromSecret(bytes) {
    bytesOf(bytes, 'a secret key', 32);
    const encoded = new Uint8Array(48);
    encoded.set(PKCS8);
    encoded.set(bytes, 16);
    try {
      const secret = await byCrypto('importKey', 'pkcs8', encoded, { name: NAME }, false, ['deriveBits']);
      return new KeyPair(OWN, secret, await agreed(secret, await imported(BASE_POINT)));
    } finally {
      encoded.fill(0);
    }
  }

  /**
   * The pair of a CryptoKeyPair that the program keeps, in IndexedDB for example.
   * @param {{
   *   privateKey: import('./platform.js').WebCryptoKey,
   *   publicKey: import('./platform.js').WebCryptoKey,
   * }} pair
   * @returns {Promise<KeyPair>}
   */
  static async from({ privateKey, publicKey }) {
    if (privateKey?.type !== 'private') throw new TypeError('privateKey has to be a private CryptoKey of X25519');
    return new KeyPair(OWN, privateKey, new Uint8Array(await byCrypto('exportKey', 'raw', publicKey)));
  }
}
