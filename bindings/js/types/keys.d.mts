/**
 * What a handshake asks of its key pairs. Of those that are made here it imports each public key once, and has each
 * result computed once.
 */
export class Agreements {
    /**
     * The result for a pair and a public key; that of `next`, a pair that is asked for the same key later, or
     * undefined, is begun beside it.
     */
    of(pair: any, remote: any, next: any): any;
    #private;
}
/**
 * Whatever answers for a key pair of X25519.
 * @typedef {object} DH
 * @property {Uint8Array} publicKey 32 bytes.
 * @property {(remote: Uint8Array) => Uint8Array | Promise<Uint8Array>} agree Gives the result of X25519 for this
 * pair and a public key, whose bytes are a copy. A result of all zeros is refused.
 */
/** A key pair of WebCrypto's X25519, whose private key isn't extractable from it. */
export class KeyPair {
    /**
     * Draws a key pair.
     * @returns {Promise<KeyPair>}
     */
    static generate(): Promise<KeyPair>;
    /**
     * The same of a pair and a promise of a public key as WebCrypto has it.
     * @private
     */
    private static agreed;
    /**
     * The pair of a secret key of 32 bytes, from a file for example. The bytes stay the caller's to overwrite.
     * @param {Uint8Array} bytes
     * @returns {Promise<KeyPair>}
     */
    static fromSecret(bytes: Uint8Array): Promise<KeyPair>;
    /**
     * The pair of a CryptoKeyPair that the program keeps, in IndexedDB for example.
     * @param {{
     *   privateKey: import('./platform.js').WebCryptoKey,
     *   publicKey: import('./platform.js').WebCryptoKey,
     * }} pair
     * @returns {Promise<KeyPair>}
     */
    static from({ privateKey, publicKey }: {
        privateKey: import('./platform.js').WebCryptoKey;
        publicKey: import('./platform.js').WebCryptoKey;
    }): Promise<KeyPair>;
    /** @private */
    private constructor();
    /**
     * 32 bytes.
     * @readonly
     * @type {Uint8Array}
     */
    readonly publicKey: Uint8Array;
    /**
     * The result of X25519 for this private key and a public key of 32 bytes. It rejects where the result would be
     * all zeros.
     * @param {Uint8Array} remote
     * @returns {Promise<Uint8Array>}
     */
    agree(remote: Uint8Array): Promise<Uint8Array>;
    #private;
}
/**
 * Whatever answers for a key pair of X25519.
 */
export type DH = {
    /**
     * 32 bytes.
     */
    publicKey: Uint8Array;
    /**
     * Gives the result of X25519 for this
     * pair and a public key, whose bytes are a copy. A result of all zeros is refused.
     */
    agree: (remote: Uint8Array) => Uint8Array | Promise<Uint8Array>;
};
