/** One direction. The one for sending only encrypts, the other only decrypts. */
export class CipherState {
    /** @private */
    private constructor();
    /**
     * EncryptWithAd: the message of at most 65519 bytes of plaintext, 16 bytes longer. Neither `ad`, at most 65535
     * bytes, nor the nonce is in it.
     * @param {Uint8Array} ad
     * @param {Uint8Array} plaintext
     * @returns {Uint8Array}
     */
    encryptWithAd(ad: Uint8Array, plaintext: Uint8Array): Uint8Array;
    /**
     * DecryptWithAd: the plaintext of a message. A refused one changes nothing.
     * @param {Uint8Array} ad
     * @param {Uint8Array} message
     * @returns {Uint8Array}
     */
    decryptWithAd(ad: Uint8Array, message: Uint8Array): Uint8Array;
    /**
     * Rekey (Noise, 11.3): the key that follows from this one takes its place. The nonce stays.
     * @returns {void}
     */
    rekey(): void;
    set nonce(arg: bigint);
    /**
     * The nonce of the next message. Setting it (Noise, 11.4) is for receiving: a key never encrypts two texts at one
     * nonce.
     * @type {bigint}
     */
    get nonce(): bigint;
    /**
     * Overwrites the struct, and frees its memory. Later calls throw NOISE_DISPOSED.
     * @returns {void}
     */
    dispose(): void;
    #private;
}
/** The two of a handshake. */
export class Ciphers {
    /** @private */
    private static kinds;
    /** @private */
    private constructor();
    /**
     * Encrypts what this party sends.
     * @type {CipherState}
     */
    send: CipherState;
    /**
     * Decrypts what it receives.
     * @type {CipherState}
     */
    receive: CipherState;
    /**
     * The handshake hash.
     * @type {Uint8Array}
     */
    hash: Uint8Array;
    /**
     * The other party's static key, if it has one.
     * @type {Uint8Array | undefined}
     */
    remoteStatic: Uint8Array | undefined;
}
