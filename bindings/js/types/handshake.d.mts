/** One party of a handshake, from its first message to its last. */
export class Handshake {
    /**
     * Checks the set-up at once, and throws what noise_start returns. The ephemeral key pair is drawn at the first
     * message, unless one is passed: that must never have been used before.
     * @param {import('./setup.mjs').HandshakeOptions} options
     */
    constructor(options: import('./setup.mjs').HandshakeOptions);
    /**
     * Writes the next message, with this payload.
     * @param {Uint8Array} [payload]
     * @returns {Promise<Uint8Array>}
     */
    write(payload?: Uint8Array | undefined): Promise<Uint8Array>;
    /**
     * Reads the message that is due, and gives its payload. At NOISE_TAG and NOISE_SHORT the handshake has ended.
     * @param {Uint8Array} message
     * @returns {Promise<Uint8Array>}
     */
    read(message: Uint8Array): Promise<Uint8Array>;
    /**
     * As `read`, but NOISE_TAG and NOISE_SHORT leave the handshake as it was, so that it can read another message:
     * for those that a stranger can send.
     * @param {Uint8Array} message
     * @returns {Promise<Uint8Array>}
     */
    tryRead(message: Uint8Array): Promise<Uint8Array>;
    /** @returns {Stage} How far it is. */
    get stage(): Stage;
    /**
     * How many bytes the next message has with a payload of this length.
     * @param {number} payloadLength
     * @returns {number}
     */
    messageLength(payloadLength: number): number;
    /**
     * The handshake hash so far. Before the first call of `write` or `read` an ephemeral key of a pre-message isn't
     * drawn yet.
     * @returns {Uint8Array}
     */
    get hash(): Uint8Array;
    /**
     * The other party's static key, once it is known.
     * @returns {Uint8Array | undefined}
     */
    get remoteStatic(): Uint8Array | undefined;
    /**
     * The public key of the ephemeral pair, once it was drawn.
     * @returns {Uint8Array | undefined}
     */
    get ephemeralPublicKey(): Uint8Array | undefined;
    /**
     * Makes the transport, and uses this handshake up. Each direction is rekeyed after each `interval` of its
     * messages; 0 is never.
     * @param {{ interval?: number }} [options]
     * @returns {Transport}
     */
    finish({ interval }?: {
        interval?: number | undefined;
    } | undefined): Transport;
    /** @private Makes the two halves of a stream with an end, in the same way. */
    private finishStream;
    /**
     * Makes the two cipher states (Split: Noise, 5.2), both at nonce 0, and uses this handshake up.
     * @returns {Ciphers}
     */
    finishCiphers(): Ciphers;
    /**
     * Makes the state of datagrams, with a window of 64, 256 or 1024 nonces, and uses this handshake up.
     * @param {{ window?: 64 | 256 | 1024 }} [options]
     * @returns {Datagrams}
     */
    finishDatagrams({ window }?: {
        window?: 256 | 64 | 1024 | undefined;
    } | undefined): Datagrams;
    /**
     * Overwrites the struct and the secrets, and frees their memory. Later calls throw NOISE_DISPOSED, and so does one
     * that waits for an answer.
     * @returns {void}
     */
    dispose(): void;
    #private;
}
/**
 * How far a handshake is.
 */
export type Stage = {
    /**
     * How many messages the pattern has.
     */
    messages: number;
    /**
     * How many of them were written or read.
     */
    passed: number;
    /**
     * Whether a refused message has ended it.
     */
    ended: boolean;
    /**
     * Whether this party writes the next message.
     */
    writesNext: boolean;
    /**
     * Whether all messages have passed.
     */
    done: boolean;
};
import { Transport } from "./transport.mjs";
import { Ciphers } from "./ciphers.mjs";
import { Datagrams } from "./transport.mjs";
