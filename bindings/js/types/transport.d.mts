/**
 * The half that seals.
 * @typedef {object} Sealer
 * @property {Uint8Array} hash The handshake hash.
 * @property {Uint8Array | undefined} remoteStatic
 * @property {(payload: Uint8Array) => Uint8Array} seal
 * @property {() => void} dispose Overwrites both halves.
 */
/**
 * The half that opens.
 * @typedef {object} Opener
 * @property {Uint8Array} hash The handshake hash.
 * @property {Uint8Array | undefined} remoteStatic
 * @property {(message: Uint8Array) => Uint8Array} open
 * @property {() => void} dispose Overwrites both halves.
 */
/** What all have: two opaque structs, the half that seals and the half that opens. */
export class Sealed {
    /** @protected */
    protected constructor();
    /**
     * The handshake hash.
     * @readonly
     * @type {Uint8Array}
     */
    readonly hash: Uint8Array;
    /**
     * The other party's static key, if it has one.
     * @readonly
     * @type {Uint8Array | undefined}
     */
    readonly remoteStatic: Uint8Array | undefined;
    /**
     * The places of the half that seals and of the half that opens.
     * @protected
     */
    protected get halves(): any;
    /**
     * Another object in the place of this one, which is used up.
     * @protected
     */
    protected moved(mark: any): any;
    /** @protected */
    protected sealBy(call: any, payload: any, overhead: any): any;
    /** @protected */
    protected openBy(call: any, message: any): any;
    /**
     * Overwrites the structs, and frees their memory. Later calls throw NOISE_DISPOSED.
     * @returns {void}
     */
    dispose(): void;
    #private;
}
/** Messages in order, over a stream: each has 16 bytes more than its payload. */
export class Transport extends Sealed {
    /** @private */
    private static kinds;
    /**
     * Seals a payload of at most 65519 bytes as the next message.
     * @param {Uint8Array} payload
     * @returns {Uint8Array}
     */
    seal(payload: Uint8Array): Uint8Array;
    /**
     * Opens the next message. A refused one changes nothing; over a stream close at the first.
     * @param {Uint8Array} message
     * @returns {Uint8Array}
     */
    open(message: Uint8Array): Uint8Array;
    /**
     * The nonces of the next message that is sealed and of the next that is opened.
     * @returns {{ send: bigint, receive: bigint }}
     */
    get nonces(): {
        send: bigint;
        receive: bigint;
    };
    /**
     * Two halves in the place of this object, which is used up.
     * @returns {[Sealer, Opener]}
     */
    split(): [Sealer, Opener];
}
/** Datagrams, each with its nonce in front: 24 bytes more than the payload. */
export class Datagrams extends Sealed {
    /** @private */
    private static kinds;
    /**
     * Seals a payload of at most 65519 bytes as a datagram.
     * @param {Uint8Array} payload
     * @returns {Uint8Array}
     */
    seal(payload: Uint8Array): Uint8Array;
    /**
     * Opens a datagram. A refused one changes nothing: drop it, and wait for the next.
     * @param {Uint8Array} datagram
     * @returns {Uint8Array}
     */
    open(datagram: Uint8Array): Uint8Array;
    /**
     * The nonce of the next datagram that is sealed.
     * @returns {bigint}
     */
    get nonce(): bigint;
    /**
     * Two halves in the place of this object, which is used up. That which seals has its `nonce`, too.
     * @returns {[Sealer & { readonly nonce: bigint }, Opener]}
     */
    split(): [Sealer & {
        readonly nonce: bigint;
    }, Opener];
}
/**
 * The half that seals.
 */
export type Sealer = {
    /**
     * The handshake hash.
     */
    hash: Uint8Array;
    remoteStatic: Uint8Array | undefined;
    seal: (payload: Uint8Array) => Uint8Array;
    /**
     * Overwrites both halves.
     */
    dispose: () => void;
};
/**
 * The half that opens.
 */
export type Opener = {
    /**
     * The handshake hash.
     */
    hash: Uint8Array;
    remoteStatic: Uint8Array | undefined;
    open: (message: Uint8Array) => Uint8Array;
    /**
     * Overwrites both halves.
     */
    dispose: () => void;
};
