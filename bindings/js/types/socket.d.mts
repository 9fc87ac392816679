/** @typedef {import('./waiting.mjs').Signal} Signal */
/**
 * An open channel: `send` and `receive` move payloads. It closes at the first message that is refused.
 * @implements {AsyncIterable<Uint8Array>}
 */
export class NoiseSocket implements AsyncIterable<Uint8Array> {
    /**
     * Passes a handshake, without payloads, over a WebSocket, over `{readable, writable}`, or over a stream of Node.
     * What a WebSocket got before this call isn't seen. Where it throws, the connection is destroyed. Where the
     * connection breaks it throws NOISE_CUT, also while `verify`, `pskFor` or `agree` hasn't answered. The last
     * message of the handshake, if this party writes it, leaves with what is sent at once after this call, or else
     * soon after it.
     * @param {import('./carriers.mjs').Connection} connection
     * @param {import('./opening.mjs').NoiseSocketOptions} options
     * @returns {Promise<NoiseSocket & import('./platform.js').Disposes>}
     */
    static open(connection: import('./carriers.mjs').Connection, options: import('./opening.mjs').NoiseSocketOptions): Promise<NoiseSocket & import('./platform.js').Disposes>;
    /** @private */
    private constructor();
    /**
     * The handshake hash.
     * @readonly
     * @type {Uint8Array}
     */
    readonly hash: Uint8Array;
    /**
     * The other party's static key, if it has one.
     * @readonly
     * @type {Uint8Array | undefined}
     */
    readonly remoteStatic: Uint8Array | undefined;
    /**
     * Sends a payload, and waits until the connection has taken it. One of more than 65519 bytes comes as several,
     * and of an empty one nothing is sent. In a loop of such calls the program's timers and other connections have
     * their turn. A signal that aborts before the payload's turn takes nothing from the channel; later it ends the
     * channel, since the other party may get a part.
     * @param {Uint8Array} payload
     * @param {{ signal?: Signal }} [options]
     * @returns {Promise<void>}
     */
    send(payload: Uint8Array, options?: {
        signal?: import("./waiting.mjs").Signal | undefined;
    } | undefined): Promise<void>;
    /**
     * Ends what this party sends, after all that was written to `writable` and `duplex`, and waits until the connection
     * has taken the end: the other party's `receive` gives undefined then. This party goes on to receive.
     * @param {{ signal?: Signal }} [options]
     * @returns {Promise<void>}
     */
    end({ signal }?: {
        signal?: import("./waiting.mjs").Signal | undefined;
    } | undefined): Promise<void>;
    /**
     * Sends the last message of the handshake, where it is kept back, and waits until the connection has taken all
     * that was sent. A signal that aborts ends the waiting alone: what was sent still leaves.
     * @param {{ signal?: Signal }} [options]
     * @returns {Promise<void>}
     */
    flush({ signal }?: {
        signal?: import("./waiting.mjs").Signal | undefined;
    } | undefined): Promise<void>;
    /**
     * The next payload, or undefined once the other party has ended its stream, and all of it came. Where the
     * connection has ended before that, it throws NOISE_CUT, and to the initiator of a one-way pattern nothing comes:
     * NOISE_ONE_WAY. Calls at once are served in order. A signal that aborts takes nothing from the channel: the next
     * call gets the payload.
     * @param {{ signal?: Signal }} [options]
     * @returns {Promise<Uint8Array | undefined>}
     */
    receive({ signal }?: {
        signal?: import("./waiting.mjs").Signal | undefined;
    } | undefined): Promise<Uint8Array | undefined>;
    /**
     * The next payload as `value`, or undefined in its place for the end, where it has come and nobody waits for it.
     * @private
     */
    private came;
    /**
     * What comes, as a stream of WHATWG of bytes, for `pipeTo` and Node's `pipeline`, and for reads into a buffer of
     * the reader's (`getReader({ mode: 'byob' })`). Who cancels it closes the connection, as Symbol.asyncDispose does.
     * @returns {import('./platform.js').PayloadReadable}
     */
    get readable(): import("./platform.js").PayloadReadable;
    /**
     * What is sent, as a stream of WHATWG: closing it is `end`, and aborting it is `destroy`.
     * @returns {import('./platform.js').PayloadWritable}
     */
    get writable(): import("./platform.js").PayloadWritable;
    /**
     * The channel as a Duplex of Node, for what takes a socket of TCP, as http.Agent: `end` is the end of this party's
     * stream, and 'end' comes with the other's. Without `allowHalfOpen`, which can be set, this party's ends then.
     * `destroy` is that of the channel, also after 'finish', until both streams are ended: then it is `close`, and what
     * was written still leaves. Writes and `send` keep their order. Elsewhere than in Node it throws.
     * @returns {import('./platform.js').ChannelDuplex}
     */
    get duplex(): import("./platform.js").ChannelDuplex;
    /**
     * Sends payloads together, which don't change until they are sent: a promise, or nothing where the connection has
     * taken them.
     * @private
     */
    private sendAll;
    /**
     * Ends what this party sends, unless it is ended, and closes the connection once all is sent and the other party
     * has ended its stream or closed the connection, or after `timeout` milliseconds. It never rejects: `end` does
     * where the end can't be sent. What still comes is dropped, and calls that wait for a payload throw
     * NOISE_DISPOSED.
     * @param {{ timeout?: number }} [options]
     * @returns {Promise<void>}
     */
    close({ timeout }?: {
        timeout?: number | undefined;
    } | undefined): Promise<void>;
    /**
     * Closes the connection once all is sent, but without an end of what this party sends: the other party gets what
     * was sent, and then NOISE_CUT, unless `end` was called before. It may go on to send for ever: for 200
     * milliseconds it has the time to close, and at most 1 MiB is read.
     * @private
     */
    private leave;
    /**
     * Ends all at once, without an end of what this party sends: the other party sees a cut. After `close` it does
     * nothing.
     * @returns {void}
     */
    destroy(): void;
    /**
     * The payloads, until the other party has ended its stream. Who leaves a loop over them before closes the
     * connection, as Symbol.asyncDispose does.
     * @returns {AsyncIterableIterator<Uint8Array>}
     */
    [Symbol.asyncIterator](): AsyncIterableIterator<Uint8Array>;
    #private;
}
export type Signal = import('./waiting.mjs').Signal;
