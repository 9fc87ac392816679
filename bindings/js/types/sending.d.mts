export class Sending {
    constructor(carrier: any, stream: any, kept: any);
    /** Whether this party has ended its stream. */
    hasEnded: boolean;
    /** Whether nothing is being sent, and nothing waits for it. */
    get isIdle(): boolean;
    /** Whether frames are kept back, and may still be sent. */
    get hasKept(): boolean;
    /** Whatever is being sent rejects, and so does what would be later. */
    end(error: any): void;
    /** Work in its turn, after all that was sent before. */
    take(work: any, signal: any): Promise<any>;
    /** Sends a copy of a payload of at most SHARED bytes, with what else is sent in this turn of the event loop. */
    add(payload: any): any;
    /** Ends the stream after what was sent before, and together with that where it still waits. */
    addEnd(): any;
    /** Seals a payload at once: a promise, or nothing where the connection has taken it. */
    putPayload(payload: any): any;
    /**
     * Seals a payload of at most SHARED bytes in its turn, which comes in parts that don't change until then: a promise,
     * or nothing where the connection has taken it.
     */
    putAll(parts: any): any;
    putEnd(): any;
    /** Sends frames, after what was kept back: a promise, or nothing where the connection has taken them at once. */
    put(frames?: any[]): any;
    #private;
}
