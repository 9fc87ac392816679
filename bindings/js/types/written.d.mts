export class Written {
    /** A stream of what a channel sends: closing it ends that, and aborting it destroys the channel. */
    constructor(channel: any);
    /** @type {WritableStream<Uint8Array>} */
    stream: WritableStream<Uint8Array>;
    /** Whether something was written that isn't sent. */
    get isBehind(): boolean;
    /** Waits until all that was written is sent, and rejects where some of it couldn't be. */
    all(): Promise<any> | undefined;
    #private;
}
