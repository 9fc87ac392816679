/** Some frames as one piece. Those that stand one after another in the same memory aren't copied. */
export function joined(frames: any): any;
/** By Duplex.toWeb of Node 20 an error after the close would end the program. */
export function ofNode(stream: any): {
    pull: () => any;
    discard: (most: any) => void;
    close: (patience: any, isOver: any) => Promise<void>;
    destroy: () => void;
    room: typeof takeSpare | undefined;
    write: (frames: any) => Promise<any> | undefined;
    stream: any;
    broken: Promise<any>;
    ready: () => Promise<void>;
};
/**
 * What is used of a stream of Node, as a socket of TCP.
 */
export type NodeStream = AsyncIterable<Uint8Array> & {
    pipe: unknown;
    iterator?: ((options: {
        destroyOnReturn: boolean;
    }) => AsyncIterator<Uint8Array>) | undefined;
    readonly connecting?: boolean | undefined;
    readonly destroyed?: boolean | undefined;
    readonly errored?: Error | null | undefined;
    readonly writable?: boolean | undefined;
    readonly writableLength?: number | undefined;
    allowHalfOpen?: boolean | undefined;
    setNoDelay?: ((isOn: boolean) => unknown) | undefined;
    on: (event: 'error' | 'close', listener: (error: Error) => void) => unknown;
    write: (bytes: Uint8Array, done: (error?: Error | null) => void) => boolean;
    end: (done: () => void) => unknown;
    destroy: () => unknown;
};
declare function takeSpare(size: any): Uint8Array | undefined;
export {};
