/** The carrier that these make. Of two each would take a part of what comes. */
export function carrierOf(it: any): {
    pull: () => any;
    discard: (most: any) => void;
    close: (patience: any, isOver: any) => Promise<void>;
    destroy: () => void;
    room: ((size: any) => Uint8Array | undefined) | undefined;
    write: (frames: any) => Promise<any> | undefined;
    stream: any;
    broken: Promise<any>;
    ready: () => Promise<void>;
} | {
    broken: Promise<any>;
    ready: () => any;
    write: (frames: any) => Promise<void>;
    pull: () => any;
    discard: (most: any) => void;
    close: (patience: any) => Promise<void>;
    destroy: (reason: any) => void;
} | {
    broken: Promise<any>;
    ready: () => Promise<void>;
    write: (frames: any) => Promise<void>;
    pull: () => any;
    discard: (most: any) => void;
    close: (patience: any, isOver: any) => Promise<void>;
    destroy: (reason: any) => void;
};
/**
 * What is used of a pair of WHATWG streams of bytes, and of a WebSocketStream.
 */
export type StreamPair = {
    readable: {
        getReader: () => any;
    };
    writable: {
        getWriter: () => any;
    };
};
/**
 * What is used of a pair of WHATWG streams of bytes, and of a WebSocketStream.
 */
export type WebSocketStreamLike = {
    opened: Promise<any>;
    closed: Promise<any>;
    close: () => void;
};
/**
 * What is used of a pair of WHATWG streams of bytes, and of a WebSocketStream.
 */
export type Connection = import('./websocket.mjs').WebSocketLike | WebSocketStreamLike | StreamPair | import('./nodestream.mjs').NodeStream;
