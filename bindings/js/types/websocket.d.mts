/** The carrier over a WebSocket. */
export function ofWebSocket(socket: any): {
    broken: Promise<any>;
    ready: () => Promise<void>;
    write: (frames: any) => Promise<void>;
    pull: () => Promise<any>;
    discard: () => void;
    close: (patience: any) => Promise<void>;
    destroy: (reason: any) => void;
    /** How many bytes wait to be pulled, and may wait. */
    readonly held: number;
    limit: any;
};
/** The carrier over a WebSocketStream: what came waits in the browser, which makes the other party wait in turn. */
export function ofWebSocketStream(socket: any): {
    broken: Promise<any>;
    ready: () => any;
    write: (frames: any) => Promise<void>;
    pull: () => any;
    discard: (most: any) => void;
    close: (patience: any) => Promise<void>;
    destroy: (reason: any) => void;
};
/** What may wait until the last message of a handshake has come, in bytes. */
export const EARLY: number;
/**
 * What is used of a WebSocket of a browser, of Node or of the package ws, which alone has `pause`, `resume` and
 * `terminate`.
 */
export type WebSocketLike = {
    binaryType: string;
    readyState: number;
    bufferedAmount: number;
    send: (data: any) => void;
    close: () => void;
    addEventListener: (type: any, listener: any) => void;
    removeEventListener: (type: any, listener: any) => void;
    pause?: (() => void) | undefined;
    resume?: (() => void) | undefined;
    terminate?: (() => void) | undefined;
};
