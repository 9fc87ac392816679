/**
 * Passes a handshake over a connection: the carrier, what came over it, unless the other party sends nothing
 * (Noise, 7.4), the stream, and the frames that are kept back.
 */
export function opened(connection: any, options: any): Promise<{
    carrier: {
        pull: () => any;
        discard: (most: any) => void;
        close: (patience: any, isOver: any) => Promise<void>;
        destroy: () => void;
        room: ((size: any) => Uint8Array | undefined) | undefined;
        write: (frames: any) => Promise<any> | undefined;
        stream: any;
        broken: Promise<any>;
        ready: () => Promise<void>;
    } | {
        broken: Promise<any>;
        ready: () => any;
        write: (frames: any) => Promise<void>;
        pull: () => any;
        discard: (most: any) => void;
        close: (patience: any) => Promise<void>;
        destroy: (reason: any) => void;
    } | {
        broken: Promise<any>;
        ready: () => Promise<void>;
        write: (frames: any) => Promise<void>;
        pull: () => any;
        discard: (most: any) => void;
        close: (patience: any, isOver: any) => Promise<void>;
        destroy: (reason: any) => void;
    };
    incoming: Incoming | undefined;
    mayWrite: boolean;
    stream: any;
    kept: any[];
}>;
export type SocketOptions = {
    /**
     * Each direction is rekeyed after so many of its messages, the same number at both
     * parties; 0 is never.
     */
    interval?: number | undefined;
    /**
     * Called once, as soon as the other
     * party's static key is known, before anything else is sent or read. Unless it returns true itself, the connection
     * is closed, and `open` throws NOISE_REFUSED. In a pattern in which the other party has no static key it is a
     * TypeError.
     */
    verify?: ((remoteStatic: Uint8Array) => boolean | Promise<boolean>) | undefined;
    /**
     * Talks to anybody, where none of `verify`, `remoteStatic`, `psks` and `pskFor`
     * says who it may be. Without it `open` throws NOISE_UNAUTHENTICATED.
     */
    acceptAnyKey?: boolean | undefined;
    /**
     * Ends the call of `open`, whatever it waits for: it destroys
     * the connection, and throws the signal's reason.
     */
    signal?: import("./waiting.mjs").Signal | undefined;
    /**
     * How many bytes a handshake message may have: 4096, if nothing is said. At
     * more `open` throws NOISE_TOO_LONG.
     */
    handshakeLimit?: number | undefined;
    /**
     * How many bytes of a WebSocket that can't be paused may wait until they are received:
     * 64 MiB, if nothing is said, each message with 256 more. At more the connection is closed, and `receive` throws
     * NOISE_BACKLOG. Until the last message of the handshake has come that is 1 MiB, and while `verify` or `pskFor` is
     * asked 1 MiB more than what waits then.
     */
    backlog?: number | undefined;
};
/**
 * The set-up of a handshake, and of a channel.
 */
export type NoiseSocketOptions = import('./setup.mjs').HandshakeOptions & SocketOptions;
import { Incoming } from "./incoming.mjs";
