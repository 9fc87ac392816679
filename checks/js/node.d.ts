// What the listings use of Node: Debian has no types of it.
declare class Buffer extends Uint8Array {
  static from(text: string, encoding?: 'hex'): Buffer;
  static from(bytes: Uint8Array): Buffer;
  static concat(parts: readonly Uint8Array[]): Buffer;
  equals(other: Uint8Array): boolean;
  toString(encoding?: 'hex' | 'utf8'): string;
}
declare const process: { readonly argv: string[] };

declare module 'node:crypto' {
  export function randomBytes(size: number): Buffer;
  export interface Hash { update(bytes: Uint8Array): this; digest(): Buffer; }
  export function createHash(name: string): Hash;
}
declare module 'node:fs/promises' {
  export function readFile(path: string): Promise<Buffer>;
  export function readFile(path: string, encoding: 'utf8'): Promise<string>;
  export function writeFile(path: string, data: Uint8Array, options?: { mode?: number; flag?: string }): Promise<void>;
}
declare module 'node:fs' {
  export function createReadStream(path: string): AsyncIterable<Buffer>;
  export interface WriteStream { close(): void; }
  export function createWriteStream(path: string): WriteStream;
}
declare module 'node:stream' {
  export class Duplex {
    destroy(error?: Error): this;
    end(chunk: Uint8Array | string): this;
    on(event: 'error', listener: (error: Error) => void): this;
    pipe<T>(destination: T): T;
    readonly writableFinished: boolean;
  }
}
declare module 'node:stream/promises' {
  export function pipeline(from: AsyncIterable<Uint8Array>, to: WritableStream): Promise<void>;
  export function pipeline(from: ReadableStream, to: import('node:fs').WriteStream): Promise<void>;
}
declare module 'ws' {
  export class WebSocketServer {
    constructor(options: { port: number, maxPayload: number });
    on(event: 'connection', listener: (socket: WebSocket) => void): this;
  }
}
declare module 'node:net' {
  export interface Socket extends AsyncIterable<any> {
    readonly connecting: boolean;
    readonly destroyed: boolean;
    readonly errored: Error | null;
    iterator(options?: { destroyOnReturn?: boolean }): AsyncIterableIterator<any>;
    pipe<T>(destination: T, options?: { end?: boolean }): T;
    on(event: 'error', listener: (error: Error) => void): this;
    on(event: string, listener: (...args: any[]) => void): this;
    write(buffer: Uint8Array | string, done?: (error?: Error | null) => void): boolean;
    end(done?: () => void): this;
    destroy(error?: Error): this;
    resetAndDestroy(): this;
  }
  export interface Server {
    listen(port: number, host: string, listening?: () => void): this;
  }
  export function connect(port: number, host: string): Socket;
  export function createServer(taken: (socket: Socket) => void): Server;
}
