// What the engine's own types are, by the types that a program has: those of the DOM, of Node, or none.

/** The type of instances of a global class, or another where there is none. */
type Of<Name extends string, Other> =
  typeof globalThis extends { [N in Name]: { prototype: infer Made } } ? Made : Other;

/** What comes over a channel, as a ReadableStream. */
export interface PayloadReadable extends Of<'ReadableStream', AsyncIterable<Uint8Array>> {}

/** What is sent over a channel, as a WritableStream. */
export interface PayloadWritable extends Of<'WritableStream', { readonly locked: boolean }> {}

// @ts-ignore: without the types of Node only what stands below is known
import type { Duplex } from 'node:stream';

/** A channel as a stream of Node, with what a socket of TCP has beside one. */
export interface ChannelDuplex extends Duplex {
  allowHalfOpen: boolean;
  readonly connecting: false;
  readonly pending: false;
  readonly readyState: 'open' | 'readOnly' | 'writeOnly' | 'closed';
  readonly timeout: number | undefined;
  readonly autoSelectFamilyAttemptedAddresses: string[] | undefined;
  readonly bytesRead: number | undefined;
  readonly bytesWritten: number | undefined;
  readonly localAddress: string | undefined;
  readonly localFamily: string | undefined;
  readonly localPort: number | undefined;
  readonly remoteAddress: string | undefined;
  readonly remoteFamily: string | undefined;
  readonly remotePort: number | undefined;
  address(): { address?: string, family?: string, port?: number };
  destroySoon(): void;
  ref(): this;
  resetAndDestroy(): this;
  setKeepAlive(isOn?: boolean, delay?: number): this;
  setNoDelay(isOn?: boolean): this;
  setTimeout(milliseconds: number, listener?: () => void): this;
  unref(): this;
}

/** A key of WebCrypto. */
export interface WebCryptoKey extends Of<'CryptoKey', { readonly type: string }> {}

/** Symbol.asyncDispose, where the types have it: `await using` takes it. */
export interface Disposes extends AsyncDisposes {}
type AsyncDisposes = SymbolConstructor extends { readonly asyncDispose: infer Key extends symbol }
  ? { [K in Key]: () => Promise<void> }
  : {};
