// What the short listings of docs/JAVASCRIPT.md and the package's README.md take as given.
declare const [message, payload, prologue, received, remoteStatic]: Uint8Array[];
declare const psks: Uint8Array[];
declare const pskOf: Map<string, Uint8Array>;
declare const [pattern, responder]: [string, boolean];
declare const [staticKey, key]: import('yulimosar').KeyPair[];
declare const server: Uint8Array;
declare const verify: (remoteStatic: Uint8Array) => boolean;
declare const socket: WebSocket;
declare const serve: (socket: WebSocket) => Promise<void>;
declare const channel: import('yulimosar').NoiseSocket;
declare const duplex: import('yulimosar').NoiseSocket['duplex'];
declare const plain: import('node:net').Socket;
