// The Noise Protocol Framework, revision 34, with 25519, ChaChaPoly and SHA256, on the proved library as
// WebAssembly. docs/JAVASCRIPT.md says how it is used, and what of it is proved.
export { NoiseError } from './codes.mjs';
export { equal, fromHex, hex } from './bytes.mjs';
export { hasMemory64, load } from './module.mjs';
export { KeyPair } from './keys.mjs';
export { checkPattern } from './verdict.mjs';
export { Handshake } from './handshake.mjs';
export { Datagrams, Transport } from './transport.mjs';
export { CipherState, Ciphers } from './ciphers.mjs';
export { NoiseSocket } from './socket.mjs';
export { layout } from './layout.mjs';
export { protocolName } from './setup.mjs';

/** @typedef {import('./codes.mjs').Code} Code */
/** @typedef {import('./keys.mjs').DH} DH */
/** @typedef {import('./verdict.mjs').Verdict} Verdict */
/** @typedef {import('./setup.mjs').HandshakeOptions} HandshakeOptions */
/** @typedef {import('./handshake.mjs').Stage} Stage */
/** @typedef {import('./transport.mjs').Sealer} Sealer */
/** @typedef {import('./transport.mjs').Opener} Opener */
/** @typedef {import('./opening.mjs').NoiseSocketOptions} NoiseSocketOptions */
/** @typedef {import('./carriers.mjs').Connection} Connection */
/** @typedef {import('./nodestream.mjs').NodeStream} NodeStream */
/** @typedef {import('./waiting.mjs').Signal} Signal */
/** @typedef {import('./layout.mjs').Layout} Layout */
/** @typedef {import('./layout.mjs').Message} Message */
/** @typedef {import('./layout.mjs').Piece} Piece */
/** @typedef {import('./layout.mjs').Role} Role */
