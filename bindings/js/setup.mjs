// What a handshake is set up with.
import { NoiseError } from './codes.mjs';
import { bytesOf, copyOf } from './bytes.mjs';
import { library } from './module.mjs';

/**
 * @typedef {object} HandshakeOptions
 * @property {string} pattern A protocol name, the name of a pattern alone, as XXpsk3, or a pattern text whose lines
 * end with a line feed.
 * @property {boolean} [responder]
 * @property {Uint8Array} [prologue] At most 65535 bytes, the same at both parties.
 * @property {import('./keys.mjs').DH} [staticKey]
 * @property {import('./keys.mjs').DH} [ephemeralKey] Drawn at the first message, where it isn't passed. It must
 * never have been used before.
 * @property {Uint8Array} [remoteStatic] The other party's static key, where the pattern has it before the messages.
 * @property {Uint8Array} [remoteEphemeral]
 * @property {Uint8Array[]} [psks] 32 bytes for each psk token, in their order.
 * @property {(remoteStatic: Uint8Array) => Uint8Array | Promise<Uint8Array>} [pskFor] In place of `psks`: called at
 * each psk token with the other party's static key, it gives the secret of 32 bytes. The other party hasn't shown
 * yet that it has the private key. What it throws rejects `write` or `read`, and nothing is sent.
 */
const OF_HANDSHAKE = [
  'pattern',
  'responder',
  'prologue',
  'staticKey',
  'ephemeralKey',
  'remoteStatic',
  'remoteEphemeral',
  'psks',
  'pskFor',
];
const OF_CHANNEL = ['interval', 'verify', 'acceptAnyKey', 'signal', 'handshakeLimit', 'backlog'];
/** What to do instead, where a handshake is passed an option of a channel. */
const INSTEAD = {
  verify: 'compare remoteStatic once it is known', acceptAnyKey: 'compare remoteStatic once it is known',
  interval: 'pass it to finish',
};
const encoder = new TextEncoder();
let lastPattern = { text: '', bytes: new Uint8Array(0) };

/**
 * The protocol name of a pattern's name.
 * @param {string} section
 * @returns {string}
 */
export function protocolName(section) {
  return `Noise_${section}_25519_ChaChaPoly_SHA256`;
}

/** A pattern as the library takes it: a protocol name or a text. */
export const wholePattern = (pattern) =>
  (pattern.includes('\n') || pattern.startsWith('Noise_') ? pattern : protocolName(pattern));

/** The bytes of a pattern: most handshakes have that of the one before. */
export function patternBytes(text) {
  if (text !== lastPattern.text) lastPattern = { text, bytes: encoder.encode(text) };
  return lastPattern.bytes;
}

/** So many messages, as the library takes them. */
export function intervalOf(interval) {
  if (!Number.isSafeInteger(interval) || interval < 0) {
    throw new RangeError('interval has to be a number of messages, from 0 to 2^53 - 1');
  }
  return interval;
}

/** A key pair, with a copy of its public key, or undefined where there is none. */
function keyPairOf(pair, what) {
  if (pair === undefined) return undefined;
  if (typeof pair?.agree !== 'function') {
    throw new TypeError(`${what} has to be a key pair, with publicKey and agree: a KeyPair, for example`);
  }
  return { pair, publicKey: copyOf(pair.publicKey, `publicKey of ${what}`, 32) };
}

/**
 * The options themselves, where there are any: of a handshake, or else of a channel. One that is passed and would
 * be ignored is refused.
 */
export function optionsOf(options, ofChannel = false) {
  if (typeof options !== 'object' || options === null) {
    throw new TypeError("there are no options: pass at least { pattern }, as { pattern: 'XX', staticKey }");
  }
  const known = ofChannel ? [...OF_HANDSHAKE, ...OF_CHANNEL] : OF_HANDSHAKE;
  const name = Object.keys(options).find((it) => options[it] !== undefined && !known.includes(it));
  if (name === undefined) return options;
  if (!OF_CHANNEL.includes(name)) throw new TypeError(`there is no option ${name}: there are ${known.join(', ')}`);
  throw new TypeError(
    `${name} is an option of NoiseSocket.open, and not of Handshake${INSTEAD[name] ? `: ${INSTEAD[name]}` : ''}`,
  );
}

/** Copies of the options, as far as they can be checked here: the library checks the rest. */
export function setupOf(options) {
  const {
    pattern,
    responder = false,
    prologue = new Uint8Array(0),
    staticKey,
    ephemeralKey,
    remoteStatic,
    remoteEphemeral,
    psks = [],
    pskFor,
  } = optionsOf(options);
  if (typeof pattern !== 'string') throw new TypeError('pattern has to be a name, as XX or XXpsk3, or a pattern text');
  bytesOf(prologue, 'prologue');
  if (prologue.length > 65535) throw new NoiseError('NOISE_LENGTH');
  if (pskFor !== undefined && typeof pskFor !== 'function') throw new TypeError('pskFor has to be a function');
  if (!Array.isArray(psks)) throw new TypeError('psks has to be an array of Uint8Array');
  if (pskFor && psks.length > 0) throw new TypeError('pass either psks or pskFor');
  if (psks.length > 9) throw new NoiseError('NOISE_PSK_COUNT');
  const key = (bytes, what) => (bytes === undefined ? undefined : copyOf(bytes, what, 32));
  return {
    pattern: wholePattern(pattern),
    responder, prologue: copyOf(prologue, 'prologue'), pskFor,
    staticKey: keyPairOf(staticKey, 'staticKey'), ephemeralKey: keyPairOf(ephemeralKey, 'ephemeralKey'),
    remoteStatic: key(remoteStatic, 'remoteStatic'), remoteEphemeral: key(remoteEphemeral, 'remoteEphemeral'),
    psks: psks.map((psk) => copyOf(psk, 'a psk', 32)),
  };
}

/** Starts a handshake at a place, and returns the library's code. `options` are those of `setupOf`. */
export function start(place, options, ephemeral, staticKey) {
  const lib = library();
  const { pattern, responder, prologue, remoteStatic, remoteEphemeral, psks } = options;
  const setup = lib.view(lib.at.setup, 422).fill(0);
  setup[0] = responder ? 1 : 0;
  for (const [key, at] of [[ephemeral, 1], [staticKey, 34], [remoteEphemeral, 67], [remoteStatic, 100]]) {
    if (!key) continue;
    setup[at] = 1;
    setup.set(key, at + 1);
  }
  setup[133] = psks.length;
  psks.forEach((psk, n) => setup.set(psk, 134 + 32 * n));
  const name = patternBytes(pattern);
  if (name.length > 512) throw new NoiseError(pattern.endsWith('\n') ? 'NOISE_PATTERN' : 'NOISE_NAME');
  const answer = lib.x.noise_start(place, ...lib.put('name', name), ...lib.put('prologue', prologue), lib.at.setup);
  lib.wipe('setup');
  return answer;
}
