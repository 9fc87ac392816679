// What a pattern's messages consist of, as the library says it.
import { code, codeOf, NoiseError } from './codes.mjs';
import { library } from './module.mjs';
import { patternBytes, wholePattern } from './setup.mjs';

const ROLES = ['initiator', 'responder'];
/** The tokens of include/noise.h by their numbers. */
const TOKENS = [undefined, 'e', 's', 'ee', 'es', 'se', 'ss', 'psk', 'payload'];
/** Where the parts of noise_pattern_info are, and of noise_message_layout and its pieces. */
const INFO = { messages: 0, oneWay: 1, psks: 2, needed: 3, before: 11, tokens: 15 };
const LAYOUT = { count: 0, length: 4, pieces: 8, piece: 12 };

/** @typedef {'initiator' | 'responder'} Role */
/**
 * A part of a message.
 * @typedef {object} Piece
 * @property {'e' | 's' | 'ee' | 'es' | 'se' | 'ss' | 'psk' | 'payload'} kind
 * @property {number} from Where it begins in the message.
 * @property {number} length In bytes: 0 for a DH or psk token.
 * @property {boolean} encrypted Its last 16 bytes are a tag then.
 */
/**
 * @typedef {object} Message
 * @property {Role} from
 * @property {string[]} tokens
 * @property {Piece[]} pieces Of each token, and last of the payload.
 * @property {number} length With an empty payload.
 */
/**
 * @typedef {object} Layout
 * @property {boolean} oneWay Whether it is one message alone: only the initiator sends afterwards (Noise, 7.4).
 * @property {number} psks How many psk tokens there are.
 * @property {Record<Role, string[]>} before The tokens of the pre-messages.
 * @property {Record<Role, boolean>} static Which party has a static key.
 * @property {Message[]} messages
 */

/** The names of tokens, up to the first 0. */
function tokensAt(bytes) {
  const end = bytes.indexOf(0);
  return Array.from(end < 0 ? bytes : bytes.subarray(0, end), (token) => TOKENS[token]);
}

/** What the library says of a pattern but its messages' layouts, as bytes. */
function infoOf(pattern) {
  const lib = library();
  const number = lib.x.noise_pattern(
    ...lib.put('prologue', patternBytes(wholePattern(pattern))),
    lib.at.info,
    lib.at.result,
  );
  if (number !== code.OK) throw new NoiseError(codeOf(number));
  return lib.view(lib.at.info, 95).slice();
}

function piecesOf(pattern, number) {
  const lib = library();
  const answer = lib.x.noise_layout(
    ...lib.put('prologue', patternBytes(wholePattern(pattern))),
    number,
    0,
    lib.at.layout,
  );
  if (answer !== code.OK) throw new NoiseError(codeOf(answer));
  const bytes = lib.view(lib.at.layout, 140);
  const word = (at) => bytes[at] + 256 * bytes[at + 1];    // no message has more than 65535 bytes
  const pieces = Array.from({ length: bytes[LAYOUT.count] }, (_, n) => {
    const at = LAYOUT.pieces + LAYOUT.piece * n;
    return { kind: TOKENS[bytes[at]], from: word(at + 4), length: word(at + 8), encrypted: bytes[at + 1] !== 0 };
  });
  return { pieces, length: word(LAYOUT.length) };
}

/** Whether each party has a static key. */
export function staticKeysOf(pattern) {
  const info = infoOf(pattern);
  return { initiator: info[INFO.needed + 1] !== 0, responder: info[INFO.needed + 5] !== 0 };
}

/**
 * The messages of a pattern, of a name or a text: who sends each, its tokens, its pieces in order, and its length
 * with an empty payload. Of a text that isn't valid it throws what `checkPattern` says.
 * @param {string} pattern
 * @returns {Layout}
 */
export function layout(pattern) {
  const info = infoOf(pattern);
  const messages = Array.from({ length: info[INFO.messages] }, (_, n) => ({
    from: ROLES[n % 2],
    tokens: tokensAt(info.subarray(INFO.tokens + 10 * n, INFO.tokens + 10 * n + 10)),
    ...piecesOf(pattern, n + 1),
  }));
  const before = (n) => tokensAt(info.subarray(INFO.before + 2 * n, INFO.before + 2 * n + 2));
  return {
    oneWay: info[INFO.oneWay] !== 0,
    psks: info[INFO.psks],
    before: { initiator: before(0), responder: before(1) },
    static: staticKeysOf(pattern),
    messages,
  };
}
