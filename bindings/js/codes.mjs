// The codes of refused calls, and the error that they throw.

/** The numbers of include/noise.h. */
export const code = Object.freeze({
  OK: 0, NAME: 1, PATTERN: 2, EPHEMERAL_MISSING: 4, STATIC_MISSING: 5, REMOTE_MISSING: 6, REMOTE_UNEXPECTED: 7,
  PSK_COUNT: 8, NOT_YOUR_TURN: 10, TOO_LONG: 11, DONE: 12, ENDED: 13, AGREEMENT: 14, SHORT: 15, TAG: 16,
  EXHAUSTED: 17, ROOM: 18, NOT_DONE: 19, WANTED: 20, ONE_WAY: 22, STRUCT: 23, LENGTH: 24, WINDOW: 25, RESERVED: 26,
  OLD: 27, REPEATED: 28, NOT_DUE: 29, HEADING: 30, ARROW: 31, TOKEN: 32, PRE_MESSAGE: 33, TURN: 34, PSK_PLACE: 35,
  NAME_TAKEN: 36, LIMIT: 37, ENDING: 38, RULE: 39, WANTED_PSK: 40, END: 41, MORE: 42, CLOSED: 43, CUT: 44,
  OVERLAP: 45,
});

/** What each means; from BUSY on they are this package's own. */
const TEXTS = Object.freeze({
  NAME: 'no protocol name of a fundamental pattern with 25519, ChaChaPoly and SHA256, '
    + 'or a psk place beyond its messages',
  PATTERN: 'a pattern text that spells no valid pattern: checkPattern says where',
  EPHEMERAL_MISSING: 'the pattern has a token e of this party, and no ephemeral key was passed',
  STATIC_MISSING: 'the pattern has a token s of this party: pass staticKey',
  REMOTE_MISSING: "a key of the other party's pre-message is missing: pass remoteStatic or remoteEphemeral",
  REMOTE_UNEXPECTED: "a key was passed that isn't in the other party's pre-message: leave it out",
  PSK_COUNT: 'not one secret for each psk token: pass psks, or pskFor',
  NOT_YOUR_TURN: 'the other party is to write, or at read this one is',
  TOO_LONG: 'the message or datagram would have, or has, more bytes than it may have',
  DONE: 'all messages of the handshake have passed: finish',
  ENDED: 'the handshake was ended by a refused message, or has been finished: start anew',
  AGREEMENT: 'the opaque struct was changed',
  SHORT: 'the message has too few bytes',
  TAG: 'a tag is wrong: something differs between the parties, or the message was changed',
  EXHAUSTED: 'no more messages under this key: start anew',
  ROOM: 'the place for the message is too short',
  NOT_DONE: 'messages of the handshake are still due',
  WANTED: 'the call needs a result of X25519',
  ONE_WAY: 'a one-way pattern: the responder seals nothing, and nothing comes to the initiator',
  STRUCT: 'the opaque struct holds no state that a call could have made',
  LENGTH: 'more than 65535 bytes were passed',
  WINDOW: 'a window other than 64, 256 and 1024',
  RESERVED: 'the datagram has the nonce 2^64 - 1, which none has: drop it',
  OLD: 'the datagram is further below the greatest opened one than the window reaches: drop it',
  REPEATED: 'a datagram of this nonce was opened: drop it',
  NOT_DUE: "write wouldn't write a payload of this length now",
  HEADING: "the first line isn't a base, its modifiers in order, and a colon",
  ARROW: "the line doesn't begin with two spaces, an arrow and a space",
  TOKEN: 'something between the commas is no token',
  PRE_MESSAGE: 'a line before "..." has other tokens than e, s or "e, s", or it or "..." is in the wrong place',
  TURN: "it is the other party's turn",
  PSK_PLACE: "the psk tokens aren't where the heading says",
  NAME_TAKEN: 'the base is that of a fundamental pattern, and this is another',
  LIMIT: 'a ninth message, no token but psk, or more than eight others',
  ENDING: 'the line has no line feed, or there is no message',
  RULE: 'the pattern breaks a rule',
  WANTED_PSK: "a psk token comes before the other party's static key, by which pskFor would choose: pass psks",
  END: 'the other party has ended its stream, and all of it came',
  MORE: "the frame isn't complete",
  CLOSED: 'the stream was ended before, or has refused something',
  CUT: 'the connection ended before the other party has ended its stream, or in the handshake, or was never made: '
    + 'cause is its error, if it had one',
  OVERLAP: 'a buffer that the call writes to overlaps another one: no call of this package meets it',
  BUSY: 'another call on this handshake is under way: await it first',
  DISPOSED: 'this object is used up',
  NOT_LOADED: 'await load() first',
  UNSUPPORTED: "WebCrypto's X25519 isn't there: a page needs a browser that has it, and a secure context, "
    + 'https or http://localhost',
  KEY: "X25519 fails for the other party's public key, or gives all zeros: close",
  REFUSED: "verify didn't return true for the other party's static key, and the connection was closed",
  UNAUTHENTICATED: 'nothing says who may be the other party: '
    + 'pass verify, remoteStatic, psks or pskFor, or acceptAnyKey: true',
  BACKLOG: 'more came over the WebSocket than may wait until it is received, and the connection was closed',
});

const NAMES = new Map(Object.entries(code).map(([name, number]) => [number, `NOISE_${name}`]));

/**
 * What a call was refused for, by the name of include/noise.h, or of this package.
 * @typedef {`NOISE_${keyof typeof TEXTS}`} Code
 */

/** The name of the library's number. */
export const codeOf = (number) => NAMES.get(number) ?? 'NOISE_UNKNOWN';

/** What a refused call throws. */
export class NoiseError extends Error {
  /**
   * @param {Code} name
   * @param {{ token?: number, cause?: unknown, message?: string }} [more]
   */
  constructor(name, { token, cause, message } = {}) {
    super(message ?? TEXTS[name.slice(6)] ?? name, cause === undefined ? undefined : { cause });
    /**
     * For example NOISE_TAG.
     * @type {Code}
     */
    this.code = name;
    /**
     * The number of `code` in include/noise.h; the codes of this package alone have none.
     * @type {number | undefined}
     */
    this.number = code[name.slice(6)];
    /**
     * At NOISE_SHORT and NOISE_TAG of `Handshake.read`: the token at which the message was refused, from 0 on; the
     * payload comes after the last.
     * @type {number | undefined}
     */
    this.token = token;
  }
}
Object.defineProperty(NoiseError.prototype, 'name', { value: 'NoiseError', configurable: true, writable: true });

/** Throws unless the number is that of OK. */
export function must(number, token) {
  if (number !== code.OK) throw new NoiseError(codeOf(number), { token });
}
