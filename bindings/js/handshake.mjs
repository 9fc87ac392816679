// A handshake of one party.
import { NoiseError, code, codeOf, must } from './codes.mjs';
import { freeLater, letGo, library } from './module.mjs';
import { bytesOf, copyOf, equal } from './bytes.mjs';
import { Ciphers } from './ciphers.mjs';
import { Agreements, KeyPair } from './keys.mjs';
import { OWN } from './own.mjs';
import { intervalOf, setupOf, start } from './setup.mjs';
import { Stream } from './stream.mjs';
import { Datagrams, Transport } from './transport.mjs';
import { Waiting } from './waiting.mjs';

const PLACEHOLDER = new Uint8Array(32);

/**
 * How far a handshake is.
 * @typedef {object} Stage
 * @property {number} messages How many messages the pattern has.
 * @property {number} passed How many of them were written or read.
 * @property {boolean} ended Whether a refused message has ended it.
 * @property {boolean} writesNext Whether this party writes the next message.
 * @property {boolean} done Whether all messages have passed.
 */

/** What was thrown, as a text. It may be anything. */
function textOf(thrown) {
  try {
    return String(thrown?.message || thrown);
  } catch {
    return 'what it threw has no text';
  }
}

/** The answer of a key pair, or NOISE_KEY where it fails, with what a pair of the program's says of that. */
async function asked(pair, ask) {
  try {
    return await ask();
  } catch (cause) {
    if (cause instanceof NoiseError && cause.code === 'NOISE_UNSUPPORTED') throw cause;
    const isTold = !(pair instanceof KeyPair);
    throw new NoiseError('NOISE_KEY', { cause, message: isTold ? `agree has failed: ${textOf(cause)}` : undefined });
  }
}

/** One party of a handshake, from its first message to its last. */
export class Handshake {
  #place;
  #options;
  #ephemeral;    // this and the next are a pair, and a copy of its public key
  #static;
  #waiting = new Waiting();    // for answers, until it is disposed of
  #agreements = new Agreements();
  // the first 32 bytes of the first message that was read: the other party's ephemeral key, where it has one
  #opening;
  #chosen = 0;    // psks for the message that is read
  #started = false;
  #busy = false;

  /**
   * Checks the set-up at once, and throws what noise_start returns. The ephemeral key pair is drawn at the first
   * message, unless one is passed: that must never have been used before.
   * @param {import('./setup.mjs').HandshakeOptions} options
   */
  constructor(options) {
    const { staticKey, ephemeralKey, ...rest } = setupOf(options);
    this.#static = staticKey;
    this.#ephemeral = ephemeralKey;
    this.#options = rest;
    this.#place = library().take('handshake');
    freeLater(this, [['handshake', this.#place]]);
    try {
      this.#start(ephemeralKey?.publicKey ?? PLACEHOLDER);
      if (this.#lacksPsk() !== (rest.pskFor !== undefined)) throw new NoiseError('NOISE_PSK_COUNT');
      if (rest.pskFor && ephemeralKey) this.#start(ephemeralKey.publicKey);    // it was passed one
    } catch (error) {
      this.dispose();
      throw error;
    }
    this.#started = ephemeralKey !== undefined;
  }

  #start(ephemeral) {
    must(start(this.#place, this.#options, ephemeral, this.#static?.publicKey));
  }

  /** Whether a psk token lacks its secret. If so this passes one, and the handshake has to be started again. */
  #lacksPsk() {
    return library().x.noise_set_psk(this.#place, library().put('answer', PLACEHOLDER)[0]) === code.OK;
  }

  #here() {
    if (this.#place === undefined) throw new NoiseError('NOISE_DISPOSED');
    return this.#place;
  }

  async #alone(work) {
    this.#here();
    if (this.#busy) throw new NoiseError('NOISE_BUSY');
    this.#busy = true;
    try {
      if (!this.#started) {
        const pair = await this.#waiting.for(KeyPair.generate());
        this.#ephemeral = { pair, publicKey: pair.publicKey };
        this.#start(pair.publicKey);
        this.#started = true;
      }
      return await work();
    } finally {
      this.#busy = false;
    }
  }

  /** Repeats a call as long as it asks for a result of X25519 or a psk. */
  async #answered(call) {
    const lib = library();
    for (;;) {
      const number = call(this.#here());
      const result = lib.result();
      if (number === code.WANTED) await this.#answer(result.ofStatic, lib.wanted());
      else if (number === code.WANTED_PSK && result.remoteKnown) await this.#choose(lib.wanted());
      else {
        must(number, number === code.SHORT || number === code.TAG ? result.token : undefined);
        return result;
      }
    }
  }

  async #answer(ofStatic, remote) {
    const lib = library();
    const answer = await this.#agree(ofStatic, remote);
    const place = this.#here();
    lib.view(lib.at.result + 18, 32).set(remote);
    const taken = lib.x.noise_answer(place, ofStatic, lib.at.result + 18, lib.put('answer', answer)[0]);
    lib.wipe('answer');
    must(taken);
  }

  async #choose(remoteStatic) {
    const lib = library();
    const answer = await this.#waiting.for(this.#options.pskFor(remoteStatic));
    const psk = bytesOf(answer, 'the psk of pskFor', 32);
    const taken = lib.x.noise_set_psk(this.#here(), lib.put('answer', psk)[0]);
    lib.wipe('answer');
    must(taken);
    this.#chosen += 1;
  }

  /** Keeps nothing of a message that was refused, neither its ephemeral key nor the psks that were chosen for it. */
  #forget(opening, error) {
    if (this.#place !== undefined) [this.#opening, this.#agreements] = [opening, new Agreements()];
    for (; this.#place !== undefined && this.#chosen > 0; this.#chosen -= 1) library().x.noise_unset_psk(this.#place);
    throw error;
  }

  async #agree(ofStatic, remote) {
    // With the other party's ephemeral key each static key of a pattern agrees, too, in this message or a later one.
    const next = !ofStatic && this.#opening && equal(this.#opening, remote) ? this.#static : undefined;
    const { pair } = ofStatic ? this.#static : this.#ephemeral;
    const answer = await this.#waiting.for(asked(pair, () => this.#agreements.of(pair, remote, next?.pair)));
    if (bytesOf(answer, 'the result of agree', 32).every((byte) => byte === 0)) throw new NoiseError('NOISE_KEY');
    return answer;
  }

  /**
   * Writes the next message, with this payload.
   * @param {Uint8Array} [payload]
   * @returns {Promise<Uint8Array>}
   */
  async write(payload = new Uint8Array(0)) {
    const own = copyOf(payload, 'payload');
    return this.#alone(async () => {
      const lib = library();
      const result = await this.#answered((place) => {
        const args = lib.put('payload', own);
        const number = lib.x.noise_write(place, ...args, lib.at.message, 65535, lib.at.result);
        lib.wipe('payload', own.length);
        return number;
      });
      return lib.view(lib.at.message, result.len).slice();
    });
  }

  /**
   * Reads the message that is due, and gives its payload. At NOISE_TAG and NOISE_SHORT the handshake has ended.
   * @param {Uint8Array} message
   * @returns {Promise<Uint8Array>}
   */
  async read(message) {
    return this.#readBy(library().x.noise_read, message);
  }

  /**
   * As `read`, but NOISE_TAG and NOISE_SHORT leave the handshake as it was, so that it can read another message:
   * for those that a stranger can send.
   * @param {Uint8Array} message
   * @returns {Promise<Uint8Array>}
   */
  async tryRead(message) {
    return this.#readBy(library().x.noise_try_read, message, true);
  }

  async #readBy(call, message, isTried = false) {
    const own = copyOf(message, 'message');
    return this.#alone(async () => {
      const [lib, opening] = [library(), this.#opening];
      this.#opening ??= own.slice(0, 32);
      this.#chosen = 0;
      const read = this.#answered((place) => call(place, ...lib.put('message', own), lib.at.result));
      const result = await (isTried ? read.catch((error) => this.#forget(opening, error)) : read);
      const payload = lib.view(lib.at.message + result.from, result.len).slice();
      lib.wipe('message', own.length);
      return payload;
    });
  }

  /** @returns {Stage} How far it is. */
  get stage() {
    const lib = library();
    must(lib.x.noise_stage(this.#here(), lib.at.number));
    const [messages, passed, ended, next] = lib.view(lib.at.number, 4);
    return { messages, passed, ended: ended !== 0, writesNext: next !== 0, done: ended === 0 && passed === messages };
  }

  /**
   * How many bytes the next message has with a payload of this length.
   * @param {number} payloadLength
   * @returns {number}
   */
  messageLength(payloadLength) {
    if (!Number.isSafeInteger(payloadLength) || payloadLength < 0) {
      throw new RangeError('payloadLength has to be a number of bytes');
    }
    const lib = library();
    must(lib.x.noise_message_len(this.#here(), payloadLength, lib.at.number));
    return lib.size(lib.at.number);
  }

  /**
   * The handshake hash so far. Before the first call of `write` or `read` an ephemeral key of a pre-message isn't
   * drawn yet.
   * @returns {Uint8Array}
   */
  get hash() {
    return library().hash(library().x.noise_hash, this.#here());
  }

  /**
   * The other party's static key, once it is known.
   * @returns {Uint8Array | undefined}
   */
  get remoteStatic() {
    return library().key(library().x.noise_remote_static, this.#here());
  }

  /**
   * The public key of the ephemeral pair, once it was drawn.
   * @returns {Uint8Array | undefined}
   */
  get ephemeralPublicKey() {
    return this.#ephemeral?.publicKey;
  }

  #finished(Kind, call, ...options) {
    const place = this.#here();
    if (this.#busy) throw new NoiseError('NOISE_BUSY');
    const halves = Kind.kinds.map((kind) => library().take(kind));
    const number = call(place, ...options, ...halves);
    if (number !== code.OK) {
      Kind.kinds.forEach((kind, n) => library().free(kind, halves[n]));
      throw new NoiseError(codeOf(number));
    }
    const end = new Kind(OWN, halves, { hash: this.hash, remoteStatic: this.remoteStatic });
    this.dispose();
    return end;
  }

  /**
   * Makes the transport, and uses this handshake up. Each direction is rekeyed after each `interval` of its
   * messages; 0 is never.
   * @param {{ interval?: number }} [options]
   * @returns {Transport}
   */
  finish({ interval = 0 } = {}) {
    return this.#finished(Transport, library().x.noise_finish, intervalOf(interval));
  }

  /** @private Makes the two halves of a stream with an end, in the same way. */
  finishStream({ interval = 0 } = {}) {
    return this.#finished(Stream, library().x.noise_finish_stream, intervalOf(interval));
  }

  /**
   * Makes the two cipher states (Split: Noise, 5.2), both at nonce 0, and uses this handshake up.
   * @returns {Ciphers}
   */
  finishCiphers() {
    return this.#finished(Ciphers, library().x.noise_finish_ciphers);
  }

  /**
   * Makes the state of datagrams, with a window of 64, 256 or 1024 nonces, and uses this handshake up.
   * @param {{ window?: 64 | 256 | 1024 }} [options]
   * @returns {Datagrams}
   */
  finishDatagrams({ window = 64 } = {}) {
    if (![64, 256, 1024].includes(window)) throw new NoiseError('NOISE_WINDOW');
    return this.#finished(Datagrams, library().x.noise_finish_datagrams, window);
  }

  /**
   * Overwrites the struct and the secrets, and frees their memory. Later calls throw NOISE_DISPOSED, and so does one
   * that waits for an answer.
   * @returns {void}
   */
  dispose() {
    if (this.#place === undefined) return;
    letGo(this);
    this.#waiting.end(new NoiseError('NOISE_DISPOSED'));
    library().free('handshake', this.#place);
    this.#place = undefined;
    for (const psk of this.#options.psks) psk.fill(0);
    this.#ephemeral = undefined;
    this.#agreements = undefined;
  }
}
if (Symbol.dispose) Handshake.prototype[Symbol.dispose] = Handshake.prototype.dispose;
