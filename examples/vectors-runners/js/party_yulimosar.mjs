// The package of bindings/js, for runner.mjs. Copy this file, and have it call your implementation.
import { Handshake, KeyPair, NoiseError, load } from '../../../bindings/js/noise.mjs';

const bytes = (digits) => (digits === undefined ? undefined : Buffer.from(digits, 'hex'));

/** One party. */
export class Party {
  /** Starts a party of a group: its own keys are private ones, `rs` and `re` those of the other party's pre-message. */
  static async start(setup, role) {
    await load();
    const own = setup[role];
    const pair = async (digits) => (digits === undefined ? undefined : KeyPair.fromSecret(bytes(digits)));
    if (setup.what !== 'name' && !setup.protocol.endsWith('_25519_ChaChaPoly_SHA256')) {
      throw new setup.NotSupported('another suite');
    }
    const party = new Party();
    const heading = setup.protocol.replace(/^Noise_/, '').split('_')[0];
    const text = `${heading}:\n${setup.pattern.map((line) => `  ${line}\n`).join('')}`;
    party.handshake = new Handshake({
      pattern: setup.what === 'name' ? setup.protocol : text,
      responder: role === 'responder',
      prologue: setup.prologue,
      psks: setup.psks.map(bytes),
      staticKey: await pair(own.s),
      ephemeralKey: await pair(own.e),
      remoteStatic: bytes(own.rs),
      remoteEphemeral: bytes(own.re),
    });
    return party;
  }

  /** Whether an error is a refusal of your implementation; anything else is reported as a crash. */
  static isRefusal(error) {
    const isLength = error instanceof TypeError && error.message.endsWith('has to have 32 bytes');
    return isLength || error instanceof NoiseError;
  }

  passed() {
    if (this.handshake.stage.done) this.ciphers = this.handshake.finishCiphers();
  }

  async write(payload) {
    if (this.ciphers) return this.ciphers.send.encryptWithAd(new Uint8Array(0), payload);
    const message = await this.handshake.write(payload);
    this.passed();
    return message;
  }

  async read(message) {
    if (this.ciphers) return this.ciphers.receive.decryptWithAd(new Uint8Array(0), message);
    const payload = await this.handshake.read(message);
    this.passed();
    return payload;
  }

  rekey(direction) {
    this.ciphers[direction].rekey();
  }

  setNonce(direction, nonce) {
    this.ciphers[direction].nonce = nonce;
  }

  hash() {
    return this.ciphers.hash;
  }

  remoteStatic() {
    return this.ciphers.remoteStatic;
  }

  /** The number of the token at which a message was refused, if your implementation says so. */
  token(error) {
    return error.token;
  }
}
