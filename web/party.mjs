// One party of a run, and its key pairs. No DOM here.
import { hex } from './bytes.mjs';

export const OTHER = { initiator: 'responder', responder: 'initiator' };
export const ROLES = ['initiator', 'responder'];
/** The code of include/noise.h that a refused call throws. */
export const numberOf = ({ number, code }) => number ?? code;

/** A key pair that remembers what it was asked: the answers that a vector file hands in. */
export class Asked {
  constructor(pair, own) {
    Object.assign(this, { pair, own, publicKey: pair.publicKey, answers: new Map() });
  }

  async agree(remote) {
    const answer = await this.pair.agree(remote);
    this.answers.set(hex(remote), answer);
    return answer;
  }
}

export class Party {
  /**
   * What it has written, by the number of the message; and of a stream the bytes that came and aren't read, and how it
   * stands.
   */
  constructor(role, keys, psks, mode) {
    Object.assign(this, {
      role,
      keys,
      psks,
      mode,
      written: [],
      datagrams: [],
      opened: new Set(),
      ended: false,
      sent: 0,
      taken: 0,
      payloads: 0,
    });
    Object.assign(this, { held: new Uint8Array(0), hasEnded: false, sawEnd: false, isBroken: false });
  }

  get hash() {
    if (this.sealer) return this.sealer.hash;
    return this.ended ? undefined : this.handshake.hash;
  }

  /** Whether it is past its handshake in this mode. */
  isIn(mode) {
    return Boolean(this.sealer) && this.mode === mode;
  }
}
