// The key schedule of a run, in the lines of `noise trace` (docs/FILES.md). The library gives no chaining key and no
// cipher key, so this is the page's own working out of sections 4 and 5 of the standard from the DH results, by
// WebCrypto: its hash is compared with the library's after each message, and checks/web compares all of it with another
// program. These lines are secrets of the run. No DOM here.
import { encode, hex, hexOrDash, joined } from './bytes.mjs';
import { rekeyed } from './chacha.mjs';
import { OTHER, ROLES } from './party.mjs';
import { protocolName } from './patterns.mjs';

/** The number of the first message in these lines. */
const FIRST = 1;
const HMAC = { name: 'HMAC', hash: 'SHA-256' };

const sha256 = async (...parts) => new Uint8Array(await crypto.subtle.digest('SHA-256', joined(...parts)));

async function hmac(key, ...parts) {
  const made = await crypto.subtle.importKey('raw', key, HMAC, false, ['sign']);
  return new Uint8Array(await crypto.subtle.sign('HMAC', made, joined(...parts)));
}

async function hkdf(chainingKey, input, count) {
  const key = await hmac(chainingKey, input);
  const outputs = [];
  for (let n = 1; n <= count; n += 1) {
    outputs.push(await hmac(key, outputs.at(-1) ?? new Uint8Array(0), Uint8Array.of(n)));
  }
  return outputs;
}

/** The SymmetricState of 5.2, as far as hashes and keys go. */
class Symmetric {
  constructor(h, ck, k, n) {
    Object.assign(this, { h, ck, k, n });
  }

  static async named(name) {
    const bytes = encode(name);
    const h = bytes.length <= 32 ? joined(bytes, new Uint8Array(32 - bytes.length)) : await sha256(bytes);
    return new Symmetric(h, h, undefined, 0);
  }

  copy() {
    return new Symmetric(this.h, this.ck, this.k, this.n);
  }

  async mixHash(bytes) {
    this.h = await sha256(this.h, bytes);
  }

  async mixKey(input) {
    [this.ck, this.k] = await hkdf(this.ck, input, 2);
    this.n = 0;
  }

  async mixKeyAndHash(input) {
    const [ck, mixed, k] = await hkdf(this.ck, input, 3);
    await this.mixHash(mixed);
    Object.assign(this, { ck, k, n: 0 });
  }

  /** What is encrypted or decrypted is hashed as it stands in the message. */
  async passText(bytes) {
    await this.mixHash(bytes);
    if (this.k) this.n += 1;
  }

  get words() {
    return `${hex(this.h)} ${hex(this.ck)} ${this.k ? hex(this.k) : '-'} ${this.n}`;
  }
}

/** One party's schedule, from its start on. */
class Schedule {
  static async of(run, role) {
    const { section, before } = run.plan;
    const made = Object.assign(new Schedule(), {
      run,
      role,
      remote: {},
      psk: 0,
      lines: [],
      keys: undefined,
      nonces: { initiator: 0, responder: 0 },
    });
    made.state = await Symmetric.named(protocolName(section));
    made.#start('name', 'InitializeSymmetric');
    await made.state.mixHash(run.setup.prologue);
    made.#start('prologue', 'MixHash');
    for (const party of ROLES) {
      for (const own of before[party]) {
        const key = run[party].keys[own].publicKey;
        if (party !== role) made.remote[own] = key;
        made.#start(`${party}-${own}`, await made.#mixPublic(made.state, own, key));
      }
    }
    return made;
  }

  #start(name, call) {
    this.lines.push(`trace ${this.role} start ${this.lines.length} ${name} ${call} - - ${this.state.words}`);
  }

  async #mixPublic(state, own, key) {
    await state.mixHash(key);
    if (own !== 'e' || this.run.plan.psks === 0) return 'MixHash';
    await state.mixKey(key);
    return 'MixHash,MixKey';
  }

  /** One token of a message: what it is called, and how many bytes it has there. */
  async #token(state, token, rest, isOwn, remote) {
    if (token === 'psk') {
      await state.mixKeyAndHash(this.run[this.role].psks[this.psk]);
      this.psk += 1;
      return ['MixKeyAndHash', 0];
    }
    if (token === 'e') {
      remote.e = isOwn ? remote.e : rest.slice(0, 32);
      return [await this.#mixPublic(state, 'e', rest.slice(0, 32)), 32];
    }
    if (token === 's') {
      const length = state.k ? 48 : 32;
      if (!isOwn) remote.s = state.k ? this.run[OTHER[this.role]].keys.s.publicKey : rest.slice(0, 32);
      await state.passText(rest.slice(0, length));
      return [isOwn ? 'EncryptAndHash' : 'DecryptAndHash', length];
    }
    const [own, other] = this.role === 'initiator' ? token : [token[1], token[0]];
    await state.mixKey(this.run[this.role].keys[own].answers.get(hex(remote[other])));
    return ['MixKey', 0];
  }

  /**
   * The lines of a handshake message that this party has written or read. Of a refused one they are those before the
   * token that was refused.
   */
  async handshake({ kind, number, message, bytes = message, token: last }) {
    const isOwn = kind === 'wrote';
    const { tokens } = this.run.plan.messages[number];
    const [state, remote, lines] = [this.state.copy(), { ...this.remote }, []];
    let at = 0;
    const add = (n, name, call, length) => {
      lines.push(
        `trace ${this.role} ${number + FIRST} ${n} ${name} ${call} ${at} `
          + `${hexOrDash(bytes.subarray(at, at + length))} ${state.words}`,
      );
      at += length;
    };
    for (const [n, token] of tokens.slice(0, last).entries()) {
      add(n, token, ...await this.#token(state, token, bytes.subarray(at), isOwn, remote));
    }
    if (last !== undefined) return lines;
    await state.passText(bytes.subarray(at));
    add(tokens.length, 'payload', isOwn ? 'EncryptAndHash' : 'DecryptAndHash', bytes.length - at);
    Object.assign(this, { state, remote });
    return number === this.run.plan.messages.length - 1 ? [...lines, ...await this.#split()] : lines;
  }

  async #split() {
    const { h, ck } = this.state;
    const [initiator, responder] = await hkdf(ck, new Uint8Array(0), 2);
    this.keys = { initiator, responder };
    return ROLES.map(
      (role, n) => `trace ${this.role} open ${n} ${role} Split - - ${hex(h)} ${hex(ck)} ${hex(this.keys[role])} 0`,
    );
  }

  get datagrams() {
    return ROLES.map((role, n) => `trace ${this.role} datagrams ${n} ${role} - - - - - ${hex(this.keys[role])} -`);
  }

  /** The lines of a transport message, in the direction of whoever wrote it. */
  transport({ kind, role }) {
    const writer = kind === 'wrote' ? role : OTHER[role];
    const line = (name, call) => `trace ${this.role} transport - ${name} ${call} - - - - `
      + `${hex(this.keys[writer])} ${this.nonces[writer]}`;
    if (kind === 'refused') return [line('dropped', 'DecryptWithAd')];
    const lines = [kind === 'wrote' ? line('sent', 'EncryptWithAd') : line('opened', 'DecryptWithAd')];
    this.nonces[writer] += 1;
    const { interval } = this.run.setup;
    if (interval === 0 || this.nonces[writer] % interval !== 0) return lines;
    this.keys[writer] = rekeyed(this.keys[writer]);
    return [...lines, line('renewed', 'Rekey')];
  }
}

const isOpened = ({ kind }) => ['wrote', 'accepted', 'ended'].includes(kind);

/** The lines of one entry of the log. */
async function linesOf(schedules, run, entry) {
  const { role, kind, number, isDatagram, code, token } = entry;
  const schedule = schedules[role];
  if (!schedule || isDatagram) return [];
  if (number === undefined) {
    return isOpened(entry) || (kind === 'refused' && [15, 16].includes(code)) ? schedule.transport(entry) : [];
  }
  if (!isOpened(entry) && token === undefined) return [];
  const lines = await schedule.handshake(entry);
  if (isOpened(entry) && hex(schedule.state.h) !== hex(entry.hash[role])) {
    throw new Error('the hash that the page works out isn’t the library’s');
  }
  const isDone = run.setup.mode === 'datagrams' && ROLES.every((it) => schedules[it].keys) && isOpened(entry);
  return isDone ? [...lines, ...ROLES.flatMap((it) => schedules[it].datagrams)] : lines;
}

/** The key schedule of a run: the lines of its start, and those of each entry of its log; and those of datagrams. */
export async function scheduleOf(run, hasDatagrams = false) {
  const made = await Promise.all(ROLES.map((role) => Schedule.of(run, role)));
  const schedules = Object.fromEntries(ROLES.map((role, n) => [role, made[n]]));
  const start = made.flatMap(({ lines }) => lines);
  const entries = new Map();
  for (const entry of [...run.log]) entries.set(entry, await linesOf(schedules, run, entry));
  const last = hasDatagrams ? made.flatMap(({ datagrams }) => datagrams) : [];
  return { start, entries, whole: [...start, ...[...entries.values()].flat(), ...last] };
}
