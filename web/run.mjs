// A run of a pattern: two parties with real keys in one page, the messages between them, and what has come of each. No
// DOM here.
import { Handshake } from '../bindings/js/handshake.mjs';
import { KeyPair } from '../bindings/js/keys.mjs';
import { frame, hex, hexOrDash } from './bytes.mjs';
import { Asked, OTHER, Party, ROLES, numberOf } from './party.mjs';
import { layout } from './plan.mjs';
import { frameOf, linesOf, rawOf, reports, silence, take } from './streams.mjs';

/** The words of the command for the codes of include/noise.h. */
export const WORDS = {
  10: 'not-your-turn',
  11: 'too-long',
  13: 'ended',
  15: 'short',
  16: 'tag',
  17: 'exhausted',
  22: 'one-way',
  26: 'reserved',
  27: 'old',
  28: 'repeated',
};

/** The places of a message's changed bytes, in order. */
export const sorted = (flips) => [...flips].sort((a, b) => a - b);

/** A call that can't be made now, with the reason for the user. */
export class NotNow extends Error {}

export class Run {
  /**
   * Draws keys, and makes both parties. `setup` has text, prologue (bytes), interval, mode ('transport', 'stream' or
   * 'datagrams'), window, and whether the responder gets psks of its own.
   */
  static async start(setup) {
    const plan = layout(setup.text);
    const hasOwnPsks = plan.psks > 0 && Boolean(setup.ownPsks);
    const secrets = () => Array.from({ length: plan.psks }, () => crypto.getRandomValues(new Uint8Array(32)));
    const shared = secrets();
    const psks = { initiator: shared, responder: hasOwnPsks ? secrets() : shared };
    const keys = {};
    const draw = async (own) => new Asked(await KeyPair.generate(), own);
    await Promise.all(ROLES.map(async (role) => {
      const [e, s] = await Promise.all([draw('e'), plan.static[role] ? draw('s') : undefined]);
      keys[role] = { e, s };
    }));
    return Run.of(setup, keys, psks);
  }

  /** Makes both parties, with these keys and psks of each. */
  static of(setup, keys, psks) {
    const run = new Run();
    Object.assign(run, { setup, plan: layout(setup.text), events: [], lines: [], log: [], steps: [], isClosed: false });
    Object.assign(run, { psks: psks.initiator, hasOwnPsks: psks.initiator !== psks.responder });
    for (const role of ROLES) run[role] = run.#party(role, keys, psks[role]);
    return run;
  }

  #party(role, keys, psks) {
    const { text, prologue, mode } = this.setup;
    const known = (own) =>
      (this.plan.before[OTHER[role]].includes(own) ? keys[OTHER[role]][own]?.publicKey : undefined);
    const party = new Party(role, keys[role], psks, mode);
    party.handshake = new Handshake({
      pattern: text, responder: role === 'responder', prologue, psks,
      ephemeralKey: keys[role].e, staticKey: keys[role].s, remoteStatic: known('s'), remoteEphemeral: known('e'),
    });
    return party;
  }

  get isOpen() {
    return Boolean(this.initiator.sealer && this.responder.sealer);
  }

  /** Who is to write the handshake's next message, or undefined. */
  get next() {
    return ROLES.find((role) => {
      const party = this[role];
      return !party.sealer && !party.ended && party.handshake.stage.writesNext && !party.handshake.stage.done;
    });
  }

  /** The handshake's message that is written and that the other party waits for, or undefined. */
  get pending() {
    return ROLES.flatMap((role) => this[role].written.filter(({ number }) => {
      const to = this[OTHER[role]];
      return number !== undefined && !to.sealer && !to.ended && number === to.handshake.stage.passed;
    }).map((item) => ({ to: OTHER[role], item })))[0];
  }

  /** Why a party can't write now, or undefined. */
  silenceOf(role) {
    const party = this[role];
    if (party.ended) return 'its handshake has ended';
    if (party.isIn('stream')) return silence(this, role);
    return party.isIn('datagrams') && !this.isOpen ? 'the other party isn’t open yet' : undefined;
  }

  #finish(party) {
    const { interval, window, mode } = this.setup;
    if (party.sealer || !party.handshake.stage.done) return;
    if (mode === 'datagrams') {
      party.sealer = party.handshake.finishDatagrams({ window });
    } else {
      party.sealer =
        mode === 'stream' ? party.handshake.finishStream({ interval }) : party.handshake.finish({ interval });
    }
    if (mode !== 'datagrams' || !this.isOpen) return;
    this.events.push(`datagrams ${window}`);
    this.lines.push(`datagrams ${window}`);
  }

  #note(role, kind, more = {}) {
    const entry = {
      role,
      kind,
      at: this.log.length + 1,
      hash: { initiator: this.initiator.hash, responder: this.responder.hash },
      ...more,
    };
    this.log.push(entry);
    return entry;
  }

  /** Keeps what a party has written. `whole` is a message, or of a stream its frame. */
  #keep(party, whole, about) {
    const message = party.isIn('stream') ? whole.subarray(2) : whole;
    const kept = about.isDatagram ? party.datagrams : party.written;
    const transport = about.number === undefined && !about.isDatagram ? party.sent + 1 : undefined;
    const item = { ...about, message, transport, n: kept.length, flips: new Set(), comings: [] };
    kept.push(item);
    party.sent += about.number === undefined ? 1 : 0;
    this.lines.push(
      `${about.isDatagram ? 'sealed' : 'wrote'} ${party.role} ${item.n} `
        + `${hex(about.isDatagram ? message : frame(message))}`,
    );
    return item;
  }

  async #make(party, payload) {
    if (party.isIn('stream')) return frameOf(party, payload);
    return party.sealer ? party.sealer.seal(payload) : party.handshake.write(payload);
  }

  /** A party writes its next message, or datagram, with this payload; without one it ends its stream. */
  async write(role, payload) {
    const party = this[role];
    const why = this.silenceOf(role);
    if (why && party.sealer) throw new NotNow(`The ${role} can’t write: ${why}.`);
    if (payload === undefined && !party.isIn('stream')) throw new NotNow(`The ${role} has no stream to end.`);
    if (payload?.length === 0 && party.isIn('stream')) {
      throw new NotNow('A stream has no empty payload: nothing was written.');
    }
    const isDatagram = party.isIn('datagrams');
    const isEnd = payload === undefined;
    this.steps.push(isEnd ? { step: 'end', role } : { step: 'write', role, payload });
    this.events.push(`${isDatagram ? 'seal' : 'write'} ${role} ${hexOrDash(payload ?? new Uint8Array(0))}`);
    try {
      const number = party.sealer ? undefined : party.handshake.stage.passed;
      const whole = await this.#make(party, payload);
      if (number !== undefined && whole.length !== this.plan.messages[number].length + payload.length) {
        throw new Error('the picture has another length than the message');
      }
      const item = this.#keep(party, whole, { number, payload, isDatagram, isEnd });
      this.#finish(party);
      return this.#note(role, 'wrote', { ...item, item });
    } catch (error) {
      if (error.code === undefined) throw error;
      this.lines.push(`${isDatagram ? 'unsealed' : 'unwritten'} ${role} ${WORDS[numberOf(error)] ?? error.name}`);
      return this.#note(role, 'unwritten', { code: numberOf(error) });
    }
  }

  /** What the other party has written comes to this one: as it is, or with the lowest bits of these bytes changed. */
  async deliver(role, n, flips = []) {
    const item = this.#written(role, n);
    const bytes = item.message.slice();
    if (flips.some((at) => at >= bytes.length)) throw new NotNow('The message has no such byte.');
    for (const at of flips) bytes[at] ^= 1;
    if (this.isClosed) throw new NotNow('The connection is closed.');
    this.steps.push({ step: 'deliver', role, n, flips: [...flips] });
    const due = this[role].sealer && !item.isDatagram ? this[role].taken + 1 : undefined;
    const about = {
      n,
      item,
      number: item.number,
      transport: item.transport,
      due,
      isDatagram: item.isDatagram,
      isEnd: item.isEnd,
      flips: [...flips],
      bytes,
    };
    return this[role].isIn('stream') ? this.#take(role, frame(bytes), about) : this.#read(role, bytes, about);
  }

  /** Bytes come to a party as a message, which nobody may have written. */
  async receive(role, bytes) {
    const { sealer, handshake } = this[role];
    const number = sealer ? undefined : handshake.stage.passed;
    return this.#read(role, bytes, { item: { comings: [] }, number, flips: [], bytes });
  }

  #written(role, n) {
    const from = this[OTHER[role]];
    const isDatagram = this.isOpen && this.setup.mode === 'datagrams';
    if (this[role].isIn('datagrams') && !isDatagram) throw new NotNow('The other party isn’t open yet.');
    const item = (isDatagram ? from.datagrams : from.written)[n];
    if (!item) throw new NotNow('There is no such message.');
    return item;
  }

  /** Bytes of a stream come to a party. */
  #take(role, bytes, about) {
    const isWhole = bytes.length === about.item.message.length + 2;
    const outcomes = take(this, role, bytes);
    if (!outcomes[0]?.isUnread) {
      this.events.push(about.flips.length || !isWhole ? rawOf(role, bytes) : `deliver ${role} ${about.n} -`);
      this.lines.push(...linesOf(role, outcomes));
    }
    for (const { payload, code, wanted, isUnread } of outcomes) {
      if (isUnread) this.#outcome(role, 'unread', { ...about, code: this[role].isBroken ? undefined : 43 });
      else if (code !== undefined) this.#outcome(role, 'refused', { ...about, code });
      else if (wanted !== undefined) this.#outcome(role, 'waits', { ...about, wanted });
      else this.#outcome(role, payload === undefined ? 'ended' : 'accepted', { ...about, payload });
    }
    return this.log.at(-1);
  }

  /** Notes what came of a message, with the message too. */
  #outcome(role, kind, about) {
    about.item.comings.push(kind);
    return this.#note(role, kind, about);
  }

  async #read(role, bytes, about) {
    const party = this[role];
    const { n, isDatagram, flips } = about;
    const [plain, other] = isDatagram ? ['open', 'foreign'] : ['deliver', 'raw'];
    const end = isDatagram ? '' : ' -';
    this.events.push(
      flips.length ? `${other} ${role} ${hex(isDatagram ? bytes : frame(bytes))}` : `${plain} ${role} ${n}${end}`,
    );
    if (party.ended) {
      this.lines.push(`left ${role} ended ${bytes.length + 2}`);
      return this.#outcome(role, 'refused', { ...about, code: 13 });
    }
    try {
      const payload = party.sealer ? party.sealer.open(bytes) : await party.handshake.read(bytes);
      this.lines.push(`payload ${role} ${hexOrDash(payload)}`);
      if (party.sealer) party.taken += 1;
      if (isDatagram) party.opened.add(n);
      this.#finish(party);
      return this.#outcome(role, 'accepted', { ...about, payload });
    } catch (error) {
      if (error.code === undefined) throw error;
      return this.#refuse(party, error, { ...about, length: bytes.length + 2 });
    }
  }

  #refuse(party, error, about) {
    const { role } = party;
    const { token } = error;
    const code = numberOf(error);
    if (about.isDatagram) {
      this.lines.push(`rejected ${role} ${WORDS[code]}`);
    } else if (code === 10 || code === 22) {
      this.lines.push(`left ${role} ${code === 10 ? 'your-turn' : 'silent'} ${about.length}`);
    } else if (party.sealer) {
      this.lines.push(`dropped ${role} ${WORDS[code]}`);
    } else {
      this.lines.push(`refused ${role} ${token} ${WORDS[code]}`);
      party.ended = true;
    }
    return this.#outcome(role, 'refused', { ...about, code, token });
  }

  /** So many bytes of a frame of a stream come to a party, and then the connection ends. */
  async cut(role, n, count) {
    const item = this.#written(role, n);
    if (this.isClosed || !this[role].isIn('stream')) throw new NotNow('There is no stream to cut.');
    this.steps.push({ step: 'cut', role, n, count });
    const about = {
      n,
      item,
      transport: item.transport,
      number: item.number,
      isEnd: item.isEnd,
      flips: [],
      bytes: item.message,
    };
    if (count > 0) this.#take(role, frame(item.message).subarray(0, count), about);
    return this.#closed();
  }

  /** The connection ends. */
  async close() {
    if (this.isClosed || !this.isOpen || this.setup.mode !== 'stream') {
      throw new NotNow('There is no open stream to close.');
    }
    this.steps.push({ step: 'close' });
    return this.#closed();
  }

  #closed() {
    this.isClosed = true;
    return this.#note(undefined, 'closed', { reports: reports(this) });
  }

  /** Passes what is left of the handshake: a message that is on its way comes as it is then. */
  async passAll(payloadOf) {
    for (;;) {
      const { pending, next } = this;
      if (pending) await this.deliver(pending.to, pending.item.n, sorted(pending.item.flips));
      else if (next) await this.write(next, payloadOf(next));
      else return;
    }
  }

  /** Does a step of a run that was kept, with the keys of this one. */
  async repeat({ step, role, payload, n, flips, count }) {
    if (step === 'write') return this.write(role, payload);
    if (step === 'end') return this.write(role);
    if (step === 'deliver') return this.deliver(role, n, flips);
    return step === 'cut' ? this.cut(role, n, count) : this.close();
  }

  dispose() {
    for (const role of ROLES) {
      this[role].sealer?.dispose();
      this[role].handshake.dispose();
    }
  }
}
