// A vector file (docs/FILES.md) run by the library, for its key schedule: the keys are those of the file, and what
// X25519 gives is what the file says. checks/web compares the lines with those of `noise trace`. There is no DOM here.
import { checkPattern } from '../bindings/js/check.mjs';
import { hex, joined, unhex } from './bytes.mjs';
import { FUNDAMENTAL, SUITE, textOfName } from './patterns.mjs';
import { OTHER, ROLES } from './party.mjs';
import { layout } from './plan.mjs';
import { Run } from './run.mjs';
import { scheduleOf } from './schedule.mjs';

/** A vector file that can't be run: its line, from 1 on, or 0 where the handshake can't begin. */
export class WrongFile extends Error {
  constructor(line, why) {
    super(line ? `Line ${line} of the vector file isn’t one that can stand there.` : why);
    this.line = line;
  }
}

/** A message that isn't written, and after which the run goes on: another's turn, too long, ended, one-way. */
const REFUSED = [10, 11, 12, 13, 22];

const bytesOf = (word) => unhex(word === '-' ? '' : word);

/** The file's lines, taken one after another. */
class Lines {
  constructor(text) {
    this.all = text.replace(/\n$/, '').split('\n');
    this.at = 0;
  }

  /** The next line, if it has this form: its parts. */
  take(form) {
    const parts = form.exec(this.all[this.at] ?? '');
    if (parts) this.at += 1;
    return parts;
  }

  /** The same, of a line that has to be there. */
  must(form) {
    const parts = this.take(form);
    if (!parts) throw new WrongFile(this.at + 1);
    return parts;
  }

  some(form) {
    const found = [];
    for (let parts = this.take(form); parts; parts = this.take(form)) found.push(parts);
    return found;
  }
}

/** A key pair of the file: X25519 is what its `answer` lines say, or after `xor` the xor of the public keys. */
function pairOf(own, publicKey, isXor, answers) {
  if (publicKey === '-') return undefined;
  const key = unhex(publicKey);
  const met = new Map();
  return {
    publicKey: key, answers: met,
    agree: async (remote) => {
      const answer = isXor
        ? remote.map((byte, n) => byte ^ key[n])
        : answers.find(([, whose, other]) => whose === own && other === hex(remote))?.[3];
      if (!answer) throw new WrongFile(0, `It has no DH result of ${own} and ${hex(remote).slice(0, 8)}…`);
      const bytes = typeof answer === 'string' ? unhex(answer) : answer;
      met.set(hex(remote), bytes);
      return bytes;
    },
  };
}

function keysOf(lines, role) {
  const [, how, e, s] = lines.must(new RegExp(`^${role} (xor|table) ([0-9a-f]{64}|-) ([0-9a-f]{64}|-)$`));
  const answers = how === 'table' ? lines.some(/^answer ([es]) ([0-9a-f]{64}) ([0-9a-f]{64})$/) : [];
  return { e: pairOf('e', e, how === 'xor', answers), s: pairOf('s', s, how === 'xor', answers) };
}

const PROTOCOL = new RegExp(`^protocol (Noise_([A-Z][A-Z0-9]{0,7})\\S*_${SUITE})$`);
const EVENT = /^(?:(?:say|write|deliver|raw|seal|open|foreign) (?:initiator|responder) .*|datagrams \d+)$/;

/** What a vector file says: the set-up, the parties’ keys, and the events. */
export function readVector(text) {
  const lines = new Lines(text);
  lines.must(/^vector [12]$/);
  const [, name, base] = lines.must(PROTOCOL);
  let pattern = FUNDAMENTAL.includes(base) ? textOfName(name) : undefined;
  if (!pattern) {
    const from = lines.at;
    const end = lines.all.indexOf('end', from);
    if (end < 0) throw new WrongFile(from + 1);
    pattern = `${lines.all.slice(from, end).join('\n')}\n`;
    lines.at = end + 1;
  }
  const prologue = bytesOf(lines.must(/^prologue ((?:[0-9a-f]{2})*|-)$/)[1]);
  const interval = Number(lines.must(/^interval (0|[1-9]\d*)$/)[1]);
  const psks = lines.some(/^psk ([0-9a-f]{64})$/).map(([, psk]) => unhex(psk));
  const keys = { initiator: keysOf(lines, 'initiator'), responder: keysOf(lines, 'responder') };
  const events = lines.some(EVENT);
  lines.some(/^expect ./);
  if (lines.at < lines.all.length) throw new WrongFile(lines.at + 1);
  return { setup: { text: pattern, prologue, interval, psks }, keys, events: events.map(([line]) => line.split(' ')) };
}

/** What comes to a party in chunks, put together to frames. A party that doesn't listen loses what comes. */
class Wire {
  constructor(run) {
    this.run = run;
    this.held = { initiator: new Uint8Array(0), responder: new Uint8Array(0) };
  }

  isListening(role) {
    const { sealer, ended, handshake } = this.run[role];
    if (ended) return false;
    if (sealer) return !(this.run.plan.oneWay && role === 'initiator');
    return !handshake.stage.writesNext;
  }

  async bring(role, bytes) {
    let held = joined(this.held[role], bytes);
    while (held.length > 0) {
      if (!this.isListening(role)) {
        held = held.slice(held.length);
      } else {
        const length = held.length < 2 ? Infinity : 2 + held[0] * 256 + held[1];
        if (held.length < length) break;
        await this.run.receive(role, held.slice(2, length));
        held = held.slice(length);
      }
    }
    this.held[role] = held;
  }

  get isEmpty() {
    return ROLES.every((role) => this.held[role].length === 0);
  }
}

const frameOf = ({ message }) => Uint8Array.of(message.length >> 8, message.length & 255, ...message);

/** The chunks in which bytes arrive: the last length is repeated. */
async function inChunks(wire, role, bytes, cuts) {
  if (cuts === '-' || cuts === undefined) return wire.bring(role, bytes);
  const lengths = cuts.split(',').map(Number);
  for (let at = 0, n = 0; at < bytes.length; n += 1) {
    const length = lengths[Math.min(n, lengths.length - 1)];
    await wire.bring(role, bytes.slice(at, at + length));
    at += length;
  }
  return undefined;
}

async function happen(run, wire, [event, role, word, cuts]) {
  const { written } = run[role];
  if (event === 'deliver') {
    const item = run[OTHER[role]].written[Number(word)];
    return item && inChunks(wire, role, frameOf(item), cuts);
  }
  if (event === 'raw') return wire.bring(role, bytesOf(word));
  const before = written.length;
  const { kind, code } = await run.write(role, bytesOf(word));
  if (kind === 'unwritten' && !REFUSED.includes(code)) throw new WrongFile(0, 'It lacks the result of a DH.');
  if (event === 'say' && written.length > before) await inChunks(wire, OTHER[role], frameOf(written.at(-1)), cuts);
  return undefined;
}

/** The lines of the key schedule of a vector file, as `noise trace` prints them: those of each role in order. */
export async function scheduleOfVector(text) {
  const { setup: { psks, ...setup }, keys, events } = readVector(text);
  const verdict = checkPattern(setup.text);
  if (!verdict.valid) throw new WrongFile(0, 'Its pattern isn’t valid.');
  const plan = layout(setup.text);
  for (const role of ROLES) {
    const isDrawn = plan.before[role].includes('e')
      || plan.messages.some(({ from, tokens }) => from === role && tokens.includes('e'));
    if ((isDrawn && !keys[role].e) || (plan.static[role] && !keys[role].s)) {
      throw new WrongFile(0, `It has no key of the ${role}.`);
    }
  }
  let run;
  try {
    run = Run.of({ ...setup, mode: 'transport' }, keys, { initiator: psks, responder: psks });
  } catch (error) {
    throw new WrongFile(0, `The handshake can’t begin: ${error.message}.`);
  }
  try {
    const wire = new Wire(run);
    let hasDatagrams = false;
    for (const words of events) {
      if (words[0] === 'datagrams') {
        hasDatagrams = run.isOpen && wire.isEmpty && ROLES.every((role) => run[role].sent + run[role].taken === 0);
      } else if (!['seal', 'open', 'foreign'].includes(words[0]) && !hasDatagrams) {
        await happen(run, wire, words);
      }
    }
    return (await scheduleOf(run, hasDatagrams)).whole;
  } finally {
    run.dispose();
  }
}
