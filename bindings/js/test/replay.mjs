// Runs a vector file on the module, as `noise replay` does on the library: the lines that are printed. Frames come
// whole here: pieces and raw bytes that aren't one frame are passed over.
import { Handshake, layout } from '../noise.mjs';

const hex = (bytes) => (bytes.length ? Buffer.from(bytes).toString('hex') : '-');
const bytes = (word) => (word === '-' ? new Uint8Array(0) : new Uint8Array(Buffer.from(word, 'hex')));
const OTHER = { initiator: 'responder', responder: 'initiator' };
const WORDS = {
  10: 'not-your-turn',
  11: 'too-long',
  13: 'ended',
  15: 'short',
  16: 'tag',
  17: 'exhausted',
  22: 'one-way',
  26: 'reserved',
  27: 'old',
  28: 'repeated',
};

class Xor {
  constructor(publicKey) { this.publicKey = publicKey; }
  agree(remote) { return remote.map((byte, n) => byte ^ this.publicKey[n]); }
}
class Table {
  constructor(publicKey, own, answers) { Object.assign(this, { publicKey, own, answers }); }
  agree(remote) {
    const found = this.answers.find(([own, key]) => own === this.own && key === hex(remote));
    if (!found) throw new Error('no answer');
    return bytes(found[2]);
  }
}

/** What a file says. */
export function parse(text) {
  const file = { events: [], expect: [], psks: [], answers: { initiator: [], responder: [] }, keys: {} };
  const lines = text.trimEnd().split('\n');
  let role;
  for (let n = 0; n < lines.length; n += 1) {
    const [word, ...rest] = lines[n].split(' ');
    if (word === 'protocol') {
      [file.pattern] = rest;
      if (lines[n + 1].endsWith(':')) {
        const end = lines.indexOf('end', n);
        file.pattern = `${lines.slice(n + 1, end).join('\n')}\n`;
        n = end;
      }
    } else if (word === 'prologue' || word === 'interval') [file[word]] = rest;
    else if (word === 'psk') file.psks.push(bytes(rest[0]));
    else if (OTHER[word]) { role = word; file.keys[role] = rest; }
    else if (word === 'answer') file.answers[role].push(rest);
    else if (word === 'expect') file.expect.push(rest.join(' '));
    else if (word !== 'vector') file.events.push([word, ...rest]);
  }
  return file;
}

function setUp(file, role) {
  const pair = (who, own) => {
    const [kind, e, s] = file.keys[who];
    const key = own === 'e' ? e : s;
    if (key === '-') return undefined;
    return kind === 'xor' ? new Xor(bytes(key)) : new Table(bytes(key), own, file.answers[who]);
  };
  const { before } = layout(file.pattern);
  const known = (own) => (before[OTHER[role]].includes(own) ? pair(OTHER[role], own)?.publicKey : undefined);
  return new Handshake({
    pattern: file.pattern, responder: role === 'responder', prologue: bytes(file.prologue), psks: file.psks,
    ephemeralKey: pair(role, 'e') ?? new Xor(new Uint8Array(32)), staticKey: pair(role, 's'), remoteStatic: known('s'),
    remoteEphemeral: known('e'),
  });
}

export async function replay(file) {
  const lines = [];
  const ends = {};
  for (const role of ['initiator', 'responder']) {
    ends[role] = { handshake: setUp(file, role), frames: [], datagrams: [], ended: false };
  }
  const print = (...words) => lines.push(words.join(' '));

  const open = (end) => {
    if (end.handshake?.stage.done) {
      end.transport = end.handshake.finish({ interval: Number(file.interval) });
      end.handshake = undefined;
    }
  };
  async function write(role, payload) {
    const end = ends[role];
    if (end.ended) return print('unwritten', role, 'ended');
    try {
      const message = end.transport ? end.transport.seal(bytes(payload)) : await end.handshake.write(bytes(payload));
      const frame = new Uint8Array([message.length >> 8, message.length & 255, ...message]);
      print('wrote', role, end.frames.push(frame) - 1, hex(frame));
      open(end);
      return frame;
    } catch (error) {
      if (error.code === undefined) throw error;
      print('unwritten', role, WORDS[error.number] ?? error.code);
    }
    return undefined;
  }
  async function deliver(role, frame) {
    const end = ends[role];
    if (end.ended) return print('left', role, 'ended', frame.length);
    const message = frame.slice(2);
    try {
      print('payload', role, hex(end.transport ? end.transport.open(message) : await end.handshake.read(message)));
      open(end);
    } catch (error) {
      if (error.code === undefined) throw error;
      if (error.number === 10) print('left', role, 'your-turn', frame.length);
      else if (error.number === 22) print('left', role, 'silent', frame.length);
      else if (end.transport) print('dropped', role, WORDS[error.number]);
      else { end.ended = true; print('refused', role, error.token, WORDS[error.number]); }
    }
    return undefined;
  }
  async function event([word, role, value]) {
    const end = ends[role];
    if (word === 'say') {
      const frame = await write(role, value);
      if (frame) await deliver(OTHER[role], frame);
    } else if (word === 'write') await write(role, value);
    else if (word === 'deliver' || word === 'raw') {
      const frame = word === 'raw' ? bytes(value) : ends[OTHER[role]].frames[value];
      if (!frame) print('missing', role, value);
      else if (word === 'raw' && frame.length !== 2 + frame[0] * 256 + frame[1]) throw new Error('not one frame');
      else await deliver(role, frame);
    } else if (word === 'datagrams') {
      print('datagrams', role);
      for (const it of Object.values(ends)) { it.handshake = undefined; it.sealed = it.later; }
    } else if (word === 'seal') {
      try {
        print('sealed', role, end.datagrams.push(end.sealed.seal(bytes(value))) - 1, hex(end.datagrams.at(-1)));
      } catch (error) {
        print('unsealed', role, WORDS[error.number]);
      }
    } else {
      const datagram = word === 'foreign' ? bytes(value) : ends[OTHER[role]].datagrams[value];
      if (!datagram) return print('missing', role, value);
      try {
        print('payload', role, hex(end.sealed.open(datagram)));
      } catch (error) {
        print('rejected', role, WORDS[error.number]);
      }
    }
    return undefined;
  }

  const window = file.events.find(([word]) => word === 'datagrams')?.[1];
  if (window) {
    // Both go over to datagrams at the end of the handshake: what is open then is made a state of datagrams at once.
    for (const end of Object.values(ends)) {
      const { handshake } = end;
      handshake.finish = () => {
        end.later = Handshake.prototype.finishDatagrams.call(handshake, { window: Number(window) });
        return undefined;
      };
    }
  }
  for (const it of file.events) await event(it);
  for (const role of ['initiator', 'responder']) {
    const end = ends[role];
    if (end.ended) {
      print('state', role, 'ended');
    } else if (end.sealed) {
      print('state', role, 'datagrams', end.sealed.nonce);
    } else if (end.transport) {
      print(
        'state',
        role,
        'transport',
        end.transport.nonces.send,
        end.transport.nonces.receive,
        hex(end.transport.hash),
      );
    } else {
      print('state', role, 'handshake', end.handshake.stage.passed);
    }
  }
  return lines;
}
