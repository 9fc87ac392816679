// Channels with a program of another kind at the other end, over TCP and WebSocket, whatever the order in which both
// end, and behind a relay that flips, cuts, repeats or drops a byte: live.mjs PEER COMMAND.., where the command takes
// the words of peer.py. What both report is compared with the theorem of docs/THEOREM.md.
import assert from 'node:assert/strict';
import { spawn } from 'node:child_process';
import { createHash, randomBytes } from 'node:crypto';
import { on, once } from 'node:events';
import { connect, createServer } from 'node:net';
import { createInterface } from 'node:readline';
import { KeyPair, NoiseError, NoiseSocket, layout, load } from '../../../bindings/js/noise.mjs';
import { overWebSocket, relayed } from './carriers.mjs';

const [peerName, ...command] = process.argv.slice(2);
const PATTERNS = ['XX', 'IK', 'NNpsk0', 'XXpsk3', 'IKpsk2', 'KK'];
/** When both end their streams: JavaScript's end, then the peer's. */
const ORDERS = [
  'ends ends', 'waits ends', 'ends waits', 'closes ends', 'ends closes', 'closes closes', 'waits closes',
  'closes waits',
].map((it) => it.split(' '));
const NOTHING = { kind: 'nothing', at: 0 };
const MEGABYTE = 1 << 20;

const ALL = new Uint8Array(Buffer.alloc(MEGABYTE, Uint8Array.from({ length: 251 }, (_, n) => n)));
const bytes = (size) => ALL.subarray(0, size);
const sum = (payload) => createHash('sha256').update(payload).digest('hex');
const hex = (it) => Buffer.from(it).toString('hex');

/** The peer's program for so many connections, and the next socket to it. */
async function start({ pattern, responder, order, size }, count) {
  const [ours, theirs] = [randomBytes(32), randomBytes(32)];
  const [own, other] = await Promise.all([ours, theirs].map((it) => KeyPair.fromSecret(it)));
  const psk = pattern.includes('psk') ? hex(randomBytes(32)) : '-';
  const server = responder ? createServer({ allowHalfOpen: true }).listen(0, '127.0.0.1') : undefined;
  const taken = server && on(server, 'connection');
  if (server) await once(server, 'listening');
  const address = server ? `127.0.0.1:${server.address().port}` : '@127.0.0.1:0';
  const words = [pattern, hex(theirs), hex(own.publicKey), psk, address, order[1], String(size), String(count)];
  const child = spawn(command[0], [...command.slice(1), ...words], { stdio: ['ignore', 'pipe', 'inherit'] });
  const lines = createInterface({ input: child.stdout })[Symbol.asyncIterator]();
  const line = async () => (await lines.next()).value;
  const [host, port] = server ? [] : (await line()).split(':');
  const socket = async () => {
    if (taken) return (await taken.next()).value[0];
    const it = connect({ host, port: Number(port), allowHalfOpen: true });
    await once(it, 'connect');
    return it;
  };
  return { own, other, psk, line, socket, end: async () => {
    server?.close();
    if (child.exitCode === null) await once(child, 'exit');
    assert.equal(child.exitCode, 0);
  } };
}

/** What open is passed. */
function options({ pattern, responder }, { own, other, psk }) {
  const plan = layout(pattern);
  const [role, remote] = responder ? ['responder', 'initiator'] : ['initiator', 'responder'];
  return {
    pattern, responder, prologue: new TextEncoder().encode('live'), signal: AbortSignal.timeout(120000),
    staticKey: plan.static[role] ? own : undefined,
    remoteStatic: plan.before[remote].includes('s') ? other.publicKey : undefined,
    psks: psk === '-' ? [] : [new Uint8Array(Buffer.from(psk, 'hex'))],
    verify: plan.static[remote] ? (key) => hex(key) === hex(other.publicKey) : undefined,
  };
}

async function sendAll(channel, size, order, report) {
  const all = bytes(size);
  try {
    for (let at = 0, next = 1; at < size; at += next) {
      next = Math.min(next * 3, 65519, size - at);
      await channel.send(all.subarray(at, at + next));
    }
    report.ended = order !== 'waits';
    if (order === 'ends') await channel.end();
  } catch (error) {
    report.unsent = error.code;    // what came can still be received
    report.ended = false;
  }
}

/** What JavaScript's end does, and what it reports. */
async function party(carrier, setup, { order: [order], size }) {
  const report = { count: 0, hash: createHash('sha256'), otherEnded: false, ended: false };
  try {
    const channel = await NoiseSocket.open(carrier, setup);
    const sending = sendAll(channel, size, order, report);
    if (order !== 'closes') {
      for await (const payload of channel) {
        report.hash.update(payload);
        report.count += payload.length;
      }
      report.otherEnded = true;
      await sending;
      if (!report.unsent) report.ended = true;
    }
    await sending;
    await channel.close();
  } catch (error) {
    assert.ok(error instanceof NoiseError, error);
    report.error = error.code;
  }
  return { ...report, sum: report.hash.digest('hex') };
}

/** What the peer reports. */
function reported(line) {
  const [count, digest, otherEnded, ended, error] = line.split(' ');
  return {
    count: Number(count), sum: digest, otherEnded: otherEnded === '1', ended: ended === '1',
    error: error === '-' ? undefined : error,
  };
}

/**
 * Whether what a party reports is what the theorem on streams allows: a front of what was written, and an end only
 * after all of it, where the other has ended.
 */
function judge(mine, other, size, what) {
  assert.ok(mine.count <= size, what);
  assert.equal(mine.sum, sum(bytes(mine.count)), `${what}: other bytes`);
  // An end may have left just before the other refused what came, which then reports that it couldn't end.
  if (mine.otherEnded) {
    assert.ok((other.ended || other.error) && mine.count === size, `${what}: an end, and not all of it came`);
  }
}

/** Runs one connection, and gives both reports. */
async function run(peer, session, between) {
  const socket = await peer.socket();
  socket.on('error', () => {});
  const { carrier, close } = await between(socket);
  const [mine, line] = await Promise.all([party(carrier, options(session, peer), session), peer.line()]);
  close?.();
  socket.destroy();
  const reports = [mine, reported(line)];
  const what = `${peerName}: ${JSON.stringify(session)}: ${JSON.stringify(reports)}`;
  judge(reports[0], reports[1], session.size, what);
  judge(reports[1], reports[0], session.size, what);
  return { reports, what };
}

/** A connection that nothing damages: both parties of which receive until the end get all of it. */
async function whole(peer, session, between) {
  const { reports, what } = await run(peer, session, between);
  for (const n of [0, 1]) {
    if (session.order[n] !== 'closes' && session.order[1 - n] !== 'closes') {
      assert.ok(reports[n].otherEnded && !reports[n].error, what);
    }
  }
  // A close of JavaScript loses nothing. A peer that closes without reading may break the connection before all has
  // come.
  if (session.order[0] === 'closes' && session.order[1] !== 'closes') {
    assert.ok(reports[1].otherEnded && reports[1].count === session.size, what);
  }
  for (const n of [0, 1]) {
    if (session.order[n] !== 'closes') {
      assert.ok(reports[n].otherEnded || reports[n].error, `${what}: neither an end nor a refusal`);
    }
  }
}

const direct = async (socket) => ({ carrier: socket });
const byWebSocket = async (peer) => {
  const { socket, close } = await overWebSocket(peer);
  return { carrier: socket, close };
};
const CARRIERS = globalThis.WebSocket ? [direct, byWebSocket] : [direct];

/** Each pattern, both roles, over TCP and WebSocket, a megabyte each way. */
async function patterns(names) {
  let count = 0;
  for (const pattern of names) {
    for (const responder of [false, true]) {
      const session = { pattern, responder, order: ['ends', 'ends'], size: MEGABYTE };
      const peer = await start(session, CARRIERS.length);
      for (const between of CARRIERS) await whole(peer, session, between);
      count += CARRIERS.length;
      await peer.end();
    }
  }
  return count;
}

async function orders() {
  let count = 0;
  for (const order of ORDERS) {
    for (const responder of [false, true]) {
      const session = { pattern: 'XX', responder, order, size: 200000 };
      const peer = await start(session, CARRIERS.length);
      for (const between of CARRIERS) await whole(peer, session, between);
      count += CARRIERS.length;
      await peer.end();
    }
  }
  return count;
}

/**
 * What both send by XX with 100 bytes of payload, in 4 frames and that of the end: the initiator's messages 1 and 3, or
 * the responder's message 2.
 */
const SENT = { initiator: 34 + 66 + 100 + 5 * 18, responder: 98 + 100 + 5 * 18 };

/**
 * Each fault at each thirteenth byte of a direction, others for each kind. What repeats the last byte comes after the
 * end.
 */
function faultsIn(length) {
  const places = Array.from({ length }, (_, at) => at);
  return ['flip', 'cut', 'drop', 'repeat'].flatMap(
    (kind, n) => places.filter((at) => at % 13 === n && at < length - 1).map((at) => ({ kind, at })),
  );
}

/** Behind a relay that damages one byte: the end that receives it reports no end. */
async function relays() {
  let count = 0;
  for (const responder of [false, true]) {
    const session = { pattern: 'XX', responder, order: ['ends', 'ends'], size: 100 };
    const roles = responder ? ['responder', 'initiator'] : ['initiator', 'responder'];
    const runs = roles.flatMap((role, direction) => faultsIn(SENT[role]).map((fault) => [direction, fault]));
    const peer = await start(session, runs.length);
    for (const [direction, fault] of runs) {
      const between = async (socket) => ({
        carrier: await relayed(socket, direction === 0 ? [fault, NOTHING] : [NOTHING, fault]),
      });
      const { reports, what } = await run(peer, session, between);
      assert.ok(!reports[1 - direction].otherEnded, `${what}: ${fault.kind} at ${fault.at} of ${direction}`);
      count += 1;
    }
    await peer.end();
  }
  return count;
}

await load();
const counts = [await patterns(PATTERNS), await orders(), await relays()];
const over = CARRIERS.length === 2 ? 'TCP and WebSocket' : 'TCP';
console.log(
  `js: channels with ${peerName}, over ${over}: ${counts[0]} by pattern with 1 MiB each way, `
    + `${counts[1]} by the order of ends, ${counts[2]} behind a relay`,
);
process.exit(0);
