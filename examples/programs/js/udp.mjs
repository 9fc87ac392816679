// udp.mjs: IK over UDP as docs/UDP.md says, beside the keys of keygen.mjs. node udp.mjs server listens on 127.0.0.1,
// port 4044, and sends back what it opens; node udp.mjs client TEXT sends the text until it comes back. datagrams.mjs
// decides what a first message gets.
import { createSocket } from 'node:dgram';
import { readFile } from 'node:fs/promises';
import { Handshake, KeyPair, equal, hex, load } from 'yulimosar';
import * as rules from './datagrams.mjs';

const [role, text] = process.argv.slice(2);
if (role !== 'server' && (role !== 'client' || text === undefined)) {
  throw new Error('usage: node udp.mjs server, or node udp.mjs client TEXT');
}
const [MESSAGES, FIRST, ANSWER] = [2, 96, 48];    // of IK, and the lengths of its messages without payloads
const [BUSY, MOST_BEGUN, MOST_TRIED] = [16, 256, 8];
const [AGAIN, RESTART, LIMIT, IDLE] = [250, 1000, 10000, 180000];    // in milliseconds
await load();
const staticKey = await KeyPair.fromSecret(await readFile(`${role}.key`));
const other = await readFile(role === 'server' ? 'client.public' : 'server.public');
const setup = { pattern: 'IK', prologue: new TextEncoder().encode('udp 3'), staticKey };
const socket = createSocket('udp4');
let queue = Promise.resolve();
/**
 * One message of a handshake at a time: a second call meanwhile is NOISE_BUSY. One that is refused, as anybody can send
 * it, is dropped.
 */
const inTurn = (work) => {
  queue = queue.then(work).catch((error) => console.error(`${role}: dropped: ${error.message}`));
};
const packet = (kind, bytes) => Buffer.concat([Uint8Array.of(kind), bytes]);
const transport = ({ index, state }, payload) =>
  Buffer.concat([Uint8Array.of(rules.TRANSPORT), Buffer.from(index, 'hex'), state.seal(payload)]);
const indexIn = (datagram) => datagram.subarray(1, 1 + rules.INDEX).toString('hex');

/** The payload of a transport datagram; undefined if it is repeated, or forged. */
function opened(session, datagram) {
  try {
    return session.state.open(datagram.subarray(1 + rules.INDEX));
  } catch {
    return undefined;
  }
}

function serve() {
  const begun = new Map();    // by address and message 0, the oldest first; they are done, as IK has two messages
  const sessions = new Map();    // those and the established ones, by index
  const [cookies, rate] = [new rules.Cookies(), new rules.Rate()];
  let waiting = new Handshake({ ...setup, responder: true });
  let pending = 0;    // first messages in the queue

  const drop = (it) => {
    begun.delete(it.name);
    sessions.delete(it.index);
    it.state.dispose();
  };

  /** Sends the answer, if so much may go to the address. */
  function answer(it) {
    if (!rules.maySend(it.came, it.sent, it.answer.length, it.shown)) return;
    it.sent += it.answer.length;
    socket.send(it.answer, it.from.port, it.from.address);
  }

  /** Its payload may be a repeated one, so nothing is done by it. */
  async function begin(message, from, came, shown) {
    await waiting.tryRead(message);
    const handshake = waiting;
    waiting = new Handshake({ ...setup, responder: true });
    if (!equal(handshake.remoteStatic, other)) {
      handshake.dispose();
      throw new Error('another client');
    }
    const last = packet(1, await handshake.write());
    const [name, index] = [`${from.address} ${from.port} ${hex(message)}`, rules.indexOf(last)];
    const state = handshake.finishDatagrams();
    if (begun.size >= MOST_BEGUN) drop([...begun.values()][rules.givesWay([...begun.values()])]);
    const it = {
      name, index, state, from, came, shown, first: hex(message), host: rules.hostOf(from), done: true, answer: last,
      sent: 0, heard: Date.now(),
    };
    begun.set(name, it);
    sessions.set(index, it);
    answer(it);
  }

  function first(message, cookie, from) {
    const [came, now] = [message.length + 1 + (cookie?.length ?? 0), Date.now() / 1000];
    const known = begun.get(`${from.address} ${from.port} ${hex(message)}`);
    if (known) {    // the answer was lost
      known.came += came;
      answer(known);
      return;
    }
    if (message.length < FIRST || message.length > FIRST + 4096) return;
    if ([...sessions.values()].some((it) => it.first === hex(message) && it.established)) return;
    const shown = cookie !== undefined && cookies.accept(cookie, from, message, now);
    const does = rules.firstMessage(begun.size + pending, BUSY, shown, came, 1 + ANSWER);
    if (does === 'cookie') {
      socket.send(rules.replyOf(message, cookies.make(from, message, now)), from.port, from.address);
    } else if (does === 'answer' && (!shown || rate.allow(rules.hostOf(from), now))) {
      pending += 1;
      inTurn(() => begin(message, from, came, shown).finally(() => { pending -= 1; }));
    }
  }

  /** A session takes the place of another of its address once a datagram of it opens, and is where that came from. */
  function data(datagram, from) {
    const it = sessions.get(indexIn(datagram));
    const payload = it && opened(it, datagram);
    if (payload === undefined) return;
    const nonce = datagram.readBigUInt64BE(1 + rules.INDEX);
    if (!it.established) {
      for (const old of [...sessions.values()]) {
        if (old !== it && old.from.address === it.from.address && old.from.port === it.from.port) drop(old);
      }
      begun.delete(it.name);
      it.established = true;
    }
    if (rules.moves(nonce, it.newest)) [it.newest, it.from] = [nonce, from];
    it.heard = Date.now();
    socket.send(transport(it, payload), it.from.port, it.from.address);    // also of an empty one: see "a handshake"
  }

  setInterval(() => {
    for (const it of [...sessions.values()]) {
      if (Date.now() - it.heard > (it.established ? IDLE : LIMIT)) drop(it);
    }
  }, RESTART);
  socket.on('message', (datagram, from) => {
    const kind = rules.kindOf(datagram, MESSAGES);
    const start = 1 + rules.COOKIE;
    if (kind === 'transport') data(datagram, from);
    else if (kind === 'with cookie') first(datagram.subarray(start), datagram.subarray(1, start), from);
    else if (kind === 'message' && datagram[0] === 0) first(datagram.subarray(1), undefined, from);
  });
  socket.bind(4044, '127.0.0.1', () => console.log('server: listening'));
}

async function ask() {
  const tried = [];    // handshakes, of which the newest is repeated, and those that are done
  let session;
  const send = (datagram) => socket.send(datagram, 4044, '127.0.0.1');
  const sendFirst = ({ message, cookie }) => send(cookie ? rules.withCookie(cookie, message) : packet(0, message));
  const sendText = () => send(transport(session, new TextEncoder().encode(text)));

  async function begin() {
    const handshake = new Handshake({ ...setup, remoteStatic: other });
    const it = { handshake, message: await handshake.write(), since: Date.now() };
    if (tried.length >= MOST_TRIED) {
      const { handshake: old, state } = tried.shift();
      (state ?? old).dispose();
    }
    tried.push(it);
    sendFirst(it);
  }

  /** A message that is refused is another handshake's, or a stranger's. */
  async function answered(datagram) {
    for (const it of tried.filter(({ state }) => !state)) {
      try {
        await it.handshake.tryRead(datagram.subarray(1));
      } catch {
        continue;
      }
      [it.state, it.index] = [it.handshake.finishDatagrams(), rules.indexOf(datagram)];
      send(transport(it, new Uint8Array()));
    }
  }

  function challenged(datagram) {
    for (const it of tried.filter(({ state }) => !state)) {
      const [had, cookie] = [it.cookie, rules.cookieIn(datagram, it.message)];
      it.cookie = cookie ?? had;
      if (cookie && !had) sendFirst(it);
    }
  }

  function data(datagram) {
    const it = tried.find(({ index }) => index === indexIn(datagram));
    const payload = it && opened(it, datagram);
    if (payload === undefined || (session && it !== session)) return;
    if (!session) {
      session = it;
      sendText();
    }
    if (payload.length === 0) return;
    console.log(`client: the server says: ${Buffer.from(payload)}`);
    for (const { handshake, state } of tried) (state ?? handshake).dispose();
    clearInterval(again);
    clearTimeout(late);
    socket.close();
  }

  const late = setTimeout(() => { throw new Error('no answer'); }, LIMIT);
  const again = setInterval(() => {
    if (session) {
      sendText();
      return;
    }
    const newest = tried.at(-1);
    for (const it of tried) if (it.state) send(transport(it, new Uint8Array()));
    if (Date.now() - newest.since >= RESTART) inTurn(begin);
    else if (!newest.state) sendFirst(newest);
  }, AGAIN);
  socket.on('message', (datagram) => {
    const kind = rules.kindOf(datagram, MESSAGES);
    if (kind === 'transport') data(datagram);
    else if (kind === 'cookie reply') challenged(datagram);
    else if (kind === 'message' && datagram[0] === 1) inTurn(() => answered(datagram));
  });
  await begin();
}

if (role === 'server') serve();
else await ask();
