// Connections between two parties in one program, and what tests say of them.
import { spawnSync } from 'node:child_process';
import { once } from 'node:events';
import { connect, createServer } from 'node:net';
import { Duplex } from 'node:stream';
import { fileURLToPath } from 'node:url';
import { NoiseError, NoiseSocket } from '../noise.mjs';

export const text = (s) => new TextEncoder().encode(s);
export const refused = (code) => (error) => error instanceof NoiseError && error.code === code;
export const NN = { pattern: 'NN', acceptAnyKey: true };

/** Both sides of a connection over TCP. */
export async function overTcp() {
  const server = createServer().listen(0, '127.0.0.1');
  await once(server, 'listening');
  const here = connect(server.address().port, '127.0.0.1');
  const [[there]] = await Promise.all([once(server, 'connection'), once(here, 'connect')]);
  server.close();
  return [here, there];
}

/** An address where nobody listens. */
export async function nobody() {
  const server = createServer().listen(0, '127.0.0.1');
  await once(server, 'listening');
  const address = server.address();
  server.close();
  await once(server, 'close');
  return address;
}

/** Both sides of a pair of WHATWG streams. */
export function pair(...strategies) {
  const [up, down] = [new TransformStream(undefined, ...strategies), new TransformStream(undefined, ...strategies)];
  return [{ readable: down.readable, writable: up.writable }, { readable: up.readable, writable: down.writable }];
}

/**
 * Both ends of a connection by streams of Node, which take at once what is written; once it has `refuses`, one calls
 * that instead.
 */
export function duplexes() {
  const write = function write(part, _, done) {
    if (this.refuses) {
      this.refuses(done);
      return;
    }
    this.other.push(part);
    done();
  };
  const final = function final(done) { this.other.push(null); done(); };
  const [one, two] = [0, 1].map(() => new Duplex({ read: () => {}, write, final }));
  Object.assign(one, { other: two });
  Object.assign(two, { other: one });
  return [one, two];
}

/** What NoiseSocket uses of a WebSocket. */
class Socket extends EventTarget {
  readyState = 0;
  bufferedAmount = 0;
  listening = new Map();

  addEventListener(event, listener, options) {
    this.listening.set(event, (this.listening.get(event) ?? new Set()).add(listener));
    super.addEventListener(event, listener, options);
  }

  removeEventListener(event, listener) {
    this.listening.get(event)?.delete(listener);
    super.removeEventListener(event, listener);
  }

  /** How many listeners there are of an event. */
  listeners(event) {
    return this.listening.get(event)?.size ?? 0;
  }

  open() {
    this.readyState = 1;
    this.dispatchEvent(new Event('open'));
  }

  take(data) {
    this.dispatchEvent(
      Object.assign(new Event('message'), { data: typeof data === 'string' ? data : data.slice().buffer }),
    );
  }

  send(data) {
    queueMicrotask(() => this.other.take(data));
  }

  close() {
    queueMicrotask(() => {
      for (const it of [this, this.other]) {
        if (it.readyState === 3) continue;
        it.readyState = 3;
        it.dispatchEvent(Object.assign(new Event('close'), { wasClean: true }));
      }
    });
  }
}

/** Both sides of a WebSocket, which aren't open yet. */
export function sockets() {
  const [one, two] = [new Socket(), new Socket()];
  Object.assign(one, { other: two });
  Object.assign(two, { other: one });
  return [one, two];
}

/** The same, open. */
export function openSockets() {
  const both = sockets();
  for (const it of both) it.open();
  return both;
}

/** A channel over both sides of a connection. */
export function channels([near, far], client = NN, server = client) {
  return Promise.all([NoiseSocket.open(near, client), NoiseSocket.open(far, { ...server, responder: true })]);
}

/** What becomes of a promise: its value, or the code or name of its error, or 'pending' after so many milliseconds. */
export async function outcome(promise, milliseconds = 60000) {
  let timer;
  const late = new Promise((resolve) => { timer = setTimeout(() => resolve('pending'), milliseconds); });
  const settled = promise.then((value) => value, (error) => (error instanceof NoiseError ? error.code : error.name));
  try {
    return await Promise.race([settled, late]);
  } finally {
    clearTimeout(timer);
  }
}

/** Bytes that differ from place to place, counted from a place on. */
export function bytes(size, from = 0) {
  const all = new Uint8Array(size);
  for (let n = 0; n < size; n += 1) all[n] = ((n + from) * 7 + ((n + from) >> 8)) & 255;
  return all;
}

/** Runs a script of this folder in a program of its own, with the module that this one has. */
export function apart(script) {
  const flags = process.execArgv.filter((it) => !it.startsWith('--test'));
  return spawnSync(process.execPath, [...flags, fileURLToPath(new URL(script, import.meta.url))], { encoding: 'utf8' });
}
