// node relay.mjs: two parties with a relay between them that flips, cuts, repeats or drops at each byte, or over a
// WebSocket at each message, whatever the order in which they end. What a party reports has to be what the theorem on
// streams allows.
import assert from 'node:assert/strict';
import { load } from '../noise.mjs';
import { openSockets } from './connections.mjs';
import { NOTHING, ORDERS, check, damaged, party } from './law.mjs';

Error.stackTraceLimit = 0;    // thousands of errors are made
let seed = 20261126;
/** A number from 1 to `most`, the same in each run. */
function some(most) {
  seed = (Math.imul(seed, 1103515245) + 12345) >>> 0;
  return 1 + (seed >>> 8) % most;
}

/** One direction over a stream, with one fault, or none, at a byte. */
class Pipe {
  sent = 0;
  #waiting = [];
  #isClosed = false;
  #wake = () => {};

  constructor(fault, acted) {
    this.writable = new WritableStream({
      write: (chunk) => { acted(); this.#take(chunk, fault); },
      close: () => this.close(),
      abort: () => this.close(),
    });
    this.readable = new ReadableStream({ pull: (controller) => this.#give(controller, acted) }, { highWaterMark: 0 });
  }

  #take(chunk, { kind, at, bit }) {
    for (const byte of chunk) {
      const isHere = kind !== 'nothing' && this.sent === at;
      this.sent += 1;
      if (isHere && kind === 'cut') this.close();
      if (this.#isClosed || (isHere && kind === 'drop')) continue;
      this.#waiting.push(isHere && kind === 'flip' ? byte ^ (1 << bit) : byte);
      if (isHere && kind === 'repeat') this.#waiting.push(byte);
    }
    this.#wake();
  }

  close() {
    this.#isClosed = true;
    this.#wake();
  }

  async #give(controller, acted) {
    while (this.#waiting.length === 0 && !this.#isClosed) await new Promise((resolve) => { this.#wake = resolve; });
    acted();
    if (this.#waiting.length > 0) controller.enqueue(Uint8Array.from(this.#waiting.splice(0, some(70))));
    else controller.close();
  }
}

function overStreams(faults, acted) {
  const pipes = faults.map((fault) => new Pipe(fault, acted));
  const ends = [0, 1].map((role) => ({ readable: pipes[1 - role].readable, writable: pipes[role].writable }));
  return { ends, sent: (role) => pipes[role].sent, break: () => pipes.forEach((it) => it.close()) };
}

function overWebSockets(faults, acted) {
  const ends = openSockets();
  const [sent, count] = [[0, 0], [0, 0]];
  const end = () => { for (const it of ends) it.close(); };
  for (const [role, socket] of ends.entries()) {
    socket.send = (message) => {
      acted();
      const pieces = damaged(message, faults[role], sent[role], count[role]);
      sent[role] += message.length;
      count[role] += 1;
      if (pieces) pieces.forEach((it) => queueMicrotask(() => socket.other.take(it)));
      else end();
    };
  }
  return { ends, sent: (role) => sent[role], messages: (role) => count[role], break: end };
}

const tick = () => new Promise((resolve) => { setImmediate(resolve); });

/** Runs both parties; where nothing happens any more, the connection breaks. */
async function session(connect, orders, faults) {
  let acts = 0;
  const link = connect(faults, () => { acts += 1; });
  let reports;
  const running = Promise.all([0, 1].map((role) => party(link, role, orders[role]))).then((them) => {
    reports = them;
  });
  for (let round = 0, seen = -1, idle = 0; !reports; round += 1) {
    await tick();
    idle = acts === seen ? idle + 1 : 0;
    seen = acts;
    if (idle === 2) link.break();
    assert.ok(idle < 100 && round < 10000, 'a call never settles');
  }
  await running;
  return { link, reports };
}

/**
 * All sessions over one kind of connection, of which each direction is damaged once at each of `places(link, role,
 * kind)`.
 */
async function all(connect, kinds, places) {
  let count = 0;
  for (const orders of ORDERS) {
    const whole = await session(connect, orders, [NOTHING, NOTHING]);
    for (const role of [0, 1]) {
      check(whole, role, orders[role]);
      assert.deepEqual(
        [whole.reports[role].error, whole.reports[role].gotEnd],
        [undefined, orders[role] !== 'closes'],
        String(orders),
      );
    }
    for (const direction of [0, 1]) {
      if (orders[1 - direction] === 'closes') continue;    // that party doesn't receive
      for (const kind of kinds) {
        const end = places(whole.link, direction, kind);
        for (let at = 0; at < end; at += 1) {
          const fault = { kind, at, bit: some(8) - 1 };
          const run = await session(connect, orders, direction === 0 ? [fault, NOTHING] : [NOTHING, fault]);
          for (const role of [0, 1]) check(run, role, orders[role]);
          // What repeats the last byte or message comes after the end.
          const isAfter = kind === 'repeat' && at === end - 1;
          assert.ok(isAfter || !run.reports[1 - direction].gotEnd, `${orders}: ${direction}: ${kind} at ${at}`);
          count += 1;
        }
      }
    }
  }
  return count;
}

await load();
console.log(
  await all(overStreams, ['flip', 'cut', 'repeat', 'drop'], (link, role) => link.sent(role)),
  'damaged sessions over streams',
);
const kinds = ['flip', 'cut', 'repeat', 'drop', 'shorten', 'lengthen'];
const places = (link, role, kind) => (kind === 'flip' ? link.sent(role) : link.messages(role));
console.log(await all(overWebSockets, kinds, places), 'damaged sessions over WebSockets');
