// What is sent in one turn of the event loop leaves together; each call settles once the connection has taken its
// bytes, and not before; and a carrier that takes them late, in pieces, or not at all changes no order.
import test from 'node:test';
import assert from 'node:assert/strict';
import { NoiseSocket, load } from '../noise.mjs';
import { NN, bytes, channels, duplexes, openSockets, outcome, overTcp, pair, refused, text } from './connections.mjs';

const turn = () => new Promise((resolve) => { setImmediate(resolve); });
const joined = (parts) => new Uint8Array(Buffer.concat(parts));

async function received(channel) {
  const parts = [];
  for await (const payload of channel) parts.push(payload);
  return joined(parts);
}

/** How many frames there are in bytes that were written, each after its length. */
function framesIn(chunk) {
  let count = 0;
  for (let at = 0; at < chunk.length; at += 2 + 256 * chunk[at] + chunk[at + 1]) count += 1;
  return count;
}

/** Both ends of a connection, of which the first keeps each write until it is told to take it. */
function waiting() {
  const [near, far] = duplexes();
  const writes = [];
  let isKept = false;
  near.refuses = (done, chunk) => {
    const take = () => { far.push(chunk); done(); };
    if (isKept) writes.push({ chunk, take, fail: done });
    else take();
  };
  near._write = function write(chunk, _, done) { this.refuses(done, chunk); };
  return { ends: [near, far], writes, keep: (it) => { isKept = it; } };
}

/** Counts what is written to an end from now on, as chunks. */
function counted(end) {
  const chunks = [];
  const write = end._write;
  end._write = function count(chunk, ...rest) { chunks.push(Buffer.from(chunk)); write.call(this, chunk, ...rest); };
  return chunks;
}

/** What a carrier does with each write, and each read. */
const CARRIERS = {
  'takes one byte at a time': (end, other) => {
    end._write = (chunk, _, done) => { for (const byte of chunk) other.push(Uint8Array.of(byte)); done(); };
  },
  'takes each write in a later turn': (end, other) => {
    end._write = (chunk, _, done) => { setImmediate(() => { other.push(chunk); done(); }); };
  },
  'takes each write later, and tells it later still': (end, other) => {
    end._write = (chunk, _, done) => { setImmediate(() => { other.push(chunk); setTimeout(done, 1); }); };
  },
  'tells each write by a microtask': (end, other) => {
    end._write = (chunk, _, done) => { other.push(chunk); queueMicrotask(done); };
  },
  'gives what comes in pieces of 7 bytes, one a turn': (end, other) => {
    end._write = (chunk, _, done) => {
      const parts = [];
      for (let at = 0; at < chunk.length; at += 7) parts.push(chunk.subarray(at, at + 7));
      const next = () => { if (parts.length === 0) done(); else { other.push(parts.shift()); setImmediate(next); } };
      next();
    };
  },
};

test('joining', { timeout: 300000 }, async (t) => {
  await load();

  await t.test('what is sent in one turn is one frame in one write, also once promises have settled', async () => {
    const [near, far] = duplexes();
    const [a, b] = await channels([near, far]);
    await turn();
    const chunks = counted(near);
    const sent = [a.send(text('one ')), a.send(text('two '))];
    await undefined;
    sent.push(a.send(text('three ')));
    for (let n = 0; n < 20; n += 1) await undefined;
    sent.push(a.send(text('four')));
    assert.equal(chunks.length, 0);
    await Promise.all(sent);
    assert.deepEqual([chunks.length, framesIn(chunks[0])], [1, 1]);
    assert.deepEqual(await b.receive(), text('one two three four'));
    await turn();
    await Promise.all([a.send(text('five')), a.send(text('six'))]);
    assert.deepEqual([chunks.length, framesIn(chunks[1])], [2, 1]);
    assert.deepEqual(await b.receive(), text('fivesix'));
    await Promise.all([a.close(), b.close()]);
  });

  await t.test('nothing waits longer than its turn, and a call that is awaited leaves by itself', async () => {
    const [near, far] = duplexes();
    const [a, b] = await channels([near, far]);
    await turn();
    const chunks = counted(near);
    a.send(text('x'));
    await turn();
    assert.equal(chunks.length, 1);
    process.nextTick(() => { a.send(text('y')); });
    await turn();
    assert.equal(chunks.length, 2);
    setTimeout(() => { a.send(text('z')); }, 0);
    await new Promise((resolve) => { setTimeout(resolve, 5); });
    await turn();
    assert.equal(chunks.length, 3);
    for (let n = 0; n < 3; n += 1) await a.send(text('w'));
    assert.equal(chunks.length, 6);
    await Promise.all([a.close(), b.close()]);
  });

  await t.test('the end leaves in the same write, by end or close, as does the handshake’s last message', async () => {
    for (const end of ['end', 'close']) {
      const [near, far] = duplexes();
      const [a, b] = await channels([near, far]);
      await turn();
      const chunks = counted(near);
      const calls = [a.send(text('all of it')), a[end]()];
      assert.deepEqual(await received(b), text('all of it'));
      assert.deepEqual([chunks.length, framesIn(chunks[0])], [1, 2]);
      await Promise.all([...calls, b.close(), a.close()]);
    }
    const [near, far] = duplexes();
    const opening = NoiseSocket.open(near, NN);
    const b = await NoiseSocket.open(far, { ...NN, responder: true });
    const chunks = counted(far);
    const calls = [b.send(text('first')), b.end()];
    const a = await opening;
    assert.deepEqual(await received(a), text('first'));
    assert.deepEqual([chunks.length, framesIn(chunks[0])], [1, 3]);
    await Promise.all([...calls, a.close(), b.close()]);
  });

  await t.test('what needs several frames leaves in one write, and large payloads in their order', async () => {
    const [near, far] = duplexes();
    const [a, b] = await channels([near, far]);
    await turn();
    const chunks = counted(near);
    const one = [a.send(bytes(40000)), a.send(bytes(40000, 40000)), a.send(bytes(40000, 80000))];
    const reading = received(b);
    await Promise.all(one);
    assert.equal(chunks.length, 3);    // each leaves at once, where nothing waits before it
    const sizes = [100, 60000, 65519, 65520, 131072, 131073, 300000, 1, 16384, 7];
    let at = 120000;
    const many = sizes.map((size) => { at += size; return a.send(bytes(size, at - size)); });
    many.push(a.end());
    const before = chunks.length;
    await Promise.all(many);
    assert.ok(chunks.length - before < 14, `${chunks.length - before} writes`);
    const got = await reading;
    assert.equal(Buffer.compare(got, bytes(at)), 0);
    await Promise.all([a.close(), b.close()]);
  });

  await t.test('send settles once the connection has taken its bytes, and not before', async () => {
    const { ends, writes, keep } = waiting();
    const [a, b] = await channels(ends);
    await turn();
    keep(true);
    const settled = [];
    const sends = ['one', 'two', 'three'].map((it, n) => a.send(text(it)).then(() => { settled.push(n); }));
    await turn();
    assert.deepEqual([settled, writes.length], [[], 1]);
    sends.push(...['four', 'five'].map((it, n) => a.send(text(it)).then(() => { settled.push(3 + n); })));
    const ended = a.end().then(() => { settled.push('end'); });
    await turn();
    assert.deepEqual([settled, writes.length], [[], 1]);    // what waits behind a write that isn't taken
    writes[0].take();
    await turn();
    assert.deepEqual(settled, [0, 1, 2]);
    assert.deepEqual([writes.length, framesIn(writes[1].chunk)], [2, 2]);
    writes[1].take();
    await Promise.all([...sends, ended]);
    assert.deepEqual(settled, [0, 1, 2, 3, 4, 'end']);
    assert.deepEqual(await received(b), text('onetwothreefourfive'));
    keep(false);
    await Promise.all([a.close(), b.close()]);
  });

  await t.test('a write that fails rejects the calls whose bytes it had, and later ones, and no other', async () => {
    for (const isLate of [false, true]) {
      const { ends, writes, keep } = waiting();
      const [a, b] = await channels(ends);
      await a.send(text('before'));
      keep(true);
      const first = a.send(text('first'));
      await turn();
      const second = [a.send(text('second')), a.send(text('with it'))].map((it) => outcome(it));
      const ended = outcome(a.end());
      writes[0].take();
      await first;
      await turn();
      const later = outcome(a.send(text('later')));
      if (isLate) await turn();
      writes[1].fail(new Error('full'));
      assert.deepEqual(await Promise.all([...second, ended, later]), Array(4).fill('NOISE_CUT'));
      await assert.rejects(a.send(text('x')), refused('NOISE_CUT'));
      assert.equal(writes.length, 2);
      b.destroy();
      a.destroy();
    }
  });

  await t.test('a signal ends the wait of flush alone: what was sent still leaves', async () => {
    const { ends, writes, keep } = waiting();
    const [a, b] = await channels(ends);
    await a.send(text('before'));
    keep(true);
    const sent = a.send(text('kept'));
    await turn();
    const controller = new AbortController();
    const flushed = outcome(a.flush({ signal: controller.signal }));
    controller.abort();
    assert.equal(await flushed, 'AbortError');
    assert.equal(await outcome(a.flush({ signal: AbortSignal.abort() })), 'AbortError');
    keep(false);
    writes[0].take();
    await sent;
    await Promise.all([a.flush({ signal: new AbortController().signal }), a.close()]);
    assert.deepEqual(await received(b), text('beforekept'));
    await b.close();
  });

  await t.test('no odd call of send throws: each is rejected, and the channel goes on', async () => {
    const [a, b] = await channels(duplexes());
    for (const words of [[], ['text'], [1], [null], [[1, 2]], [text('x'), null], [new Uint16Array(2)]]) {
      const called = a.send(...words);    // throws nothing
      assert.equal(await outcome(called), 'TypeError');
    }
    await a.send(text('whole'));
    await a.close();
    assert.deepEqual(await received(b), text('whole'));
    await b.close();
  });

  await t.test('what was passed may be changed after the call', async () => {
    const [a, b] = await channels(await overTcp());
    const reading = received(b);
    const payload = bytes(1000);
    for (let n = 0; n < 3; n += 1) {
      payload.fill(n);
      a.send(payload).catch(() => {});
    }
    payload.fill(255);
    await a.end();
    assert.deepEqual(await reading, joined([0, 1, 2].map((n) => new Uint8Array(1000).fill(n))));
    await Promise.all([a.close(), b.close()]);
  });

  await t.test('with a signal a payload has a frame of its own, in its place', async () => {
    const [near, far] = duplexes();
    const [a, b] = await channels([near, far]);
    await turn();
    const chunks = counted(near);
    const { signal } = new AbortController();
    const gone = new AbortController();
    const calls = [a.send(text('1')), a.send(text('2'), { signal }), a.send(text('3')), a.send(text('4'))];
    const never = outcome(a.send(text('never'), { signal: gone.signal }));
    calls.push(a.send(text('5')), a.end({ signal }));
    gone.abort();
    assert.equal(await never, 'AbortError');
    await Promise.all(calls);
    assert.deepEqual(await received(b), text('12345'));
    assert.equal(framesIn(joined(chunks)), 5);
    await Promise.all([a.close(), b.close()]);
  });

  await t.test('after the end, and to a party that only sends, the calls of one turn are refused alike', async () => {
    const [a, b] = await channels(duplexes());
    const calls = [a.send(text('1')), a.end(), a.send(text('2')), a.end(), a.send(text(''))].map((it) => outcome(it));
    assert.deepEqual(await Promise.all(calls), [undefined, undefined, ...Array(3).fill('NOISE_CLOSED')]);
    assert.deepEqual(await received(b), text('1'));
    await Promise.all([a.close(), b.close()]);
  });

  await t.test('who destroys, or is cut, leaves no call waiting', async () => {
    for (const end of [(a) => a.destroy(), (a, near) => near.destroy(), (a, near) => near.destroy(new Error('cut'))]) {
      for (const wait of [async () => {}, turn]) {
        const { ends, keep } = waiting();
        const [a, b] = await channels(ends);
        keep(true);
        const calls = [
          a.send(text('1')), a.send(text('2'), { signal: new AbortController().signal }),
          a.send(new Uint8Array(200000)), a.send(text('3')), a.end(), a.flush(), a.receive(),
        ].map((it) => outcome(it));
        await wait();
        end(a, ends[0]);
        for (const it of await Promise.all(calls)) assert.match(String(it), /^NOISE_(DISPOSED|CUT)$/u);
        b.destroy();
      }
    }
  });

  await t.test('a frame over a WebSocket is what one turn has sent, too', async () => {
    const [near, far] = openSockets();
    const [a, b] = await channels([near, far]);
    await turn();
    let count = 0;
    const { send } = near;
    near.send = function counts(data) { count += 1; send.call(this, data); };
    await Promise.all([a.send(text('one')), a.send(text('two')), a.end()]);
    assert.equal(count, 2);    // and the end
    assert.deepEqual(await received(b), text('onetwo'));
    await Promise.all([a.close(), b.close()]);
  });

  for (const [name, change] of Object.entries(CARRIERS)) {
    for (const order of ['a', 'b', 'both']) {
      await t.test(`over a carrier that ${name} all comes, both ways, where ${order} closes first`, async () => {
        const [near, far] = duplexes();
        change(near, far);
        change(far, near);
        const [a, b] = await channels([near, far]);
        const sends = [];
        const whole = [bytes(3000), bytes(2500, 9)];
        for (const [n, it] of [a, b].entries()) {
          for (let at = 0; at < whole[n].length;) {
            const size = Math.min(1 + (at * 13) % 97, whole[n].length - at);
            sends.push(it.send(whole[n].subarray(at, at + size)));
            if (at % 5 === 0) await turn();
            if (at % 7 === 0) await sends.at(-1);
            at += size;
          }
          sends.push(it.end());
        }
        assert.deepEqual(await Promise.all([received(b), received(a)]), whole);
        await Promise.all(sends);
        if (order !== 'both') await { a, b }[order].close();
        await Promise.all([a.close(), b.close()]);
        assert.ok(near.destroyed && far.destroyed);
      });
    }
  }

  await t.test('readable is a stream of bytes, which fills buffers of the reader’s', async () => {
    for (const size of [1, 5, 100, 70000]) {
      const [a, b] = await channels(pair({ highWaterMark: 1e6 }, { highWaterMark: 1e6 }));
      const whole = bytes(1500);
      const sending = (async () => {
        for (let at = 0; at < whole.length; at += 300) await a.send(whole.subarray(at, at + 300));
        await a.end();
      })();
      const reader = b.readable.getReader({ mode: 'byob' });
      const parts = [];
      for (;;) {
        const { value, done } = await reader.read(new Uint8Array(size));
        if (done) break;
        assert.ok(value.length > 0 && value.length <= size);
        parts.push(value);
      }
      assert.deepEqual(joined(parts), whole);
      await sending;
      await Promise.all([a.close(), b.close()]);
    }
    const [c, d] = await channels(pair({ highWaterMark: 1e6 }, { highWaterMark: 1e6 }));
    const reader = d.readable.getReader({ mode: 'byob' });
    const read = reader.read(new Uint8Array(10));
    c.destroy();
    await assert.rejects(read, refused('NOISE_CUT'));
  });
});
