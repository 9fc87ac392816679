// A channel as a stream of Node: how it ends, and what keeps its order beside the channel's own calls.
import test from 'node:test';
import assert from 'node:assert/strict';
import { once } from 'node:events';
import { PassThrough } from 'node:stream';
import { pipeline } from 'node:stream/promises';
import { text as textOf } from 'node:stream/consumers';
import { load } from '../noise.mjs';
import { bytes, channels, duplexes, outcome, overTcp, refused, text } from './connections.mjs';

const later = (milliseconds) => new Promise((resolve) => { setTimeout(resolve, milliseconds); });
const turn = () => new Promise((resolve) => { setImmediate(resolve); });

/** What reads all of a stream, and may write to it. */
const READERS = {
  'for await': async (it) => { for await (const chunk of it) assert.ok(chunk); },
  text: textOf,
  pipeline: (it) => pipeline(it, new PassThrough().resume()),
  'for await that answers': async (it) => { for await (const chunk of it) it.write(chunk); },
  'for await that answers and waits': async (it) => {
    for await (const chunk of it) if (!it.write(chunk)) await once(it, 'drain');
  },
};

test('the ends of a stream of Node', { timeout: 300000 }, async (t) => {
  await load();

  await t.test('destroy before the other party’s end is a cut, also after finish, and else none', async () => {
    const [near, far] = await overTcp();
    const [a, b] = await channels([near, far]);
    b.duplex.allowHalfOpen = true;
    b.duplex.resume().end('bye');
    await once(b.duplex, 'finish');
    b.duplex.destroy();
    assert.equal(far.destroyed, true);
    assert.deepEqual([await a.receive(), await a.receive()], [text('bye'), undefined]);
    assert.equal(await outcome((async () => {
      for (let n = 0; n < 100; n += 1) {
        await a.send(text('more'));
        await later(10);
      }
      await a.end();
    })()), 'NOISE_CUT');
    assert.equal(near.destroyed, true);
    const [c, d] = await channels(await overTcp());
    const closed = once(d.duplex, 'close');
    d.duplex.on('end', () => { d.duplex.end('bye').destroy(); }).resume();
    await c.end();
    assert.deepEqual([await c.receive(), await c.receive()], [text('bye'), undefined]);
    await Promise.all([c.close(), closed]);
    assert.equal(d.duplex.writableFinished, true);
  });

  await t.test('one that has both ends, and whose connection takes nothing, is destroyed after a while', async (u) => {
    const [near, far] = duplexes();
    const [a, b] = await channels([near, far]);
    u.mock.timers.enable({ apis: ['setTimeout'] });
    near.refuses = () => {};
    await b.end();
    await once(a.duplex.resume(), 'end');
    a.duplex.destroy();
    assert.equal(a.duplex.destroyed, false);
    u.mock.timers.tick(5000);
    assert.deepEqual([a.duplex.destroyed, a.duplex.writableFinished, near.destroyed], [true, false, true]);
    b.destroy();
  });

  for (const [name, read] of Object.entries(READERS)) {
    await t.test(`${name}: who reads all ends it as a socket does, and what was written leaves`, async () => {
      const whole = Buffer.from(bytes(1 << 20));
      for (const question of [Buffer.from('question'), whole]) {
        const [a, b] = await channels(await overTcp());
        const events = [];
        for (const event of ['finish', 'error']) b.duplex.on(event, () => events.push(event));
        const closed = once(b.duplex, 'close');
        const reading = read(b.duplex);
        const sent = a.send(question).then(() => a.end());
        const parts = [];
        for await (const payload of a) parts.push(payload);
        const answer = Buffer.concat(parts);
        if (name.includes('answers')) assert.equal(Buffer.compare(answer, question), 0);
        else assert.equal(answer.length, 0);
        await Promise.all([reading, sent, closed]);
        assert.deepEqual(events, ['finish']);
        await a.close();
      }
    });
  }

  await t.test('with allowHalfOpen a loop over it cuts it before its own end, or leaves it open', async () => {
    const [a, b] = await channels(await overTcp());
    b.duplex.on('error', () => {}).allowHalfOpen = true;
    await a.end();
    for await (const chunk of b.duplex) assert.fail(chunk);
    assert.equal(await outcome(a.receive()), 'NOISE_CUT');
    const [c, d] = await channels(await overTcp());
    d.duplex.allowHalfOpen = true;
    await c.end();
    for await (const chunk of d.duplex.iterator({ destroyOnReturn: false })) assert.fail(chunk);
    d.duplex.end('answer');
    assert.deepEqual([await c.receive(), await c.receive()], [text('answer'), undefined]);
    await c.close();
  });

  await t.test('the channel’s end is that of its writing side, before and after it is made', async () => {
    for (const isMade of [false, true]) {
      const [a, b] = await channels(await overTcp());
      const early = isMade ? b.duplex : undefined;
      await b.end();
      const one = b.duplex;
      assert.ok(!early || early === one);
      const events = [];
      for (const event of ['finish', 'end', 'error']) one.on(event, () => events.push(event));
      const closed = once(one, 'close');
      await a.send(text('question'));
      await a.end();
      assert.equal(await textOf(one), 'question');
      await closed;
      assert.deepEqual(events, ['finish', 'end']);
      assert.equal(await a.receive(), undefined);
      await a.close();
    }
  });

  for (const kind of ['at once', 'slow']) {
    await t.test(`over a connection that takes it ${kind}, what is written and sent keeps its order`, async () => {
      for (const last of ['end', 'close', 'duplex.end']) {
        const [near, far] = duplexes();
        const [a, b] = await channels([near, far]);
        await turn();
        if (kind === 'slow') near._write = (part, _, done) => { setTimeout(() => { far.push(part); done(); }, 5); };
        const one = a.duplex.on('error', () => {});    // after `close` it can't be read
        one.write('0');
        const calls = [a.send(text('1'))];
        await turn();
        one.write('2');
        calls.push(a.flush(), a.send(text('3')), a.send(text('4'), { signal: new AbortController().signal }));
        one.write('5');
        one.cork();
        one.write('6');
        calls.push(last === 'duplex.end' ? new Promise((resolve) => { one.end(resolve); }) : a[last]());
        const parts = [];
        for await (const payload of b) parts.push(payload);
        assert.equal(Buffer.concat(parts).toString(), '0123456', last);
        await b.end();
        one.resume();
        await Promise.all(calls);
        b.destroy();
        a.destroy();
      }
    });
  }

  await t.test('what waits behind a write is refused, ended by a signal, or cut, and never a false end', async () => {
    for (const [call, ends] of [
      [(a) => a.close({ timeout: 20 }), undefined],
      [(a) => a.send(text('late'), { signal: AbortSignal.timeout(20) }), 'TimeoutError'],
      [(a) => a.end({ signal: AbortSignal.timeout(20) }), 'TimeoutError'],
      [(a) => { setTimeout(() => a.destroy(), 20); return a.end(); }, 'NOISE_DISPOSED'],
    ]) {
      const [near, far] = duplexes();
      const [a, b] = await channels([near, far]);
      await turn();
      const held = [];
      near._write = (part, _, done) => { held.push(() => { far.push(part); done(); }); };
      a.duplex.on('error', () => {}).write('1');
      await turn();
      a.duplex.write('2');
      assert.equal(await outcome(call(a)), ends);
      assert.equal(near.destroyed, true);
      for (const go of held) go();
      far.push(null);
      assert.deepEqual([await b.receive(), await outcome(b.receive())], [text('1'), 'NOISE_CUT']);
    }
    const [near] = duplexes();
    const [a] = await channels([near, near.other]);
    await turn();
    near._write = () => {};
    a.duplex.on('error', () => {}).write('1');
    await turn();
    a.duplex.write('2');
    a.duplex.end();
    await assert.rejects(a.send(text('3')), refused('NOISE_CLOSED'));
    assert.equal(await outcome(a.flush({ signal: AbortSignal.timeout(20) })), 'TimeoutError');
    assert.equal(near.destroyed, false);
    a.destroy();
  });

  await t.test('with a plain socket, as on the page, an end is passed on as one, and a cut as a reset', async () => {
    const join = async () => {
      const [[client, plain], [a, b]] = [await overTcp(), await channels(await overTcp())];
      const { duplex } = b;
      for (const it of [client, plain, duplex]) it.allowHalfOpen = true;
      duplex.on('error', () => plain.resetAndDestroy()).pipe(plain);
      plain.on('error', (error) => duplex.destroy(error)).pipe(duplex);
      return { client, plain, a, duplex };
    };
    const whole = await join();
    whole.client.end('question');
    assert.deepEqual([await whole.a.receive(), await whole.a.receive()], [text('question'), undefined]);
    await whole.a.send(text('answer'));
    await whole.a.end();
    assert.equal(await textOf(whole.client), 'answer');
    for (const it of [whole.plain, whole.duplex]) if (!it.closed) await once(it, 'close');
    await whole.a.close();
    for (const hasEnded of [false, true]) {
      const cut = await join();
      await cut.a.send(text('a part'));
      assert.equal((await once(cut.client, 'data')).toString(), 'a part');
      if (hasEnded) {
        cut.client.end();
        assert.equal(await cut.a.receive(), undefined);
      }
      cut.a.destroy();
      assert.equal((await once(cut.client, 'error'))[0].code, 'ECONNRESET');
      const reset = await join();
      if (hasEnded) {
        await reset.a.end();
        await once(reset.client.resume(), 'end');
      }
      reset.client.resetAndDestroy();
      assert.equal(await outcome(reset.a.receive()), 'NOISE_CUT');
    }
  });
});
