// A channel as a stream of Node: what programs do with a socket of TCP, and what http.Agent does.
import test from 'node:test';
import assert from 'node:assert/strict';
import { once } from 'node:events';
import { Agent, createServer as createHttpServer, request } from 'node:http';
import { connect, createServer } from 'node:net';
import { Duplex, PassThrough } from 'node:stream';
import { pipeline } from 'node:stream/promises';
import { text as textOf } from 'node:stream/consumers';
import { KeyPair, NoiseSocket, load } from '../noise.mjs';
import { NN, apart, channels, duplexes, openSockets, outcome, overTcp, pair, refused } from './connections.mjs';

const turn = () => new Promise((resolve) => { setImmediate(resolve); });
const roomy = () => pair({ highWaterMark: 1e6 }, { highWaterMark: 1e6 });

/** A server of HTTP over channels, and an agent for it; `connected` counts the connections. */
async function http(options, handle) {
  const server = createHttpServer(options, handle);
  const served = [];
  const tcp = createServer(async (socket) => {
    const channel = await NoiseSocket.open(socket, { ...NN, responder: true });
    served.push(channel.duplex);
    server.emit('connection', channel.duplex);
  }).listen(0, '127.0.0.1');
  await once(tcp, 'listening');
  const agent = new Agent({ keepAlive: true });
  const it = { server, agent, served, connected: 0 };
  agent.createConnection = (_, done) => {
    it.connected += 1;
    NoiseSocket.open(connect(tcp.address().port, '127.0.0.1'), NN).then((channel) => done(null, channel.duplex), done);
  };
  it.close = () => {
    agent.destroy();
    for (const one of served) one.destroy();
    tcp.close();
  };
  it.ask = async (path, body) => {
    const asking = request({ agent, path, method: body ? 'POST' : 'GET' });
    const answered = once(asking, 'response');
    asking.end(body);
    const [answer] = await answered;
    return [answer.statusCode, await textOf(answer)];
  };
  return it;
}

test('a stream of Node', { timeout: 300000 }, async (t) => {
  await load();

  await t.test('it is one Duplex, with what a socket of TCP tells and takes', async () => {
    const [near, far] = await overTcp();
    const [a, b] = await channels([near, far]);
    const one = a.duplex;
    assert.ok(one instanceof Duplex && one === a.duplex && one !== b.duplex);
    for (const name of [
      'remoteAddress', 'remotePort', 'remoteFamily', 'localAddress', 'localPort', 'localFamily', 'timeout',
    ]) assert.equal(one[name], near[name], name);
    assert.deepEqual(one.address(), near.address());
    assert.ok(one.bytesWritten > 0 && one.bytesRead > 0);
    assert.deepEqual([one.connecting, one.pending, one.readyState, one.allowHalfOpen], [false, false, 'open', false]);
    const calls = [];
    for (const name of ['setKeepAlive', 'setNoDelay', 'ref', 'unref']) {
      near[name] = (...words) => { calls.push([name, ...words]); };
    }
    const same = one.setKeepAlive(true, 1000).setNoDelay(false).unref().ref();
    assert.equal(same, one);
    assert.deepEqual(calls, [['setKeepAlive', true, 1000], ['setNoDelay', false], ['unref'], ['ref']]);
    one.destroy();
    b.destroy();
    const [c, d] = await channels(openSockets());
    assert.equal(c.duplex.setKeepAlive(true).setNoDelay().setTimeout(0).ref().unref().remoteAddress, undefined);
    assert.deepEqual(c.duplex.address(), {});
    c.destroy();
    d.destroy();
  });

  await t.test('what is written in one turn leaves in one frame, and callbacks come once it is taken', async () => {
    const [near, far] = duplexes();
    const [a, b] = await channels([near, far]);
    await turn();
    const writes = [];
    near._write = (chunk, _, done) => { writes.push({ chunk, done: () => { far.push(chunk); done(); } }); };
    const events = [];
    const one = a.duplex;
    one.on('drain', () => events.push('drain')).on('finish', () => events.push('finish'));
    const few = ['one', 'two', 'three'].map((it) => one.write(it, () => events.push(it)));
    assert.deepEqual([few, one.writableLength], [[true, true, true], 11]);
    await turn();
    assert.deepEqual([writes.length, events], [1, []]);
    assert.equal(one.write(Buffer.alloc(one.writableHighWaterMark), () => events.push('much')), false);
    assert.equal(one.writableNeedDrain, true);
    writes[0].done();
    await turn();
    await turn();
    assert.deepEqual([writes.length, events], [2, ['one', 'two', 'three']]);
    writes[1].done();
    await turn();
    assert.deepEqual(events, ['one', 'two', 'three', 'drain', 'much']);
    one.end('last', () => events.push('ended'));
    for (let n = 2; n < 4; n += 1) {
      while (writes.length === n) await turn();
      assert.equal(events.includes('finish'), false);
      writes[n].done();
    }
    await once(one, 'finish');
    const got = [];
    for await (const payload of b) got.push(payload);
    const whole = Buffer.concat(got).toString('latin1');
    assert.equal(got[0].length, 11);
    assert.ok(whole.startsWith('onetwothree') && whole.endsWith('last'));
    a.destroy();
    b.destroy();
  });

  await t.test('cork, uncork, several encodings, and the order of writes and ends', async () => {
    const [a, b] = await channels(roomy());
    const one = a.duplex;
    one.cork();
    one.cork();
    one.write('30', 'hex');
    one.uncork();
    one.write('1');
    await turn();
    assert.equal(one.writableCorked, 1);
    one.uncork();
    one.write('MjM=', 'base64');
    one.write(new Uint8Array([52]));
    await turn();
    for (let n = 5; n < 9; n += 1) {
      one.write(String(n));
      await undefined;
    }
    one.end('9');
    assert.throws(() => { one.write(5); }, { code: 'ERR_INVALID_ARG_TYPE' });
    const late = once(one, 'error');
    assert.equal(await textOf(b.duplex), '0123456789');
    one.write('late');
    assert.equal((await late)[0].code, 'ERR_STREAM_WRITE_AFTER_END');
    b.destroy();
  });

  await t.test('each end’s end comes as end; without allowHalfOpen it is answered, and both close', async () => {
    for (const connection of [overTcp, roomy, openSockets]) {
      const [near, far] = await connection();
      const [a, b] = await channels([near, far]);
      const events = [];
      for (const [name, it] of [['a', a.duplex], ['b', b.duplex]]) {
        for (const event of ['end', 'finish', 'close']) it.on(event, () => events.push(`${name} ${event}`));
        it.resume();
      }
      const closed = Promise.all([once(a.duplex, 'close'), once(b.duplex, 'close')]);
      a.duplex.end('bye');
      await closed;
      assert.ok(events.indexOf('b end') < events.indexOf('a end'));
      assert.deepEqual(events.slice().sort(), ['a close', 'a end', 'a finish', 'b close', 'b end', 'b finish']);
      if (connection === overTcp) assert.ok(near.destroyed && far.destroyed);
    }
    const [a, b] = await channels(await overTcp());
    b.duplex.allowHalfOpen = true;
    a.duplex.end('question');
    const came = [];
    await once(b.duplex.on('data', (chunk) => came.push(chunk)), 'end');    // a loop over it would destroy it
    assert.deepEqual([Buffer.concat(came).toString(), b.duplex.readyState], ['question', 'writeOnly']);
    b.duplex.end('answer');
    assert.equal(await textOf(a.duplex), 'answer');
    if (!b.duplex.closed) await once(b.duplex, 'close');
  });

  await t.test('a cut is an error, and destroy is none: the other party has no end', async () => {
    const [near, far] = await overTcp();
    const [a, b] = await channels([near, far]);
    a.duplex.destroy();
    await once(a.duplex, 'close');
    assert.equal(near.destroyed, true);
    await assert.rejects(textOf(b.duplex), refused('NOISE_CUT'));
    const [c, d] = await channels(await overTcp());
    const error = new Error('enough');
    c.duplex.destroy(error);
    const failed = once(c.duplex, 'error');
    assert.equal((await failed)[0], error);
    await assert.rejects(d.receive(), refused('NOISE_CUT'));
    const [here, there] = await overTcp();
    const [e] = await channels([here, there]);
    const broken = once(e.duplex.resume(), 'error');
    there.resetAndDestroy();
    const [reason] = await broken;
    assert.deepEqual([reason.code, reason.cause.code], ['NOISE_CUT', 'ECONNRESET']);
    assert.equal(await outcome(new Promise((resolve, reject) => {
      e.duplex.write('x', (it) => (it ? reject(it) : resolve()));
    })), 'Error');    // after destroy, as Node says it
  });

  await t.test('close says whether there was an error, and resetAndDestroy resets', async () => {
    const closed = (duplex) => new Promise((resolve) => {
      duplex.on('error', () => {}).on('close', resolve).resume();
    });
    for (const [end, isError] of [
      [(one) => one.end(), [false, false]],
      [(one) => one.destroy(), [false, true]],
      [(one) => one.destroy(new Error('enough')), [true, true]],
      [(one) => one.resetAndDestroy(), [false, true]],
    ]) {
      const [a, b] = await channels(await overTcp());
      const both = [closed(a.duplex), closed(b.duplex)];
      end(a.duplex);
      assert.deepEqual(await Promise.all(both), isError);
    }
    const [near, far] = await overTcp();
    const [a, b] = await channels([near, far]);
    assert.equal(a.duplex.resetAndDestroy(), a.duplex);
    await assert.rejects(b.receive(), (it) => it.code === 'NOISE_CUT' && it.cause.code === 'ECONNRESET');
    const [c, d] = await channels(openSockets());
    c.duplex.resetAndDestroy();
    await assert.rejects(d.receive(), refused('NOISE_CUT'));
  });

  await t.test('a write that fails fails its callback, and the stream', async () => {
    const [near, far] = duplexes();
    const [a, b] = await channels([near, far]);
    const first = new Promise((resolve, reject) => { a.duplex.write('x', (it) => (it ? reject(it) : resolve())); });
    assert.equal(await outcome(first), undefined);
    near.refuses = (done) => setImmediate(() => done(new Error('full')));
    const failed = once(a.duplex, 'error');
    const calls = ['y', 'z'].map((it) => outcome(new Promise((resolve, reject) => {
      a.duplex.write(it, (error) => (error ? reject(error) : resolve()));
    })));
    assert.deepEqual(await Promise.all(calls), ['NOISE_CUT', 'NOISE_CUT']);
    assert.equal((await failed)[0].cause.message, 'full');
    assert.equal(a.duplex.destroyed, true);
    b.destroy();
  });

  await t.test('who isn’t read makes the writer wait', async () => {
    const [a, b] = await channels(await overTcp());
    let size = 0;
    const endless = new Duplex({
      read() { size += 65536; this.push(Buffer.alloc(65536)); }, write: (chunk, _, done) => done(),
    });
    const piping = pipeline(endless, a.duplex).catch(() => {});
    assert.ok(b.duplex);
    for (let before = -1; before !== size;) {
      before = size;
      await new Promise((resolve) => { setTimeout(resolve, 200); });
    }
    assert.ok(size < 32 << 20, `${size} bytes`);
    b.duplex.destroy();
    await piping;
  });

  await t.test('pipeline there and back, and what Duplex.toWeb makes of it', async () => {
    const [a, b] = await channels(await overTcp());
    b.duplex.allowHalfOpen = true;
    const whole = Buffer.from(Array.from({ length: 1 << 20 }, (_, n) => (n * 7 + (n >> 8)) & 255));
    const source = new PassThrough();
    source.end(whole);
    const parts = [];
    a.duplex.allowHalfOpen = true;
    await Promise.all([
      pipeline(b.duplex, b.duplex),
      pipeline(source, a.duplex),
      (async () => { for await (const chunk of a.duplex) parts.push(chunk); })(),
    ]);
    assert.equal(Buffer.compare(Buffer.concat(parts), whole), 0);
    assert.ok(Buffer.isBuffer(parts[0]));
    const [c, d] = await channels(await overTcp());
    const { readable, writable } = Duplex.toWeb(d.duplex);
    const writer = writable.getWriter();
    writer.write(new Uint8Array([7])).catch(() => {});
    writer.close().catch(() => {});
    assert.deepEqual(await c.receive(), new Uint8Array([7]));
    await c.close();
    await readable.cancel().catch(() => {});
  });

  await t.test('a timeout comes after a while without traffic, once, and destroys nothing', async () => {
    const [a, b] = await channels(await overTcp());
    const one = a.duplex.resume();
    const other = b.duplex.resume();
    let count = 0;
    assert.equal(one.setTimeout(50, () => { count += 1; }), one);
    assert.equal(one.timeout, 50);
    await once(one, 'timeout');
    await new Promise((resolve) => { setTimeout(resolve, 150); });
    assert.deepEqual([count, one.destroyed], [1, false]);
    const again = once(one, 'timeout');
    one.write('x');    // arms it again
    await again;
    const third = once(one, 'timeout');
    other.write('x');    // and so does what comes
    await third;
    one.setTimeout(0);
    one.on('timeout', () => { count += 100; });
    one.write('x');
    await new Promise((resolve) => { setTimeout(resolve, 150); });
    assert.equal(count, 1);
    for (const wrong of [-1, NaN, 'x']) assert.throws(() => one.setTimeout(wrong), RangeError);
    one.destroy();
    other.destroy();
  });

  await t.test('destroySoon sends what was written, and ends', async () => {
    const [a, b] = await channels(await overTcp());
    a.duplex.write(Buffer.alloc(1 << 20));
    a.duplex.destroySoon();
    let size = 0;
    for await (const { length } of b.duplex) size += length;
    assert.equal(size, 1 << 20);
    if (!a.duplex.closed) await once(a.duplex, 'close');
  });

  await t.test('in a one-way pattern one side only writes, and the other only reads', async () => {
    const staticKey = await KeyPair.generate();
    const [a, b] = await channels(
      await overTcp(), { pattern: 'N', remoteStatic: staticKey.publicKey },
      { pattern: 'N', staticKey, acceptAnyKey: true },
    );
    assert.deepEqual([a.duplex.readyState, b.duplex.readyState], ['writeOnly', 'readOnly']);
    a.duplex.end('one way');
    assert.equal(await textOf(b.duplex), 'one way');
    for (const it of [a, b]) if (!it.duplex.closed) await once(it.duplex, 'close');
  });

  await t.test('http.Agent keeps a channel, and takes another once the server has ended it', async () => {
    const it = await http({ keepAliveTimeout: 300000 }, (question, answer) => {
      textOf(question).then((body) => answer.end(`${question.method} ${question.url} ${body.length}`));
    });
    for (let n = 0; n < 20; n += 1) assert.deepEqual(await it.ask(`/${n}`), [200, `GET /${n} 0`]);
    assert.equal(it.connected, 1);
    assert.deepEqual(await it.ask('/big', 'x'.repeat(1 << 20)), [200, `POST /big ${1 << 20}`]);
    assert.equal(it.connected, 1);
    const many = Array.from({ length: 12 }, (_, n) => it.ask(`/m${n}`, 'y'.repeat(1 + 1000 * n)));
    assert.deepEqual(await Promise.all(many), many.map((_, n) => [200, `POST /m${n} ${1 + 1000 * n}`]));
    assert.equal(it.connected, 12);
    const free = Object.values(it.agent.freeSockets).flat();
    assert.ok(free.length > 0);
    const closed = Promise.all(free.map((socket) => once(socket, 'close')));
    for (const one of it.served) one.end();
    await closed;
    const before = it.connected;
    assert.deepEqual(await it.ask('/again'), [200, 'GET /again 0']);
    assert.equal(it.connected, before + 1);
    it.close();
  });

  await t.test('http: a body without a length, an upgrade, a timeout and a client that goes away', async () => {
    let gone;
    const left = new Promise((resolve) => { gone = resolve; });
    const it = await http({}, (question, answer) => {
      if (question.url === '/close') {
        answer.writeHead(200, { connection: 'close' });
        answer.write('a');
        setTimeout(() => answer.end('b'), 5);
      } else if (question.url === '/never') question.on('close', gone);
    });
    it.server.on('upgrade', (_, socket) => {
      socket.write('HTTP/1.1 101 Switching Protocols\r\nConnection: Upgrade\r\nUpgrade: echo\r\n\r\n');
      socket.pipe(socket);
    });
    assert.deepEqual(await it.ask('/close'), [200, 'ab']);
    const asking = request({ agent: it.agent, headers: { connection: 'Upgrade', upgrade: 'echo' } }).end();
    const [, socket] = await once(asking, 'upgrade');
    socket.end('through');
    assert.equal(await textOf(socket), 'through');
    const late = request({ agent: it.agent, path: '/never', timeout: 50 }).end();
    await once(late, 'timeout');
    late.on('error', () => {});
    late.destroy();
    await left;
    it.close();
  });

  await t.test('a program in which nothing is left to do ends', () => {
    const { status, stdout, stderr } = apart('endsduplex.mjs');
    assert.deepEqual([status, stdout], [0, 'whole\n'], stderr);
  });
});
