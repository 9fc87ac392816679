import test from 'node:test';
import assert from 'node:assert/strict';
import { once } from 'node:events';
import { connect } from 'node:net';
import { KeyPair, NoiseSocket, load, protocolName } from '../noise.mjs';
import { NN, nobody, openSockets, overTcp, pair, refused, sockets, text } from './connections.mjs';

test('channels', async (t) => {
  await load();
  await t.test('a channel over a pair of sockets, one message a frame, and a text frame is refused', async () => {
    const [one, two] = sockets();
    setTimeout(() => { one.open(); two.open(); }, 5);
    const pattern = protocolName('NN');
    const [a, b] = await Promise.all([
      NoiseSocket.open(one, { pattern, acceptAnyKey: true }),
      NoiseSocket.open(two, { pattern, responder: true, acceptAnyKey: true }),
    ]);
    assert.deepEqual(a.hash, b.hash);
    await a.send(text('hello'));
    assert.deepEqual(await b.receive(), text('hello'));
    two.send('a text');
    await assert.rejects(a.receive(), (error) =>
      error.code === 'NOISE_SHORT' && error.message.startsWith('a text message came over the WebSocket'),
    );
    await assert.rejects(b.receive(), refused('NOISE_CUT'));
    await assert.rejects(a.send(text('x')), refused('NOISE_SHORT'));
    const [near, far] = openSockets();
    const opening = NoiseSocket.open(near, { pattern, responder: true, acceptAnyKey: true });
    far.send('a text');
    await assert.rejects(opening, { code: 'NOISE_SHORT', message: /^a text message came/u });
  });

  await t.test('a second call of open on a connection is refused, and the first goes on', async () => {
    for (const ends of [overTcp(), openSockets(), pair({ highWaterMark: 1e6 }, { highWaterMark: 1e6 })]) {
      const [near, far] = await ends;
      const opening = NoiseSocket.open(near, NN);
      const second = { name: 'TypeError', message: /^open was called on this connection before/u };
      await assert.rejects(NoiseSocket.open(near, NN), second);
      const [a, b] = await Promise.all([opening, NoiseSocket.open(far, { ...NN, responder: true })]);
      await assert.rejects(NoiseSocket.open(near, NN), second);
      a.send(text('one')).catch(() => {});
      assert.deepEqual(await b.receive(), text('one'));
      await Promise.all([a.close(), b.close()]);
    }
  });

  await t.test('the other party’s key is checked, and a closed connection is reported', async () => {
    const pattern = protocolName('XX');
    const [near, far] = pair();
    const [a, b] = await Promise.allSettled([
      NoiseSocket.open(near, { pattern, staticKey: await KeyPair.generate(), verify: () => false }),
      NoiseSocket.open(far, { pattern, staticKey: await KeyPair.generate(), responder: true, acceptAnyKey: true }).then(
        (channel) => channel.receive(),
      ),
    ]);
    assert.equal(a.reason.code, 'NOISE_REFUSED');
    assert.match(a.reason.message, /verify didn't return true/u);
    assert.equal(b.reason?.code, 'NOISE_CUT'); // no message 3
    const [cut, cutter] = pair();
    await Promise.all([
      assert.rejects(
        NoiseSocket.open(cut, { pattern, staticKey: await KeyPair.generate(), acceptAnyKey: true }),
        refused('NOISE_CUT'),
      ),
      (async () => {
        const reader = cutter.readable.getReader();
        await reader.read();
        await cutter.writable.getWriter().close();
      })(),
    ]);
  });

  // Which key `verify` gets, how many messages this party has sent then, and that nothing is sent after a refusal.
  for (const [pattern, responder, sent] of [
    ['XX', false, 1],
    ['XX', true, 1],
    ['IX', false, 1],
    ['IX', true, 0],
    ['IK', false, 0],
    ['IK', true, 0],
  ]) {
    await t.test(
      `${pattern}: the ${responder ? 'responder' : 'initiator'} verifies as soon as it knows the key`,
      async () => {
        // as Buffer.compare of two keys that differ returns 1 or -1
        for (const verdict of [true, false, 1, -1, 'yes', {}, undefined]) {
          let count = 0;
          const counting = new TransformStream(
            { transform: (chunk, controller) => { count += 1; controller.enqueue(chunk); } },
            undefined,
            { highWaterMark: 16 },
          );
          const other = new TransformStream(undefined, undefined, { highWaterMark: 16 });
          const [one, two] = [await KeyPair.generate(), await KeyPair.generate()];
          const seen = [];
          const verify = (key) => { seen.push([key, count]); return verdict; };
          const here = { pattern, responder, staticKey: one, verify };
          const there = { pattern, responder: !responder, staticKey: two, acceptAnyKey: true };
          if (pattern === 'IK') {
            [here, there].find((it) => !it.responder).remoteStatic = responder ? one.publicKey : two.publicKey;
          }
          const [a, b] = await Promise.allSettled([
            NoiseSocket.open({ readable: other.readable, writable: counting.writable }, here),
            NoiseSocket.open({ readable: counting.readable, writable: other.writable }, there),
          ]);
          assert.deepEqual(seen, [[two.publicKey, sent]]);
          if (verdict === true) assert.deepEqual([a.status, b.status], ['fulfilled', 'fulfilled']);
          else assert.deepEqual([a.reason.code, count], ['NOISE_REFUSED', sent]);
        }
      },
    );
  }

  await t.test('a channel over a pair of streams, in pieces of one byte', async () => {
    const transform = (chunk, controller) => { for (const byte of chunk) controller.enqueue(Uint8Array.of(byte)); };
    const bytewise = () => new TransformStream({ transform }, { highWaterMark: 1e6 }, { highWaterMark: 1e6 });
    const [up, down] = [bytewise(), bytewise()];
    const [client, server] = [await KeyPair.generate(), await KeyPair.generate()];
    const options = { pattern: protocolName('XX'), interval: 3 };
    const same = (key) => (got) => Buffer.compare(got, key.publicKey) === 0;
    const [a, b] = await Promise.all([
      NoiseSocket.open(
        { readable: down.readable, writable: up.writable },
        { ...options, staticKey: client, verify: same(server) },
      ),
      NoiseSocket.open(
        { readable: up.readable, writable: down.writable },
        { ...options, staticKey: server, responder: true, verify: same(client) },
      ),
    ]);
    for (let n = 0; n < 7; n += 1) {
      await a.send(text(`hello ${n}`));
      assert.deepEqual(await b.receive(), text(`hello ${n}`));
    }
    await a.close();
    assert.equal(await b.receive(), undefined);
  });

  await t.test('who may be the other party has to be said, as in the package for Go', async () => {
    const [staticKey, { publicKey }] = [await KeyPair.generate(), await KeyPair.generate()];
    const [verify, psk, acceptAnyKey] = [() => true, new Uint8Array(32), true];
    const unsaid = refused('NOISE_UNAUTHENTICATED');
    const cases = [
      [{ pattern: 'XX', staticKey }, unsaid],
      [{ pattern: 'XX', staticKey, responder: true, psks: [] }, unsaid],
      [{ pattern: 'XX', staticKey, acceptAnyKey: 'yes' }, unsaid],
      [{ pattern: 'NN' }, unsaid],
      [{ pattern: 'NK', staticKey, responder: true }, unsaid],
      [{ pattern: 'NN', verify }, TypeError],
      [{ pattern: 'NNpsk0', psks: [psk], verify }, TypeError],
      [{ pattern: 'NK', staticKey, responder: true, verify }, TypeError],
      [{ pattern: 'XX', staticKey, verify: 'yes' }, TypeError],
    ];
    for (const [options, fault] of cases) {
      const [near, far] = pair();
      await assert.rejects(NoiseSocket.open(near, options), fault, JSON.stringify(options));
      // closed, and nothing was sent
      assert.deepEqual(await far.readable.getReader().read(), { value: undefined, done: true });
    }
    const said = [
      [{ pattern: 'NN', acceptAnyKey }, { pattern: 'NN', acceptAnyKey, verify }],
      [{ pattern: 'NNpsk0', psks: [psk] }, { pattern: 'NNpsk0', psks: [psk] }],
      [{ pattern: 'NK', remoteStatic: staticKey.publicKey }, { pattern: 'NK', staticKey, acceptAnyKey }],
      [{ pattern: 'XX', staticKey, verify }, { pattern: 'XX', staticKey, acceptAnyKey }],
      [{ pattern: 'XXpsk3', staticKey, psks: [psk] }, { pattern: 'XXpsk3', staticKey, pskFor: () => psk }],
    ];
    for (const [client, server] of said) {
      const [near, far] = pair();
      const [a, b] = await Promise.all([
        NoiseSocket.open(near, client),
        NoiseSocket.open(far, { ...server, responder: true }),
      ]);
      assert.deepEqual(a.hash, b.hash);
    }
    await assert.rejects(
      NoiseSocket.open(pair()[0], { pattern: 'NK', staticKey, remoteStatic: publicKey, responder: true }),
      refused('NOISE_REMOTE_UNEXPECTED'),
    );
  });

  await t.test('wrong options close the connection', async () => {
    for (const options of [
      undefined,
      {},
      { pattern: 'QQ', acceptAnyKey: true },
      { pattern: 'XX', acceptAnyKey: true },
      { pattern: 'NN', acceptAnyKey: true, prologue: 'text' },
    ]) {
      const [near, far] = pair();
      await assert.rejects(NoiseSocket.open(near, options));
      assert.equal((await far.readable.getReader().read()).done, true);
      const [here, there] = await overTcp();
      await assert.rejects(NoiseSocket.open(here, options));
      assert.equal(here.destroyed, true);
      await once(there.resume(), 'close');
      const socket = connect(1, '192.0.2.1');    // nobody has this address (RFC 5737): it connects for a long time
      await assert.rejects(NoiseSocket.open(socket, options));
      assert.equal(socket.destroyed, true);
    }
    await assert.rejects(NoiseSocket.open(undefined, { pattern: 'NN', acceptAnyKey: true }), TypeError);
  });

  await t.test('the error of the connection is the cause', async () => {
    const { port } = await nobody();
    const early = connect(port, '127.0.0.1');
    const options = { pattern: 'NN', acceptAnyKey: true };
    const causes = { code: 'NOISE_CUT', cause: { code: 'ECONNREFUSED' } };
    const result = (error) => error.code === causes.code && error.cause?.code === causes.cause.code;
    await assert.rejects(NoiseSocket.open(early, options), result);
    await assert.rejects(NoiseSocket.open(early, options), result);    // it was destroyed before
    await assert.rejects(NoiseSocket.open(connect(port, '127.0.0.1'), { ...options, responder: true }), result);
    const [here, there] = await overTcp();
    const [a] = await Promise.all([
      NoiseSocket.open(here, options),
      NoiseSocket.open(there, { ...options, responder: true }),
    ]);
    there.resetAndDestroy();
    await assert.rejects(a.receive(), (error) => error.code === 'NOISE_CUT' && error.cause.code === 'ECONNRESET');
  });

  await t.test('a socket that a timeout destroys ends the call of open', async () => {
    const [here, there] = await overTcp();
    here.setTimeout(50, () => here.destroy());
    await assert.rejects(NoiseSocket.open(here, { pattern: 'NN', acceptAnyKey: true }), refused('NOISE_CUT'));
    there.destroy();
  });

  await t.test('only a Uint8Array is sent, and a refused payload changes nothing', async () => {
    const [near, far] = pair();
    const options = { pattern: 'NN', acceptAnyKey: true };
    const [a, b] = await Promise.all([
      NoiseSocket.open(near, options),
      NoiseSocket.open(far, { ...options, responder: true }),
    ]);
    for (const payload of [
      'text',
      undefined,
      null,
      5,
      [1, 2],
      { length: 2 },
      new Uint16Array(2),
      new DataView(new ArrayBuffer(2)),
      new ArrayBuffer(2),
    ]) {
      await assert.rejects(a.send(payload), TypeError);
    }
    await Promise.all([a.send(Buffer.from('text')), b.receive().then((got) => assert.deepEqual(got, text('text')))]);
  });
});
