// The first messages: the last of the handshake leaves with the first payload, and none waits for an acknowledgement.
import test from 'node:test';
import assert from 'node:assert/strict';
import { KeyPair, NoiseSocket, load } from '../noise.mjs';
import { NN, apart, channels, overTcp, pair, text } from './connections.mjs';

/** Streams of which each chunk that is written is counted. */
function counted() {
  const counts = [0, 0];
  const pipes = counts.map((_, n) =>
    new TransformStream(
      { transform: (chunk, it) => { counts[n] += 1; it.enqueue(chunk); } },
      { highWaterMark: 1e6 },
      { highWaterMark: 1e6 },
    ),
  );
  return {
    counts,
    ends: [
      { readable: pipes[1].readable, writable: pipes[0].writable },
      { readable: pipes[0].readable, writable: pipes[1].writable },
    ],
  };
}

test('first messages', { timeout: 300000 }, async (t) => {
  await load();
  const [one, two] = [await KeyPair.generate(), await KeyPair.generate()];
  const XX = [
    { pattern: 'XX', staticKey: one, acceptAnyKey: true },
    { pattern: 'XX', staticKey: two, responder: true, acceptAnyKey: true },
  ];

  await t.test(
    'the last message of XX leaves with the first payload, of NN with the first answer, and of N with all',
    async () => {
      const isN = { pattern: 'N', remoteStatic: two.publicKey };
      const cases = [
        [XX[0], XX[1], [2, 2]],
        [NN, { ...NN, responder: true }, [2, 1]],
        [isN, { pattern: 'N', staticKey: two, responder: true, acceptAnyKey: true }, [1, 0]],
      ];
      for (const [client, server, expected] of cases) {
        const { counts, ends } = counted();
        const serving = NoiseSocket.open(ends[1], server).then(async (b) => {
          const got = await (expected[1] === 1 ? b.send(text('back')).then(() => b.receive()) : b.receive());
          if (expected[1] === 2) await b.send(text('back'));
          return got;
        });
        const a = await NoiseSocket.open(ends[0], client);
        await a.send(text('one'));
        assert.deepEqual(await serving, text('one'));
        assert.deepEqual(counts, expected, client.pattern);
      }
    },
  );

  await t.test('end, receive, flush and close send it, and it leaves by itself', async () => {
    const sends = [
      (a) => a.end(),
      (a) => { a.receive().catch(() => {}); },
      (a) => a.flush(),
      (a) => { a.close(); },
      () => {},
    ];
    for (const send of sends) {
      const [near, far] = pair({ highWaterMark: 1e6 }, { highWaterMark: 1e6 });
      const serving = NoiseSocket.open(far, XX[1]);
      await send(await NoiseSocket.open(near, XX[0]));
      const b = await serving;
      assert.ok(b.hash);
      b.destroy();
    }
  });

  await t.test('nothing over TCP waits for an acknowledgement', async () => {
    const ends = await overTcp();
    const delays = [];
    for (const it of ends) it.setNoDelay = (isOn) => { delays.push(isOn); };
    const both = await channels(ends);
    assert.deepEqual(delays, [true, true]);
    for (const it of both) it.destroy();
  });

  // In a program of its own: the test runner follows each promise, and takes longer than the connection. Where one
  // message waits for the acknowledgement of another, each connection takes 40 ms or more.
  await t.test('a first connection by XX over TCP waits for no acknowledgement', () => {
    const { stdout, stderr } = apart('connects.mjs');
    const [least, middle, inMemory] = stdout.split(' ').map(Number);
    // also on a machine that has much else to do
    assert.ok(least > 0 && least < 20 + 3 * inMemory, `${stdout}${stderr}`);
    t.diagnostic(`from ${least} ms, in the middle ${middle} ms`);
  });
});
