// A connection that breaks while `verify`, `pskFor` or `agree` hasn't answered ends `open`.
import test from 'node:test';
import assert from 'node:assert/strict';
import { KeyPair, NoiseSocket, load } from '../noise.mjs';
import { duplexes, openSockets, outcome, overTcp, pair, text } from './connections.mjs';

const PSK = new Uint8Array(32).fill(7);

/** What was sent has come. */
async function turns() {
  for (let n = 0; n < 10; n += 1) await new Promise((resolve) => { setImmediate(resolve); });
}

/** What a program is asked, and answers only once it is told to. */
function question() {
  let asked;
  let settle;
  const isAsked = new Promise((resolve) => { asked = resolve; });
  const answer = new Promise((...both) => { settle = both; });
  const ask = () => {
    asked();
    return answer;
  };
  return { ask, isAsked, answer: settle[0], fail: () => settle[1](new Error('late')) };
}

/** Both sides of a pair of streams, and what writes to the near one. */
function streams() {
  const [near, far] = pair();
  const { readable, writable } = new TransformStream();
  const writer = writable.getWriter();
  return [
    { readable, writable: near.writable },
    { readable: far.readable, writable: new WritableStream({ write: (chunk) => writer.write(chunk) }) },
    writer,
  ];
}

/** How connections break, and whether what has come before is lost, too. */
const BREAKS = {
  'TCP, the other party destroys it': [overTcp, ([, far]) => far.destroy()],
  'TCP, the other party ends its half': [overTcp, ([, far]) => far.end()],
  'TCP, the other party resets it': [overTcp, ([, far]) => far.resetAndDestroy(), true],
  'TCP, this party destroys it': [overTcp, ([near]) => near.destroy(), true],
  'streams of Node, this party destroys one': [duplexes, ([near]) => near.destroy(), true],
  'streams, the end': [streams, ([, , writer]) => writer.close()],
  'streams, an abort': [streams, ([, , writer]) => writer.abort(), true],
  'a WebSocket, closed': [openSockets, ([, far]) => far.close()],
  'a WebSocket, closed without its last message': [
    openSockets,
    ([near]) => near.dispatchEvent(Object.assign(new Event('close'), { wasClean: false })),
    true,
  ],
};

test('what the program is asked', { timeout: 300000 }, async (t) => {
  await load();
  const [one, two] = [await KeyPair.generate(), await KeyPair.generate()];
  const ASKED = {
    verify: (ask) => ({ pattern: 'XX', staticKey: two, verify: ask }),
    pskFor: (ask) => ({ pattern: 'XXpsk3', staticKey: two, pskFor: ask }),
    agree: (ask) => ({ pattern: 'XX', staticKey: { publicKey: two.publicKey, agree: ask }, acceptAnyKey: true }),
  };

  /** Opens both sides of a connection, and comes back when the near one is asked. */
  async function opening([near, far], name) {
    const { ask, isAsked, ...settle } = question();
    const options = ASKED[name](ask);
    const opened = NoiseSocket.open(near, { ...options, responder: true });
    const psks = options.pskFor ? [PSK] : [];
    const peer = NoiseSocket.open(far, { pattern: options.pattern, staticKey: one, psks, acceptAnyKey: true });
    peer.catch(() => {});
    await isAsked;
    return { opened, peer, ...settle };
  }

  for (const [how, [connect, end, losesAll]] of Object.entries(BREAKS)) {
    await t.test(`${how}: open ends, and a late answer changes nothing`, async () => {
      for (const name of Object.keys(ASKED)) {
        for (const hasSent of losesAll && name !== 'agree' ? [false, true] : [false]) {
          const ends = await connect();
          const { opened, peer, answer, fail } = await opening(ends, name);
          if (hasSent) await (await peer).send(text('early'));
          await turns();    // of a reset that comes with data Node makes an end
          end(ends);
          assert.equal(await outcome(opened, 5000), 'NOISE_CUT', `${name}, ${hasSent}`);
          if (hasSent) answer(name === 'verify' ? true : PSK);
          else fail();
          await turns();
          peer.then((channel) => channel.destroy(), () => {});
        }
      }
    });
  }

  for (const [kind, connect] of Object.entries({ TCP: overTcp, streams, WebSocket: openSockets })) {
    await t.test(`${kind}: who sends all, ends and leaves before verify has answered is received`, async () => {
      const ends = await connect();
      const { opened, peer, answer } = await opening(ends, 'verify');
      const channel = await peer;
      const sent = Promise.all([channel.send(text('all')), channel.end()]);
      await turns();
      if (kind === 'TCP') ends[1].end();
      else if (kind === 'streams') ends[2].close();
      else ends[1].close();
      await turns();
      answer(true);
      const b = await opened;
      assert.deepEqual([await b.receive(), await b.receive()], [text('all'), undefined]);
      await sent;
      b.destroy();
      channel.destroy();
    });
  }

  await t.test('a party to whom nothing comes doesn’t mind that the other has ended its half', async () => {
    const [near, far] = await overTcp();
    const ephemeral = await KeyPair.generate();
    const { ask, isAsked, answer } = question();
    const ephemeralKey = {
      publicKey: ephemeral.publicKey,
      agree: async (remote) => {
        await ask();
        return ephemeral.agree(remote);
      },
    };
    const opened = NoiseSocket.open(near, { pattern: 'N', ephemeralKey, remoteStatic: two.publicKey });
    await isAsked;
    far.end();
    await turns();
    answer();
    const a = await opened;
    const b = await NoiseSocket.open(far, { pattern: 'N', responder: true, staticKey: two, acceptAnyKey: true });
    await a.send(text('one way'));
    await a.end();
    assert.deepEqual([await b.receive(), await b.receive()], [text('one way'), undefined]);
    a.destroy();
    b.destroy();
  });
});
