// Key pairs that answer from elsewhere, `verify` and `pskFor`: what they are given is theirs, whatever they do with it;
// and they may answer late, twice, never, or with something else.
import test from 'node:test';
import assert from 'node:assert/strict';
import { Handshake, KeyPair, NoiseSocket, equal, layout, load } from '../noise.mjs';
import { channels, outcome, overTcp, pair, refused, text } from './connections.mjs';
import { DEFERRED } from './patterns.mjs';

const later = (milliseconds) => new Promise((resolve) => { setTimeout(resolve, milliseconds); });
const detach = ({ buffer }) => structuredClone(buffer, { transfer: [buffer] });

/** What an agent does with the bytes that it is given. */
const MISUSES = {
  overwrites: (bytes) => bytes.fill(0),
  'changes one bit of': (bytes) => { bytes[31] ^= 1; },
  transfers: detach,
  'transfers and extends': (bytes) => new Uint8Array(detach(bytes), 0).slice(0, 16),
};

/** Calls before an agent gives up: one that is asked for ever would keep the test waiting. */
const ENOUGH = 40;

/** An agent for a pair, that does something with what it is given, before it answers and afterwards. */
function misusing({ publicKey, agree }, misuse, owner) {
  let calls = 0;
  return {
    publicKey,
    agree: async (remote) => {
      calls += 1;
      if (calls > ENOUGH) throw new Error('asked again and again');
      const answer = await agree.call(owner, remote.slice());
      misuse(remote);
      return answer;
    },
  };
}

/** Passes the messages of a pattern without a pre-message of the initiator, and compares what both have. */
async function pass(initiator, responder, messages) {
  for (let n = 0; n < messages; n += 1) {
    const [from, to] = n % 2 === 0 ? [initiator, responder] : [responder, initiator];
    assert.deepEqual(await to.read(await from.write(text(`payload ${n}`))), text(`payload ${n}`));
  }
  assert.deepEqual(initiator.hash, responder.hash);
}

test('agents', { timeout: 300000 }, async (t) => {
  await load();
  const [client, server] = [await KeyPair.generate(), await KeyPair.generate()];

  for (const [name, misuse] of Object.entries(MISUSES)) {
    for (const pattern of ['NN', 'XX', 'IK', 'X1X1']) {
      await t.test(`${pattern}: an agent ${name} what it is asked about`, async () => {
        const whole = DEFERRED.get(pattern) ?? pattern;
        const plan = layout(whole);
        const [a, b] = [await KeyPair.generate(), await KeyPair.generate()];
        const own = (it) => misusing(it, misuse, it);
        const make = (responder, staticKey, ephemeral, remote) => new Handshake({
          pattern: whole,
          responder,
          staticKey: plan.static[responder ? 'responder' : 'initiator'] ? own(staticKey) : undefined,
          ephemeralKey: own(ephemeral),
          remoteStatic: !responder && pattern === 'IK' ? remote.publicKey.slice() : undefined,
        });
        const [one, two] = [make(false, client, a, server), make(true, server, b, client)];
        await pass(one, two, plan.messages.length);
        if (plan.static.initiator) assert.deepEqual(two.remoteStatic, client.publicKey);
        if (plan.static.responder) assert.deepEqual(one.remoteStatic, server.publicKey);
        const [sealing, opening] = [one.finish(), two.finish()];
        assert.deepEqual(opening.open(sealing.seal(text('hello'))), text('hello'));
      });
    }

    await t.test(`verify and pskFor: ${name} the key that they are given`, async () => {
      const psk = new Uint8Array(32).fill(7);
      const seen = [];
      const [a, b] = await channels(
        pair({ highWaterMark: 1e6 }, { highWaterMark: 1e6 }),
        {
          pattern: 'XXpsk3', staticKey: client, psks: [psk],
          verify: async (key) => {
            seen.push(equal(key, server.publicKey));
            misuse(key);
            return true;
          },
        },
        {
          pattern: 'XXpsk3', staticKey: misusing(server, misuse, server),
          verify: (key) => {
            seen.push(equal(key, client.publicKey));
            misuse(key);
            return true;
          },
          pskFor: async (key) => {
            seen.push(equal(key, client.publicKey));
            misuse(key);
            return psk.slice();
          },
        },
      );
      assert.deepEqual(seen, [true, true, true]);
      assert.deepEqual([a.remoteStatic, b.remoteStatic], [server.publicKey, client.publicKey]);
      await a.send(text('hello'));
      assert.deepEqual(await b.receive(), text('hello'));
      await Promise.all([a.close(), b.close()]);
    });
  }

  await t.test('an agent keeps what it was asked about, and changes it after the call', async () => {
    const kept = [];
    const keeping = (it) => ({
      publicKey: it.publicKey,
      agree: async (remote) => { kept.push(remote); return it.agree(remote); },
    });
    const [a, b] = [await KeyPair.generate(), await KeyPair.generate()];
    const one = new Handshake({ pattern: 'XX', staticKey: keeping(client), ephemeralKey: keeping(a) });
    const two = new Handshake({
      pattern: 'XX', responder: true, staticKey: keeping(server), ephemeralKey: keeping(b),
    });
    for (const [from, to] of [[one, two], [two, one], [one, two]]) {
      await to.read(await from.write());
      for (const remote of kept) remote.fill(255);
    }
    assert.deepEqual(one.hash, two.hash);
    assert.equal(kept.length, 6);
    assert.equal(new Set(kept.map(({ buffer }) => buffer)).size, 6);
  });

  await t.test('a public key that an agent changes after the handshake was made', async () => {
    for (const change of [(bytes) => bytes.fill(1), detach]) {
      const agent = { publicKey: client.publicKey.slice(), agree: (remote) => client.agree(remote) };
      const one = new Handshake({ pattern: 'XX', staticKey: agent });
      const two = new Handshake({ pattern: 'XX', responder: true, staticKey: server });
      change(agent.publicKey);
      await pass(one, two, 3);
      assert.deepEqual(two.remoteStatic, client.publicKey);
    }
  });

  await t.test('an agent answers late, or twice, or at once', async () => {
    const answers = [
      async (remote) => { await later(20); return client.agree(remote); },
      (remote) => client.agree(remote).then((answer) => ({ then: (resolve) => { resolve(answer); resolve(9); } })),
      (remote) => ({
        then: (resolve, reject) => {
          client.agree(remote).then((it) => { resolve(it); resolve(new Uint8Array(32)); reject(new Error('late')); });
        },
      }),
    ];
    for (const agree of answers) {
      const one = new Handshake({ pattern: 'XX', staticKey: { publicKey: client.publicKey, agree } });
      const two = new Handshake({ pattern: 'XX', responder: true, staticKey: server });
      await pass(one, two, 3);
      assert.deepEqual(two.remoteStatic, client.publicKey);
    }
  });

  await t.test('who disposes of a handshake ends a call whose agent never answers', async () => {
    const agents = [
      { publicKey: server.publicKey, agree: () => new Promise(() => {}) },
      { publicKey: server.publicKey, agree: () => ({ then: () => {} }) },
    ];
    for (const staticKey of agents) {
      const one = new Handshake({ pattern: 'XX', staticKey: client });
      const two = new Handshake({ pattern: 'XX', responder: true, staticKey });
      await two.read(await one.write());
      const writing = two.write();
      await later(10);
      await assert.rejects(two.write(), refused('NOISE_BUSY'));
      two.dispose();
      assert.equal(await outcome(writing), 'NOISE_DISPOSED');
    }
    const one = new Handshake({ pattern: 'IKpsk2', staticKey: client, remoteStatic: server.publicKey,
      psks: [new Uint8Array(32)] });
    const two = new Handshake({
      pattern: 'IKpsk2', responder: true, staticKey: server, pskFor: () => new Promise(() => {}),
    });
    await two.read(await one.write());
    const writing = two.write();
    await later(10);
    two.dispose();
    assert.equal(await outcome(writing), 'NOISE_DISPOSED');
  });

  await t.test('an agent that answers with something else, or throws, is told, and may be asked again', async () => {
    const wrong = [
      undefined, null, 5, 'x'.repeat(32), [1], {}, new Uint8Array(31), new Uint8Array(33), new ArrayBuffer(32),
      new Uint16Array(16), new DataView(new ArrayBuffer(32)),
    ];
    for (const answer of wrong) {
      let isMended = false;
      const agree = (remote) => (isMended ? server.agree(remote) : answer);
      const one = new Handshake({ pattern: 'XX', staticKey: client });
      const two = new Handshake({ pattern: 'XX', responder: true, staticKey: { publicKey: server.publicKey, agree } });
      await two.read(await one.write());
      await assert.rejects(two.write(), TypeError);
      isMended = true;
      await one.read(await two.write());
      await two.read(await one.write());
      assert.deepEqual(one.hash, two.hash);
    }
  });

  await t.test('what an agent throws is the cause, and its text is in the error’s', async () => {
    const throwing = [
      () => { throw new Error('the token was pulled out'); },
      async () => { throw new Error('the token was pulled out'); },
      () => Promise.reject(new Error('the token was pulled out')),
    ];
    for (const agree of throwing) {
      const staticKey = { publicKey: server.publicKey, agree };
      const [near, far] = await overTcp();
      const peer = outcome(NoiseSocket.open(far, { pattern: 'XX', staticKey: client, acceptAnyKey: true }));
      await assert.rejects(
        NoiseSocket.open(near, { pattern: 'XX', responder: true, staticKey, acceptAnyKey: true }),
        (error) => error.code === 'NOISE_KEY' && error.cause.message === 'the token was pulled out'
          && /the token was pulled out/u.test(error.message),
      );
      assert.equal(await peer, 'NOISE_CUT');
    }
    const sly = new Proxy({}, { get: () => { throw new Error('no'); } });
    for (const odd of ['a text', undefined, null, 7, Symbol('s'), { code: 7 }, Object.create(null), sly, new Error()]) {
      const one = new Handshake({ pattern: 'XX', staticKey: client });
      const two = new Handshake({
        pattern: 'XX', responder: true,
        staticKey: { publicKey: server.publicKey, agree: () => Promise.reject(odd) },
      });
      await two.read(await one.write());
      await assert.rejects(two.write(), (error) => {
        assert.deepEqual([error.code, error.cause], ['NOISE_KEY', odd]);
        return /^agree has failed: ./u.test(error.message);
      });
    }
  });
});
