import test from 'node:test';
import assert from 'node:assert/strict';
import { Handshake, KeyPair, NoiseError, NoiseSocket, checkPattern, layout, load, protocolName } from '../noise.mjs';
import { DEFERRED, FUNDAMENTAL } from './patterns.mjs';

const text = (s) => new TextEncoder().encode(s);
const other = (role) => (role === 'initiator' ? 'responder' : 'initiator');
const refused = (code, token) => (error) =>
  error instanceof NoiseError && error.code === code && (token === undefined || error.token === token);

/** Both parties of a pattern, with keys of WebCrypto. */
async function parties(pattern, options = {}) {
  const plan = layout(pattern);
  const keys = {};
  for (const role of ['initiator', 'responder']) keys[role] = plan.static[role] ? await KeyPair.generate() : undefined;
  const psks = Array.from({ length: plan.psks }, (_, n) => new Uint8Array(32).fill(n + 1));
  const make = (role) => new Handshake({
    pattern, responder: role === 'responder', prologue: text('a test'), staticKey: keys[role], psks,
    remoteStatic: plan.before[other(role)].includes('s') ? keys[other(role)].publicKey : undefined, ...options[role],
  });
  return { plan, keys, initiator: make('initiator'), responder: make('responder') };
}

/** Passes all messages, each with a payload, and compares each length with the layout's. */
async function pass({ plan, ...ends }) {
  for (const [n, { from, length }] of plan.messages.entries()) {
    const payload = text(`payload ${n}`);
    const message = await ends[from].write(payload);
    assert.equal(message.length, length + payload.length);
    assert.deepEqual(await ends[other(from)].read(message), payload);
    assert.deepEqual(ends.initiator.hash, ends.responder.hash);
  }
}

test('with the module loaded', async (t) => {
  await load();
  const all = [
    ...FUNDAMENTAL.map((base) => [base, protocolName(base)]), ...DEFERRED,
    ['XXpsk3', protocolName('XXpsk3')], ['NNpsk0+psk2', protocolName('NNpsk0+psk2')],
    ['NK1psk0', DEFERRED.get('NK1').replace('NK1', 'NK1psk0').replace('-> e', '-> psk, e')],
  ];
  for (const [base, pattern] of all) {
    await t.test(`${base} from its first message to transport messages`, async () => {
      const it = await parties(pattern);
      await pass(it);
      assert.throws(() => it.initiator.finish({ interval: -1 }));
      const [a, b] = [it.initiator.finish({ interval: 2 }), it.responder.finish({ interval: 2 })];
      assert.deepEqual(a.hash, b.hash);
      assert.deepEqual(b.remoteStatic, it.keys.initiator?.publicKey);
      assert.deepEqual(a.remoteStatic, it.keys.responder?.publicKey);
      for (let n = 0; n < 5; n += 1) assert.deepEqual(b.open(a.seal(text(`message ${n}`))), text(`message ${n}`));
      if (it.plan.oneWay) assert.throws(() => b.seal(text('no')), refused('NOISE_ONE_WAY'));
      else assert.deepEqual(a.open(b.seal(text('back'))), text('back'));
      for (const end of [a, b]) end.dispose();
      assert.throws(() => a.seal(text('x')), refused('NOISE_DISPOSED'));
      await assert.rejects(it.initiator.write(), refused('NOISE_DISPOSED'));
    });
  }

  await t.test('both parties of XX ask WebCrypto for six results, and import four public keys', async (st) => {
    const it = await parties(protocolName('XX'));
    const calls = ['importKey', 'deriveBits'].map((name) => st.mock.method(crypto.subtle, name).mock);
    await pass(it);
    assert.deepEqual(calls.map((mock) => mock.callCount()), [4, 6]);
  });

  await t.test('another pattern under a fundamental name is refused', () => {
    assert.deepEqual([FUNDAMENTAL.length, DEFERRED.size], [15, 23]);
    for (const text_ of DEFERRED.values()) {
      assert.deepEqual(checkPattern(text_), { valid: true, messages: layout(text_).messages.length });
    }
    assert.equal(checkPattern(DEFERRED.get('XX1').replace('XX1', 'XX')).code, 'NOISE_NAME_TAKEN');
  });

  await t.test('each rule, and each malformed line, is reported with its place', () => {
    const rule = (lines) => {
      const { rule: r, message, token } = checkPattern(`MINE:\n${lines.map((line) => `  ${line}\n`).join('')}`);
      return [r, message, token];
    };
    assert.deepEqual(rule(['-> e, es']), [1, 1, 1]);
    assert.deepEqual(rule(['-> e', '<- e, ee', '-> e']), [2, 3, 0]);
    assert.deepEqual(rule(['-> e', '<- e, ee, ee']), [3, 2, 2]);
    assert.deepEqual(rule(['<- s', '...', '-> e', '<- e, es']), [4, 2, 2]);
    assert.deepEqual(rule(['-> e, s', '<- e, se']), [4, 3, 0]);
    assert.deepEqual(checkPattern('MINEpsk0:\n  -> psk, s\n').rule, 5);
    const fault = (s) => { const { code, line } = checkPattern(s); return [code, line]; };
    assert.deepEqual(fault('mine:\n  -> e\n'), ['NOISE_HEADING', 1]);
    assert.deepEqual(fault('MINE:\n -> e\n'), ['NOISE_ARROW', 2]);
    assert.deepEqual(fault('MINE:\n  -> e, x\n'), ['NOISE_TOKEN', 2]);
    assert.deepEqual(fault('MINE:\n  -> e\n  -> e\n'), ['NOISE_TURN', 3]);
    assert.deepEqual(fault('MINE:\n  -> e, psk\n'), ['NOISE_PSK_PLACE', 2]);
    assert.deepEqual(fault('MINE:\n  -> e'), ['NOISE_ENDING', 2]);
  });

  await t.test('a set-up is checked at once', () => {
    const start = (options) => () => new Handshake(options);
    assert.throws(start({ pattern: 'Noise_QQ_25519_ChaChaPoly_SHA256' }), refused('NOISE_NAME'));
    assert.throws(start({ pattern: 'QQ' }), refused('NOISE_NAME'));
    assert.throws(start({ pattern: 'NNpsk0' }), refused('NOISE_PSK_COUNT'));
    assert.throws(start({ pattern: 'MINE:\n  -> e, es\n' }), refused('NOISE_PATTERN'));
    assert.throws(start({ pattern: protocolName('XX') }), refused('NOISE_STATIC_MISSING'));
    assert.throws(start({ pattern: protocolName('NK') }), refused('NOISE_REMOTE_MISSING'));
    assert.throws(
      start({ pattern: protocolName('NN'), remoteStatic: new Uint8Array(32) }),
      refused('NOISE_REMOTE_UNEXPECTED'),
    );
    assert.throws(start({ pattern: protocolName('NNpsk0') }), refused('NOISE_PSK_COUNT'));
    assert.throws(start({ pattern: protocolName('NN'), prologue: new Uint8Array(65536) }), refused('NOISE_LENGTH'));
    assert.throws(start({ pattern: protocolName('NN'), prologue: 'text' }), TypeError);
    const psk = new Uint8Array(32);
    assert.throws(start({ pattern: 'NNpsk0+psk2', psks: [psk] }), refused('NOISE_PSK_COUNT'));
    assert.throws(start({ pattern: 'NN', pskFor: () => psk }), refused('NOISE_PSK_COUNT'));
    assert.throws(start({ pattern: 'NNpsk0', psks: [psk], pskFor: () => psk }), TypeError);
    assert.throws(start({ pattern: 'NNpsk0', pskFor: psk }), TypeError);
  });

  // A server that has a secret with each of two clients, and where a client that has the other's secret is refused: by
  // whom, at which token.
  for (const [pattern, reader, at] of [
    ['XXpsk3', 'responder', 3],
    ['IKpsk2', 'initiator', 4],
    ['IKpsk1', 'responder', 5],
  ]) {
    await t.test(`${pattern}: each peer has its secret`, async () => {
      const clients = await Promise.all([1, 2, 3].map(() => KeyPair.generate()));
      const secrets = new Map(
        clients.slice(0, 2).map(({ publicKey }, n) => [publicKey.toString(), new Uint8Array(32).fill(n + 1)]),
      );
      const unknown = new Error('unknown');
      const pskFor = async (key) => {
        if (!secrets.has(key.toString())) throw unknown;
        return secrets.get(key.toString());
      };
      const run = async (staticKey, secret) => {
        const it = await parties(pattern, {
          initiator: { staticKey, psks: [secret] },
          responder: { psks: undefined, pskFor },
        });
        await pass(it);
        assert.deepEqual(it.responder.remoteStatic, staticKey.publicKey);
        const [a, b] = [it.initiator.finish(), it.responder.finish()];
        assert.deepEqual(b.open(a.seal(text('hello'))), text('hello'));
      };
      await run(clients[0], new Uint8Array(32).fill(1));
      await run(clients[1], new Uint8Array(32).fill(2));
      await assert.rejects(run(clients[2], new Uint8Array(32)), unknown);
      const it = await parties(pattern, {
        initiator: { staticKey: clients[0], psks: [new Uint8Array(32).fill(2)] },
        responder: { psks: undefined, pskFor },
      });
      await assert.rejects(pass(it), refused('NOISE_TAG', at));
      assert.equal(it[reader].stage.ended, true);
    });
  }

  await t.test('a channel whose secret is chosen by the other party’s key', async () => {
    const [up, down] = [new TransformStream(), new TransformStream()];
    const socket = { readable: up.readable, writable: down.writable };
    const [client, staticKey] = [await KeyPair.generate(), await KeyPair.generate()];
    const secrets = new Map([[client.publicKey.toString(), new Uint8Array(32).fill(7)]]);
    const accept = async () => {
      const pskFor = async (remoteStatic) => {
        const secret = secrets.get(remoteStatic.toString());
        if (!secret) throw new Error('not on the list');
        return secret;
      };
      const channel = await NoiseSocket.open(socket, { pattern: 'XXpsk3', responder: true, staticKey, pskFor });
      return channel.receive();
    };
    const options = { pattern: 'XXpsk3', staticKey: client, psks: [new Uint8Array(32).fill(7)] };
    const [received] = await Promise.all([
      accept(),
      NoiseSocket.open({ readable: down.readable, writable: up.writable }, options).then((a) => a.send(text('hello'))),
    ]);
    assert.deepEqual(received, text('hello'));
  });

  await t.test('a secret that is chosen too early, or of another length', async () => {
    const early = new Handshake({ pattern: 'NNpsk0', pskFor: () => new Uint8Array(32) });
    await assert.rejects(early.write(), refused('NOISE_WANTED_PSK'));
    const it = await parties('IKpsk2', { responder: { psks: undefined, pskFor: () => new Uint8Array(31) } });
    await it.responder.read(await it.initiator.write());
    await assert.rejects(it.responder.write(), TypeError);
    assert.equal(it.responder.stage.ended, false);
  });

  await t.test('a changed message ends the handshake at its token, and a second call is refused', async () => {
    const it = await parties(protocolName('XX'));
    const write = it.initiator.write();
    await assert.rejects(it.initiator.write(), refused('NOISE_BUSY'));
    await it.responder.read(await write);
    await assert.rejects(it.responder.read(new Uint8Array(40)), refused('NOISE_NOT_YOUR_TURN'));
    const message = await it.responder.write();
    message[40] ^= 1;
    await assert.rejects(it.initiator.read(message), refused('NOISE_TAG', 2));
    assert.equal(it.initiator.stage.ended, true);
    await assert.rejects(it.initiator.read(message), refused('NOISE_ENDED'));
    assert.throws(() => it.initiator.finish(), refused('NOISE_ENDED'));
    assert.throws(() => it.responder.finish(), refused('NOISE_NOT_DONE'));
  });

  await t.test('a public key without a result of X25519 ends nothing, and is reported', async () => {
    const it = await parties(protocolName('NN'));
    await it.responder.read(new Uint8Array(32));
    await assert.rejects(it.responder.write(), refused('NOISE_KEY'));
    assert.equal(it.responder.stage.ended, false);
  });

  await t.test('datagrams come late, twice, changed and too late', async () => {
    const it = await parties(protocolName('NN'));
    await pass(it);
    assert.throws(() => it.initiator.finishDatagrams({ window: 65 }), refused('NOISE_WINDOW'));
    const [a, b] = [it.initiator.finishDatagrams(), it.responder.finishDatagrams()];
    const sent = Array.from({ length: 70 }, (_, n) => a.seal(text(`${n}`)));
    assert.equal(a.nonce, 70n);
    assert.deepEqual(b.open(sent[2]), text('2'));
    assert.deepEqual(b.open(sent[1]), text('1'));
    assert.throws(() => b.open(sent[1]), refused('NOISE_REPEATED'));
    assert.throws(() => b.open(sent[3].with(12, sent[3][12] ^ 1)), refused('NOISE_TAG'));
    assert.deepEqual(b.open(sent[69]), text('69'));
    assert.throws(() => b.open(sent[3]), refused('NOISE_OLD'));
    assert.throws(() => b.open(sent[3].slice(0, 23)), refused('NOISE_SHORT'));
  });

  await t.test('the halves of a transport, and what is used up', async () => {
    const it = await parties(protocolName('NN'));
    await pass(it);
    const [a, b] = [it.initiator.finish(), it.responder.finish()];
    const [sealer] = a.split();
    assert.throws(() => a.seal(text('x')), refused('NOISE_DISPOSED'));
    assert.deepEqual(b.open(sealer.seal(new Uint8Array(65519))).length, 65519);
    assert.throws(() => sealer.seal(new Uint8Array(65520)), refused('NOISE_TOO_LONG'));
    assert.throws(() => b.open(new Uint8Array(15)), refused('NOISE_SHORT'));
    assert.throws(() => b.open(new Uint8Array(65536)), refused('NOISE_LENGTH'));
    assert.deepEqual(b.nonces, { send: 0n, receive: 1n });
  });

  await t.test('calls take bytes as a Uint8Array, and nothing else', async () => {
    const pair = await KeyPair.generate();
    const it = await parties('NN');
    const bad = [
      'a'.repeat(32),
      null,
      5,
      Array(32).fill(1),
      { length: 32 },
      new Uint16Array(32),
      new DataView(new ArrayBuffer(32)),
      new ArrayBuffer(32),
    ];
    for (const wrong of bad) {
      await assert.rejects(it.initiator.write(wrong), TypeError);
      await assert.rejects(it.responder.read(wrong), TypeError);
      for (const options of [
        { pattern: 'NN', prologue: wrong }, { pattern: 'NNpsk0', psks: [wrong] },
        { pattern: 'NK', remoteStatic: wrong },
        { pattern: 'XX', staticKey: wrong }, { pattern: 'XX', staticKey: { publicKey: wrong, agree: pair.agree } },
        { pattern: 'NN', ephemeralKey: wrong },
        { pattern: 'XX:\n  <- e\n  ...\n  -> e, ee\n', remoteEphemeral: wrong },
      ]) assert.throws(() => new Handshake(options), TypeError);
      await assert.rejects(KeyPair.fromSecret(wrong), TypeError);
      await assert.rejects(pair.agree(wrong), TypeError);
      const late = new Handshake({
        pattern: 'KNpsk2',
        responder: true,
        remoteStatic: pair.publicKey,
        pskFor: () => wrong,
      });
      const early = new Handshake({ pattern: 'KNpsk2', staticKey: pair, psks: [new Uint8Array(32)] });
      await late.read(await early.write());
      await assert.rejects(late.write(), TypeError);
    }
    for (const psks of [new Uint8Array(32), 'secret', null]) {
      assert.throws(() => new Handshake({ pattern: 'NNpsk0', psks }), TypeError);
    }
    const broken = new Handshake({
      pattern: 'NN',
      responder: true,
      ephemeralKey: { publicKey: pair.publicKey, agree: () => 'x'.repeat(32) },
    });
    await broken.read(await it.initiator.write());
    await assert.rejects(broken.write(), TypeError);

    const whole = await parties('NN');
    await pass(whole);
    const [a, b] = [whole.initiator.finish(), whole.responder.finish()];
    const both = await parties('NN');
    await pass(both);
    const datagrams = both.initiator.finishDatagrams();
    for (const wrong of [...bad, undefined]) {
      for (const call of [
        () => a.seal(wrong),
        () => b.open(wrong),
        () => datagrams.seal(wrong),
        () => datagrams.open(wrong),
      ]) assert.throws(call, TypeError);
    }
    const [sealer, opener] = a.split();
    for (const call of [() => sealer.seal('text'), () => opener.open('text')]) {
      assert.throws(call, { message: /TextEncoder/u });
    }
    assert.deepEqual(b.open(sealer.seal(Buffer.from('as it was'))), text('as it was'));
  });

  await t.test('what was passed may be changed afterwards, also a Buffer', async () => {
    const [prologue, payload, psk] = [Buffer.from('a test'), Buffer.from('payload'), Buffer.alloc(32, 1)];
    const initiator = new Handshake({ pattern: 'NNpsk0', prologue, psks: [psk] });
    for (const passed of [prologue, psk]) passed.fill(0);
    const writing = initiator.write(payload);
    payload.fill(0);
    const responder = new Handshake({
      pattern: 'NNpsk0',
      responder: true,
      prologue: text('a test'),
      psks: [new Uint8Array(32).fill(1)],
    });
    const message = Buffer.from(await writing);
    const reading = responder.read(message);
    message.fill(0);
    assert.deepEqual(await reading, text('payload'));
  });

  await t.test('many at once, and again in the places of those that were disposed of', async () => {
    for (let round = 0; round < 3; round += 1) {
      await Promise.all(Array.from({ length: 30 }, async () => {
        const it = await parties(protocolName('IK'));
        await pass(it);
        for (const end of [it.initiator, it.responder]) end.dispose();
      }));
    }
  });

  await t.test('the key pairs of RFC 7748, 6.1, from their secret keys', async () => {
    const bytes = (digits) => new Uint8Array(Buffer.from(digits, 'hex'));
    const [alice, bob] = await Promise.all([
      '77076d0a7318a57d3c16c17251b26645df4c2f87ebc0992ab177fba51db92c2a',
      '5dab087e624a8a4b79e17f8b83800ee66f3bb1292618b6fd1c2f8b27ff88e0eb',
    ].map((secret) => KeyPair.fromSecret(bytes(secret))));
    assert.deepEqual(alice.publicKey, bytes('8520f0098930a754748b7ddcb43ef75a0dbf3a0d26381af4eba4a98eaa9b4e6a'));
    assert.deepEqual(bob.publicKey, bytes('de9edb7d7b7dc1b4d35b61c2ece435373f8343c85b78674dadfc7e146f882b4f'));
    const shared = bytes('4a5d9d5ba4ce2de1728e3bf480350f25e07e21c947d19e3376f09b3c1e161742');
    assert.deepEqual(await Promise.all([alice.agree(bob.publicKey), bob.agree(alice.publicKey)]), [shared, shared]);
    await assert.rejects(KeyPair.fromSecret(new Uint8Array(31)), TypeError);
  });
});
