// What calls take and give: numbers, keys, options, errors, and messages that are tried.
import test from 'node:test';
import assert from 'node:assert/strict';
import { readFile } from 'node:fs/promises';
import { inspect } from 'node:util';
import * as noise from '../noise.mjs';
import { library } from '../module.mjs';
import { channels, openSockets, pair, refused, text } from './connections.mjs';

const { Handshake, KeyPair, NoiseError, NoiseSocket, checkPattern, equal, fromHex, hex, load } = noise;

test('values', async (t) => {
  await load();
  await t.test('the library is called with numbers, and only nonces are BigInts', async () => {
    const lib = library();
    const isNumber = (value) => typeof value === 'number';
    assert.ok(
      [
        lib.x.noise_handshake_size(),
        ...Object.values(lib.at),
        ...lib.put('name', text('NN')),
        lib.take('handshake'),
      ].every(isNumber),
    );
    const module = new WebAssembly.Module(await readFile(new URL('../noise_c.wasm', import.meta.url)));
    const functions = WebAssembly.Module.exports(module)
      .filter(({ kind }) => kind === 'function')
      .map(({ name }) => name);
    assert.deepEqual(Object.keys(lib.x).sort(), functions.sort());
    for (const interval of [2n, -1, 1.5, NaN, '2', null, 2 ** 53]) {
      assert.throws(() => new Handshake({ pattern: 'NN' }).finish({ interval }), RangeError);
    }
  });

  await t.test('the largest interval, and sizes of more than 31 bits, are passed as they are', async () => {
    const lib = library();
    const place = lib.take('handshake');
    // NOISE_LENGTH, and not a frame of 2^32 - 1 bytes
    assert.equal(lib.x.noise_frame_message(lib.at.message, 65552, 0xffffffff, lib.at.result), 24);
    lib.free('handshake', place);
    for (const interval of [0, 1, 2 ** 53 - 1]) {
      const [a, b] = [new Handshake({ pattern: 'NN' }), new Handshake({ pattern: 'NN', responder: true })];
      await b.read(await a.write());
      await a.read(await b.write());
      const [one, two] = [a.finish({ interval }), b.finish({ interval })];
      for (let n = 0; n < 3; n += 1) assert.deepEqual(two.open(one.seal(text(`${n}`))), text(`${n}`));
      assert.deepEqual([one.nonces.send, two.nonces.receive].map((it) => typeof it), ['bigint', 'bigint']);
    }
  });

  await t.test('an error has its code as Node has it', async () => {
    const error = await new Handshake({ pattern: 'NN', responder: true }).read(new Uint8Array(3)).catch((it) => it);
    assert.deepEqual([error.code, error.name, error.number, error.token], ['NOISE_SHORT', 'NoiseError', 15, 0]);
    assert.ok(error instanceof NoiseError);
    assert.equal(Object.keys(error).includes('name'), false);
    assert.match(inspect(error), /^NoiseError: the message has too few bytes\n[^]*code: 'NOISE_SHORT'/u);
    assert.equal(noise.code, undefined);
    assert.deepEqual(checkPattern('mine:\n  -> e\n'), { valid: false, code: 'NOISE_HEADING', number: 30, line: 1 });
  });

  await t.test('NOISE_CLOSED and NOISE_CUT are those of the header', async () => {
    const [near, far] = openSockets();
    const [a, b] = await channels([near, far]);
    await a.end();
    await assert.rejects(a.send(text('x')), (error) => error.code === 'NOISE_CLOSED' && error.number === 43);
    near.close();
    await b.receive();
    await assert.rejects(a.receive(), (error) => error.code === 'NOISE_CUT' && error.number === 44);
  });

  await t.test('without options a sentence says what is missing', async () => {
    for (const options of [undefined, null, 'XX', 5]) {
      assert.throws(() => new Handshake(options), {
        name: 'TypeError',
        message: /there are no options: pass at least \{ pattern \}/u,
      });
      await assert.rejects(NoiseSocket.open(pair()[0], options), {
        name: 'TypeError',
        message: /there are no options/u,
      });
    }
    assert.throws(() => new Handshake({}), { name: 'TypeError', message: /pattern has to be a name, as XX/u });
  });

  await t.test('an option that would be ignored is refused, and named', async () => {
    const staticKey = await KeyPair.generate();
    const ofOpen = {
      verify: () => false,
      acceptAnyKey: false,
      interval: 3,
      signal: AbortSignal.timeout(1000),
      handshakeLimit: 4096,
      backlog: 1,
    };
    for (const [name, value] of Object.entries(ofOpen)) {
      const message = new RegExp(`^${name} is an option of NoiseSocket.open, and not of Handshake`, 'u');
      assert.throws(() => new Handshake({ pattern: 'XX', staticKey, [name]: value }), { name: 'TypeError', message });
    }
    for (const name of ['prolog', 'staticKeys', 'respnder', 'juge']) {
      const fault = {
        name: 'TypeError',
        message: new RegExp(`^there is no option ${name}: there are pattern, responder, `, 'u'),
      };
      assert.throws(() => new Handshake({ pattern: 'XX', staticKey, [name]: true }), fault);
      await assert.rejects(
        NoiseSocket.open(pair()[0], { pattern: 'XX', staticKey, acceptAnyKey: true, [name]: true }),
        fault,
      );
    }
    assert.ok(new Handshake({ pattern: 'XX', staticKey, verify: undefined }));
  });

  await t.test('keys are compared, and are a Map’s keys, whatever array has them', async () => {
    const { publicKey } = await KeyPair.generate();
    const other = Buffer.from(publicKey);
    assert.ok(equal(publicKey, other) && equal(other, publicKey));
    for (let n = 0; n < 32; n += 1) assert.equal(equal(publicKey, publicKey.with(n, publicKey[n] ^ 128)), false);
    assert.equal(equal(publicKey, publicKey.slice(1)), false);
    assert.equal(equal(new Uint8Array(0), Buffer.alloc(0)), true);
    for (const wrong of ['a text', undefined, [1]]) assert.throws(() => equal(publicKey, wrong), TypeError);
    assert.equal(hex(Uint8Array.of(0, 10, 255)), '000aff');
    const secrets = new Map([[other.toString('hex'), 'secret']]);
    assert.deepEqual([secrets.get(hex(publicKey)), secrets.get(hex(other))], ['secret', 'secret']);
    assert.throws(() => hex('00'), TypeError);
    assert.deepEqual(fromHex(hex(publicKey)), publicKey);
    assert.deepEqual([...fromHex('000AfF'), ...fromHex('')], [0, 10, 255]);
    for (const wrong of ['0', '0g', ' 00', '00\n', publicKey, undefined]) {
      assert.throws(() => fromHex(wrong), TypeError);
    }
  });

  await t.test('a key in hex digits is refused with what decodes it', async () => {
    const { publicKey } = await KeyPair.generate();
    const message =
      /^(remoteStatic|a secret key|a psk) has to be a Uint8Array of 32 bytes: fromHex decodes hex digits$/u;
    assert.throws(() => new Handshake({ pattern: 'NK', remoteStatic: hex(publicKey) }), { name: 'TypeError', message });
    assert.throws(() => new Handshake({ pattern: 'NNpsk0', psks: [hex(publicKey)] }), { name: 'TypeError', message });
    await assert.rejects(KeyPair.fromSecret(hex(publicKey)), { name: 'TypeError', message });
  });

  await t.test('a message that is tried, and refused, leaves the handshake as it was', async () => {
    const [one, two] = [await KeyPair.generate(), await KeyPair.generate()];
    const it = {
      initiator: new Handshake({ pattern: 'XX', staticKey: one }),
      responder: new Handshake({ pattern: 'XX', staticKey: two, responder: true }),
    };
    await it.responder.tryRead(await it.initiator.write());
    const message = await it.responder.write();
    for (let n = 0; n < 12; n += 1) {
      const forged = message.slice();
      forged[n * 8] ^= 1;    // also in the ephemeral key
      await assert.rejects(it.initiator.tryRead(forged), refused('NOISE_TAG'));
      await assert.rejects(it.initiator.tryRead(forged.slice(0, 50)), refused('NOISE_SHORT'));
      assert.equal(it.initiator.stage.ended, false);
    }
    assert.deepEqual(await it.initiator.tryRead(message), text(''));
    await it.responder.read(await it.initiator.write(text('last')));
    assert.deepEqual(it.initiator.hash, it.responder.hash);
    assert.deepEqual(it.initiator.remoteStatic, two.publicKey);
  });

  await t.test('a stream’s payload comes in an array of byte arrays, and nothing else is taken for one', async () => {
    const [one, other] = [new Handshake({ pattern: 'NN' }), new Handshake({ pattern: 'NN', responder: true })];
    await other.read(await one.write());
    await one.read(await other.write());
    const [stream, reader] = [one.finishStream(), other.finishStream()];
    for (const wrong of [text('all'), Buffer.from('all'), new Uint8Array(0), 'all', undefined, { length: 1 }]) {
      assert.throws(() => stream.write(wrong), TypeError);
    }
    for (const wrong of [['all'], [text('some'), [1, 2]], [new Uint16Array(2)], [text('some'), undefined]]) {
      assert.throws(() => stream.write(wrong), TypeError);
    }
    const [frame] = stream.write([text('a'), text('ll')]);    // the first: no nonce was used
    assert.deepEqual(reader.read({ copyTo: (place) => place.set(frame) }, frame.length).value, text('all'));
    for (const end of [stream, reader]) end.dispose();
  });

  await t.test('a psk that was chosen for a refused message is taken back', async () => {
    const [server, client, other] = [await KeyPair.generate(), await KeyPair.generate(), await KeyPair.generate()];
    const psk = (number) => new Uint8Array(32).fill(number);
    const pskOf = new Map([[hex(client.publicKey), psk(1)], [hex(other.publicKey), psk(2)]]);
    const responder = new Handshake({
      pattern: 'IKpsk1',
      responder: true,
      staticKey: server,
      pskFor: (key) => pskOf.get(hex(key)),
    });
    const first = (staticKey, secret) =>
      new Handshake({ pattern: 'IKpsk1', staticKey, remoteStatic: server.publicKey, psks: [secret] }).write(
        text('first'),
      );
    const claimed = { publicKey: other.publicKey, agree: async () => psk(9) };    // who sends it hasn't the private key
    for (let n = 0; n < 3; n += 1) {
      await assert.rejects(responder.tryRead(await first(claimed, psk(2))), refused('NOISE_TAG'));
    }
    assert.deepEqual(await responder.tryRead(await first(client, psk(1))), text('first'));
    assert.deepEqual(responder.remoteStatic, client.publicKey);
  });
});
