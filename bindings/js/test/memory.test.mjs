// The module's memory: places of structs that nobody has any more; and the codes, as the types and the header have
// them.
import test from 'node:test';
import assert from 'node:assert/strict';
import { readFile } from 'node:fs/promises';
import { setFlagsFromString } from 'node:v8';
import { runInNewContext } from 'node:vm';
import { code } from '../codes.mjs';
import { library } from '../module.mjs';
import { Incoming } from '../incoming.mjs';
import {
  CipherState,
  Ciphers,
  Datagrams,
  Handshake,
  KeyPair,
  NoiseError,
  NoiseSocket,
  Transport,
  load,
} from '../noise.mjs';
import { bytes } from './connections.mjs';

/** Both parties of NN, after its messages. */
async function passed() {
  const [initiator, responder] = [new Handshake({ pattern: 'NN' }), new Handshake({ pattern: 'NN', responder: true })];
  await responder.read(await initiator.write());
  await initiator.read(await responder.write());
  return [initiator, responder];
}

test('memory', async (t) => {
  await load();
  await t.test('what nobody has any more is overwritten, and its place is taken again', async () => {
    setFlagsFromString('--expose-gc');
    const gc = runInNewContext('gc');
    const lib = library();
    const forget = async () => {
      for (let n = 0; n < 200; n += 1) {
        const [initiator] = await passed();
        const [sealer] = initiator.finish().split();
        sealer.seal(new Uint8Array(1));
      }
    };
    const places = Object.fromEntries(
      ['handshake', 'sender', 'receiver'].map((kind) => [kind, new Set(lib.unused[kind])]),
    );
    await forget();
    const isFew = (kind) => lib.unused[kind].length < places[kind].size + 100;
    for (let n = 0; n < 100 && ['handshake', 'sender'].some(isFew); n += 1) {
      gc();
      await new Promise((resolve) => { setTimeout(resolve, 20); });
    }
    for (const kind of ['handshake', 'sender', 'receiver']) {
      const freed = lib.unused[kind];
      assert.equal(new Set(freed).size, freed.length, 'a place is free twice');
      // less than 200: an engine may collect some before the last are made
      assert.ok(freed.length >= 100, `${freed.length} ${kind}`);
      assert.ok(freed.every((place) => lib.view(place, lib.sizes[kind]).every((byte) => byte === 0)));
    }
    const before = lib.next;
    await Promise.all(Array.from({ length: 50 }, passed));
    assert.equal(lib.next, before);
  });

  await t.test('an object that was disposed of frees its place once', async () => {
    const lib = library();
    const [initiator, responder] = await passed();
    const [a, b] = [initiator.finish(), responder.finish()];
    for (const end of [a, b, a, initiator]) end.dispose();
    for (const kind of Object.keys(lib.unused)) {
      assert.equal(new Set(lib.unused[kind]).size, lib.unused[kind].length, kind);
    }
    if (Symbol.dispose) {
      for (const Kind of [Handshake, Transport, Datagrams, CipherState, NoiseSocket]) {
        assert.equal(typeof Kind.prototype[Symbol.dispose], 'function');
      }
    }
  });

  await t.test('the codes are those of include/noise.h', async () => {
    const header = await readFile(new URL('../../../include/noise.h', import.meta.url), 'utf8');
    const codes = /enum noise_code \{([^}]*)\}/u.exec(header)[1];
    const there = Object.fromEntries(
      [...codes.matchAll(/NOISE_(\w+) = (\d+)/gu)].map(([, name, number]) => [name, Number(number)]),
    );
    assert.deepEqual({ ...code }, there);
    for (const [name, number] of Object.entries(there)) {
      const error = new NoiseError(`NOISE_${name}`);
      assert.deepEqual([error.code, error.number, error.name], [`NOISE_${name}`, number, 'NoiseError']);
      if (number !== 0) assert.doesNotMatch(error.message, /^NOISE_/u, name);
    }
  });

  await t.test('what other calls make has no constructor that makes anything', async () => {
    const { publicKey } = await KeyPair.generate();
    for (const Kind of [KeyPair, Transport, Datagrams, CipherState, Ciphers, NoiseSocket]) {
      for (const words of [
        [],
        [publicKey],
        [undefined, publicKey],
        [{}, [0n, 64n], { hash: publicKey }],
        [{ type: 'private' }, publicKey],
      ]) {
        assert.throws(() => new Kind(...words), { name: 'TypeError', message: /Illegal constructor/u });
      }
    }
    await assert.rejects(KeyPair.from({ privateKey: undefined, publicKey }), TypeError);
  });

  await t.test('a frame that comes in single bytes takes no more memory than its bytes', async () => {
    setFlagsFromString('--expose-gc');
    const gc = runInNewContext('gc');
    const incoming = Array.from({ length: 5 }, () => new Incoming(async () => Uint8Array.of(7)));
    gc();
    const { heapUsed, arrayBuffers } = process.memoryUsage();
    const ends = await Promise.all(incoming.map(async (it) => {
      const look = (held, count) => (count < 20000 ? { wanted: 20000 - count } : { wanted: 0, used: 0, value: count });
      return (await it.next(look)).value;
    }));
    gc();
    const after = process.memoryUsage();
    assert.ok(ends.every((count) => count >= 20000) && incoming.every(({ left }) => left >= 20000));
    const each = (after.heapUsed + after.arrayBuffers - heapUsed - arrayBuffers) / 5;
    assert.ok(each < 1000000, `${each} bytes for 20000`); // once 4480000; what else the engine keeps counts too
  });

  await t.test('bytes are found whole in whichever chunks they come', async () => {
    const all = bytes(300000);
    // around that from which on a chunk isn't copied
    const sizes = [1, 0, 2047, 2048, 2049, 3, 0, 4095, 4096, 1, 65536, 1, 1, 20000];
    let [from, chunk] = [0, 0];
    const pull = async () => {
      if (from === all.length) return undefined;
      const part = all.subarray(from, from + sizes[chunk % sizes.length]);
      [from, chunk] = [from + part.length, chunk + 1];
      return part;
    };
    const incoming = new Incoming(pull);
    let at = 0;
    for (let size = 1; at < all.length; size = (size * 5 + 3) % 4999) {
      const used = Math.min(size, all.length - at);
      const { value } = await incoming.next((held, count) => {
        if (count < used) return { wanted: used - count };
        const place = new Uint8Array(used);
        held.copyTo(place);
        return { wanted: 0, used, value: place };
      });
      assert.deepEqual(value, all.subarray(at, at + used), `${used} bytes at ${at}`);
      at += used;
    }
    assert.equal(incoming.left, 0);
    assert.equal(await incoming.next(() => ({ wanted: 1 })), undefined);
  });
});
