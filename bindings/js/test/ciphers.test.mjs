// Cipher states, against ChaCha20-Poly1305 and HMAC of node:crypto, and the halves of datagrams.
import test from 'node:test';
import assert from 'node:assert/strict';
import { createCipheriv, createHmac } from 'node:crypto';
import { Handshake, KeyPair, load, protocolName } from '../noise.mjs';
import { refused, text } from './connections.mjs';

const EMPTY = new Uint8Array(0);

/** A key pair whose results are the xor of both keys. */
function toy(byte) {
  const publicKey = new Uint8Array(32).fill(byte);
  return { publicKey, agree: (remote) => remote.map((it, n) => it ^ publicKey[n]) };
}

/** Both parties after their messages. */
async function passed(pattern, { initiator, responder } = {}) {
  const [a, b] = [new Handshake({ pattern, ...initiator }), new Handshake({ pattern, responder: true, ...responder })];
  for (let n = 0; n < a.stage.messages; n += 1) {
    const [from, to] = n % 2 ? [b, a] : [a, b];
    await to.read(await from.write());
  }
  return [a, b];
}

const NN = () => passed('NN', { initiator: { ephemeralKey: toy(3) }, responder: { ephemeralKey: toy(5) } });

const hmac = (key, ...parts) => parts.reduce((it, part) => it.update(part), createHmac('sha256', key)).digest();

/** The two outputs of HKDF (Noise, 4.3). */
function hkdf(chainingKey, input) {
  const temporary = hmac(chainingKey, input);
  const first = hmac(temporary, Uint8Array.of(1));
  return [first, hmac(temporary, first, Uint8Array.of(2))];
}

/** ENCRYPT of ChaChaPoly (Noise, 12.3). */
function sealed(key, nonce, ad, plaintext) {
  const iv = Buffer.alloc(12);
  iv.writeBigUInt64LE(nonce, 4);
  const cipher = createCipheriv('chacha20-poly1305', key, iv, { authTagLength: 16 });
  cipher.setAAD(ad, { plaintextLength: plaintext.length });
  return new Uint8Array(Buffer.concat([cipher.update(plaintext), cipher.final(), cipher.getAuthTag()]));
}

/** REKEY (Noise, 4.2). */
const renewed = (key) => sealed(key, (1n << 64n) - 1n, EMPTY, new Uint8Array(32)).subarray(0, 32);

test('cipher states', async (t) => {
  await load();
  await t.test('the messages of NN are those of another ChaChaPoly and HKDF', async () => {
    const [a, b] = await NN();
    const [chainingKey] = hkdf(Buffer.from(protocolName('NN')), new Uint8Array(32).fill(3 ^ 5));
    let [key] = hkdf(chainingKey, EMPTY);
    const { hash } = a;
    const [{ send, hash: own }, { receive }] = [a.finishCiphers(), b.finishCiphers()];
    assert.deepEqual(own, hash);
    let nonce = 0n;
    for (const [ad, length] of [['', 0], ['header', 5], ['', 65519], ['x'.repeat(65535), 1000]]) {
      const plaintext = new Uint8Array(length).fill(length & 255);
      const message = send.encryptWithAd(text(ad), plaintext);
      assert.deepEqual(message, sealed(key, nonce, text(ad), plaintext));
      assert.deepEqual(receive.decryptWithAd(text(ad), message), plaintext);
      nonce += 1n;
    }
    for (const it of [send, receive]) it.rekey();
    key = renewed(key);
    const message = send.encryptWithAd(text('ad'), text('after'));
    assert.deepEqual(message, sealed(key, nonce, text('ad'), text('after')));
    assert.deepEqual(receive.decryptWithAd(text('ad'), message), text('after'));
    assert.deepEqual([send.nonce, receive.nonce], [5n, 5n]);
  });

  await t.test('the responder’s key is the second', async () => {
    const [a, b] = await NN();
    const [chainingKey] = hkdf(Buffer.from(protocolName('NN')), new Uint8Array(32).fill(3 ^ 5));
    const [, key] = hkdf(chainingKey, EMPTY);
    const message = b.finishCiphers().send.encryptWithAd(EMPTY, text('back'));
    assert.deepEqual(message, sealed(key, 0n, EMPTY, text('back')));
    assert.deepEqual(a.finishCiphers().receive.decryptWithAd(EMPTY, message), text('back'));
  });

  await t.test('a refused message changes nothing, and a nonce that is set is used', async () => {
    const [a, b] = await NN();
    const [{ send }, { receive }] = [a.finishCiphers(), b.finishCiphers()];
    const messages = Array.from({ length: 3 }, (_, n) => send.encryptWithAd(text('ad'), text(`${n}`)));
    for (const [ad, message, number] of [
      ['other', messages[0], 'NOISE_TAG'],
      ['ad', messages[1], 'NOISE_TAG'],
      ['ad', messages[0].slice(0, 15), 'NOISE_SHORT'],
    ]) {
      assert.throws(() => receive.decryptWithAd(text(ad), message), refused(number));
      assert.equal(receive.nonce, 0n);
    }
    receive.nonce = 2n;
    assert.deepEqual(receive.decryptWithAd(text('ad'), messages[2]), text('2'));
    assert.equal(receive.nonce, 3n);
    receive.nonce = (1n << 64n) - 1n;
    assert.throws(() => receive.decryptWithAd(text('ad'), messages[0]), refused('NOISE_EXHAUSTED'));
    for (const nonce of [-1n, 1n << 64n, 5, '5', undefined]) {
      assert.throws(() => { receive.nonce = nonce; }, RangeError);
    }
  });

  await t.test('each has its direction, its limits, and its end', async () => {
    const [a, b] = await NN();
    assert.throws(() => new Handshake({ pattern: 'NN' }).finishCiphers(), refused('NOISE_NOT_DONE'));
    const { send, receive } = a.finishCiphers();
    await assert.rejects(a.write(), refused('NOISE_DISPOSED'));
    assert.throws(() => receive.encryptWithAd(EMPTY, EMPTY), refused('NOISE_STRUCT'));
    assert.throws(() => send.decryptWithAd(EMPTY, new Uint8Array(16)), refused('NOISE_STRUCT'));
    assert.throws(() => send.encryptWithAd(EMPTY, new Uint8Array(65520)), refused('NOISE_TOO_LONG'));
    assert.throws(() => send.encryptWithAd(new Uint8Array(65536), EMPTY), refused('NOISE_LENGTH'));
    assert.throws(() => receive.decryptWithAd(EMPTY, new Uint8Array(65536)), refused('NOISE_TOO_LONG'));
    for (const wrong of ['text', undefined, [1], new Uint16Array(2)]) {
      for (const call of [
        () => send.encryptWithAd(wrong, EMPTY),
        () => send.encryptWithAd(EMPTY, wrong),
        () => receive.decryptWithAd(EMPTY, wrong),
      ]) {
        assert.throws(call, TypeError);
      }
    }
    send.dispose();
    assert.throws(() => send.encryptWithAd(EMPTY, EMPTY), refused('NOISE_DISPOSED'));
    assert.throws(() => send.rekey(), refused('NOISE_DISPOSED'));
    assert.equal(receive.nonce, 0n);
    b.dispose();
  });

  await t.test('in a one-way pattern one of them has no key', async () => {
    const staticKey = await KeyPair.generate();
    const [a, b] = await passed('N', { initiator: { remoteStatic: staticKey.publicKey }, responder: { staticKey } });
    const [ours, theirs] = [a.finishCiphers(), b.finishCiphers()];
    assert.deepEqual(theirs.receive.decryptWithAd(EMPTY, ours.send.encryptWithAd(EMPTY, text('one'))), text('one'));
    assert.throws(() => theirs.send.encryptWithAd(EMPTY, EMPTY), refused('NOISE_ONE_WAY'));
    assert.throws(() => ours.receive.decryptWithAd(EMPTY, new Uint8Array(16)), refused('NOISE_ONE_WAY'));
  });

  await t.test('the halves of datagrams', async () => {
    const [a, b] = await NN();
    const [datagrams, other] = [a.finishDatagrams(), b.finishDatagrams()];
    const [sealer] = datagrams.split();
    const [, opener] = other.split();
    for (const used of [datagrams, other]) assert.throws(() => used.seal(EMPTY), refused('NOISE_DISPOSED'));
    assert.equal(sealer.nonce, 0n);
    const sent = [sealer.seal(text('0')), sealer.seal(text('1'))];
    assert.equal(sealer.nonce, 2n);
    assert.deepEqual([opener.open(sent[1]), opener.open(sent[0])], [text('1'), text('0')]);
    assert.throws(() => opener.open(sent[0]), refused('NOISE_REPEATED'));
    assert.deepEqual(sealer.hash, opener.hash);
    assert.equal(opener.seal, undefined);
    assert.equal(sealer.open, undefined);
    sealer.dispose();
    assert.throws(() => sealer.seal(EMPTY), refused('NOISE_DISPOSED'));
    assert.throws(() => sealer.nonce, refused('NOISE_DISPOSED'));
  });
});
