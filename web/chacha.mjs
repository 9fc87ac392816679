// Rekey of the standard (4.2) for ChaChaPoly: WebCrypto has no ChaCha20. For the key schedule alone; the library makes
// its own.

const rotated = (word, by) => (word << by) | (word >>> (32 - by));

function quarter(x, a, b, c, d) {
  x[a] += x[b]; x[d] = rotated(x[d] ^ x[a], 16);
  x[c] += x[d]; x[b] = rotated(x[b] ^ x[c], 12);
  x[a] += x[b]; x[d] = rotated(x[d] ^ x[a], 8);
  x[c] += x[d]; x[b] = rotated(x[b] ^ x[c], 7);
}

/**
 * The next key: the first 32 bytes of what ChaCha20 (RFC 8439) encrypts 32 zeros to, with counter 1 and the nonce 2^64
 * - 1.
 */
export function rekeyed(key) {
  const given = new Uint32Array(16);
  given.set([0x61707865, 0x3320646e, 0x79622d32, 0x6b206574]);
  const words = new DataView(key.buffer, key.byteOffset, 32);
  for (let n = 0; n < 8; n += 1) given[4 + n] = words.getUint32(4 * n, true);
  given.set([1, 0, 0xffffffff, 0xffffffff], 12);
  const x = given.slice();
  for (let round = 0; round < 10; round += 1) {
    for (let n = 0; n < 4; n += 1) quarter(x, n, 4 + n, 8 + n, 12 + n);
    for (let n = 0; n < 4; n += 1) quarter(x, n, 4 + (n + 1) % 4, 8 + (n + 2) % 4, 12 + (n + 3) % 4);
  }
  const next = new DataView(new ArrayBuffer(32));
  for (let n = 0; n < 8; n += 1) next.setUint32(4 * n, x[n] + given[n], true);
  return new Uint8Array(next.buffer);
}
