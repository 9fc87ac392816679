// The bytes that calls are given: a Uint8Array, as a Buffer of Node is one. A text, an array or an array of wider
// numbers is refused: it would be taken as no bytes, or as others.

/** Whether a value is a Uint8Array, also one of another realm, as of a frame or of a test runner. */
function isBytes(value) {
  return ArrayBuffer.isView(value)
    && (value instanceof Uint8Array || Object.prototype.toString.call(value) === '[object Uint8Array]');
}

/** The value itself, where it is a Uint8Array, of this length if one is named. */
export function bytesOf(value, what, length) {
  if (!isBytes(value)) {
    const ofText =
      length === undefined
        ? ': encode a text by new TextEncoder().encode(text)'
        : ` of ${length} bytes: fromHex decodes hex digits`;
    throw new TypeError(`${what} has to be a Uint8Array${typeof value === 'string' ? ofText : ''}`);
  }
  if (length !== undefined && value.length !== length) throw new TypeError(`${what} has to have ${length} bytes`);
  return value;
}

/** A copy of its own: `slice` of a Buffer makes none. */
export function copyOf(value, what, length) {
  return new Uint8Array(bytesOf(value, what, length));
}

/**
 * Whether two keys, or other bytes, are the same: a Buffer and a Uint8Array too. The time doesn't depend on where
 * they differ.
 * @param {Uint8Array} one
 * @param {Uint8Array} other
 * @returns {boolean}
 */
export function equal(one, other) {
  if (bytesOf(one, 'what is compared').length !== bytesOf(other, 'what it is compared with').length) return false;
  let differences = 0;
  for (let n = 0; n < one.length; n += 1) differences |= one[n] ^ other[n];
  return differences === 0;
}

/**
 * Bytes as hex digits, as a Map's keys for example: those of a Uint8Array and of a Buffer are the same.
 * @param {Uint8Array} bytes
 * @returns {string}
 */
export function hex(bytes) {
  return Array.from(bytesOf(bytes, 'what is written as hex'), (byte) => byte.toString(16).padStart(2, '0')).join('');
}

/**
 * The bytes of hex digits, two for each, in small or capital letters. Anything else between them is a TypeError.
 * @param {string} digits
 * @returns {Uint8Array}
 */
export function fromHex(digits) {
  if (typeof digits !== 'string' || !/^(?:[0-9a-f]{2})*$/iu.test(digits)) {
    throw new TypeError('hex digits have to be a text of two digits for each byte, and of nothing else');
  }
  return Uint8Array.from({ length: digits.length / 2 }, (_, n) => parseInt(digits.slice(2 * n, 2 * n + 2), 16));
}
