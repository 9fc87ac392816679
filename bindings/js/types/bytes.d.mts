/** The value itself, where it is a Uint8Array, of this length if one is named. */
export function bytesOf(value: any, what: any, length: any): any;
/** A copy of its own: `slice` of a Buffer makes none. */
export function copyOf(value: any, what: any, length: any): Uint8Array;
/**
 * Whether two keys, or other bytes, are the same: a Buffer and a Uint8Array too. The time doesn't depend on where
 * they differ.
 * @param {Uint8Array} one
 * @param {Uint8Array} other
 * @returns {boolean}
 */
export function equal(one: Uint8Array, other: Uint8Array): boolean;
/**
 * Bytes as hex digits, as a Map's keys for example: those of a Uint8Array and of a Buffer are the same.
 * @param {Uint8Array} bytes
 * @returns {string}
 */
export function hex(bytes: Uint8Array): string;
/**
 * The bytes of hex digits, two for each, in small or capital letters. Anything else between them is a TypeError.
 * @param {string} digits
 * @returns {Uint8Array}
 */
export function fromHex(digits: string): Uint8Array;
