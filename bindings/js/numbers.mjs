// The module's exports take pointers and sizes as 64-bit numbers, which JavaScript has to pass as BigInts. A second
// module, which is made here, passes them on: its exports take numbers, but for nonces.
import { PROTOTYPES } from './prototypes.mjs';

const [I32, I64, F64] = [0x7f, 0x7e, 0x7c];
/**
 * The type of each letter of PROTOTYPES here, and there, and what makes the second of the first, and of a result the
 * first of the second.
 */
const KINDS = {
  p: { here: I32, there: I64, passed: [0xad], returned: [0xa7] },    // i64.extend_i32_u, i32.wrap_i64
  c: { here: F64, there: I64, passed: [0xb1] },    // i64.trunc_f64_u
  n: { here: I64, there: I64, passed: [] },
  i: { here: I32, there: I32, passed: [], returned: [] },
};

/** A number as WebAssembly writes sizes (LEB128). */
function leb(size) {
  return size < 128 ? [size] : [(size & 127) | 128, ...leb(size >>> 7)];
}

const vector = (items) => [...leb(items.length), ...items.flat()];
const section = (id, items) => {
  const bytes = vector(items);
  return [id, ...leb(bytes.length), ...bytes];
};
const named = (text) => vector([...text].map((letter) => letter.charCodeAt(0)));

function typeOf(signature, side) {
  const [parameters, result] = signature.split('>').map((letters) => [...letters].map((letter) => KINDS[letter][side]));
  return [0x60, ...vector(parameters), ...vector(result)];
}

/** A function that passes its parameters on to the import of this number. */
function bodyOf(signature, number) {
  const [parameters, result] = signature.split('>').map((letters) => [...letters].map((letter) => KINDS[letter]));
  const pushed = parameters.flatMap(({ passed }, n) => [0x20, n, ...passed]);    // local.get
  return vector([0, ...pushed, 0x10, ...leb(number), ...result[0].returned, 0x0b]);    // call, end
}

/** The module that stands between. */
function moduleOf(exports) {
  const all = Object.entries(exports);
  return Uint8Array.from([
    0, 97, 115, 109, 1, 0, 0, 0,
    ...section(1, all.flatMap(([, it]) => [typeOf(it, 'there'), typeOf(it, 'here')])),
    ...section(2, all.map(([name], n) => [...named('noise'), ...named(name), 0, ...leb(2 * n)])),
    ...section(3, all.map((_, n) => leb(2 * n + 1))),
    ...section(7, all.map(([name], n) => [...named(name), 0, ...leb(all.length + n)])),
    ...section(10, all.map(([, it], n) => bodyOf(it, n))),
  ]);
}

/** The exports of the library's instance, as functions of numbers. */
export async function ofNumbers(noise) {
  const { instance } = await WebAssembly.instantiate(moduleOf(PROTOTYPES), { noise });
  return instance.exports;
}
