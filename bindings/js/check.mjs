// The check of a pattern text.
import { code, codeOf } from './codes.mjs';
import { library } from './module.mjs';

const encoder = new TextEncoder();

/** What the library finds, with the number of include/noise.h as `code`, and its name. */
export function checkPattern(text) {
  const lib = library();
  const bytes = encoder.encode(text);
  if (bytes.length > 65536) return { valid: false, code: code.LIMIT, name: codeOf(code.LIMIT), line: 1 };
  const number = lib.x.noise_check_pattern(...lib.put('prologue', bytes), lib.at.result);
  const [rule, message, token, messages] = lib.view(lib.at.result + 8, 4);
  if (number === code.OK) return { valid: true, messages };
  const fault = { valid: false, code: number, name: codeOf(number) };
  if (number !== code.RULE) return { ...fault, line: lib.size(lib.at.result) };
  return { ...fault, rule, message, token };
}
