// What a program is told of a pattern text.
import { checkPattern as checked } from './check.mjs';

/**
 * @typedef {{ valid: true, messages: number }
 *   | { valid: false, code: import('./codes.mjs').Code, number: number, line: number }
 * | { valid: false, code: import('./codes.mjs').Code, number: number, rule: number, message: number, token: number
 * }} Verdict
 */

/**
 * Checks a pattern text, and gives its number of messages, or what is wrong and where: the line of a text that
 * isn't well formed, from 1 on; or else the rule of include/noise.h, the message, from 1 on, and the token, from 0
 * on.
 * @param {string} text
 * @returns {Verdict}
 */
export function checkPattern(text) {
  const { name, code, ...found } = checked(text);
  return found.valid ? found : { ...found, code: name, number: code };
}
