/**
 * @typedef {{ valid: true, messages: number }
 *   | { valid: false, code: import('./codes.mjs').Code, number: number, line: number }
 * | { valid: false, code: import('./codes.mjs').Code, number: number, rule: number, message: number, token: number
 * }} Verdict
 */
/**
 * Checks a pattern text, and gives its number of messages, or what is wrong and where: the line of a text that
 * isn't well formed, from 1 on; or else the rule of include/noise.h, the message, from 1 on, and the token, from 0
 * on.
 * @param {string} text
 * @returns {Verdict}
 */
export function checkPattern(text: string): Verdict;
export type Verdict = {
    valid: true;
    messages: number;
} | {
    valid: false;
    code: import('./codes.mjs').Code;
    number: number;
    line: number;
} | {
    valid: false;
    code: import('./codes.mjs').Code;
    number: number;
    rule: number;
    message: number;
    token: number;
};
