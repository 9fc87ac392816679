// Changes of a pattern text's lines, and whether they correct it, as `noise explain` judges. There is no DOM here.
import { checkPattern } from '../bindings/js/check.mjs';
import { firstOf } from './faults.mjs';
import { linesOf } from './plan.mjs';

export const afterLine = (text) => (text.includes('\n') ? text.slice(text.indexOf('\n') + 1) : '');

/** The text from the line of this number on, from 1; empty where the text has fewer lines. */
export function fromLine(text, number) {
  let rest = text;
  for (let n = 1; n < number; n += 1) rest = afterLine(rest);
  return rest;
}

export const lineAt = (text, number) => fromLine(text, number).split('\n', 1)[0];
const beforeLine = (text, number) => text.slice(0, text.length - fromLine(text, number).length);

/** A change by its name: the text after it, and what is said of it. Lines count from 1. */
const CHANGES = {
  write: {
    done: (text, number, line) => `${beforeLine(text, number)}${line}\n${afterLine(fromLine(text, number))}`,
    says: (number, line) => `Write line ${number} so: “${line}”.`,
  },
  put: {
    done: (text, number, line) => `${beforeLine(text, number)}${line}\n${fromLine(text, number)}`,
    says: (number, line) => `Put in as line ${number}: “${line}”.`,
  },
  out: {
    done: (text, number) => `${beforeLine(text, number)}${afterLine(fromLine(text, number))}`,
    says: (number) => `Leave line ${number} out.`,
  },
  feed: { done: (text) => `${text}\n`, says: () => 'End the last line with a line feed.' },
  returns: { done: (text) => text.replaceAll('\r', ''), says: () => 'End each line with a line feed alone.' },
};

/** A text after some changes, one after another. Each is a name of these and what follows it. */
export const corrected = (text, changes) =>
  changes.reduce((made, [name, ...words]) => CHANGES[name].done(made, ...words), text);
export const saidOf = (changes) => changes.map(([name, ...words]) => CHANGES[name].says(...words));

/** How many bytes a text has, as the library reads it. */
const encoder = new TextEncoder();
const size = (text) => encoder.encode(text).length;

/** The column of a fault of a line, from 1 on. */
function columnOf(code, number, line) {
  const heading = /^[A-Z]/.test(line) ? Math.min(/^[A-Z0-9]*/.exec(line)[0].length, 8) + 1 : 1;
  if (code === 30 || (code === 35 && number === 1)) return heading;
  if (code === 31) return /^ {2}/.test(line) ? (/^ {2}(?:->|<-)/.test(line) ? 5 : 3) : 1;
  if (code === 32) return /^(?:(?:e|s|ee|es|se|ss|psk), )*/.exec(line.slice(5))[0].length + 6;
  return { 35: 6, 36: 1, 38: line.length + 1 }[code] ?? 3;
}

/** Where the first fault of a text stands: its line and its column, from 1 on. */
export function positionOf(text, verdict) {
  if (!verdict.rule) return [verdict.line, columnOf(verdict.code, verdict.line, lineAt(text, verdict.line))];
  const lines = linesOf(text);
  const n = Math.min(firstOf(lines) + verdict.message - 1, lines.length - 1);
  const isOf = firstOf(lines) + verdict.message - 1 === n;
  return [n + 1, (isOf ? lines[n].tokens[verdict.token]?.start ?? lines[n].line.length : lines[n].line.length) + 1];
}

const leftFrom = (text, [line, column]) => fromLine(text, line).slice(column - 1);
const isBehind = (later, position) => later[0] > position[0] || (later[0] === position[0] && later[1] > position[1]);

/**
 * How much of another text is left from its first fault on, 0 of a valid one. Undefined where it is no better: that
 * fault comes no later, or a text that was read isn't read any more.
 */
export function leftAfter(text, verdict, other) {
  const found = checkPattern(other);
  if (found.valid) return 0;
  if (verdict.rule && !found.rule) return undefined;
  const [position, later] = [positionOf(text, verdict), positionOf(other, found)];
  const [had, left] = [leftFrom(text, position), leftFrom(other, later)];
  if (size(left) >= size(had)) return undefined;
  return isBehind(later, position) || had.endsWith(left) ? size(left) + 1 : undefined;
}

/** Of some lists of changes the first after which the text is valid, or else the one whose first fault is latest. */
export function chosen(text, verdict, candidates) {
  let [best, least] = [undefined, Infinity];
  for (const changes of candidates) {
    const left = leftAfter(text, verdict, corrected(text, changes));
    if (left < least) [best, least] = [changes, left];
    if (least === 0) break;
  }
  return best;
}
