// The first line of a log that isn't among the lines of a key schedule, by the rule of `noise compare`: docs/FILES.md
// has the lines, crates/noise_compare/specs the rule. checks/web compares the two on many logs. No mistake is named
// here, which the command does. There is no DOM here.

const VALUES = [['bytes', 7], ['hash', 8], ['chaining-key', 9], ['key', 10], ['nonce', 11]];
const LINE_WORDS = 12;
const NONCE = 11;
const KEY = 10;
const NO_BYTES = ['none', 'null', 'nil', '(none)'];
const ZEROS = '0'.repeat(64);

/** A byte as the command reads it: blanks are spaces, letters are small, and what can't be printed is a full stop. */
const plainText = (text) =>
  text.replace(/[\t\r]/g, ' ').replace(/[^\x20-\x7e]/g, '.').replace(/[A-Z]/g, (it) => it.toLowerCase());

/** A word without quotes, `0x` and `b'`, and `-` for one that stands for no bytes. */
function plainWord(word) {
  const bare = word.replace(/^b'/, '').replace(/^0x/, '').replaceAll("'", '');
  return NO_BYTES.includes(bare) ? '-' : bare;
}

/** The words of a line from its last `trace ROLE ` on, or none. */
function plainWords(line) {
  const plain = plainText(line).split(' ').filter((word) => word !== '').map(plainWord).join(' ');
  const from = Math.max(plain.lastIndexOf('trace initiator '), plain.lastIndexOf('trace responder '));
  return from < 0 ? [] : plain.slice(from).split(' ');
}

/** A log without a last line that is cut off, or with `?` for a last nonce that may be, and what is said of it. */
function wholeLines(text) {
  const all = text.split('\n');
  const last = all.at(-1);
  const { length } = plainWords(last);
  const line = `the last line, ${all.length},`;
  if (length && length !== LINE_WORDS) {
    return { whole: text.slice(0, text.length - last.length), cut: `${line} is cut off` };
  }
  const [word] = /[^ \t\r]*$/.exec(last);
  if (!length || !word) return { whole: text };
  return {
    whole: `${text.slice(0, text.length - word.length)}?`,
    cut: `${line} has no LF: its nonce may be cut off, and isn't compared`,
  };
}

/**
 * The lines of a key schedule in a text, each with its number; how many others there are; the first wrong line; and
 * what is said of a last line without LF.
 */
export function readLog(text) {
  const { whole, cut } = wholeLines(text);
  const all = whole.split('\n');
  const lines = all.map((line, n) => ({ number: n + 1, words: plainWords(line) })).filter(({ words }) => words.length);
  const written = all.filter((line) => /[^ \t\r]/.test(line)).length;
  const wrong = lines.find(({ words }) => words.length !== LINE_WORDS)?.number;
  return { lines, skipped: Math.max(0, written - lines.length), wrong, cut };
}

/** Lines of `noise trace` as they are compared. */
export const rightLines = (lines) => lines.map((line, n) => ({ number: n + 1, words: line.split(' ') }));

const isOfPlace = (logged, right) => [1, 2, 4].every((n) => right.words[n] === logged.words[n]);
const isNumber = (word) => /^\d+$/.test(word) && BigInt(word) < 2n ** 64n;
const isSameNumber = (one, other) => isNumber(one) && isNumber(other) && BigInt(one) === BigInt(other);

/** Another form of the right word: a key of zeros where there is none, or zeros in front of a nonce. */
const isSameInForm = (n, right, logged) =>
  (n === KEY && right === '-' && logged === ZEROS) || (n === NONCE && isSameNumber(right, logged));

function isSame(logged, right, n) {
  const [own, theirs] = [logged.words[n], right.words[n]];
  return own === '?' || theirs === own || isSameInForm(n, theirs, own);
}
const hasValues = (logged, right) => VALUES.every(([, n]) => isSame(logged, right, n));
const isMatch = (logged, right) => isOfPlace(logged, right) && hasValues(logged, right);

/** Where a logged line is matched in the right lines from a place on, or -1. */
function matchFrom(isInTurn, logged, right, from) {
  const isDue = isInTurn ? isOfPlace : isMatch;
  const n = right.findIndex((line, at) => at >= from && isDue(logged, line));
  return n >= 0 && hasValues(logged, right[n]) ? n : -1;
}

/** The right line that an unmatched one is shown beside. */
function beside(isInTurn, logged, left) {
  const found = isInTurn ? undefined : left.find((line) => isOfPlace(logged, line) && isSame(logged, line, NONCE));
  return found ?? left.find((line) => isOfPlace(logged, line));
}

function firstUnmatched(isInTurn, log, right) {
  const next = { initiator: 0, responder: 0 };
  for (const line of log) {
    const [, role] = line.words;
    const n = matchFrom(isInTurn, line, right, next[role]);
    if (n < 0) return { line, right: beside(isInTurn, line, right.slice(next[role])) };
    next[role] = n + 1;
  }
  return undefined;
}

/**
 * The first difference, or undefined where the lines of each role are among the right ones, in order. Where the log has
 * as many lines of a place as the schedule it lacks none there, and they are matched in turn.
 */
export function firstDifference(log, right) {
  const byValues = firstUnmatched(false, log, right);
  if (!byValues) return undefined;
  const inTurn = firstUnmatched(true, log, right);
  const count = (lines) => lines.filter((line) => isOfPlace(inTurn.line, line)).length;
  return count(log) >= count(right) ? inTurn : byValues;
}

/** The next step of the handshake after the last line of a log that agrees, or undefined. */
function nextStep(log, right) {
  const last = log.at(-1);
  const n = matchFrom(false, last, right, 0);
  const isStep = ({ words }) => words[1] === last.words[1] && !['open', 'transport', 'datagrams'].includes(words[2]);
  return n < 0 ? undefined : right.slice(n + 1).find(isStep);
}

export const placeOf = ({ words }) => `${words[1]}, ${/^\d/.test(words[2]) ? 'message ' : ''}${words[2]}, ${words[4]}`;

/** The values of two lines that differ: `[name, right, yours]`. */
const valuesOf = ({ line, right }) =>
  VALUES.filter(([, n]) => right && !isSame(line, right, n)).map(([name, n]) => [name, right.words[n], line.words[n]]);

/**
 * What comes of a log and the right lines: `finding` is agrees, ends or differs, or `fault` where the log can't be
 * compared; with it the lines that `noise compare` prints before it names mistakes.
 */
export function compareLog(text, right) {
  const { lines, skipped, wrong, cut } = readLog(text);
  if (wrong !== undefined) return { fault: `line ${wrong} trace` };
  if (!lines.length) return { fault: 'no line of a key schedule' };
  const found = firstDifference(lines, right);
  const next = found ? undefined : nextStep(lines, right);
  if (found) {
    const values = valuesOf(found);
    return {
      finding: 'differs', number: found.line.number, place: placeOf(found.line), values, skipped, cut,
      next: found.right,
      text: [
        `differs at line ${found.line.number}: ${placeOf(found.line)}`,
        ...values.flatMap(([name, theirs, yours]) => [`right ${name} ${theirs}`, `yours ${name} ${yours}`]),
      ],
    };
  }
  if (next) return { finding: 'ends', place: placeOf(next), skipped, cut, text: [`ends before ${placeOf(next)}`] };
  const split = lines.filter(({ words }) => words[2] === 'open').length;
  return {
    finding: 'agrees', count: lines.length, split, skipped, cut,
    text: [`agrees in ${lines.length} lines`, `lines of Split compared: ${split}`],
  };
}
