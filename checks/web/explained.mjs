// The page and `noise explain` say the same of a pattern's tokens: explained.mjs PROGRAM. Of each pattern of the
// standard, without and with psks, and of valid ones that are drawn at random, the command's lines have to be those
// that the page's rows come to, and each sentence of the page has to occur. Of patterns that break rules both have to
// tell the same faults, and of these and of mistyped ones both have to correct the same.
import assert from 'node:assert/strict';
import { spawnSync } from 'node:child_process';
import { mkdtempSync, rmSync, writeFileSync } from 'node:fs';
import { tmpdir } from 'node:os';
import { join } from 'node:path';
import { checkPattern } from '../../bindings/js/check.mjs';
import { layout as layoutOf } from '../../bindings/js/layout.mjs';
import { load } from '../../bindings/js/module.mjs';
import { explain } from '../../web/faults.mjs';
import {
  MEANING, SENTENCES, UNJUDGED, againWords, keyWords, mixedWords, rowsOf, unmixedOf, writerWords,
} from '../../web/facts.mjs';
import { saidOf as rowsOfChanges } from '../../web/changes.mjs';
import { correctionOf } from '../../web/mends.mjs';
import { DEFERRED, FUNDAMENTAL, textOf } from '../../web/patterns.mjs';
import { layout } from '../../web/plan.mjs';
import { faultsOf } from '../../web/reading.mjs';

const plain = (text) => text.replace(/’/g, "'").replace(/[“”]/g, '"');
const capital = (text) => text[0].toUpperCase() + text.slice(1);
const met = new Set();

/** What is said of a key: what is mixed in, and who can compute it. */
function keyLine(row) {
  met.add(row.fact);
  if (row.part) met.add('part');
  const words = ['key', 'psk'].includes(row.fact) ? `Enough: ${keyWords(row)}` : capital(keyWords(row));
  return `${mixedWords(row.mixed)} mixed in. ${words}`;
}

/** Who can have written a message, and what becomes of a recording. */
function originLines(what, row) {
  met.add(row.writer.fact).add(row.again.fact);
  return [`    ${what} can be written by ${writerWords(row)}`, `    a recording of it is ${againWords(row)}`];
}

/** The lines of a piece; a DH and a psk have none. */
function pieceLines({ kind, from, length, encrypted }, row) {
  if (kind === 'e') return [`    e: bytes ${from} to ${from + length - 1}, in the clear`];
  const where = kind === 's' ? `s: bytes ${from} to ${from + length - 1}` : `payload: from byte ${from} on`;
  if (row.fact === 'seen') met.add('seen');
  if (!encrypted) return [`    ${where}, ${SENTENCES.seen}`];
  const how = kind === 's' ? 'encrypted, the last 16 its tag' : 'encrypted, and 16 bytes of tag after it';
  return [`    ${where}, ${how}`, `    key of ${kind}: ${keyLine(row)}`];
}

function messageLines({ from, pieces, length }, n, { keys, messages }) {
  const rows = Object.fromEntries(keys.map((row) => [row.name, row]));
  const shown = pieces.filter(({ kind }) => ['e', 's', 'payload'].includes(kind));
  return [
    `  message ${n + 1}, of the ${from}, is ${length} bytes longer than its payload`,
    ...shown.flatMap((piece) => pieceLines(piece, rows[`Message ${n + 1}, ${piece.kind}`])),
    ...originLines('it', messages[n]),
  ];
}

/** What `noise explain` has to print of a file with this text. */
function explained(name, text) {
  const [plan, { messages, oneWay }] = [layout(text), layoutOf(text)];
  const rows = rowsOf(plan);
  const ways = oneWay ? ['initiator'] : ['initiator', 'responder'];
  const lines = [
    `${name}: valid ${plan.section}`,
    ...messages.flatMap((message, n) => messageLines(message, n, rows)),
    oneWay ? '  transport, of the initiator alone' : '  transport, of both parties',
    `    key of a recording: ${keyLine(rows.keys.at(-1))}`,
    ...ways.flatMap((role, n) => originLines(`the ${role}'s`, rows.messages[messages.length + n])),
    ...unmixedOf(plan).map((says) => `  Warning: ${says[0].toLowerCase()}${says.slice(1)}`),
    ...[...MEANING, ...UNJUDGED].map((line) => `  ${line}`),
  ];
  return plain(lines.map((line) => `${line}\n`).join(''));
}

/** Numbers below a bound, the same in each run (a linear congruence modulo 2^32). */
function numbers(start) {
  let seed = start;
  return (most) => {
    seed = (Math.imul(seed, 1664525) + 1013904223) >>> 0;
    return Math.floor(seed / 2 ** 32 * most);
  };
}

/** Whether both keys of each DH come before it, without which no pattern is valid: most that are drawn fail here. */
function hasKeys(text) {
  const keys = { '->': new Set(), '<-': new Set() };
  for (const line of text.split('\n').slice(1)) {
    for (const token of line.slice(5).split(', ')) {
      if (token.length !== 2) keys[line.slice(2, 4)]?.add(token);
      else if (!keys['->'].has(token[0]) || !keys['<-'].has(token[1])) return false;
    }
  }
  return true;
}

/** Patterns of one's own that are wanted, drawn until there are so many. */
function drawn(count, isWanted) {
  const next = numbers(82);
  const pick = (list) => list[next(list.length)];
  const known = [
    '', '', '  <- s\n  ...\n', '  -> s\n  ...\n', '  -> s\n  <- s\n  ...\n', '  <- e, s\n  ...\n', '  -> e\n  ...\n',
  ];
  const found = new Set();
  while (found.size < count) {
    const body = Array.from({ length: 1 + next(4) }, (_, at) => {
      const tokens = ['e', 's', 'ee', 'es', 'se', 'ss'].filter(() => next(5) < 2);
      return `  ${at % 2 ? '<-' : '->'} ${[...tokens, ...(next(4) ? [] : ['psk'])].join(', ')}\n`;
    });
    const places = body.flatMap((line, n) => (line.includes('psk') ? [`psk${n + 1}`] : [])).join('+');
    const text = `MINE${places}:\n${pick(known)}${body.join('')}`;
    if (isWanted(text)) found.add(text);
  }
  return [...found];
}

function ofTheStandard() {
  return [...FUNDAMENTAL, ...DEFERRED].flatMap((base) => {
    const last = layoutOf(textOf(base)).messages.length;
    return [[], [0], [last], [0, last]].map((places) => textOf(base, places));
  });
}

/** What the command says first of several changes, which the page makes itself. */
const ORDER = 'Make these changes one after another, each on the text that the one before leaves.';

/** The lines of the changes that correct a text. */
function changeLines(text) {
  const changes = correctionOf(text, checkPattern(text)) ?? [];
  const lines = [...(changes.length > 1 ? [ORDER] : []), ...rowsOfChanges(changes)];
  return plain(lines.map((line) => `  ${line}\n`).join(''));
}

/** The faults of a pattern that breaks rules, and after the first the changes, below its place and the caret. */
function faultLines(text) {
  const [first, ...others] = faultsOf(text, checkPattern(text)).map((fault) => {
    const { title, says } = explain(text, fault);
    return plain(`  ${title}.\n  ${says}\n`);
  });
  return [first, changeLines(text), ...others].join('');
}

/** A text with one or two lines as one mistypes them. */
function mistyped(text, pick) {
  const lines = text.split('\n').slice(0, -1);
  const slips = [
    (line) => line.replaceAll(', ', ','), (line) => line.toUpperCase(), (line) => line.toLowerCase(),
    (line) => `${line} `, (line) => `${line} # a note`, (line) => line.replace(/^ +|:$/g, ''),
    (line) => `\t${line.trim()}`,
    (line) => line.replace(/->|<-/, (it) => (it === '->' ? '<-' : '->')), (line) => `${line}, x`, () => '',
    (line) => `${line}\n${line}`, (line) => line.replace(/(?:psk\d)?:$/, 'psk1:'), (line) => line.replace(':', '(s):'),
    (line) => line.replace(/->/, '=>'), (line) => line.replace(/(?<=, )[a-z]+/, 'psk'), () => '  ...',
  ];
  for (let n = pick([1, 1, 2]); n > 0; n -= 1) {
    const at = pick(lines.map((_, place) => place));
    lines[at] = pick(slips)(lines[at]);
  }
  return lines.map((line) => `${line}\n`).join('');
}

/** Wrong texts of valid patterns. */
function mistypedOf(texts, count) {
  const next = numbers(99);
  const pick = (list) => list[next(list.length)];
  const found = new Set();
  while (found.size < count) {
    const text = mistyped(pick(texts), pick);
    const verdict = checkPattern(text);
    if (!verdict.valid && !verdict.rule) found.add(text);
  }
  return [...found];
}

/** The lines of changes in what the command says. */
const CHANGE = /^ {2}(?:Write line \d+ so: ".*"|Put in as line \d+: ".*"|Leave line \d+ out|End .* a line feed.*)\.$/;
const changesIn = (said) =>
  said.split('\n').slice(3).filter((line) => CHANGE.test(line) || line === `  ${ORDER}`).map((line) => `${line}\n`)
    .join('');

/** What the command says of each text, with this status. */
function saidOf(texts, status) {
  const room = mkdtempSync(join(tmpdir(), 'explained-'));
  try {
    texts.forEach((text, n) => writeFileSync(join(room, `${n}.pattern`), text));
    const names = texts.map((_, n) => `${n}.pattern`);
    const run = spawnSync(process.argv[2], ['explain', ...names], { cwd: room, encoding: 'utf8', maxBuffer: 2 ** 26 });
    assert.equal(run.status, status, run.stderr);
    const said = run.stdout.split(/^(?=\d+\.pattern:)/m);
    assert.equal(said.length, texts.length);
    return said;
  } finally {
    rmSync(room, { recursive: true });
  }
}

await load();
const texts = [...ofTheStandard(), ...drawn(400, (text) => hasKeys(text) && checkPattern(text).valid)];
saidOf(texts, 0).forEach((said, n) => assert.equal(said, explained(`${n}.pattern`, texts[n]), texts[n]));
const wrong = drawn(300, (text) => checkPattern(text).rule);
saidOf(wrong, 1).forEach(
  (said, n) => assert.equal(said.split('\n').slice(3).join('\n'), faultLines(wrong[n]), wrong[n]),
);
const forms = mistypedOf(texts, 300);
saidOf(forms, 2).forEach((said, n) => assert.equal(changesIn(said), changeLines(forms[n]), JSON.stringify(forms[n])));
const missing = Object.keys(SENTENCES).filter((name) => !met.has(name));
assert.deepEqual(missing, [], 'sentences of the page that no pattern has');
console.log(
  `web: noise explain says of ${texts.length} patterns what the page says, in its ${met.size} sentences, `
    + `tells the faults of ${wrong.length} others, and corrects these and ${forms.length} mistyped ones the same`,
);
