// The facts about a pattern's tokens, and where two patterns differ in them, as they are shown.
import { checkPattern } from '../bindings/js/check.mjs';
import { element } from './element.mjs';
import { MEANING, UNJUDGED, againSentence, keySentence, mixedWords, rowsOf, writerSentence } from './facts.mjs';
import * as own from './own.mjs';
import { DEFERRED, FUNDAMENTAL, textOf } from './patterns.mjs';
import { layout } from './plan.mjs';

const cell = (name, ...children) => element(name, '', ...children);

function headed(...names) {
  const row = element('tr', '', ...names.map((name) => cell('th', name)));
  for (const th of row.children) th.scope = 'col';
  return element('thead', '', row);
}

function rowHead(text) {
  const made = cell('th', text);
  made.scope = 'row';
  return made;
}

const PARTS = { TABLE: 'table', THEAD: 'rowgroup', TBODY: 'rowgroup', TR: 'row', TD: 'cell' };

/** A table that stays one for a screen reader where its rows are shown as blocks. */
function table(title, heads, rows) {
  const made = element(
    'table',
    'facts',
    element('caption', '', title),
    headed(...heads),
    element('tbody', '', ...rows),
  );
  for (const it of [made, ...made.querySelectorAll('thead, tbody, tr, th, td')]) {
    it.setAttribute('role', PARTS[it.tagName] ?? (it.scope === 'row' ? 'rowheader' : 'columnheader'));
  }
  return made;
}

/** The facts in a box: a table of the keys, and one of the messages. */
export function showFacts(box, plan) {
  const { keys, messages } = rowsOf(plan);
  const keyRows = keys.map((row) =>
    element(
      'tr',
      row.warns ? 'warns' : '',
      rowHead(row.name),
      cell('td', mixedWords(row.mixed)),
      cell('td', keySentence(row)),
    ),
  );
  const messageRows = messages.map((row) =>
    element('tr', '', rowHead(row.name), cell('td', writerSentence(row)), cell('td', againSentence(row))),
  );
  box.replaceChildren(
    table('Private keys that are enough to compute each key', ['Key of', 'Mixed in', 'Enough'], keyRows),
    table(
      'Who can have written a message, and what becomes of a recording of it in another handshake',
      ['Message', 'Written by', 'Sent again later'],
      messageRows,
    ),
    element('p', 'hint', MEANING.join(' ')), element('p', 'hint', UNJUDGED.join(' ')),
  );
}

/** What is compared of a pattern: `[name, text]`. */
function comparedOf(text) {
  const plan = layout(text);
  const { keys, messages } = rowsOf(plan);
  const known = ['initiator', 'responder'].filter((role) => plan.before[role].length).map(
    (role) => `the ${role}’s ${plan.before[role].join(', ')}`,
  );
  return [
    ['Known before', known.join('; ') || 'nothing'],
    ...plan.messages.map(({ from, tokens, length }, n) => [
      `Message ${n + 1}`,
      `${from === 'initiator' ? '→' : '←'} ${tokens.join(', ')} (${length} bytes)`,
    ]),
    ...keys.map((row) => [row.name, `${mixedWords(row.mixed)}. ${keySentence(row)}`]),
    ...messages.flatMap((row) => [
      [`${row.name}: written by`, writerSentence(row)],
      [`${row.name}: sent again`, againSentence(row)],
    ]),
  ];
}

/** The rows of two patterns that differ: `[name, left, right]`, in the order of the first. */
export function differencesOf(textA, textB) {
  const [a, b] = [comparedOf(textA), comparedOf(textB)].map((rows) => new Map(rows));
  const all = [...a.keys(), ...[...b.keys()].filter((name) => !a.has(name))].map((name) => [
    name,
    a.get(name) ?? 'none',
    b.get(name) ?? 'none',
  ]);
  return all.filter(([, left, right]) => left !== right);
}

/** The words of a text that another one hasn't in this order, marked: by a longest common subsequence. */
export function markedWords(text, other) {
  const [words, others] = [text, other].map((it) => it.split(' '));
  const long = Array.from({ length: words.length + 1 }, () => new Array(others.length + 1).fill(0));
  for (let a = words.length - 1; a >= 0; a -= 1) {
    for (let b = others.length - 1; b >= 0; b -= 1) {
      long[a][b] = words[a] === others[b] ? long[a + 1][b + 1] + 1 : Math.max(long[a + 1][b], long[a][b + 1]);
    }
  }
  const parts = [];
  for (let a = 0, b = 0; a < words.length; a += 1) {
    while (b < others.length && words[a] !== others[b] && long[a][b + 1] > long[a + 1][b]) b += 1;
    const isSame = b < others.length && words[a] === others[b] && long[a][b] === long[a + 1][b + 1] + 1;
    if (isSame) b += 1;
    parts.push({ word: words[a], isSame });
  }
  return parts;
}

/** The cell of a text beside another one. */
function markedCell(text, other) {
  const parts = markedWords(text, other).map(({ word, isSame }) => (isSame ? word : element('b', 'changed', word)));
  return cell('td', ...parts.flatMap((part, n) => (n ? [' ', part] : [part])));
}

function showBeside(box, [nameA, textA], [nameB, textB]) {
  const rows = differencesOf(textA, textB);
  const count = rows.length === 1 ? 'differ in one row' : `differ in ${rows.length} rows`;
  const says = element(
    'p',
    '',
    rows.length
      ? `${nameA} and ${nameB} ${count}, and are alike in the others.`
      : `${nameA} and ${nameB} are alike in all rows.`,
  );
  if (!rows.length) return box.replaceChildren(says);
  const made = rows.map(([name, left, right]) =>
    element('tr', '', rowHead(name), markedCell(left, right), markedCell(right, left)));
  return box.replaceChildren(
    says,
    element('table', 'beside', headed('What differs', nameA, nameB), element('tbody', '', ...made)),
  );
}

const headingOf = (text) => text.split('\n')[0].replace(/:$/, '');

/** Another pattern beside the one in the editor: one of the standard, or one's own. */
export class Beside {
  #list;
  #box;
  #shown = ['', false];

  /** `changed(name)` is called with the name of the pattern of the standard that was chosen, or ''. */
  constructor(list, box, changed) {
    this.#list = list;
    this.#box = box;
    this.#fill();
    list.addEventListener('focus', () => this.#fill());
    list.addEventListener('change', () => {
      this.show(...this.#shown);
      changed(list.value.startsWith('own ') ? '' : list.value);
    });
  }

  /** What can be chosen: one's own patterns that are valid, then those of the standard. */
  #fill() {
    const { value } = this.#list;
    const mine = own
      .all()
      .filter(({ text }) => checkPattern(text).valid)
      .map(({ id, label }) => new Option(`your ${label}`, `own ${id}`));
    this.#list.replaceChildren(
      new Option('nothing', ''),
      ...mine,
      ...[...FUNDAMENTAL, ...DEFERRED].map((base) => new Option(base)),
    );
    this.#list.value = value;
  }

  choose(name) {
    this.#list.value = name;
    if (this.#list.selectedIndex < 0) this.#list.value = '';
  }

  #other() {
    const { value } = this.#list;
    if (!value.startsWith('own ')) return value && textOf(value);
    return own.textOf(value.slice(4));
  }

  /** Shows where it differs from this text, if that is valid. */
  show(text, isValid) {
    this.#shown = [text, isValid];
    const other = this.#other();
    const isShown = Boolean(other) && isValid && checkPattern(other).valid;
    if (isShown) showBeside(this.#box, [headingOf(text), text], [headingOf(other), other]);
    else this.#box.replaceChildren();
  }
}
