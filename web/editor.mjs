// The text of the pattern: it is checked at each change, its faults are marked, and a click sets psk places or mends a
// fault. What the page changes in it the browser's own undo takes back.
import { checkPattern } from '../bindings/js/check.mjs';
import { button, element, speak } from './element.mjs';
import { warningsOf } from './facts.mjs';
import { explain, firstOf } from './faults.mjs';
import * as own from './own.mjs';
import { DEFERRED, FUNDAMENTAL, textOf } from './patterns.mjs';
import { layout, linesOf } from './plan.mjs';
import { faultsOf } from './reading.mjs';
import { hasSecret } from './secret.mjs';

/** How long after the last key the verdict is said, in milliseconds. */
const QUIET = 600;
/** How many faults are told; and how long a text may be of which more than the library's is: no pattern is. */
const MOST_FAULTS = 8;
const LONGEST = 4000;
const HEADING = /^([A-Z][A-Z0-9]{0,7})((?:psk[0-8])(?:\+psk[0-8])*)?:$/;

/** A text as the library reads it: its last line ends with a line feed too. */
export const whole = (value) => (value.endsWith('\n') ? value : `${value}\n`);

/** The places in a text's heading. */
function placesOf(text) {
  const parts = HEADING.exec(text.split('\n')[0]);
  return (parts?.[2]?.match(/\d/g) ?? []).map(Number);
}

/** Which pattern of the standard a text is, or ''. */
export function standardOf(text) {
  const base = text.split('\n')[0].replace(/(psk.*)?:$/, '');
  return [...FUNDAMENTAL, ...DEFERRED].includes(base) && textOf(base, placesOf(text)) === text ? base : '';
}

/** The text with a psk token at this place, or without the one that is there. */
export function togglePsk(text, place) {
  const lines = linesOf(text);
  const heading = HEADING.exec(lines[0].line);
  if (!heading) return text;
  const places = placesOf(text);
  const has = places.includes(place);
  const next = has ? places.filter((it) => it !== place) : [...places, place].sort();
  const dots = lines.findIndex(({ line }) => line === '  ...');
  const n = Math.max(dots, 0) + Math.max(place, 1);
  if (!lines[n]?.tokens) return text;
  const names = lines[n].tokens.map(({ name }) => name);
  if (has && names.includes('psk')) names.splice(place === 0 ? names.indexOf('psk') : names.lastIndexOf('psk'), 1);
  else if (!has) names.splice(place === 0 ? 0 : names.length, 0, 'psk');
  const changed = lines.map(({ line }) => line);
  changed[0] = `${heading[1]}${next.map((it) => `psk${it}`).join('+')}:`;
  changed[n] = lines[n].line.slice(0, 5) + names.join(', ');
  return `${changed.join('\n')}\n`;
}

/** The range of a text that another one has otherwise, and what stands there in it. */
function difference(old, text) {
  let from = 0;
  while (from < old.length && from < text.length && old[from] === text[from]) from += 1;
  let rest = 0;
  while (rest < old.length - from && rest < text.length - from && old.at(-1 - rest) === text.at(-1 - rest)) rest += 1;
  return [from, old.length - rest, text.slice(from, text.length - rest)];
}

const paragraph = (cls, ...words) => element('p', cls, ...words);

/** What is said of a valid pattern. */
function validParts({ messages }, plan, warnings) {
  const lengths = plan.messages.map(({ length }) => length);
  const says =
    messages === 1
      ? `Without its payload the message has ${lengths[0]} bytes.`
      : `Without payloads the messages have ${lengths.join(', ')} bytes.`;
  const title =
    `Valid: ${messages} ${messages === 1 ? 'message' : 'messages'}${warnings.length ? ', with a warning' : ''}. `;
  return [
    paragraph('title', title),
    ...warnings.map((it) => paragraph('warns', `Warning: ${it} `)),
    paragraph('mend', says),
  ];
}

/** The title of a fault; a rule's number is a link to the rule, and there is one to its section of the standard. */
function titleOf({ title, rule, section, where }) {
  if (!rule) return [`${title}. `];
  const to = (href, text) => Object.assign(element('a', '', text), { href });
  return ['Rule ', to(`rules.html#rule-${rule}`, String(rule)), ' (', to(section.url, section.number), `)${where}. `];
}

/** What is said of a refused text: its first fault, and a line for each other one. */
function faultParts([first, ...others]) {
  const more = others.map((it) => element('li', '', ...titleOf(it), it.says));
  const list = more.length ? [element('ul', 'more', ...more)] : [];
  return [
    paragraph('title', ...titleOf(first)),
    paragraph('', `${first.says} `),
    ...list,
  ];
}

export class Editor {
  #text = document.getElementById('text');
  #marks = document.getElementById('marks');
  #verdict = document.getElementById('verdict');
  #mends = document.getElementById('mends');
  #pick = document.getElementById('pick');
  #places = document.getElementById('places');
  #verdictOf;
  /** The text that was kept last of what is typed now: a later one under its name takes its place. */
  #former;
  #mine = element('optgroup');
  /** The text when the list of patterns got the focus, and whether another was chosen since. */
  #chosen = { text: '', isOther: false };
  #isReplacing = false;

  /**
   * `changed(text, plan, isTyped, faults)` is called after each change; `leaves()` before the page puts another pattern
   * in the place of this one; `under(place)` with the token that the caret is in; and `full()` where a design can't be
   * kept.
   */
  constructor({ changed, leaves, under, full }) {
    Object.assign(this, { changed, leaves, full, mendsOf: () => [] });
    const group = (label, bases) => {
      const made = element('optgroup', '', ...bases.map((base) => new Option(base)));
      made.label = label;
      return made;
    };
    this.#mine.label = 'Your own';
    this.#pick.append(this.#mine, group('Fundamental (7.4, 7.5)', FUNDAMENTAL), group('Deferred (18.1)', DEFERRED));
    this.#pick.addEventListener('focus', () => {
      if (this.#isReplacing) return;
      this.#fillPick();
      this.#pick.value = standardOf(this.text) || 'this';
    });
    this.#pick.addEventListener('change', () => this.#choose(this.#pick.value));
    for (let place = 0; place <= 8; place += 1) {
      const box = element('input');
      Object.assign(box, { type: 'checkbox', value: place });
      // the name begins with the number that is seen, for those who say it
      const where = place === 0 ? 'before message 1' : `at the end of message ${place}`;
      box.setAttribute('aria-label', `${place}: psk ${where}`);
      box.addEventListener('change', () => {
        this.replace(togglePsk(this.text, place));
        this.#setPlaces(this.text);    // where the text has no such place the box is as it was
      });
      this.#places.append(element('label', '', box, String(place)));
    }
    // A text that is put in comes in one event for each line: it is judged once, when all is there.
    this.#text.addEventListener('input', () => { if (!this.#isReplacing) this.judge(); });
    this.#text.addEventListener('scroll', () => {
      this.#marks.scrollTop = this.#text.scrollTop;
      this.#marks.scrollLeft = this.#text.scrollLeft;
    });
    this.#text.addEventListener('change', () => this.remember());
    document.addEventListener('selectionchange', () => {
      if (document.activeElement === this.#text) under(this.#place());
    });
    document.getElementById('copy-own').addEventListener('click', () => this.#copy());
    document.getElementById('forget').addEventListener('click', () => {
      own.forget(this.text);
      this.#former = undefined;
      this.#fillPick();
      speak('This design is forgotten. Its text is still in the editor.');
      this.judge();
    });
    addEventListener('pagehide', () => this.remember());
  }

  /** The token that the caret is in: its message and its place, from 0 on. */
  #place() {
    const lines = linesOf(this.text);
    let rest = this.#text.selectionStart;
    const n = lines.findIndex(({ line }) => {
      if (rest <= line.length) return true;
      rest -= line.length + 1;
      return false;
    });
    const token = lines[n]?.tokens?.findIndex(({ start, end }) => rest >= start && rest <= end) ?? -1;
    return token < 0 || n < firstOf(lines) ? undefined : { message: n - firstOf(lines), token };
  }

  /** Keeps a design of one's own: in the place of what it was typed out of, if that has its name. */
  remember() {
    const { text } = this;
    if (standardOf(text) || text.trim() === '' || hasSecret(text)) return;
    const former =
      this.#former !== undefined && own.nameOf(this.#former) === own.nameOf(text) ? this.#former : undefined;
    if (own.remember(text, former)) this.#former = text;
    else if (text.length <= own.LONGEST) this.full();
  }

  /** The same pattern under a name that no other design has. */
  #copy() {
    this.leaves();
    this.remember();
    this.#former = undefined;
    this.replace(this.text.replace(/^[A-Z0-9]*/, own.freeName()));
    this.remember();
    speak(`This is your ${own.nameOf(this.text)} now.`);
    this.#fillPick();
    this.judge();
  }

  /**
   * The list of patterns has one's own first. It stays as it is while it has the focus, since the arrow keys go through
   * it.
   */
  #fillPick() {
    const { text } = this;
    const isStandard = standardOf(text) !== '';
    this.#chosen = { text, isOther: false };
    const mine = own
      .all()
      .filter((it) => it.text !== text)
      .map(({ id, label }) => new Option(`your ${label}`, `own ${id}`));
    this.#mine.replaceChildren(...(isStandard ? [] : [new Option('this pattern', 'this')]), ...mine);
  }

  /**
   * What is typed is "this pattern" of the list, unless it is one of the standard. One's own come into the list when it
   * gets the focus.
   */
  #typed(text, base) {
    this.#chosen = { text, isOther: false };
    const [first] = this.#mine.children;
    const has = first?.value === 'this';
    if (base && has) first.remove();
    else if (!base && !has) this.#mine.prepend(new Option('this pattern', 'this'));
  }

  #choose(value) {
    const { text, isOther } = this.#chosen;
    if (!isOther) this.leaves();
    this.#chosen.isOther = true;
    this.remember();
    this.#former = value.startsWith('own ') ? value.slice(4) : undefined;
    if (value === 'this') return this.replace(text);
    return this.replace(value.startsWith('own ') ? own.textOf(value.slice(4)) : textOf(value));
  }

  /** Puts a pattern that comes from elsewhere in the place of this one, which is kept. */
  take(text) {
    this.remember();
    this.#former = undefined;
    this.replace(text);
  }

  /** Sets the text at the start, without a way back. */
  set(text) {
    this.#text.value = text;
    this.#fillPick();
    this.judge();
  }

  /** Puts another text in the place of this one, as typing would: undo takes it back. The focus stays where it is. */
  replace(text) {
    const [from, to, middle] = difference(this.#text.value, text);
    if (from === to && middle === '') return;
    const { activeElement } = document;
    this.#isReplacing = true;
    this.#text.inputMode = 'none';    // no keyboard on the screen
    this.#text.focus({ preventScroll: true });
    this.#text.setSelectionRange(from, to);
    const isDone = middle === '' ? document.execCommand('delete') : document.execCommand('insertText', false, middle);
    if (isDone) this.judge();
    this.#text.inputMode = '';
    if (activeElement === document.body) this.#text.blur();
    else activeElement?.focus({ preventScroll: true });
    this.#isReplacing = false;
    if (!isDone || this.#text.value !== text) this.set(text);
  }

  get text() {
    return whole(this.#text.value);
  }

  judge() {
    const { text } = this;
    const verdict = checkPattern(text);
    const plan = verdict.valid ? layout(text) : undefined;
    const all = verdict.valid || text.length > LONGEST ? [verdict] : faultsOf(text, verdict);
    const found = verdict.valid ? [] : all.slice(0, MOST_FAULTS);
    const faults = found.map((fault) => explain(text, fault));
    this.#verdictOf = verdict;
    this.#mark(text.length > LONGEST ? '' : text, faults.map(({ span }) => span));
    this.#tell(verdict, plan, faults);
    this.showMends();
    this.#set(text);
    this.changed(text, plan, !this.#isReplacing, found);
  }

  #mark(text, spans) {
    this.#text.setAttribute('aria-invalid', String(spans.length > 0));
    if (text === '') return this.#marks.replaceChildren();
    const parts = [];
    let at = 0;
    for (const [from, to] of spans.toSorted((a, b) => a[0] - b[0])) {
      if (from < at) continue;
      parts.push(text.slice(at, from), element('mark', '', text.slice(from, to) || ' '));
      at = to === from ? to + 1 : to;
    }
    return this.#marks.replaceChildren(...parts, text.slice(at));
  }

  #tell(verdict, plan, faults) {
    const warnings = plan ? warningsOf(plan) : [];
    const parts = plan ? validParts(verdict, plan, warnings) : faultParts(faults);
    this.#verdict.className = { true: warnings.length ? 'warned' : 'good', false: 'bad' }[verdict.valid];
    this.#verdict.replaceChildren(...parts);
    speak(this.#verdict.textContent, QUIET);
  }

  /** The corrections that are offered. */
  showMends() {
    const { text } = this;
    const mends = this.#verdictOf.valid || text.length > LONGEST ? [] : this.mendsOf(text, this.#verdictOf);
    this.#mends.replaceChildren(...mends.map(({ label, text: mended }) => button(label, () => {
      this.#text.focus();
      this.replace(mended);
    })));
  }

  /** Shows which pattern of the standard this is. */
  #set(text) {
    const base = standardOf(text);
    if (!this.#isReplacing) this.#typed(text, base);
    this.#pick.value = base || 'this';
    if (!base && text !== this.#chosen.text) this.#pick.value = `own ${text}`;
    if (this.#pick.selectedIndex >= 0) return this.#setPlaces(text);
    if (![...this.#mine.children].some(({ value }) => value === 'this')) {
      this.#mine.prepend(new Option('this pattern', 'this'));
    }
    this.#chosen.text = text;
    this.#pick.value = 'this';
    return this.#setPlaces(text);
  }

  #setPlaces(text) {
    const lines = linesOf(text);
    const messages = lines.length - 1 - Math.max(lines.findIndex(({ line }) => line === '  ...'), 0);
    const places = placesOf(text);
    for (const box of this.#places.querySelectorAll('input')) {
      box.checked = places.includes(Number(box.value));
      box.disabled = Number(box.value) > messages && !box.checked && box !== document.activeElement;
      box.parentElement.hidden = box.disabled;
    }
    document.getElementById('forget').hidden = !own.has(text);
  }
}
