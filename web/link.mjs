// The set-up in the fragment of the page's address, and a run's steps. No keys are in it; payloads are in the steps.
import { hex, unhex } from './bytes.mjs';
import { hasSecret } from './secret.mjs';

const MODES = ['transport', 'stream', 'datagrams'];
/** How many steps of a run a link has at most. */
export const MOST_STEPS = 400;
/** How long a link may be, and how long a text in one. */
export const MOST = 60000;
export const MOST_TEXT = 2000;

const LETTERS = { write: 'w', end: 'e', deliver: 'd', cut: 'c', close: 'q' };
const STEPS = Object.fromEntries(Object.entries(LETTERS).map(([step, letter]) => [letter, step]));

/** What the words of a set-up may be. */
const IS_RIGHT = {
  pattern: (it) => it.length <= MOST_TEXT,
  prologue: (it) => it.length <= MOST_TEXT,
  interval: (it) => /^\d{1,9}$/.test(it),
  mode: (it) => MODES.includes(it),
  window: (it) => /^(?:64|256|1024)$/.test(it),
  psks: (it) => it === 'own',
  beside: (it) => /^[A-Z][A-Z0-9]{0,7}$/.test(it),
};

const wordsOf = (fragment) => new URLSearchParams(fragment.replace(/^#/, ''));

/** Whether a fragment has a set-up: it may also be the name of a place in the page. */
export const isSetup = (fragment) => fragment.includes('=');

/** Whether an address is one that other computers don't have. */
export function isLocal({ protocol, hostname }) {
  return protocol === 'file:' || /^(?:(?:.+\.)?localhost|127(?:\.\d+){3}|0\.0\.0\.0|\[::1?\])$/.test(hostname);
}

function writeStep({ step, role, payload, n, flips = [], count }) {
  const numbers = { deliver: [n, ...flips], cut: [n, count] }[step] ?? [];
  return [`${LETTERS[step]}${role?.[0] ?? ''}`, ...(payload ? [hex(payload)] : numbers)].join('.');
}

function readStep(text) {
  const parts = /^([wedcq])([ir]?)((?:\.[0-9a-f]*)*)$/.exec(text);
  if (!parts) return undefined;
  const [step, role] = [STEPS[parts[1]], { i: 'initiator', r: 'responder' }[parts[2]]];
  const words = parts[3].split('.').slice(1);
  if ((step === 'close') === Boolean(role)) return undefined;
  if (step === 'write') {
    return words.length < 2 && /^(?:[0-9a-f]{2})*$/.test(words.join())
      ? { step, role, payload: unhex(words.join()) }
      : undefined;
  }
  if (!words.every((it) => /^\d{1,5}$/.test(it))) return undefined;
  const numbers = words.map(Number);
  if (step === 'deliver' && numbers.length) return { step, role, n: numbers[0], flips: numbers.slice(1) };
  if (step === 'cut' && numbers.length === 2) return { step, role, n: numbers[0], count: numbers[1] };
  return ['end', 'close'].includes(step) && !numbers.length ? { step, role } : undefined;
}

/** The run of a fragment: its steps, and where they are left out a sentence that says why. */
export function readRun(fragment) {
  const text = wordsOf(fragment).get('run');
  if (!text) return { steps: [], fault: '' };
  const steps = text.split('_').map(readStep);
  const without = (why) => ({ steps: [], fault: `The run of this link is left out: ${why}.` });
  if (steps.length > MOST_STEPS) return without(`it has ${steps.length} steps, and a link can have ${MOST_STEPS}`);
  const wrong = steps.findIndex((step) => !step);
  return wrong < 0 ? { steps, fault: '' } : without(`its step ${wrong + 1} can’t be read`);
}

/** A sentence that names what of a fragment's set-up can't be read, or ''. */
export function faultOf(fragment) {
  const words = wordsOf(fragment);
  const wrong = Object.keys(IS_RIGHT).filter((name) => words.has(name) && !IS_RIGHT[name](words.get(name)));
  return wrong.length ? `Of this link’s set-up this can’t be read, and is left out: ${wrong.join(', ')}.` : '';
}

/** What the fragment says, over what is set already. */
export function read(fragment, setup) {
  const words = wordsOf(fragment);
  const right = {};
  for (const [name, isRight] of Object.entries(IS_RIGHT)) {
    if (words.has(name) && isRight(words.get(name))) right[name] = words.get(name);
  }
  return {
    text: right.pattern ?? setup.text,
    prologue: right.prologue ?? setup.prologue,
    interval: Number(right.interval ?? setup.interval),
    mode: right.mode ?? 'transport',
    window: Number(right.window ?? 64),
    ownPsks: right.psks !== undefined,
    beside: right.beside ?? '',
  };
}

const hasPsk = (text) => /^[^\n]*psk/.test(text);

/** A set-up without what its mode and its pattern don't use, as a text to compare. */
export function keyOf({ text, prologue, interval, mode, window, ownPsks }) {
  return JSON.stringify([text, prologue, mode, mode === 'datagrams' ? window : interval, hasPsk(text) && ownPsks]);
}

/** A run's steps as a text. */
export const written = (steps) => steps.map(writeStep).join('_');

/** The fragment of a set-up, with a run's steps or without. */
export function write({ text, prologue, interval, mode, window, ownPsks, beside }, steps = []) {
  const words = new URLSearchParams({ pattern: text, prologue, interval, mode, window });
  if (ownPsks) words.set('psks', 'own');
  if (beside) words.set('beside', beside);
  if (steps.length) words.set('run', written(steps));
  return `#${words}`;
}

/** Why no link can have a set-up and these steps, or ''. */
export function whyNot(setup, steps = []) {
  if (hasSecret(setup.text)) return 'the text has 32 hex digits in a row, as a key has';
  if (setup.text.length > MOST_TEXT || setup.prologue.length > MOST_TEXT) {
    return `a link has at most ${MOST_TEXT} characters of a pattern, and as many of a prologue`;
  }
  if (steps.length > MOST_STEPS) return `this run has ${steps.length} steps, and a link can have ${MOST_STEPS}`;
  const { length } = write(setup, steps);
  return length > MOST ? `it would have ${length} characters, and a link can have ${MOST}` : '';
}

/** The page's own address: the set-up, and nothing of a run, whose payloads a browser would keep in its history. */
export const address = (setup) => (whyNot(setup) ? '#' : write(setup));
