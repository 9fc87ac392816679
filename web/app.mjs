// The page: what is set up, and what happens at each button. What the first verdict doesn't need is loaded after it.
import { load } from '../bindings/js/module.mjs';
import { Editor, standardOf } from './editor.mjs';
import { element, refocus, speak } from './element.mjs';
import * as link from './link.mjs';
import { MOST } from './own.mjs';
import { textOf } from './patterns.mjs';
import { SAYS, hasSecret } from './secret.mjs';

const at = (id) => document.getElementById(id);
const STARTED = { text: textOf('XX'), prologue: 'my protocol 1', interval: 0 };
/** What the inputs of a set-up say, by their ids, which are the names in the set-up. */
const READ = {
  prologue: ({ value }) => value,
  interval: ({ value }) => Math.min(999999999, Math.max(0, Math.floor(Number(value)) || 0)),
  mode: ({ value }) => value,
  window: ({ value }) => Number(value),
  ownPsks: ({ checked }) => checked,
};
const page = {
  setup: link.read(location.hash, STARTED),
  plan: undefined,
  faults: [],
  run: undefined,
  isStale: false,
  /** Whether all is loaded, and the run of the address is done again. */
  isSettled: false,
  shape: undefined,
};
let addressing;
/** The state of the history's entry that is shown. */
let entry;
let editor;
/** What the scripts export that come after the first verdict, and what is made of them. */
let late;

async function loadLate() {
  const names = [
    './control.mjs',
    './take.mjs',
    './mends.mjs',
    './vectorfile.mjs',
    './schedule.mjs',
    './runs.mjs',
    './undo.mjs',
    './opening.mjs',
  ];
  const modules = await Promise.all(names.map((name) => import(name)));
  const all = Object.assign({}, ...modules);
  const undo = new all.Undo(page.setup, restore);
  all.wireOpening({
    take: takeIn,
    follow: (fragment) => { location.hash = fragment; },
    compare: openLog,
    notice: (says) => notice([says]),
  });
  return { ...all, undo, control: new all.Control(page, acted, takeBack), take: new all.Take(page) };
}

/**
 * Says what of a link is left out, or of what came in; and that a link has a run, which is further down. It stands at
 * the edge of the window, over the page, until it is closed or the next thing is told.
 */
function notice(sentences, hasRun) {
  const text = sentences.filter(Boolean).join(' ');
  at('notice').replaceChildren(text, ...(hasRun ? [at('has-run').content.cloneNode(true)] : []));
  if (text) speak(text);
}

/** Whether the page was opened by a link, and not by a reload or by Back. */
const isOpened = () => performance.getEntriesByType('navigation')[0]?.type === 'navigate';

function showInputs() {
  const { setup, plan } = page;
  for (const [name, read] of Object.entries(READ)) {
    const it = at(name);
    if (it === document.activeElement && read(it) === setup[name]) continue;    // what is typed there stays
    if (it.type === 'checkbox') it.checked = setup[name];
    else it.value = setup[name];
  }
  at('interval-l').hidden = setup.mode === 'datagrams';
  at('window-l').hidden = setup.mode !== 'datagrams';
  if (plan) at('psks-l').hidden = plan.psks === 0;
}

function showRun() {
  late?.control.show();
  late?.take.show();
}

/** The page's address has the set-up, and this tab alone keeps the run that belongs to it. */
function keepNow() {
  const steps = page.run && !page.isStale && !hasSecret(page.setup.text) ? page.run.steps : [];
  entry = late.kept(history.state, link.write(page.setup), link.written(steps));
  history.replaceState(entry, '', link.address(page.setup));
}

/** Not at each key, which browsers refuse, and not before the run of a link is done again. */
function keepAddress() {
  clearTimeout(addressing);
  if (late) addressing = setTimeout(keepNow, 250);
}

/**
 * Keeps the address as it is for Back, and goes on under one of its own, which has the new set-up as soon as it is
 * there.
 */
function leave() {
  if (!late) return;
  clearTimeout(addressing);
  keepNow();
  history.pushState(null, '', link.address(page.setup));
  queueMicrotask(keepNow);
}

/** Whether the run belongs to another set-up than the one that is there. */
const hasOldRun = () => Boolean(page.run) && link.keyOf(page.run.given) !== link.keyOf(page.setup);

/** After each change of the set-up. The run stays; it is greyed while it belongs to another one. */
function changed(isTyped = false) {
  page.isStale = hasOldRun();
  late?.undo.note(page.setup, isTyped);
  keepAddress();
  late?.take.clear();
  showInputs();
  showRun();
}

/** Says that a text isn't kept, as long as that is so. */
function tellSecret(text, before) {
  if (hasSecret(text) === hasSecret(before)) return;
  notice(hasSecret(text) ? [SAYS, 'It goes into no address, and the page doesn’t keep it.'] : []);
}

function patternChanged(text, plan, isTyped, faults) {
  tellSecret(text, page.setup.text);
  page.setup.text = text;
  Object.assign(page, { plan, faults, isStale: hasOldRun() });
  page.shape?.show();
  late?.showCapture?.();
  late?.markChosen?.();
  changed(isTyped);
}

/** Another pattern was chosen to be beside this one: the address has it, if it is one of the standard. */
function besideChosen(name) {
  page.setup.beside = name;
  keepAddress();
}

/** After each thing that was done with the run. */
function acted() {
  late.take.clear();
  keepAddress();
  showRun();
}

/** Puts another set-up in the place of this one. */
function restore(setup) {
  Object.assign(page.setup, setup, { beside: page.setup.beside });
  editor.replace(page.setup.text);
  changed();
}

/** Takes the set-up of the run again. */
const takeBack = () => restore(page.run.given);

/** Takes what was opened, dropped or pasted. */
function takeIn(setup, says) {
  leave();
  Object.assign(page.setup, setup);
  editor.take(page.setup.text);
  changed();
  notice([says]);
}

/**
 * The steps of an address's run that can be done, or of the run that this tab kept. What else the address has and can't
 * be taken is said.
 */
function stepsOf(fragment, state, isFirst = false) {
  const { steps, fault } = link.readRun(fragment);
  const kept =
    steps.length || fault ? [] : link.readRun(`#run=${late?.keptRun(state, link.write(page.setup)) ?? ''}`).steps;
  const isIdle = steps.length > 0 && !page.plan;
  notice(
    [link.faultOf(fragment), fault, isIdle && 'The run of this link is left out: its pattern isn’t valid.'],
    isFirst && steps.length > 0 && !isIdle,
  );
  return isIdle || !page.plan ? [] : [...steps, ...kept];
}

/**
 * Takes the set-up of the page's address, and its run. Where the address has another place of the page, the set-up
 * stays.
 */
async function follow({ state }) {
  const isKept = late && entry && page.run && !page.isStale;
  if (isKept) late.kept(entry, link.write(page.setup), link.written(page.run.steps));    // what was done a moment ago
  entry = state;
  if (!link.isSetup(location.hash)) return keepAddress();
  const { activeElement } = document;
  const setup = link.read(location.hash, STARTED);
  if (link.write(page.setup) !== link.write(setup)) {
    Object.assign(page.setup, setup);
    editor.replace(setup.text);
    page.shape?.choose(setup.beside);
  }
  changed();
  clearTimeout(addressing);
  const isAtHand = late?.control.isAtHand(link.readRun(location.hash).steps);
  const steps = stepsOf(location.hash, state, state === null && !isAtHand);
  if (steps.length && late && !isAtHand) await late.control.repeat(steps);
  else keepAddress();
  return refocus(activeElement, at('step'));
}

/**
 * What is folded comes when it is opened: by its heading, also before this script was there, or by an address that ends
 * with its name.
 */
function wireFolded() {
  const fold = (id, fill) => {
    at(id).open ||= location.hash === `#${id}`;
    if (at(id).open) fill();
    else at(id).addEventListener('toggle', fill, { once: true });
  };
  fold('choose', async () => {
    const { choosing } = await import('./choose.mjs');
    late.markChosen = choosing(at('choosing'), (text) => takeIn({ text }, ''), () => page.plan?.section);
  });
  fold('compare', openLog);
  fold('capture', async () => {
    const { capturing } = await import('./compareview.mjs');
    late.showCapture = capturing(at('capturing'), page);
  });
}

/** Opens the comparison of a log, with this text in its place. */
async function openLog(text) {
  at('compare').open = true;
  const { comparing } = await import('./compareview.mjs');
  if (!at('log-text')) comparing(at('comparing'), page);
  if (typeof text !== 'string') return;
  at('log-text').value = text;
  at('compare').scrollIntoView({ block: 'start' });
  at('vector-text').focus({ preventScroll: true });
}

function wire() {
  for (const [name, read] of Object.entries(READ)) {
    at(name).addEventListener('input', ({ target }) => {
      page.setup[name] = read(target);
      changed(true);
    });
  }
  at('interval').addEventListener('change', () => { at('interval').value = page.setup.interval; });
  at('notice-close').addEventListener('click', () => notice([]));
  addEventListener('popstate', follow);
  addEventListener('pagehide', () => { if (late) keepNow(); });
}

/** Keeps the page for use without a network. */
function keepOffline() {
  if (isSecureContext && navigator.serviceWorker) navigator.serviceWorker.register('offline.mjs').catch(() => {});
}

const full = () => notice([`This design isn’t kept: this browser has ${MOST} of them already. Forget one first.`]);

try {
  const shaping = import('./shape.mjs');
  await load();
  showInputs();
  wire();
  editor = new Editor({ changed: patternChanged, leaves: leave, under: (place) => page.shape?.under(place), full });
  editor.set(page.setup.text);
  stepsOf(location.hash, history.state, isOpened());
  const firstVerdict = performance.now();
  page.shape = new (await shaping).Shape(page, besideChosen);
  document.body.classList.remove('loading');
  late = await loadLate();
  wireFolded();
  editor.mendsOf = late.mendsOf;
  editor.showMends();
  showRun();
  const steps = stepsOf(location.hash, history.state, isOpened());
  if (steps.length) await late.control.repeat(steps);
  page.isSettled = true;
  document.documentElement.classList.add('settled');
  showRun();
  keepAddress();
  // What the checks and a curious reader of the console may look at; the vector file and the key schedule of a run have
  // its secrets, but no private keys.
  globalThis.noisePage = {
    get vectorFile() { return page.run && late.vectorFile(page.run).text; },
    get lines() { return page.run?.lines; },
    get log() { return page.run && late.scheduleOf(page.run).then(({ whole }) => whole); },
    standardOf, firstVerdict,
  };
  keepOffline();
} catch (error) {
  document.body.classList.remove('loading');
  at('verdict').className = 'bad';
  at('verdict').replaceChildren(
    element('p', 'title', 'The library couldn’t be loaded.'),
    element('p', '', error.message),
  );
  speak(at('verdict').textContent);
}
