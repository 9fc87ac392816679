// What a pointer meets: what is pointed at can be read, what was opened early is filled, what opens comes into view,
// and the pattern that was taken is marked.
import assert from 'node:assert/strict';
import { Pointer } from './hands.mjs';

const quoted = JSON.stringify;
const IK = '#pattern=IK%3A%0A++%3C-+s%0A++...%0A++-%3E+e%2C+es%2C+s%2C+ss%0A++%3C-+e%2C+ee%2C+se%0A';
/** The contrast of a control's text to what is behind it. */
const CONTRAST = `(selector) => {
  const linear = (it) => (it <= 0.04045 ? it / 12.92 : ((it + 0.055) / 1.055) ** 2.4);
  const parts = (colour) => colour.match(/[\\d.]+/g).slice(0, 3).map((it) => linear(it / 255));
  const light = (colour) => { const [r, g, b] = parts(colour); return 0.2126 * r + 0.7152 * g + 0.0722 * b; };
  const { color, backgroundColor } = getComputedStyle(document.querySelector(selector));
  const [x, y] = [light(color), light(backgroundColor)].sort((p, q) => q - p);
  return (x + 0.05) / (y + 0.05);
}`;
/** A control of each kind, and one of them that is pressed. */
const CONTROLS = [
  '#step', '#start', '#current .go', '#languages [aria-pressed=true]', '#parties [aria-pressed=true]',
  '#parties [aria-pressed=false]', ...['e', 'sealed', 'tag', 'text'].map((it) => `#current-body .bytes .p-${it}`),
];

/** Under the pointer a control's text keeps its contrast, in light and in dark. */
async function read(page, hand) {
  await page.open(IK);
  await page.begin();
  await page.write('initiator');
  for (const value of ['light', 'dark']) {
    const features = [{ name: 'prefers-color-scheme', value }];
    await page.browser.send('Emulation.setEmulatedMedia', { features });
    for (const selector of CONTROLS) {
      await hand.point(selector);
      await page.until(`document.querySelector(${quoted(selector)}).matches(":hover")`);
      const contrast = await page.evaluate(`(${CONTRAST})(${quoted(selector)})`);
      assert.ok(contrast >= 4.5, `pointed at, ${selector} has a contrast of ${contrast.toFixed(1)}, ${value}`);
    }
  }
  await page.browser.send('Emulation.setEmulatedMedia', { features: [] });
}

/** What is opened before the scripts are there is filled once they are. */
async function openedEarly(page) {
  const { identifier } = await page.browser.send('Page.addScriptToEvaluateOnNewDocument', {
    source: `new MutationObserver((_, observer) => {
      const all = ['choose', 'compare', 'capture'].map((id) => document.getElementById(id));
      if (all.includes(null)) return;
      for (const it of all) it.open = true;
      observer.disconnect();
    }).observe(document, { childList: true, subtree: true })`,
  });
  await page.open();
  await page.browser.send('Page.removeScriptToEvaluateOnNewDocument', { identifier });
  await page.until('document.querySelectorAll("#choosing table, #log-text, #capture-text").length === 3');
}

/** A button looks as if it could be pressed only once a press does something. */
async function pressable(page) {
  const { identifier } = await page.browser.send('Page.addScriptToEvaluateOnNewDocument', {
    source: `new MutationObserver(() => {
      if (globalThis.early || !document.body || document.body.matches('.loading')) return;
      const shown = [...document.querySelectorAll('button[id]')].filter((it) => it.checkVisibility());
      globalThis.early = shown.filter((it) => !it.disabled && it.getAttribute('aria-disabled') !== 'true');
    }).observe(document, { childList: true, subtree: true, attributes: true, attributeFilter: ['class'] })`,
  });
  await page.open(IK);
  await page.browser.send('Page.removeScriptToEvaluateOnNewDocument', { identifier });
  // the editor, which is there with the first verdict, wires this one
  assert.equal(await page.evaluate('early.map(({ id }) => id).join()'), 'copy-own');
  const off = ':is(#open, #copy-link, #save-pattern)[aria-disabled=true]';
  assert.equal(await page.evaluate(`document.querySelectorAll(${quoted(off)}).length`), 0);
}

/** What is at the end of a box that scrolls opens into it, and of many patterns the first ones are shown. */
async function intoView(page, hand) {
  await page.resize(1280, 720);
  await page.open('#choose');
  await page.until('document.querySelector("#choosing blockquote") !== null');
  await hand.press('#choosing details summary');
  await page.until(`(() => {
    const { top, bottom } = document.getElementById('choosing').getBoundingClientRect();
    const table = document.querySelector('#choosing table').getBoundingClientRect().top;
    return table >= top && table < bottom - 100;
  })()`);
  const shown = () => page.evaluate(
    '[...document.querySelectorAll("#choosing .fit + .choices li")].filter((it) => it.checkVisibility()).length',
  );
  assert.equal(await shown(), 12);
  await hand.press('#choosing .fit + .choices + button');
  assert.equal(await shown(), 38);
}

/** The name of the pattern that is there is marked, and none where it is another. */
async function marked(page, hand) {
  const becomes = (names) => page.until(
    `[...document.querySelectorAll("#choosing [aria-current=true]")].map((it) => it.textContent).join() === "${names}"`,
  );
  await page.resize(360, 740);
  await page.open(IK);
  await hand.press('#choose summary');
  await page.until('document.querySelector("#choosing blockquote") !== null');
  await becomes('IK,IK');
  await hand.press('#choosing .choices li:nth-child(2) button');
  await becomes('NK,NK');
  await page.type('text', 'MINE:\n  -> e\n');
  await becomes('');
}

export async function pointing(page) {
  const hand = new Pointer(page.browser);
  await page.resize(1280, 720);
  await read(page, hand);
  await openedEarly(page);
  await pressable(page);
  await intoView(page, hand);
  await marked(page, hand);
  await page.resize(1100);
  return `${CONTROLS.length} kinds of controls can be read under the pointer, what is opened early is filled, `
    + 'what opens comes into view, and the pattern that was taken is marked';
}
