// axe-core over the page, at four widths, in light and in dark, and over the pages beside it. Chromium's own tools have
// axe-core, as a part of Lighthouse: it is taken from there, and left out where it isn't.
import assert from 'node:assert/strict';
import vm from 'node:vm';

const BUNDLE = 'devtools://devtools/bundled/third_party/lighthouse/lighthouse-dt-bundle.js';
const WIDTHS = [280, 320, 390, 820, 1440];
const RULES = `{ rules: { region: { enabled: true }, 'target-size': { enabled: true } } }`;
/** Of what depends on the scheme alone. */
const COLOURS = `{ runOnly: { type: 'rule', values: ['color-contrast', 'link-in-text-block'] } }`;
const run = (rules) => `axe.run(document, { resultTypes: ['violations'], ...${rules} })
  .then(({ violations }) => {
    const said = ({ any, all, none }) => [...any, ...all, ...none].map(({ message }) => message).join(' ');
    const at = (nodes) => nodes.slice(0, 3).map((it) => it.html.slice(0, 140) + ' ' + said(it)).join(' | ');
    return violations.map(({ id, nodes }) => id + ': ' + at(nodes));
  })`;

/** The text of axe-core, or undefined. */
async function source(browser) {
  await browser.open(BUNDLE);
  await browser.until('document.readyState === "complete" && document.documentElement !== null').catch(() => {});
  const bundle = await browser.evaluate('document.documentElement.textContent').catch(() => '');
  const found = /`(\/\*! axe v[^]*?[^\\])`/.exec(bundle);
  return found ? vm.runInNewContext(`\`${found[1]}\``) : undefined;
}

async function check(page, text, what, rules = RULES) {
  await page.browser.evaluate(`globalThis.axe ?? (() => { ${text} })(); undefined`);
  const violations = await page.evaluate(run(rules));
  assert.deepEqual(violations, [], what);
}

/** Controls whose border has less than 3:1 to what is around it. */
const BORDERS = `(() => {
  const linear = (it) => (it <= 0.04045 ? it / 12.92 : ((it + 0.055) / 1.055) ** 2.4);
  const parts = (colour) => colour.match(/[\\d.]+/g).slice(0, 3).map((it) => linear(it / 255));
  const light = (colour) => { const [r, g, b] = parts(colour); return 0.2126 * r + 0.7152 * g + 0.0722 * b; };
  const ratio = (a, b) => {
    const [x, y] = [light(a), light(b)].sort((p, q) => q - p);
    return (x + 0.05) / (y + 0.05);
  };
  const all = [...document.querySelectorAll('input:not([type=checkbox]), select, .editor, button:not(.bytes button)')];
  const shown = all.filter((it) => it.offsetHeight && !it.disabled && it.getAttribute('aria-disabled') !== 'true');
  const around = (it) => getComputedStyle(it.closest('section')).backgroundColor;
  const faint = shown.filter((it) => ratio(getComputedStyle(it).borderTopColor, around(it)) < 3);
  return faint.map((it) => it.outerHTML.slice(0, 100));
})()`;

/** A page with a bit of all: a run with a refusal, a key schedule, two patterns beside each other, a fault. */
async function fill(page) {
  await page.open(
    '#pattern=IK%3A%0A++%3C-+s%0A++...%0A++-%3E+e%2C+es%2C+s%2C+ss%0A++%3C-+e%2C+ee%2C+se%0A&mode=stream',
  );
  await page.begin();
  await page.passAll();
  await page.write('initiator');
  await page.deliver(2, [3]);
  const folded = '#choose, #compare, #capture, #how, #keys, #current-more details';
  await page.run(`for (const it of document.querySelectorAll('${folded}')) it.open = true;`);
  await page.until('document.querySelectorAll("#capture-text, #log-text, #choosing table").length === 3');
  await page.type('beside', 'NK1');
  await page.until('document.querySelectorAll(".schedule").length >= 1');
}

/**
 * In forced colours what is pressed looks otherwise than what isn't, and where less motion is asked for nothing moves.
 */
async function preferences(page, scheme) {
  const style = (selector, name) =>
    page.evaluate(`getComputedStyle(document.querySelector(${JSON.stringify(selector)})).${name}`);
  await scheme('light', { name: 'forced-colors', value: 'active' }, {
    name: 'prefers-reduced-motion', value: 'reduce',
  });
  assert.notEqual(
    await style('#languages [aria-pressed=true]', 'backgroundColor'),
    await style('#languages [aria-pressed=false]', 'backgroundColor'),
  );
  assert.notEqual(await style('#picture .e', 'fill'), await style('#picture .tag', 'fill'));
  assert.equal(await style('#picture', 'transitionDuration'), '0s');
  await scheme('light');
}

export async function axe(page) {
  const { browser } = page;
  const text = await source(browser);
  const scheme = (value, ...more) => browser.send('Emulation.setEmulatedMedia', {
    features: [{ name: 'prefers-color-scheme', value }, ...more],
  });
  if (!text) return 'left out: axe-core: this Chromium’s tools have none';
  let runs = 0;
  const at = async (width, what, rules) => {
    await page.resize(width);
    assert.ok(await page.isWithin(width), `${what} is too wide at ${width}`);
    await check(page, text, `${what} at ${width}`, rules);
    runs += 1;
  };
  await fill(page);
  for (const colours of ['light', 'dark']) {
    await scheme(colours);
    const isDark = colours === 'dark';
    for (const width of isDark ? [390, 1440] : WIDTHS) {
      await at(width, `the page, ${colours},`, isDark ? COLOURS : RULES);
    }
    assert.deepEqual(await page.evaluate(BORDERS), [], `borders, ${colours}`);
  }
  await page.type('prologue', 'another');
  await page.type('text', 'MINE:\n  <- s\n  -> e, es\n');
  await at(1440, 'a fault and an old run');
  await page.open();
  await preferences(page, scheme);
  for (const [name, width] of [['rules', 320], ['mistakes', 390], ['format', 1440]]) {
    await browser.open(`${page.url}${name}.html`);
    await browser.until('document.readyState === "complete" && document.querySelector("article") !== null');
    await at(width, name);
  }
  await scheme('light');
  return `axe-core ${/axe v([\d.]+)/.exec(text)[1]} finds nothing in ${runs} runs, `
    + `at ${WIDTHS.join(', ')} px, in light and in dark`;
}
