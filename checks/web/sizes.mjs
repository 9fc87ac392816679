// No page of web/ is wider than its window, nothing moves while the page loads, and no text is small.
import assert from 'node:assert/strict';
import { readdir } from 'node:fs/promises';
import { join } from 'node:path';

const WIDTHS = [280, 320, 390, 820, 1440];
/** Widths between those, at some of which a row breaks. */
const BETWEEN = Array.from({ length: 23 }, (_, n) => 340 + 40 * n);
const PSKS =
  '#pattern=XKpsk0%2Bpsk3%3A%0A++%3C-+s%0A++...%0A++-%3E+psk%2C+e%2C+es%0A++%3C-+e%2C+ee%0A++-%3E+s%2C+se%2C+psk%0A';

/** How far the page's parts moved while it loaded, as Chromium counts it. */
const SHIFT = `new Promise((done) => {
  let sum = 0;
  const add = (list) => {
    for (const { value, hadRecentInput } of list.getEntries()) if (!hadRecentInput) sum += value;
  };
  new PerformanceObserver(add).observe({ type: 'layout-shift', buffered: true });
  setTimeout(() => done(sum), 200);
})`;
/** How many texts of the picture are drawn smaller than 12 pixels, and which reach over its edge or over each other. */
const SMALL = `[...document.querySelectorAll('#picture text')].filter((it) =>
  parseFloat(getComputedStyle(it).fontSize) * it.ownerSVGElement.getScreenCTM().a < 11.99).length`;
const OVERLAPS = `(() => {
  const all = [...document.querySelectorAll('#picture text')].map((it) => [it.textContent, it.getBBox()]);
  const { width } = document.querySelector('#picture svg').viewBox.baseVal;
  const isOver = (a, b) => a.x + a.width > b.x + 1 && b.x + b.width > a.x + 1
    && a.y + a.height > b.y + 3 && b.y + b.height > a.y + 3;
  return all.flatMap(([text, box], n) => [
    ...(box.x < 0 || box.x + box.width > width ? [text] : []),
    ...all.slice(n + 1).filter(([, other]) => isOver(box, other)).map(([other]) => text + ' | ' + other),
  ]);
})()`;

async function whileLoading(page) {
  for (const width of WIDTHS) {
    for (const fragment of ['', PSKS, `${PSKS}&run=wi_dr.0.3`]) {
      await page.resize(width);
      await page.open(fragment);
      assert.equal(await page.evaluate(SHIFT), 0, `the page shifts while it loads, at ${width}`);
    }
  }
}

/** The picture stays where it is while a text becomes wrong, and is mended. */
async function whileTyping(page) {
  const top = () => page.evaluate('document.getElementById("picture").getBoundingClientRect().top + scrollY');
  await page.resize(1100);
  await page.open();
  const before = await top();
  for (const text of ['MINE:\n  -> e\n  <- e, ee, ee\n', 'MINE:\n-> e\n', 'MINE:\n', 'MINE:\n  -> e\n  <- e, ee\n']) {
    await page.type('text', text);
    assert.equal(await top(), before, text);
  }
}

async function atEachWidth(page) {
  await page.open(PSKS);
  for (const width of [...WIDTHS, ...BETWEEN]) {
    await page.resize(width);
    await page.evaluate('new Promise((done) => requestAnimationFrame(() => requestAnimationFrame(() => done())))');
    assert.ok(await page.isWithin(width), `the page is too wide at ${width}`);
    assert.equal(await page.evaluate(SMALL), 0, `the picture has small text at ${width}`);
    assert.deepEqual(await page.evaluate(OVERLAPS), [], `texts of the picture at ${width}`);
  }
}

export async function sizes(page, top) {
  await whileLoading(page);
  await whileTyping(page);
  await atEachWidth(page);
  const names = (await readdir(join(top, 'web'))).filter((name) => name.endsWith('.html') && name !== 'index.html');
  for (const name of names) {
    await page.browser.open(`${page.url}${name}`);
    await page.until('document.readyState === "complete" && document.querySelector("article") !== null');
    for (const width of [...WIDTHS, ...BETWEEN]) {
      await page.resize(width);
      assert.ok(await page.isWithin(width), `${name} is too wide at ${width}`);
    }
  }
  await page.resize(1100);
  return `no page is wider than its window, at ${WIDTHS.length + BETWEEN.length} widths; `
    + 'nothing moves while the page loads or a fault is typed, and no two '
    + 'texts of the picture meet';
}
