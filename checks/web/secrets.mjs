// No key of a vector file, of a log or of a key schedule gets into the page's address, its history or its storage, by
// whichever way a text with it comes in. A key is any word of 64 hex digits.
import assert from 'node:assert/strict';
import { readFile, readdir } from 'node:fs/promises';
import { join } from 'node:path';

const quoted = JSON.stringify;
const SAYS = 'This text has 32 hex digits in a row, as a key or a hash has.';
const KEY = /[0-9a-f]{64}/gi;

/** What can't be taken for a vector file any more. */
const MASKS = {
  'after a space': (text) => ` ${text}`,
  'after an empty line': (text) => `\n${text}`,
  'after a comment': (text) => `# of ours\n${text}`,
  'with CR line ends': (text) => text.replaceAll('\n', '\r'),
  'in capitals': (text) => text.toUpperCase(),
  'in a pattern text': (text) => `MINE:\n  -> e\n${text}`,
};

const data = (text) => `const data = new DataTransfer(); const text = ${quoted(text)};`;
const event = (type, at, how) => `document.getElementById(${quoted(at)}).dispatchEvent(new ${type}(${quoted(how.name)},
  { ${how.field}: data, bubbles: true, cancelable: true }));`;

/** Each way in, as statements of the page. */
const WAYS = {
  opened: (text) => `${data(text)} data.items.add(new File([text], 'a.txt'));
    const file = document.getElementById('file'); file.files = data.files; file.dispatchEvent(new Event('change'));`,
  'dropped as a file': (text) => `${data(text)} data.items.add(new File([text], 'a.txt'));
    ${event('DragEvent', 'picture', { name: 'drop', field: 'dataTransfer' })}`,
  'dropped as text': (text) => `${data(text)} data.setData('text/plain', text);
    ${event('DragEvent', 'text', { name: 'drop', field: 'dataTransfer' })}`,
  'pasted into the text': (text) => `${data(text)} data.setData('text/plain', text);
    ${event('ClipboardEvent', 'text', { name: 'paste', field: 'clipboardData' })}`,
  'pasted beside it': (text) => `${data(text)} data.setData('text/plain', text);
    ${event('ClipboardEvent', 'picture', { name: 'paste', field: 'clipboardData' })}`,
  typed: (text) => `const it = document.getElementById('text'); it.value = ${quoted(text)};
    for (const name of ['input', 'change']) it.dispatchEvent(new Event(name));`,
  'followed as a link': (text) => `location.hash = '#' + new URLSearchParams({ pattern: ${quoted(text)} });
    await new Promise((done) => setTimeout(done, 20));`,
};

/** All that the page keeps, once it is left. */
const KEPT = `dispatchEvent(new Event('pagehide')); await new Promise((done) => setTimeout(done, 5));
  return JSON.stringify([location.href, history.state, { ...localStorage }, { ...sessionStorage }, document.cookie]);`;

/** What of a key is kept: a run's own file has its X25519 results only where the user saves it. */
function foundIn(kept, text) {
  const pieces = (text.match(KEY) ?? []).flatMap((key) => [key.slice(0, 32), key.slice(32)]);
  return [...new Set(pieces)].filter((piece) => kept.toLowerCase().includes(piece.toLowerCase()));
}

async function keptAfter(page, work) {
  const kept = await page.run(`${work} await new Promise((done) => setTimeout(done, 5)); ${KEPT}`);
  const { entries } = await page.browser.send('Page.getNavigationHistory');
  return decodeURIComponent((kept + entries.map(({ url }) => url).join(' ')).replaceAll('+', ' '));
}

async function comesIn(page, name, way, text) {
  assert.deepEqual(foundIn(await keptAfter(page, WAYS[way](text)), text), [], `${name}, ${way}: a key is kept`);
}

/** The vector files and logs of the repository that have keys. */
async function files(top) {
  const folders = ['examples/vectors', 'examples/vectors/mistakes'];
  const names = (await Promise.all(folders.map(async (folder) =>
    (await readdir(join(top, folder))).filter((it) => /\.(?:vector|log|keys)$/.test(it)).map((it) => join(folder, it)),
  ))).flat();
  const texts = await Promise.all(names.map((name) => readFile(join(top, name), 'utf8')));
  return names.map((name, n) => [name, texts[n]]).filter(([, text]) => KEY.test(text) || KEY.test(text));
}

/** The vector file and the key schedule of a run of the page itself. */
async function ofTheRun(page) {
  await page.open('#pattern=XXpsk3%3A%0A++-%3E+e%0A++%3C-+e%2C+ee%2C+s%2C+es%0A++-%3E+s%2C+se%2C+psk%0A');
  await page.begin();
  await page.passAll();
  const log = (await page.evaluate('noisePage.log')).map((line) => `${line}\n`).join('');
  return [['the run’s vector file', await page.evaluate('noisePage.vectorFile')], ['the run’s key schedule', log]];
}

/** Every key of a text, each alone in a pattern text, in one visit. */
async function eachKey(page, name, text) {
  const keys = [...new Set(text.match(KEY))];
  const kept = await page.run(`const it = document.getElementById('text'); const all = [];
    for (const key of ${quoted(keys)}) {
      it.value = 'MINE:\\n  -> e\\n  <- ' + key + '\\n';
      for (const name of ['input', 'change']) it.dispatchEvent(new Event(name));
      dispatchEvent(new Event('pagehide'));
      all.push(location.href + JSON.stringify([{ ...localStorage }, { ...sessionStorage }]));
    }
    return all.join(' ');`);
  assert.deepEqual(foundIn(decodeURIComponent(kept), text), [], `${name}: a key alone is kept`);
  return keys.length;
}

/** The page says what it doesn't keep, and a text that has no key any more is kept again. */
async function saysSo(page, text) {
  await page.open();
  await page.run(WAYS.typed(`MINE:\n  -> e\n${text.match(KEY)[0]}\n`));
  assert.ok((await page.textOf('notice')).startsWith(SAYS));
  await page.click('#copy-link');
  assert.match(await page.textOf('copied'), /^No link is copied: the text has 32 hex digits in a row, as a key has\./);
  await page.click('#copy-own');
  assert.ok(!(await page.evaluate('JSON.stringify({ ...localStorage })')).includes(text.match(KEY)[0]));
  await page.run(WAYS.typed('MINE:\n  -> e\n'));
  assert.equal(await page.textOf('notice'), '');
  await page.until('location.hash.includes("MINE")');
}

export async function secrets(page, top) {
  const own = await ofTheRun(page);
  const all = [...await files(top), ...own];
  let [ways, keys] = [0, 0];
  await page.open();
  for (const [name, text] of all) keys += await eachKey(page, name, text);
  for (const [name, text] of own) {
    for (const [how, mask] of [['as it is', (it) => it], ...Object.entries(MASKS)]) {
      for (const way of Object.keys(WAYS)) {
        await comesIn(page, `${name} ${how}`, way, mask(text));
        ways += 1;
      }
    }
  }
  await saysSo(page, own[1][1]);
  await page.run('localStorage.clear()');
  return `none of ${keys} keys of ${all.length} vector files, logs and key schedules is in an address or kept, `
    + `by ${Object.keys(WAYS).length} ways in and ${ways} texts`;
}
