// A mistake found on the page: a log is compared with a vector file, messages in hex are read; texts of others are
// taken for what they are, and what they have of keys isn't kept.
import assert from 'node:assert/strict';
import { readFile } from 'node:fs/promises';
import { join } from 'node:path';
import { textOf } from '../../web/patterns.mjs';

const quoted = JSON.stringify;
const value = (page, id) => page.evaluate(`document.getElementById(${quoted(id)})?.value`);

const paste = (page, text, id = 'text') =>
  page.run(`const data = new DataTransfer(); data.setData('text/plain', ${quoted(text)});
  const how = { clipboardData: data, bubbles: true, cancelable: true };
  document.getElementById(${quoted(id)}).dispatchEvent(new ClipboardEvent('paste', how))`);
const drop = (page, text) =>
  page.run(`const data = new DataTransfer(); data.items.add(new File([${quoted(text)}], 'a.txt'));
  const how = { dataTransfer: data, bubbles: true, cancelable: true };
  document.getElementById('text').dispatchEvent(new DragEvent('drop', how))`);

/** The code in what a comparison says: the call of the step, and the command that names the mistake. */
const codes = '[...document.querySelectorAll(".compared code")].map((it) => it.textContent)';
const CALL = /^\w+/;

/** A log dropped on the text and its vector file: the line, the values, and what is right of them. */
async function aLog(page, top) {
  const [log, vector] = await Promise.all(['log', 'vector'].map((it) =>
    readFile(join(top, `examples/vectors/mistakes/compared.${it}`), 'utf8'),
  ));
  await page.open('#mode=stream');
  await drop(page, log);
  await page.until(`document.getElementById('log-text')?.value === ${quoted(log)}`);
  assert.match(await page.textOf('notice'), /^This is a log of a key schedule/);
  assert.equal(await page.evaluate('document.activeElement.id'), 'vector-text');
  assert.equal(await page.evaluate('document.getElementById("compare").open'), true);
  const press = async () => {
    await page.run('document.querySelector(".compared").textContent = ""');
    await page.click('#comparing button.main');
    await page.until('document.querySelector(".compared").textContent !== ""');
    return page.evaluate('document.querySelector(".compared").textContent');
  };
  assert.match(await press(), /^The field of the vector file is empty\.$/);
  await page.type('vector-text', vector);
  const said = await press();
  assert.match(said, /^differs at line 2: responder, start, prologue/);
  const rows = await page.evaluate(
    '[...document.querySelectorAll(".values tr")].map((it) => [...it.children].map(({ textContent }) => textContent))',
  );
  assert.deepEqual(rows.map(([name, text]) => [name, text.slice(0, 8)]), [
    ['right hash', '21aab375'], ['yours hash', '4e6f6973'],
  ]);
  await page.until('document.getElementById("live").textContent.startsWith("differs at line 2")');
  await page.type('vector-text', `${vector.slice(0, 40)}x`);
  assert.match(await press(), /^Line 2 of the vector file isn’t one that can stand there\.$/);
  await page.type('log-text', 'nothing\n');
  await page.type('vector-text', vector);
  assert.match(await press(), /^The log can’t be compared: no line of a key schedule\.$/);
  const isKept = '[...document.querySelectorAll(".lines")].some((it) => it.autocomplete !== "off")';
  assert.equal(await page.evaluate(isKept), false);
}

/** What the page says of a log with a mistake: where, what that step does, and the line itself. */
async function plantedIn(page, log) {
  await page.resize(1440, 900);
  const [hashed, kept] = [/EncryptAndHash \(5\.2\).*and not the plain/, /MixKey \(5\.2\).*n becomes 0\./];
  for (const [role, from, to, step] of [
    // the plain key, and not the encrypted one, is mixed into h
    ['responder', /(trace responder 2 2 s EncryptAndHash \S+ \S+) [0-9a-f]{8}/, '$1 00000000', hashed],
    ['initiator', /(trace initiator 2 3 es MixKey .*) 0\n/, '$1 1\n', kept],
  ]) {
    await page.type('log-text', log.replace(from, to));
    await page.run('document.querySelector(".compared").textContent = ""');
    await page.click('#comparing button.main');
    await page.until('document.querySelector(".compared .values") !== null');
    assert.match(await page.evaluate('document.querySelector(".compared").textContent'), step);
    assert.deepEqual(await page.evaluate(codes), [CALL.exec(step.source)[0], './noise compare your.log your.vector']);
    await page.click('.compared button');
    const line = await page.evaluate('document.activeElement.value.slice(document.activeElement.selectionStart, '
      + 'document.activeElement.selectionEnd)');
    assert.match(line, new RegExp(`^trace ${role} 2 [^\\n]*$`));
    const gap = await page.evaluate(`(() => {
      const [name, text] = document.querySelector('.values tr').children;
      return text.getBoundingClientRect().left - name.getBoundingClientRect().left;
    })()`);
    assert.ok(gap < 200, `a value is ${gap} px from its name`);
  }
}

/** The page's own run, whose log agrees with it; one of another run doesn't. */
async function ownRun(page) {
  await page.open('#compare');
  await page.until('document.getElementById("log-text") !== null');
  await page.begin();
  await page.passAll();
  const log = (await page.evaluate('noisePage.log')).map((line) => `${line}\n`).join('');
  await page.type('log-text', log);
  await page.click('#comparing button.main');
  await page.until('document.querySelector(".compared .title.good") !== null');
  const told = await page.evaluate('document.querySelector(".compared").textContent');
  assert.match(told, /^agrees in \d+ lines.*4 of them are of Split/);
  assert.deepEqual(await page.evaluate(codes), []);
  const other = (it, digit) => `ee MixKey 32 - ${digit === '0' ? 1 : 0}`;
  await page.type('log-text', log.replace(/ee MixKey 32 - ([0-9a-f])/, other));
  await page.click('#comparing button.main');
  const differs = '/^differs at line \\d+: responder, message 2, ee/';
  await page.until(`${differs}.test(document.querySelector(".compared").textContent)`);
  await plantedIn(page, log);
}

/** Messages of a run, in hex, are read by the pattern; and anew where the pattern changes. */
async function aCapture(page) {
  await page.open('#capture');
  await page.until('document.getElementById("capture-text") !== null');
  await page.begin();
  await page.passAll();
  const lines = await page.evaluate('noisePage.lines');
  const frames = lines.filter((it) => it.startsWith('wrote')).map((it) => it.split(' ')[3]);
  await page.type('capture-text', frames.join(''));
  const items = () => page.evaluate('[...document.querySelectorAll(".messages > li")].map((it) => it.textContent)');
  const [first, second, third] = await items();
  assert.match(first, /^Message 1, from the initiator: 37 bytesbytes 0 to 31: ephemeral key [0-9a-f]{64}bytes 32/);
  assert.match(first, /payload, clear “hello”$/);
  assert.match(second, /^Message 2, from the responder: 101 bytes.*32 to 63: static key, encryptedbytes 64 to 79: tag/);
  assert.match(third, /^Message 3, from the initiator: 69 bytesbytes 0 to 31: static key, encrypted/);
  await page.type('text', textOf('NN'));
  assert.match((await items())[2], /^Transport message: 69 bytes, of which 53 are the payload/);
}

/** What is copied for Noise Explorer is read back. */
async function readBack(page) {
  const permissions = ['clipboardReadWrite', 'clipboardSanitizedWrite'];
  await page.browser.send('Browser.grantPermissions', { permissions });
  await page.browser.send('Emulation.setFocusEmulationEnabled', { enabled: true });    // only then a page may copy
  for (const name of ['XX', 'N', 'IK']) {
    await page.type('text', textOf(name));
    await page.click('#copy-explorer');
    await page.until('document.getElementById("copied").textContent === "The pattern for Noise Explorer copied."');
    const exported = await page.evaluate('navigator.clipboard.readText()');
    assert.ok(exported.startsWith(textOf(name)) && exported.length > textOf(name).length, name);
    await page.type('text', 'x');
    await paste(page, exported);
    assert.equal(await value(page, 'text'), textOf(name));
  }
  await page.browser.send('Emulation.setFocusEmulationEnabled', { enabled: false });
}

/** Texts of others, by paste, and what is offered of names that are typed. */
async function ofOthers(page) {
  await page.open();
  await page.type('text', 'x');
  await paste(page, 'Noise_XX_25519_AESGCM_SHA256');
  assert.equal(await value(page, 'text'), textOf('XX'));
  assert.match(await page.textOf('notice'), /^The suite 25519_AESGCM_SHA256 isn’t here/);
  assert.equal(await page.textOf('shape-of'), 'XX');
  await readBack(page);
  const theirs = 'IK:\n  <- s\n  ...\n  -> e, es, s, ss\n  <- e, ee, se\n  ->\n  <-\n';
  await paste(page, theirs);
  assert.equal(await value(page, 'text'), textOf('IK'));
  for (const [typed, label, text] of [
    ['IKpsk2', 'Take the pattern IKpsk2', textOf('IK', [2])], ['xx', 'Take the pattern XX', textOf('XX')],
    ['NN:\n  -> \u0435\n  <- e, ee\n', 'Write the letters that are meant', textOf('NN')],
    [theirs, 'Take out the lines of an arrow alone', textOf('IK')],
  ]) {
    await page.type('text', typed);
    const offered = await page.evaluate('document.querySelector("#mends button").textContent');
    assert.equal(offered, label);
    await page.click('#mends button');
    assert.equal(await value(page, 'text'), text);
  }
  // nothing is offered for what only its writer knows
  await page.type('text', 'NN:\n  -> e, nonsense\n');
  assert.equal(await page.evaluate('document.querySelectorAll("#mends button").length'), 0);
  await page.type('text', 'NN:\n  -> \u0435\n  <- e, ee\n');
  assert.match(await page.textOf('verdict'), /“е” looks like e, and is another sign \(U\+0435\)\./);
}

/** A file of 2000 lines is judged once when it is opened, and not at each of its lines. */
async function openedOnce(page) {
  await page.open();
  await page.run(`globalThis.judged = 0;
    const count = (all) => { judged += all.length; };
    new MutationObserver(count).observe(document.getElementById('verdict'), { childList: true });
    const data = new DataTransfer();
    data.items.add(new File([${quoted(`MINE:\n${'  -> e, ee\n'.repeat(2000)}`)}], 'a.pattern'));
    const file = document.getElementById('file'); file.files = data.files; file.dispatchEvent(new Event('change'))`);
  await page.until('document.getElementById("text").value.length > 20000');
  await page.evaluate('new Promise((done) => setTimeout(done, 50))');
  assert.equal(await page.evaluate('judged'), 1, 'a file that is opened is judged more than once');
}

export async function finding(page, top) {
  await aLog(page, top);
  await ownRun(page);
  await aCapture(page);
  await ofOthers(page);
  await openedOnce(page);
  return 'a log is compared with a vector file and with the run, messages in hex are read, '
    + 'and texts of others are taken for what they are';
}
