// The page as a workbench: what is where at each width, one button for the next step, nothing lost and nothing in the
// address, what comes in from elsewhere.
import assert from 'node:assert/strict';

const quoted = JSON.stringify;
const fragment = (pattern, more = {}) => `#${new URLSearchParams({ pattern, ...more })}`;
const XX = 'XX:\n  -> e\n  <- e, ee, s, es\n  -> s, se\n';

const box = (page, selector) => page.evaluate(`(() => {
  const { left, top, right, bottom } = document.querySelector(${quoted(selector)}).getBoundingClientRect();
  return { left, top, right, bottom };
})()`);
const textOf = (page) => page.evaluate('document.getElementById("text").value');
const disabled = (page, id) => page.evaluate(`document.getElementById(${quoted(id)}).getAttribute("aria-disabled")`);

async function panes(page) {
  await page.resize(1440, 900);
  await page.open(fragment(XX));
  const [text, verdict, facts, picture, step] = await Promise.all(
    ['.editor', '#verdict', '#facts', '#picture svg', '#step'].map((it) => box(page, it)),
  );
  assert.ok(
    text.right < picture.left && verdict.right < picture.left && facts.right < picture.left,
    'the picture isn’t beside the text',
  );
  for (const [name, it] of Object.entries({ text, verdict, picture, step })) {
    assert.ok(it.bottom <= 900, `${name} is below the window`);
  }
  assert.ok(facts.top < 600, `the facts begin at ${facts.top}`);
  assert.ok(picture.right > 1300, 'the width isn’t used');
  await page.resize(390, 844);
  const tops = (await Promise.all(
    ['.editor', '#verdict', '#picture', '#step', '#facts'].map((it) => box(page, it)),
  )).map(({ top }) => top);
  assert.deepEqual(tops, tops.toSorted((a, b) => a - b), 'on a phone the order is text, verdict, picture, step, facts');
  await page.resize(1440, 900);
}

/** XX by the keyboard: Tab to the one button, and Enter for each step. */
async function byKeyboard(page) {
  const { browser } = page;
  await page.open(fragment(XX));
  let stops = 0;
  while (await page.evaluate('document.activeElement.id') !== 'step') {
    await browser.press('Tab');
    stops += 1;
    assert.ok(stops <= 12, 'the button of the next step is more than 12 stops away');
    assert.notEqual(await page.evaluate('document.activeElement.id'), 'picture');
    if (await page.evaluate('document.activeElement.className') === 'skip') await browser.press('Enter', '\r');
  }
  const labels = [];
  for (const count of [0, 1, 2, 3, 4, 5, 6]) {
    labels.push(await page.textOf('step'));
    await browser.press('Enter', '\r');
    await page.until(
      `document.getElementById("log").childElementCount === ${count} && `
        + `document.getElementById("all").getAttribute("aria-disabled") === "${count === 6}"`,
    );
    assert.equal(await page.evaluate('document.activeElement.id'), 'step');
    const { top, bottom } = await box(page, '#step');
    assert.ok(top >= 0 && bottom <= 900, 'the focus isn’t in view');
  }
  assert.deepEqual(labels, [
    'Draw keys and begin',
    'Write message 1 as the initiator',
    'Deliver message 1 to the responder',
    'Write message 2 as the responder',
    'Deliver message 2 to the initiator',
    'Write message 3 as the initiator',
    'Deliver message 3 to the responder',
  ]);
  return stops;
}

/** Two clicks at one place deliver a message twice. */
async function twoClicks(page) {
  const { browser } = page;
  for (const width of [1440, 390]) {
    await page.resize(width, 900);
    await page.open(fragment(XX));
    await page.begin();
    await page.write('initiator');
    await page.run('document.querySelector("#current .go").scrollIntoView({ block: "center" })');
    const { left, top, right, bottom } = await box(page, '#current .go');
    for (const count of [2, 3]) {
      const at = { x: (left + right) / 2, y: (top + bottom) / 2, button: 'left', clickCount: 1 };
      for (const type of ['mousePressed', 'mouseReleased']) {
        await browser.send('Input.dispatchMouseEvent', { type, ...at });
      }
      await page.until(`document.getElementById("log").childElementCount === ${count}`);
    }
    assert.equal(
      await page.newest('.who'), '3. Responder refused message 1: it is the other party’s turn. It goes on as before. ',
    );
  }
  await page.resize(1440, 900);
}

/** While the text is wrong no fact of another pattern stands beside it, and all faults are told. */
async function oldFacts(page) {
  await page.open(fragment(XX));
  await page.type('text', 'DEV:\n  -> e, es\n  <- e, ee, ee\n  -> e\n');
  assert.equal(await page.evaluate('document.getElementById("facts").checkVisibility()'), false);
  assert.equal(await page.evaluate('document.getElementById("words").checkVisibility()'), false);
  assert.match(await page.textOf('shape-old'), /^Not valid: ✗ marks its faults\./);
  assert.equal(await page.textOf('shape-of'), 'DEV');
  const drawn = () => page.evaluate(
    '[...document.querySelectorAll("#picture g[data-piece]")].map((it) => it.textContent.replace(/^.*?(?= ✗|$)/, ""))',
  );
  assert.deepEqual((await drawn()).filter((it) => it !== ''), [' ✗', ' ✗', ' ✗']);
  assert.deepEqual(
    await page.evaluate('[...document.querySelectorAll("#picture .wrong + text")].map((it) => it.textContent)'),
    ['es ✗', 'ee ✗', 'e ✗'],
  );
  assert.equal(await page.evaluate('document.getElementById("picture").className'), '');
  await page.type('text', 'DEV:\n  -> e\n  <- e, ee, s, es\n  -> s, foo\n');
  const marked = '[...document.querySelectorAll("#picture .wrong + text")].map((it) => it.textContent).join()';
  assert.equal(await page.evaluate(marked), 'foo ✗');
  assert.match(await page.textOf('picture'), /message 2: 96 bytes \+ payload.*message 3: ✗ a fault/);
  await page.type('text', 'nothing');
  assert.match(await page.textOf('shape-old'), /^The last valid pattern, not the text\./);
  assert.equal(await page.evaluate('document.getElementById("picture").className'), 'old');
  await page.type('text', 'DEV:\n  -> e, es\n  <- e, ee, ee\n  -> e\n');
  assert.equal(
    await page.evaluate('document.getElementById("verdict").querySelectorAll(".title, .more li").length'), 3,
  );
  assert.equal(await page.evaluate('document.querySelectorAll("mark").length'), 3);
  assert.deepEqual(await page.evaluate(
    '[...document.querySelectorAll("#verdict .title a")].map((it) => it.getAttribute("href"))',
  ),
    ['rules.html#rule-1', 'https://noiseprotocol.org/noise.html#handshake-pattern-validity']);
  await page.type('text', 'DEV:\n  -> e\n  <- e\n');
  assert.equal(await page.evaluate('document.getElementById("verdict").className'), 'warned');
}

/** The token that the caret is in is marked in the picture, with its bytes. */
async function caret(page) {
  await page.open(fragment(XX));
  await page.run(
    'const it = document.getElementById("text"); it.focus(); '
      + 'it.setSelectionRange(it.value.indexOf("s, es"), it.value.indexOf("s, es"))',
  );
  await page.until('document.querySelectorAll("#picture .under").length === 2');
  assert.equal(
    await page.textOf('caret'), 's in message 2: static key, encrypted, 32 bytes; tag, 16 bytes (bytes 32 to 79)',
  );
}

/** Designs of one name are all kept, and what replaces the text can be undone. */
async function designs(page) {
  await page.run('localStorage.clear()');
  await page.open(fragment(XX));
  for (const name of ['MINE', 'MINE2', 'MINE3']) {
    await page.type('pick', 'NK');
    await page.click('#copy-own');
    assert.match(await textOf(page), new RegExp(`^${name}:`));
  }
  assert.equal(await page.evaluate('JSON.parse(localStorage.getItem("noise-patterns")).length'), 3);
  const two = ['MINE:\n  -> e\n', 'MINE:\n  -> e\n  <- e\n'];
  for (const text of two) await page.open(fragment(text)).then(() => page.type('text', text));
  await page.open(fragment(XX));
  const kept = await page.evaluate('JSON.parse(localStorage.getItem("noise-patterns"))');
  for (const text of two) assert.ok(kept.includes(text), `${text} is lost`);
  await page.type('prologue', 'first');
  await page.type('mode', 'stream');
  await page.click('#undo');
  assert.equal(await page.evaluate('document.getElementById("mode").value'), 'transport');
  await page.click('#undo');
  assert.notEqual(await page.evaluate('document.getElementById("prologue").value'), 'first');
  await page.click('#redo');
  assert.equal(await page.evaluate('document.getElementById("prologue").value'), 'first');
}

const paste = (page, text) =>
  page.run(`const data = new DataTransfer(); data.setData('text/plain', ${quoted(text)});
  const how = { clipboardData: data, bubbles: true, cancelable: true };
  document.getElementById('text').dispatchEvent(new ClipboardEvent('paste', how))`);
const drop = (page, name, text) =>
  page.run(`const data = new DataTransfer(); data.items.add(new File([${quoted(text)}], ${quoted(name)}));
  const how = { dataTransfer: data, bubbles: true, cancelable: true };
  document.getElementById('picture').dispatchEvent(new DragEvent('drop', how))`);

/** A way back in: files, names and links. */
async function wayIn(page) {
  await page.open(fragment(XX));
  await paste(page, 'Noise_IKpsk2_25519_ChaChaPoly_SHA256');
  assert.match(await textOf(page), /^IKpsk2:\n {2}<- s\n/);
  await paste(page, '# of ours\nDEV:   # a device\n  -> e  # new\n  <- e, ee\n');
  assert.equal(await textOf(page), 'DEV:\n  -> e\n  <- e, ee\n');
  await drop(page, 'xx.vector', 'vector 2\nprotocol Noise_XXpsk3_25519_ChaChaPoly_SHA256\nprologue 6162\ninterval 5\n');
  await page.until('document.getElementById("text").value.startsWith("XXpsk3:")');
  assert.equal(
    await page.evaluate('document.getElementById("prologue").value + document.getElementById("interval").value'), 'ab5',
  );
  await drop(page, 'mine.pattern', 'OURS:\n  -> e\n');
  await page.until('document.getElementById("text").value.startsWith("OURS:")');
  await paste(page, `http://localhost:8000/web/${fragment('NN:\n  -> e\n  <- e, ee\n', { mode: 'stream' })}`);
  await page.until(
    'document.getElementById("text").value.startsWith("NN:") && document.getElementById("mode").value === "stream"',
  );
}

/** No payload is in the history after a run, a long text isn't in the address, and nothing turns text around. */
async function leaks(page) {
  await page.open(fragment(XX));
  await page.type('payload', 'secret-message');
  await page.begin();
  await page.passAll();
  await page.write('initiator');
  await page.until('Object.values(sessionStorage).some((it) => it.includes("7365637265742d6d657373616765"))');
  await page.type('pick', 'NN');
  const { entries } = await page.browser.send('Page.getNavigationHistory');
  for (const { url } of entries) {
    assert.doesNotMatch(url, /secret|7365637265742d|run=(?!w|x)[^&]*7365/, 'a payload is in the history');
  }
  assert.ok(!(await page.evaluate('location.href + JSON.stringify(history.state)')).includes('7365637265742d'));
  await page.type('text', `MINE:\n  -> e${', e'.repeat(300000)}\n`);
  await page.until('location.hash.length < 10');
  await page.click('#copy-link');
  assert.match(await page.textOf('copied'), /^No link is copied: a link has at most 2000 characters of a pattern/);
  await page.type('text', 'MINE:\n  -> e, \u202esecret\n');
  assert.match(await page.textOf('verdict'), /“\\u\{202e\}secret”\. This isn’t a token/);
  await page.type('text', XX);
  await page.type('payload', 'a\u202eb');
  await page.begin();
  await page.write('initiator');
  assert.match(await page.newest('.who'), /“a\\u\{202e\}b”/);
  await page.type('prologue', 'p\u202eq');
  for (const n of [1, 2, 3, 4, 5]) {
    await page.click(`#languages button:nth-child(${n})`);
    await page.until(`document.querySelector("#languages button:nth-child(${n})").matches("[aria-pressed=true]")`);
    await page.evaluate('new Promise((done) => setTimeout(done, 30))');
    assert.doesNotMatch(await page.textOf('code'), /\u202e/);
  }
}

/** A button that is switched off says why when it is pressed, also to those who see no title. */
async function whyNot(page) {
  await page.open(fragment(XX));
  await page.click('#all');
  assert.equal(await page.textOf('said'), 'No keys are drawn yet.');
  await page.click('#save-vector');
  assert.equal(await page.textOf('copied'), 'No keys are drawn yet.');
  const names = await page.evaluate('[...document.querySelectorAll("#places input")].map((it) => it.ariaLabel)');
  assert.ok(names.every((name, n) => name.startsWith(`${n}: psk `)), 'a box isn’t named by the number that is seen');
}

/** What is said by itself: once, 600 ms after the last key, and only what is new. */
async function said(page) {
  await page.open(fragment(XX));
  await page.evaluate('new Promise((done) => setTimeout(done, 700))');
  await page.run(`globalThis.heard = []; const live = document.getElementById('live');
    new MutationObserver(() => heard.push(live.textContent)).observe(live, { childList: true })`);
  for (const text of ['DEV:\n', 'DEV:\n  -> e', 'DEV:\n  -> e, e']) await page.type('text', text);
  assert.deepEqual(await page.evaluate('heard'), []);
  await page.evaluate('new Promise((done) => setTimeout(done, 750))');
  await page.type('text', 'DEV:\n  -> e, e\n');
  await page.evaluate('new Promise((done) => setTimeout(done, 750))');
  const heard = await page.evaluate('heard');
  assert.equal(heard.length, 1, quoted(heard));
  assert.match(heard[0], /^Rule 2 \(7\.3\) is broken/);
}

/** A byte that is touched is looked at, and not changed; the values of a key schedule are there without a pointer. */
async function touch(page) {
  await page.open(fragment(XX));
  await page.begin();
  await page.write('initiator');
  const { left, top } = await box(page, '#current-body [data-at="3"]');
  await page.browser.send('Emulation.setTouchEmulationEnabled', { enabled: true });
  await page.browser.send('Input.dispatchTouchEvent', {
    type: 'touchStart', touchPoints: [{ x: left + 8, y: top + 8 }],
  });
  await page.browser.send('Input.dispatchTouchEvent', { type: 'touchEnd', touchPoints: [] });
  await page.until('document.querySelector("#current-body .piece").textContent.startsWith("byte 3: ephemeral key")');
  await page.browser.send('Emulation.setTouchEmulationEnabled', { enabled: false });
  assert.equal(await page.evaluate('document.querySelectorAll("#current-body [aria-pressed=true]").length'), 0);
  await page.click('#current-body .flip');
  assert.equal(await page.evaluate('document.querySelectorAll("#current-body [aria-pressed=true]").length'), 1);
  await page.click('#current-more .schedules summary');
  await page.until('document.querySelectorAll("#current-more .schedule dd").length > 3');
  assert.match(
    await page.evaluate('document.querySelector("#current-more .schedule dd").textContent'), /^h [0-9a-f]{64}$/,
  );
}

/** Text that a user has made larger is larger everywhere, and still fits. */
async function largeFont(page) {
  await page.open(fragment(XX));
  await page.resize(390, 844);
  await page.run('document.documentElement.style.fontSize = "150%"; dispatchEvent(new Event("resize"))');
  await page.resize(391, 844);
  await page.until('document.querySelector("#picture svg").getScreenCTM().a > 1.4');
  assert.ok(await page.isWithin(391), 'with a larger font the page is too wide');
  assert.equal(await page.evaluate('getComputedStyle(document.getElementById("text")).fontSize'), '24px');
}

export async function workbench(page) {
  await panes(page);
  const stops = await byKeyboard(page);
  await twoClicks(page);
  await oldFacts(page);
  await caret(page);
  await designs(page);
  await wayIn(page);
  await leaks(page);
  await whyNot(page);
  await said(page);
  await touch(page);
  await largeFont(page);
  assert.equal(await disabled(page, 'step'), 'false');
  await page.resize(1100);
  return `two panes from 1100 px; XX by ${stops} stops of the keyboard and one button; `
    + 'designs, undo, files, names and links; no payload in the history; one voice';
}
