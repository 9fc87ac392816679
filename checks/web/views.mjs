// What is seen when: the first paint doesn't wait for the scripts, a key makes nothing anew that is out of view, a long
// text doesn't freeze the page, a run stands beside its arrows above the fold, programs by party, designs compared word
// by word, a print, and the pages beside it.
import assert from 'node:assert/strict';

const XX = '#pattern=XX%3A%0A++-%3E+e%0A++%3C-+e%2C+ee%2C+s%2C+es%0A++-%3E+s%2C+se%0A';
const SLOW = { offline: false, latency: 100, downloadThroughput: 200e3, uploadThroughput: 100e3 };
const box = (page, selector) => page.evaluate(`(() => {
  const { left, top, right, bottom } = document.querySelector(${JSON.stringify(selector)}).getBoundingClientRect();
  return { left, top, right, bottom };
})()`);

/** With a slow network something is drawn before the verdict is there. */
async function firstPaint(page) {
  await page.browser.send('Network.enable');
  await page.browser.send('Network.emulateNetworkConditions', SLOW);
  await page.browser.send('Network.setCacheDisabled', { cacheDisabled: true });
  await page.open();
  const [paint, verdict] = await page.evaluate(
    '[performance.getEntriesByName("first-contentful-paint")[0].startTime, noisePage.firstVerdict]',
  );
  await page.browser.send('Network.emulateNetworkConditions', {
    offline: false, latency: 0, downloadThroughput: -1, uploadThroughput: -1,
  });
  await page.browser.send('Network.setCacheDisabled', { cacheDisabled: false });
  await page.browser.send('Network.disable');
  assert.ok(paint < verdict * 0.8, `the first paint, at ${paint} ms, waits for the verdict, at ${verdict} ms`);
}

/** A program that is out of view isn't made anew at each key; it is when it comes into view. */
async function waitingProgram(page) {
  await page.resize(1280, 720);
  await page.open(XX);
  await page.run('document.getElementById("code").scrollIntoView()');
  await page.until('document.getElementById("code").textContent.includes("XX")');
  await page.run('scrollTo(0, 0); await new Promise((done) => setTimeout(done, 100)); globalThis.made = 0; '
    + 'new MutationObserver(() => { made += 1; }).observe(document.getElementById("code"), { childList: true })');
  for (const text of ['NN:\n  -> e\n  <- e, ee\n', 'MINE:\n  -> e\n  <- e, ee\n']) await page.type('text', text);
  await page.evaluate('new Promise((done) => setTimeout(done, 100))');
  assert.equal(await page.evaluate('made'), 0, 'a program out of view is made at each key');
  await page.run('document.getElementById("code").scrollIntoView()');
  await page.until('document.getElementById("code").textContent.includes("MINE")');
}

/** Counts the elements and pictures that are made anew, and those far from what is seen. Closed lists don't count. */
const COUNT = `globalThis.made = { elements: 0, pictures: 0, unseen: [] };
  const isSeen = (it) => {
    const { top, bottom } = it.getBoundingClientRect();
    return it.checkVisibility() && bottom >= -250 && top <= innerHeight + 250;
  };
  new MutationObserver((records) => {
    for (const { target, addedNodes } of records) {
      const elements = [...addedNodes].filter(({ nodeType }) => nodeType === 1);
      if (!elements.length || target.closest('select')) continue;
      for (const it of elements) made.elements += 1 + it.querySelectorAll('*').length;
      if (target.id === 'picture') made.pictures += 1;
      if (!isSeen(target)) made.unseen.push(target.id || target.outerHTML.slice(0, 60));
    }
  }).observe(document.body, { childList: true, subtree: true })`;
const SHORT = 'XX:\n  -> e\n  <- e, ee, s, es\n  -> s, se\n';
const LONG = ['MINE:', ...Array.from({ length: 199 }, (_, n) => `  ${n % 2 ? '<-' : '->'} e, ee`)].join('\n');

/** A key makes anew what is seen, the picture once, and few elements: also in a text of 200 lines, and in a run. */
async function oneKey(page) {
  for (const [width, height, texts] of [[1280, 720, [SHORT, LONG]], [390, 844, [SHORT]]]) {
    for (const text of texts) {
      const isRun = text === SHORT;
      await page.resize(width, height);
      await page.open('#mode=transport');
      if (isRun) await page.begin().then(() => page.passAll());
      await page.type('text', text);
      await page.run('scrollTo(0, 0); document.getElementById("text").focus(); '
        + `await new Promise((done) => setTimeout(done, 700)); ${COUNT}`);
      for (const change of ['  -> e, s', '  -> e']) {
        await page.run(`made.elements = made.pictures = 0; const it = document.getElementById('text');
          it.value = it.value.replace(/ {2}-> e.*/, ${JSON.stringify(change)}); it.dispatchEvent(new Event('input'));
          await new Promise((done) => requestAnimationFrame(() => setTimeout(done)))`);
        const { elements, pictures, unseen } = await page.evaluate('made');
        const where = `at ${width} px, of ${text.split('\n').length} lines`;
        assert.deepEqual(unseen, [], `a key makes anew what isn't seen, ${where}`);
        assert.ok(pictures <= 1, `a key draws ${pictures} pictures, ${where}`);
        assert.ok(elements <= 500, `a key makes ${elements} elements, ${where}`);
      }
    }
  }
}

/** A program of one party: its text, and the name that it is saved by. */
async function byParty(page) {
  await page.open(XX);
  await page.run('document.getElementById("code").scrollIntoView()');
  for (const [party, language, file] of [
    ['Client', 'C', 'xx-client.c'], ['Server', 'Python', 'xx-server.py'], ['Both parties', 'Go', 'xx.go'],
  ]) {
    await page.run(`for (const it of document.querySelectorAll('#program-row button')) {
      if (['${party}', '${language}'].includes(it.textContent)) it.click();
    }`);
    const says = party === 'Both parties' ? 'both parties in one' : `The ${party.toLowerCase()} of the pattern XX`;
    await page.until(`document.getElementById("code").textContent.includes(${JSON.stringify(says)})`);
    const pressed = await page.evaluate(
      '[...document.querySelectorAll("#program-row [aria-pressed=true]")].map(({ textContent }) => textContent).join()',
    );
    assert.equal(pressed, `${language},${party}`);
    await page.click('#save-program');
    await page.until(`document.getElementById("copied").textContent.includes(${JSON.stringify(file)})`);
  }
  await page.run('document.querySelector("#languages button").click()');
}

/** The page of the rules begins with which pattern one needs, and leads back; it ends with how it is made. */
async function helpFirst(page) {
  await page.browser.open(`${page.url}rules.html`);
  await page.until('document.querySelector("article table") !== null && document.readyState === "complete"');
  const [text, first, link] = await page.evaluate(`(() => {
    const all = document.body.innerText;
    const article = document.querySelector('article');
    return [all, article.children[0].textContent.slice(0, 26), article.querySelector('a').getAttribute('href')];
  })()`);
  assert.equal(first, '"Which pattern do I need?"');
  assert.equal(link, 'index.html');
  const [need, table, made] = ['Which pattern', 'NNpsk0', 'tools/webpages'].map((it) => text.indexOf(it));
  assert.ok(need >= 0 && need < table && table < made, 'rules.html begins with something else');
  assert.ok(made > text.length - 120, 'how rules.html is made isn’t its end');
  assert.ok(!/make web|http\.server/.test(text.slice(0, text.length / 2)), 'rules.html begins with how it is built');
}

/** 200 KB are judged in three seconds at most, also on a machine that does much else. */
async function longText(page) {
  await page.open();
  const times = await page.run(`const it = document.getElementById('text'); const times = [];
    const lines = ['  -> e, ee\\n'.repeat(17000), 'trace initiator 1 0 e\\n'.repeat(9000), 'e, x'.repeat(50000)];
    for (const text of lines) {
      it.value = text;
      const spans = [];
      for (let n = 0; n < 3; n += 1) {
        const start = performance.now();
        it.dispatchEvent(new Event('input'));
        spans.push(performance.now() - start);
      }
      times.push(Math.min(...spans));
    }
    return times;`);
  assert.ok(times.every((time) => time < 3000), `a text of 200 KB freezes the page for ${times.join(', ')} ms`);
  assert.match(await page.textOf('verdict'), /^Line 1\./);
  return Math.max(...times);
}

/** In a run the bytes, the payload's field and the log are beside the arrows, above the fold of a small window. */
async function runBeside(page) {
  await page.resize(1280, 720);
  await page.open(XX);
  await page.begin();
  await page.write('initiator');
  await page.deliver(0);
  await page.write('responder');
  await page.until('document.querySelector("#picture .message.now") !== null');
  const [bytes, payload, entry, arrow, picture] = await Promise.all(
    ['#current-body .bytes', '#payload', '#log li', '#picture .message.now', '#picture svg'].map((it) => box(page, it)),
  );
  for (const [name, it] of Object.entries({ bytes, payload, entry, arrow })) {
    assert.ok(it.top >= 0 && it.bottom <= 720, `in a run ${name} is at ${it.top} to ${it.bottom}, below the fold`);
  }
  for (const it of [bytes, payload, entry]) assert.ok(it.left >= picture.right, 'the run isn’t beside the picture');
}

/** Two designs of one's own beside each other: the words that differ are marked. */
async function ownDesigns(page) {
  await page.run('localStorage.clear()');
  for (const text of ['ONE:\n  -> e\n  <- e, ee\n', 'TWO:\n  -> e\n  <- e, ee, s, es\n']) {
    await page.open('#mode=stream');
    await page.type('text', text);
  }
  await page.run('document.getElementById("beside").focus()');
  await page.type('beside', 'own ONE:\n  -> e\n  <- e, ee\n');
  assert.match(await page.textOf('other'), /^TWO and ONE differ in \d+ rows/);
  const marked = await page.evaluate(`(() => {
    const row = [...document.querySelectorAll('#other tbody tr')].find((it) => it.textContent.startsWith('Message 2'));
    const wordsOf = (cell) => [...cell.querySelectorAll('.changed')].map(({ textContent }) => textContent);
    return [...row.querySelectorAll('td')].map(wordsOf);
  })()`);
  assert.deepEqual(marked, [['ee,', 's,', 'es', '(96'], ['ee', '(48']]);
  await page.run('localStorage.clear()');
}

/** On paper: the text, the picture and the tables, and nothing to press. */
async function printed(page) {
  await page.open(XX);
  await page.begin();
  await page.passAll();
  await page.browser.send('Emulation.setEmulatedMedia', { media: 'print' });
  const isShown = (it) => page.evaluate(`document.querySelector(${JSON.stringify(it)}).checkVisibility()`);
  for (const it of ['#marks', '#verdict', '#picture svg', '#facts table', '#log li']) assert.ok(await isShown(it), it);
  for (const it of ['#text', '#step', '#pick', '#take button', '#payload', 'nav']) assert.ok(!await isShown(it), it);
  assert.notEqual(await page.evaluate('getComputedStyle(document.getElementById("marks")).color'), 'rgba(0, 0, 0, 0)');
  assert.equal(await page.evaluate('getComputedStyle(document.getElementById("run")).overflowY'), 'visible');
  await page.browser.send('Emulation.setEmulatedMedia', { media: '' });
}

export async function views(page) {
  await firstPaint(page);
  await waitingProgram(page);
  await oneKey(page);
  await byParty(page);
  await helpFirst(page);
  const longest = await longText(page);
  await runBeside(page);
  await ownDesigns(page);
  await printed(page);
  await page.resize(1100);
  return 'the first paint doesn’t wait for scripts, a key makes nothing anew that is out of view, a run is beside its '
    + 'arrows at 1280 × 720, programs come by party, two designs are compared by words, rules.html begins with help, '
    + `and a print has no buttons; a text of 200 KB is judged in ${longest.toFixed(0)} ms`;
}
