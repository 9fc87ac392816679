// The page as a user meets it: node check.mjs TOP ROOM BUILT, with the top of the repository and the folder that
// web/build has made. Saved vector files and key schedules go to ROOM/files, screenshots to ROOM/pictures.
import assert from 'node:assert/strict';
import { writeFile } from 'node:fs/promises';
import { join } from 'node:path';
import { Browser } from './browser.mjs';
import { speech } from './access.mjs';
import { axe } from './axe.mjs';
import { choices } from './choices.mjs';
import { designs } from './designs.mjs';
import { figures, weight } from './figures.mjs';
import { finding } from './finding.mjs';
import { links } from './links.mjs';
import { Keyboard, Pointer } from './hands.mjs';
import { Page } from './page.mjs';
import { pointing } from './pointing.mjs';
import { secrets } from './secrets.mjs';
import { serve } from './server.mjs';
import { sizes } from './sizes.mjs';
import { EXPECTED, takeChannels } from './socket-server.mjs';
import { staying } from './staying.mjs';
import { views } from './views.mjs';
import { Walk } from './walk.mjs';
import { workbench } from './workbench.mjs';
import { DEFERRED, FUNDAMENTAL } from '../../web/patterns.mjs';

const [top, room, built] = process.argv.slice(2);
const server = await serve(top);
// Each key's address is looked at: there are more of them than a page may set in ten seconds.
const browser = await Browser.start('--disable-ipc-flooding-protection');
const page = new Page(browser, `${server.url}web/`, room);
const report = (text) => console.log(`web: ${text}`);
const quoted = JSON.stringify;

async function allPatterns() {
  await page.type('payload', 'hi');
  for (const base of [...FUNDAMENTAL, ...DEFERRED]) {
    await page.type('pick', base);
    await page.begin();
    await page.passAll();
    assert.match(await page.textOf('state'), /initiator is open .*responder is open/, base);
    assert.match(
      await page.evaluate('document.querySelector("#current-more .hash").textContent'),
      /^hash at both parties [0-9a-f]{64} /, base,
    );
    // Each length in the picture is that of the message that the library has written, with a payload of two bytes.
    const labels = await page.evaluate('[...document.querySelectorAll("#picture text")].map((it) => it.textContent)');
    const drawn = labels.map((label) => /: (\d+) bytes \+ payload/.exec(label)?.[1]).filter(Boolean).map(Number);
    const written = await page.evaluate(
      'noisePage.lines.filter((it) => it.startsWith("wrote")).map((it) => it.split(" ")[3].length / 2 - 4)',
    );
    assert.deepEqual(drawn, written, base);
    await page.write('initiator');
    await page.deliver(written.length);
    assert.match(await page.last(), /^accepted/, base);
    await page.save(base);
  }
  report(
    `${FUNDAMENTAL.length} fundamental and ${DEFERRED.length} deferred patterns run to the end, with equal hashes`,
  );
}

async function faults() {
  const cases = [
    ['MINE:\n  -> e, es\n', 'es', 'Rule 1 (7.3) is broken at message 1, token es'],
    ['MINE:\n  -> e\n  <- e, ee\n  -> e\n', 'e', 'Rule 2'],
    ['MINE:\n  -> e\n  <- e, ee, ee\n', 'ee', 'Rule 3'],
    ['MINE:\n  -> e, s\n  <- e, se\n', 'se', 'Rule 4'],
    ['MINEpsk0:\n  -> psk, s\n', 's', 'Rule 5'],
    ['mine:\n  -> e\n', 'mine:', 'Line 1. The first line has to be a name'],
    ['MINE:\n -> e\n', ' -> e', 'Line 2. The line has to begin with two spaces'],
    ['MINE:\n  -> e, foo, s\n', 'foo', 'Line 2: “foo”. This isn’t a token.'],
    ['MINE:\n  -> e \n', ' ', 'Line 2. A space is at the end of the line.'],
    ['MINE:\n  -> e\n  -> e, ee\n', '->', 'Line 3. It is the other party’s turn.'],
    ['MINE:\n  -> e, psk\n', 'psk', 'Line 2. psk0 in the heading is a psk before message 1'],
    ['XX:\n  -> e\n', 'XX', 'Line 1. This name belongs to a fundamental pattern'],
    ['MINE:\n  <- s\n  -> s\n  ...\n  -> e, es\n', '  -> s', 'Line 3. Above “...” a line has e, s'],
    [
      'MINE:\n  -> e\n  <- e, e, e, e, e, e, e, e, e\n', '  <- e, e, e, e, e, e, e, e, e',
      'Line 3. A message has from 1 to 8 tokens besides psk, and this one has more.',
    ],
    ['MINE:\n', 'MINE:', 'Line 2. There is no message.'],
    ['MINE:\n  -> e\n\n', ' ', 'Line 3. The line is empty.'],
  ];
  for (const [text, marked, said] of cases) {
    await page.type('text', text);
    assert.equal(await page.evaluate('document.querySelector("mark").textContent'), marked, text);
    assert.ok((await page.evaluate('document.getElementById("verdict").textContent')).startsWith(said), text);
    assert.equal(await page.evaluate('document.getElementById("step").getAttribute("aria-disabled")'), 'true');
    assert.equal(await page.evaluate('document.getElementById("step").title'), 'The pattern isn’t valid.');
    assert.equal(await page.evaluate('document.getElementById("text").getAttribute("aria-invalid")'), 'true');
  }
  await page.type('text', 'mine:\n  -> e\n');
  await page.click('#places input[value="0"]');
  assert.equal(
    await page.evaluate(
      'document.querySelector(\'#places input[value="0"]\').checked + document.getElementById("text").value',
    ),
    'falsemine:\n  -> e\n',
  );
  report(`${cases.length} faults are marked at their places`);
}

async function ownPattern() {
  await page.type('text', 'MINE:\n  <- s\n  ...\n  -> e, es\n  <- e, ee\n  -> s, se\n');
  await page.run('document.querySelector("#places input[value=\'2\']").click()');
  assert.equal(await page.evaluate('document.getElementById("text").value.split("\\n")[0]'), 'MINEpsk2:');
  assert.match(await page.evaluate('document.getElementById("verdict").className'), /good/);
  await page.type('interval', '2');
  await page.begin();
  await page.passAll();
  for (let n = 0; n < 5; n += 1) await page.write('initiator');
  for (const n of [3, 4, 5]) await page.deliver(n);
  await page.deliver(3);
  assert.match(
    await page.last(),
    /^refused: \d+\. Responder refused transport message 1 of the initiator: a tag is wrong\. Transport message 4 was due\. It goes on as before/,
  );
  await page.deliver(6, [0]);
  assert.match(await page.last(), /^refused: .*Changed on the way: byte 0\./);
  await page.deliver(6);
  assert.match(await page.last(), /^accepted/);
  await page.save('own-pattern');
  await page.type('interval', '0');
}

async function refusals() {
  await page.type('pick', 'XX');
  await page.begin();
  await page.write('initiator');
  await page.write('initiator');
  assert.match(await page.last(), /^refused: 2\. Initiator wrote nothing: it is the other party’s turn/);
  await page.deliver(0);
  await page.deliver(0);
  assert.match(await page.last(), /other party’s turn/);
  await page.write('responder');
  await page.deliver(1, [40]);
  assert.match(
    await page.last(),
    /Initiator refused message 2, token s: a tag is wrong\. Changed on the way: byte 40\. Its handshake has ended/,
  );
  await page.deliver(1);
  await page.save('refused');
}

async function datagrams() {
  await page.type('pick', 'IK');
  await page.type('mode', 'datagrams');
  await page.begin();
  await page.passAll();
  for (let n = 0; n < 4; n += 1) await page.write('initiator');
  for (const n of [4, 3]) await page.deliver(n);
  await page.deliver(3);
  assert.match(await page.last(), /datagram 1 of the initiator: a datagram with its nonce was opened already/);
  await page.deliver(5, [20]);
  assert.match(await page.last(), /^refused/);
  assert.equal(await page.evaluate('document.querySelectorAll(".window i.opened, .window i.top").length'), 2);
  const fill = await page.evaluate('getComputedStyle(document.querySelector("#picture .nonce")).fill');
  assert.notEqual(fill, 'rgb(0, 0, 0)', 'a nonce has no colour of its own in the picture');
  await page.save('datagrams');
  await page.until('location.hash.includes("datagrams") && location.hash.includes("IK")');
  const fragment = await page.evaluate('location.hash');
  await page.open(fragment);
  assert.equal(
    await page.evaluate('document.getElementById("mode").value + document.getElementById("pick").value'), 'datagramsIK',
  );
}

/** Long payloads and long runs: the page stays short, and all of it can be seen. */
async function long() {
  await page.resize(390);
  await page.open('#pattern=NN%3A%0A++-%3E+e%0A++%3C-+e%2C+ee%0A&mode=transport');
  await page.begin();
  await page.passAll();
  await page.type('payload', 'a'.repeat(2000));
  for (let n = 0; n < 30; n += 1) await page.write('initiator');
  const height = await page.evaluate(
    'document.getElementById("log").offsetHeight + document.getElementById("current-body").offsetHeight',
  );
  assert.ok(height < 3500, `a long run makes a long page: ${height} px`);
  const entry = await page.evaluate('document.querySelector("#current-body").offsetHeight');
  assert.ok(entry < 550, `a long payload makes a long entry: ${entry} px`);
  await page.click('#current-body .bytes .more');
  assert.equal(await page.evaluate('document.querySelectorAll("#current-body .bytes [data-at]").length'), 2016);
  await page.click('#earlier');
  assert.equal(await page.evaluate('[...document.querySelectorAll("#log li")].filter((it) => !it.hidden).length'), 34);
  await page.type('payload', 'hello');
}

/** Each walk with one hand, and at a width of its own. */
async function walks() {
  await browser.send('Browser.grantPermissions', { permissions: ['clipboardReadWrite', 'clipboardSanitizedWrite'] });
  await browser.send('Browser.setDownloadBehavior', { behavior: 'deny' });
  for (const [Hand, width] of [[Keyboard, 390], [Pointer, 1100]]) {
    await page.resize(width);
    await new Walk(page, new Hand(browser)).all();
  }
  report(
    'a pattern of one’s own, its fault mended, undo, a run with a refusal, its key schedule and link, streams: '
      + 'by keyboard alone and by pointer, at a width each',
  );
}

/** Channels over the browser's WebSocket, from a page of this server that isn't the one of web/. */
async function sockets() {
  const told = await takeChannels(server.server);
  await browser.open(`${server.url}bindings/js/package.json`);
  await browser.until('document.readyState === "complete" && location.href.endsWith("package.json")');
  const outcomes = await page.run(`const { attempts } = await import('/checks/web/socket-client.mjs');
    return attempts(${quoted(server.url.replace('http', 'ws'))}, ${quoted(Object.keys(EXPECTED))});`);
  assert.deepEqual(outcomes, EXPECTED);
  assert.deepEqual(told.failed, []);
  report(`${Object.keys(EXPECTED).length} channels over the browser’s WebSocket, with the same outcomes`);
}

async function pictures() {
  const [wide, phone] = [[1440, 900], [390, 844]];
  for (const [name, [width, height], dark] of [
    ['page-wide', wide, false], ['page-wide-dark', wide, true], ['page-phone', phone, false],
    ['page-phone-dark', phone, true],
  ]) {
    await browser.send('Emulation.setDeviceMetricsOverride', {
      width, height, deviceScaleFactor: 1, mobile: width < 500,
    });
    await page.open();
    assert.equal(await page.evaluate('document.getElementById("write").offsetHeight'), 0);
    if (!name.includes('phone')) await page.type('pick', 'IK');
    await page.begin();
    await page.passAll();
    await writeFile(join(room, 'pictures', `${name}.png`), await browser.picture(width, height, dark));
    await page.run('document.getElementById("run").scrollIntoView()');
    await writeFile(join(room, 'pictures', `${name}-run.png`), await browser.picture(width, height, dark));
    assert.ok(await page.isWithin(width), `${name} is too wide after a run`);
    await page.run('scrollTo(0, 0)');
  }
}

/** The folder that web/build makes, in a folder of another server; and then without that server. */
async function offline() {
  const other = await serve(built, 'some/place/');
  const there = new Page(browser, `${other.url}some/place/`, room);
  await there.open();
  await there.until('navigator.serviceWorker.controller !== null');
  const scripts = await there.evaluate('performance.getEntriesByType("resource").map(({ name }) => name)');
  assert.ok(
    scripts.every((name) => name.startsWith(`${other.url}some/place/`)),
    'the page asks for something outside of its folder',
  );
  other.close();
  await there.evaluate('delete globalThis.noisePage');
  await browser.open(`${there.url}#mode=stream`);
  await there.until('globalThis.noisePage !== undefined');
  await there.begin();
  await there.passAll();
  assert.match(await there.textOf('state'), /initiator is open/);
  await browser.open(`${there.url}rules.html`);
  await there.until('document.querySelectorAll("article li[id^=rule-]").length === 5');
  report('the folder that web/build makes works on another server, and without it after the first load');
}

try {
  await page.open();
  await allPatterns();
  await faults();
  await ownPattern();
  await refusals();
  await datagrams();
  await long();
  report(await sizes(page, top));
  report(await links(page));
  report(await workbench(page));
  report(await secrets(page, top));
  report(await choices(page));
  report(await pointing(page));
  report(await staying(page));
  report(await finding(page, top));
  report(await views(page));
  await walks();
  report(await designs(page));
  await page.resize(1100);
  await speech(page);
  report(await axe(page));
  await sockets();
  report(await figures(browser, () => page.open()));
  report(await weight(page));
  await pictures();
  assert.deepEqual(browser.said, [], 'the console has to be silent');
  await offline();
  report(
    'a pattern of one’s own, refusals, transport, datagrams, the link, what a screen reader gets: '
      + 'as they should be; the console is silent',
  );
} finally {
  await browser.close();
  server.close();
}
