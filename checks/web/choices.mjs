// "Which pattern do I need?": answers lead to the patterns that the table of the standard's patterns has for them, a
// name puts its text into the editor, and what 0-RTT costs, the places of a psk and the quotation are there.
import assert from 'node:assert/strict';
import { DEFERRED, FUNDAMENTAL, textOf, textOfName } from '../../web/patterns.mjs';

const quoted = JSON.stringify;
/** Answers, and the patterns that fit them, read by hand off 7.4, 7.5 and 18.1 of the standard. */
const ANSWERED = [
  [{ server: 'known before', early: 'yes' }, 'N K X NK XK KK IK X1K K1K I1K'],
  [{ server: 'known before', early: 'yes', client: 'sent encrypted', messages: '2' }, 'IK'],
  [{ server: 'known before', client: 'it has none', messages: '2', early: '' }, 'NK NK1'],
  [{ server: 'sent encrypted', client: 'sent encrypted', messages: '3' }, 'XX XX1'],
  [{ messages: '1', server: '', client: '' }, 'N K X'],
  [{ messages: '4' }, 'X1N X1K X1K1 X1X X1X1'],
  [{ messages: '', client: 'it has none', server: 'it has none', psk: 'yes' }, 'NNpsk0 NNpsk2'],
  // the secret encrypts the payload of message 1, which NN alone doesn't
  [{ early: 'yes' }, 'NNpsk0'],
  [{ early: 'no' }, 'NNpsk2'],
  [{ server: 'sent encrypted', early: 'yes' }, 'NXpsk0'],
  [{ server: 'it has none', psk: '', early: 'yes' }, ''],
];

const names = (page) => page.evaluate(
  '[...document.querySelectorAll("#choosing .fit + .choices button")].map((it) => it.textContent).join(" ")',
);

export async function choices(page) {
  for (const width of [360, 1280]) {
    await page.resize(width, 800);
    await page.open('#choose');
    await page.until('document.querySelector("#choosing .choices") !== null');
    assert.equal(await page.evaluate('document.getElementById("choose").open'), true);
    for (const it of ['replay', 'no forward secrecy', 'psk0 stands before message 1']) {
      assert.ok((await page.textOf('choosing')).includes(it), it);
    }
    assert.ok(await page.isWithin(width), `the help to choose is too wide at ${width}`);
  }
  assert.deepEqual((await names(page)).split(' '), [...FUNDAMENTAL, ...DEFERRED]);
  const said = await page.evaluate(
    '[...document.querySelectorAll("#choosing .fit + .choices li")].map((it) => it.textContent.replace(/^\\S+ /, ""))',
  );
  assert.equal(new Set(said).size, 38, 'two patterns have one sentence');
  for (const [answers, wanted] of ANSWERED) {
    for (const [name, value] of Object.entries(answers)) await page.type(`ask-${name}`, value);
    assert.equal(await names(page), wanted, quoted(answers));
  }
  const told = await page.evaluate('document.querySelector("#choosing .fit").textContent');
  assert.match(told, /^No pattern of the standard/);
  const cells = await page.evaluate(
    `[...document.querySelectorAll("#choosing blockquote tbody tr")].map(
      (it) => [...it.children].map(({ textContent }) => textContent))`,
  );
  assert.equal(cells.length, 15);
  assert.deepEqual(cells.find(([name]) => name === 'IK'), ['IK', '1 2', '2 4', '2 5', '2 5']);
  assert.match(
    await page.evaluate('document.querySelector("#choosing blockquote").previousSibling.querySelector("a").href'),
    /^https:\/\/noiseprotocol\.org\/noise\.html#payload-security-properties$/,
  );
  assert.equal(
    await page.evaluate('document.querySelector("#choosing a[href$=identity-hiding]")?.textContent'),
    'section 7.8 of the standard',
  );
  const purposes = await page.evaluate('document.querySelectorAll("#choosing .choices:first-of-type button").length');
  for (let n = 1; n <= purposes; n += 1) {
    const place = `#choosing .choices:first-of-type li:nth-child(${n}) button`;
    const name = await page.evaluate(`document.querySelector(${quoted(place)}).textContent`);
    await page.click(place);
    assert.equal(await page.evaluate('document.getElementById("text").value'), textOfName(name));
    assert.match(await page.evaluate('document.getElementById("verdict").className'), /good/, name);
  }
  await page.run('history.back()');
  await page.until(`document.getElementById("text").value !== ${quoted(textOf('XX'))}`);
  return `which pattern is needed: ${ANSWERED.length} answers lead to the patterns that fit, `
    + `${purposes} purposes to one each`;
}
