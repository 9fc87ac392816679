// What the page's address brings: a set-up and a run, or a sentence on what of them is left out; Back and Forward; a
// place of the page.
import assert from 'node:assert/strict';

const NN = 'NN:\n  -> e\n  <- e, ee\n';
const linkOf = (words) => `#${new URLSearchParams({ pattern: NN, ...words })}`;
const runOf = (count) => Array(count).fill('wi').join('_');

const LEFT_OUT = [
  [{ run: 'wi_dr.x' }, 'The run of this link is left out: its step 2 can’t be read.'],
  [{ run: runOf(401) }, 'The run of this link is left out: it has 401 steps, and a link can have 400.'],
  [{ pattern: 'MINE:\n  -> ee\n', run: 'wi' }, 'The run of this link is left out: its pattern isn’t valid.'],
  [{ mode: 'udp', window: '65' }, 'Of this link’s set-up this can’t be read, and is left out: mode, window.'],
];

const isEmpty = (page) => page.until('document.getElementById("log").childElementCount === 0');

async function leftOut(page) {
  for (const [words, says] of LEFT_OUT) {
    await page.open(linkOf(words));
    assert.equal(await page.textOf('notice'), says);
    assert.equal(await page.count(), 0);
    await page.until(`document.getElementById("live").textContent.startsWith(${JSON.stringify(says)})`);
  }
  await page.resize(390);
  await page.open(linkOf({ run: 'wi_dr.0' }));
  assert.equal(await page.textOf('notice'), 'This link has a run, which is done again with new keys. See the run');
  await page.click('#notice a');
  await page.until(
    'document.getElementById("run").getBoundingClientRect().top < innerHeight / 2 && '
      + 'location.hash.includes("pattern=NN") && !location.hash.includes("run=")',
  );
  await page.resize(1100);
  await page.reload();
  assert.equal(await page.textOf('notice'), '');
  assert.match(await page.textOf('said'), /^The run was done again with new keys: 2 entries\. 1\. Initiator wrote/);
  await page.evaluate(`location.hash = ${JSON.stringify(linkOf({ run: 'w' }))}`);
  await page.until('document.getElementById("notice").textContent.includes("its step 1 can’t be read")');
  await page.evaluate(`location.hash = ${JSON.stringify(linkOf({ run: 'wi.00_dr.0' }))}`);
  await page.until('document.getElementById("notice").textContent.startsWith("This link has a run")');
  await page.open(linkOf({ run: 'wi_dr.3' }));
  assert.equal(
    await page.textOf('said'),
    'Of the run 1 of 2 steps were done again with new keys: 1 entry. There is no such message.',
  );
}

/** A run that has become too long for a link: it isn't put in one, and the page says so. */
async function tooLong(page) {
  await page.open(linkOf({ run: runOf(400) }));
  assert.equal(await page.count(), 400);
  await page.write('initiator');
  await page.click('#copy-run');
  assert.match(await page.textOf('copied'), /^No link is copied: this run has 401 steps, and a link can have 400\./);
  await page.until('!location.hash.includes("run=")');
}

/**
 * Each entry of the browser's history has its set-up, and its run is done again; the focus isn't lost with the log that
 * it was in.
 */
async function backAndForward(page) {
  const at = async (text, count) => {
    await page.until(
      `document.getElementById("text").value === ${JSON.stringify(text)} && `
        + `document.getElementById("log").childElementCount === ${count}`,
    );
    await page.until('document.getElementById("said").textContent.startsWith("The run was done again")');
  };
  await page.open(linkOf({ run: 'wi_dr.0' }));
  await page.type('pick', 'XX');
  const xx = await page.evaluate('document.getElementById("text").value');
  await page.begin();
  await page.write('initiator');
  await page.run('document.querySelector("#current .go").focus(); history.back()');
  await at(NN, 2);
  assert.equal(await page.textOf('notice'), '');
  assert.equal(await page.evaluate('document.getElementById("ran").className'), '');
  assert.equal(await page.evaluate('document.activeElement.id'), 'step');
  await page.run('history.forward()');
  await at(xx, 1);
}

/** The link past the editor goes to the run, and the set-up stays. */
async function placeOfThePage(page) {
  await page.open(linkOf({ beside: 'XX' }));
  assert.match(await page.textOf('other'), /^NN and XX differ in \d+ rows,/);
  await page.click('.skip');
  await page.until('location.hash.includes("pattern=NN")');
  assert.equal(await page.evaluate('document.getElementById("text").value'), NN);
  await page.reload();
  assert.equal(await page.evaluate('document.getElementById("beside").value'), 'XX');
  await page.type('beside', '');
  assert.equal(await page.textOf('other'), '');
  await page.until('!location.hash.includes("beside")');
}

export async function links(page) {
  await leftOut(page);
  await tooLong(page);
  await backAndForward(page);
  await placeOfThePage(page);
  await page.open(linkOf({}));
  await isEmpty(page);
  return `${LEFT_OUT.length} links of which a part is left out say so; Back, Forward and a reload bring set-up and run`;
}
