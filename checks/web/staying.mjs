// What stays where it is: the large button from its first press to its last, also where a notice goes; what is looked
// at while a notice comes, which is in the window wherever the page is scrolled to; and all of the picture in a run.
import assert from 'node:assert/strict';
import { Pointer } from './hands.mjs';

const quoted = JSON.stringify;
const XX = '#pattern=XX%3A%0A++-%3E+e%0A++%3C-+e%2C+ee%2C+s%2C+es%0A++-%3E+s%2C+se%0A';
const WINDOWS = [[360, 740], [1280, 720], [1440, 900]];
const SECRET = '0123456789abcdef'.repeat(4);

const top = (page, selector) =>
  page.evaluate(`document.querySelector(${quoted(selector)}).getBoundingClientRect().top`);
const drop = (page, text) =>
  page.run(`const data = new DataTransfer(); data.setData('text/plain', ${quoted(text)});
  const how = { dataTransfer: data, bubbles: true, cancelable: true };
  document.getElementById('text').dispatchEvent(new DragEvent('drop', how))`);

/** One place of the window is pressed, from the drawing of keys to the first payload. */
async function button(page, [width, height]) {
  const press = { button: 'left', clickCount: 1 };
  const place = () => page.evaluate(`(() => {
    const { left, top, width } = document.getElementById('step').getBoundingClientRect();
    return [left, top, width].map(Math.round).join();
  })()`);
  await page.open(XX);
  await drop(page, SECRET);
  const [x, y] = await new Pointer(page.browser).point('#step');
  const first = await place();
  for (let n = 0; n < 8; n += 1) {
    const label = await page.textOf('step');
    for (const type of ['mousePressed', 'mouseReleased']) {
      await page.browser.send('Input.dispatchMouseEvent', { type, x, y, ...press });
    }
    await page.until(`document.getElementById('step').textContent !== ${quoted(label)}`);
    assert.equal(await place(), first, `“${label}” moves the button, at ${width} × ${height}`);
    assert.equal(await page.evaluate(`document.elementFromPoint(${x}, ${y}).id`), 'step');
  }
  assert.equal(await page.textOf('notice'), '');
  const [shown, drawn] = await page.evaluate(
    '["#picture", "#picture svg"].map((it) => document.querySelector(it).clientHeight)',
  );
  assert.ok(drawn > 0 && shown >= drawn, `in a run the picture is cut off, at ${width} × ${height}`);
}

/** Something can't be taken: the notice of it is in the window, covers the end of it alone, and moves nothing. */
async function notice(page, [width, height]) {
  await page.open(XX);
  for (const looked of ['h1', '#facts', '#code', '#proved-h']) {
    await page.run(`document.querySelector(${quoted(looked)}).scrollIntoView({ block: 'center' });
      await new Promise((done) => setTimeout(done, 200))`);
    const before = await top(page, looked);
    const where = `at ${looked}, ${width} × ${height}`;
    await drop(page, SECRET);
    await page.until('document.getElementById("notice").textContent.startsWith("This text has 32 hex digits")');
    const box = await page.evaluate(`(() => {
      const { left, top, right, bottom } = document.getElementById('notice').getBoundingClientRect();
      const isThere = document.elementFromPoint((left + right) / 2, (top + bottom) / 2)?.id === 'notice';
      return { left, top, right, bottom, isThere };
    })()`);
    assert.ok(box.left >= 0 && box.right <= width && box.bottom <= height && box.isThere, `no notice is seen ${where}`);
    assert.ok(box.top > height * 0.7, `the notice covers what is looked at, ${where}`);
    assert.equal(await top(page, looked), before, `the notice moves the page, ${where}`);
    await page.click('#notice-close');
    assert.equal(await page.textOf('notice'), '');
    assert.equal(await page.evaluate('document.getElementById("told").checkVisibility()'), false);
    assert.equal(await top(page, looked), before, `the notice moves the page as it goes, ${where}`);
  }
}

export async function staying(page) {
  for (const size of WINDOWS) {
    await page.resize(...size);
    await button(page, size);
    await notice(page, size);
  }
  await page.resize(1100);
  return `the large button is at one place through a run, and a notice is in the window and moves nothing, at ${
    WINDOWS.length} sizes`;
}
