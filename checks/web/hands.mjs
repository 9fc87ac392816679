// Two ways to use the page: by the keyboard alone, and by the pointer. Both have the same calls; a selector names what
// is used.
import assert from 'node:assert/strict';

const quoted = JSON.stringify;

/** How many presses of Tab a control is away, about: fewer than 0 if it is before the focus. */
const DISTANCE = `(selector) => {
  const to = document.querySelector(selector);
  if (!to) throw new Error('there is no ' + selector);
  const stops = [...document.querySelectorAll('a[href], button, input, select, textarea, summary, [tabindex="0"]')]
    .filter((it) => it.tabIndex >= 0 && !it.disabled && it.checkVisibility({ visibilityProperty: true }));
  const from = stops.indexOf(document.activeElement);
  return from < 0 ? 0 : stops.indexOf(to) - from;
}`;

/** The middle of a control, once its box is the same in two frames, one after the other, and nothing covers it. */
const STEADY = `async (selector) => {
  const look = () => {
    const it = document.querySelector(selector);
    if (!it) return { why: 'it is not there' };
    it.scrollIntoView({ block: 'center' });
    const { left, top, width, height } = it.getBoundingClientRect();
    const at = [left + width / 2, top + height / 2];
    const there = document.elementFromPoint(...at);
    const why = it.contains(there) ? '' : 'it is covered by ' + there?.outerHTML.slice(0, 100);
    return { at, why, box: [left, top, width, height].join() };
  };
  const whyNot = (before, now) => now.why || (now.box === before.box ? '' : 'it moves');
  const end = performance.now() + 60000;
  let [before, now] = [{}, look()];
  while (whyNot(before, now) && performance.now() < end) {
    await new Promise((done) => { requestAnimationFrame(done); });
    [before, now] = [now, look()];
  }
  if (whyNot(before, now)) throw new Error(selector + ' cannot be pressed: ' + whyNot(before, now));
  return now.at;
}`;

class Hand {
  constructor(browser) {
    this.browser = browser;
  }

  evaluate(expression) {
    return this.browser.evaluate(expression);
  }

  /** Types a text into a field, in the place of what is there. */
  async type(selector, text) {
    await this.reach(selector);
    await this.browser.type(text);
  }

  /** The browser's own undo, and redo. */
  async undo() {
    await this.browser.chord('z', 90);
  }
}

/** Tab to get there, Enter, the space bar and the arrow keys to use it. */
export class Keyboard extends Hand {
  name = 'the keyboard';

  /** Goes on by Tab from where the focus is: backwards if the control is before it. Most of the way it doesn't look. */
  async reach(selector) {
    const is = `document.activeElement.matches(${quoted(selector)})`;
    const far = await this.evaluate(`(${DISTANCE})(${quoted(selector)})`);
    const back = far < 0 ? 8 : 0;
    for (let n = 1; n < Math.abs(far); n += 1) await this.browser.press('Tab', undefined, back);
    for (let n = 0; n < 150 && !await this.evaluate(is); n += 1) await this.browser.press('Tab', undefined, back);
    assert.ok(
      await this.evaluate(is),
      `Tab doesn't reach ${selector}: `
        + `it is at ${await this.evaluate('document.activeElement.outerHTML.slice(0, 120)')}`,
    );
  }

  async press(selector) {
    await this.reach(selector);
    await this.browser.press('Enter', '\r');
  }

  async tick(selector) {
    await this.reach(selector);
    await this.browser.press(' ', ' ');
  }

  /** Goes through the options of a list by the arrow keys. */
  async choose(selector, value) {
    await this.reach(selector);
    const at = `(() => { const it = document.querySelector(${quoted(selector)});
      const values = [...it.options].map(({ value }) => value);
      return [values.indexOf(it.value), values.indexOf(${quoted(value)})]; })()`;
    for (let n = 0; n < 60; n += 1) {
      const [is, to] = await this.evaluate(at);
      assert.ok(to >= 0, `${selector} has no ${value}`);
      if (is === to) return;
      await this.browser.press(is < to ? 'ArrowDown' : 'ArrowUp');
    }
    assert.fail(`${selector} doesn't come to ${value}`);
  }

  /** One byte of the newest written message. */
  async flip(box, at) {
    await this.reach(`${box} [tabindex="0"]`);
    await this.browser.press('Home');
    for (let n = 0; n < at; n += 1) await this.browser.press('ArrowRight');
    await this.browser.press(' ', ' ');
  }
}

/** Moves to the middle of a control that stays where it is, and clicks. */
export class Pointer extends Hand {
  name = 'the pointer';

  async reach(selector) {
    await this.click(selector);
  }

  /** Moves to the middle of a control, which it gives. */
  async point(selector) {
    const [x, y] = await this.evaluate(`(${STEADY})(${quoted(selector)})`);
    await this.browser.send('Input.dispatchMouseEvent', { type: 'mouseMoved', x, y });
    return [x, y];
  }

  async click(selector) {
    const [x, y] = await this.point(selector);
    for (const type of ['mousePressed', 'mouseReleased']) {
      await this.browser.send('Input.dispatchMouseEvent', { type, x, y, button: 'left', clickCount: 1 });
    }
  }

  async press(selector) {
    await this.click(selector);
  }

  async tick(selector) {
    await this.click(selector);
  }

  /** A list opens as a window of its own, which the protocol doesn't reach: the option is set, and the change told. */
  async choose(selector, value) {
    await this.evaluate(
      `(() => { const it = document.querySelector(${quoted(selector)}); it.focus(); it.value = ${quoted(value)};
      if (it.value !== ${quoted(value)}) throw new Error('no such option');
      for (const name of ['input', 'change']) it.dispatchEvent(new Event(name, { bubbles: true })); })()`,
    );
  }

  async flip(box, at) {
    await this.click(`${box} [data-at="${at}"]`);
    await this.click(`${box} ~ .looking .flip`);
  }
}
