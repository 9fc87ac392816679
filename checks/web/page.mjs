// The page in a browser: what all checks of it do.
import { writeFile } from 'node:fs/promises';
import { join } from 'node:path';

const quoted = JSON.stringify;

export class Page {
  /** `url` is the folder that it is served from, and `room` a folder for what it saves. */
  constructor(browser, url, room) {
    Object.assign(this, { browser, url, room });
  }

  evaluate(expression) {
    return this.browser.evaluate(expression);
  }

  until(expression) {
    return this.browser.until(expression);
  }

  /** Some statements, whose promises are awaited. */
  run(work) {
    return this.evaluate(`(async () => { ${work} })()`);
  }

  async open(fragment = '') {
    await this.browser.open(`${this.url}${fragment}`);
    await this.until('globalThis.noisePage !== undefined');
  }

  async reload() {
    await this.evaluate('delete globalThis.noisePage');
    await this.browser.send('Page.reload');
    await this.until('globalThis.noisePage !== undefined');
  }

  async resize(width, height = 844) {
    await this.browser.send('Emulation.setDeviceMetricsOverride', {
      width, height, deviceScaleFactor: 1, mobile: width < 500,
    });
  }

  /**
   * Whether nothing is wider than the window, of which so many pixels were asked for: a phone shows a page that is too
   * wide smaller, and its window has more pixels then.
   */
  isWithin(width) {
    return this.evaluate(`document.documentElement.scrollWidth <= ${width}`);
  }

  click(selector) {
    return this.run(`document.querySelector(${quoted(selector)}).click()`);
  }

  type(id, value) {
    return this.run(`const it = document.getElementById(${quoted(id)});
      it.value = ${quoted(value)}; it.dispatchEvent(new Event('input')); it.dispatchEvent(new Event('change'))`);
  }

  textOf(id) {
    return this.evaluate(`document.getElementById(${quoted(id)}).textContent`);
  }

  /** Waits until the facts say this: where they aren't in view, that is a moment after the last key. */
  facts(form) {
    return this.until(`${form}.test(document.getElementById('facts').textContent)`);
  }

  count() {
    return this.evaluate('document.getElementById("log").childElementCount');
  }

  /** What stands in a part of the newest entry. */
  newest(selector) {
    return this.evaluate(`document.querySelector(${quoted(`#log li:first-child ${selector}`)}).textContent`);
  }

  async last() {
    return this.evaluate(
      'document.querySelector("#log li").className + ": " + document.querySelector("#log li .who").textContent',
    );
  }

  /** What stands in a part of the message that is shown. */
  shown(selector) {
    return this.evaluate(`document.querySelector(${quoted(`#ran ${selector}`)}).textContent`);
  }

  async begin() {
    await this.run(
      `const it = document.getElementById('start'); (it.hidden ? document.getElementById('step') : it).click()`,
    );
    await this.until(
      'document.getElementById("log").childElementCount === 0 && '
        + 'document.getElementById("all").getAttribute("aria-disabled") === "false"',
    );
  }

  async passAll() {
    await this.click('#all');
    await this.until('document.getElementById("all").getAttribute("aria-disabled") === "true"');
  }

  /** Does something that adds so many entries to the log. */
  async adding(entries, work) {
    const before = await this.count();
    await work();
    await this.until(`document.getElementById("log").childElementCount >= ${before + entries}`);
  }

  write(role) {
    return this.adding(1, () => this.click(`[data-write=${role}]`));
  }

  /** Delivers the Nth message that was written, with these bytes changed. */
  async deliver(n, flips = []) {
    await this.run(`[...document.querySelectorAll('#log li.wrote .show')].reverse()[${n}].click()`);
    for (const at of flips) await this.run(`document.querySelector('#current-body [data-at="${at}"]').click()`);
    await this.adding(1, () => this.click('#current .go'));
    for (const at of flips) await this.run(`document.querySelector('#current-body [data-at="${at}"]').click()`);
  }

  /** Saves the vector file of the run, and its key schedule. */
  async save(name) {
    await writeFile(join(this.room, 'files', `${name}.vector`), await this.evaluate('noisePage.vectorFile'));
    await writeFile(join(this.room, 'files', `${name}.log`), `${(await this.evaluate('noisePage.log')).join('\n')}\n`);
  }
}
