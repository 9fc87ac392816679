// Headless Chromium, driven by its own protocol over a pipe: each message ends with a zero byte.
import { spawn } from 'node:child_process';
import { mkdtemp, rm } from 'node:fs/promises';
import { tmpdir } from 'node:os';
import { join } from 'node:path';

export class Browser {
  #next = 1;
  #waiting = new Map();
  #said = [];

  /** Starts Chromium with one empty page, and with more words on its command line. */
  static async start(...more) {
    const browser = new Browser();
    browser.profile = await mkdtemp(join(tmpdir(), 'noise-page-'));
    const words = [
      '--headless=new', '--remote-debugging-pipe', '--no-first-run', '--disable-gpu', '--hide-scrollbars',
      '--force-color-profile=srgb',
    ];
    words.push(`--user-data-dir=${browser.profile}`);
    if (process.getuid() === 0) words.push('--no-sandbox');
    words.push(...more);
    browser.child = spawn('chromium', [...words, 'about:blank'], {
      stdio: ['ignore', 'ignore', 'ignore', 'pipe', 'pipe'],
    });
    browser.child.on('error', (error) => browser.#fail(error));
    browser.child.on('exit', () => browser.#fail(new Error('chromium has ended')));
    let held = '';
    browser.child.stdio[4].setEncoding('utf8').on('data', (data) => {
      const parts = (held + data).split('\0');
      held = parts.pop();
      for (const part of parts) browser.#take(JSON.parse(part));
    });
    const { targetInfos } = await browser.send('Target.getTargets');
    const { targetId } = targetInfos.find(({ type }) => type === 'page');
    ({ sessionId: browser.session } = await browser.send('Target.attachToTarget', { targetId, flatten: true }));
    for (const domain of ['Page', 'Runtime', 'Log']) await browser.send(`${domain}.enable`);
    return browser;
  }

  #fail(error) {
    for (const { reject } of this.#waiting.values()) reject(error);
    this.#waiting.clear();
  }

  #take({ id, method, params, result, error }) {
    if (id !== undefined) {
      const { resolve, reject } = this.#waiting.get(id);
      this.#waiting.delete(id);
      if (error) reject(new Error(error.message));
      else resolve(result);
    } else if (['Runtime.consoleAPICalled', 'Runtime.exceptionThrown', 'Log.entryAdded'].includes(method)) {
      this.#said.push(JSON.stringify(params));
    }
  }

  /** What the page has said on its console. */
  get said() {
    return this.#said;
  }

  send(method, params = {}) {
    const id = this.#next;
    this.#next += 1;
    this.child.stdio[3].write(`${JSON.stringify({ id, method, params, sessionId: this.session })}\0`);
    return new Promise((resolve, reject) => { this.#waiting.set(id, { resolve, reject }); });
  }

  async open(url) {
    await this.send('Page.navigate', { url: 'about:blank' });
    await this.send('Page.navigate', { url });
  }

  /** What an expression of the page gives, a promise awaited. */
  async evaluate(expression) {
    const { result, exceptionDetails } = await this.send('Runtime.evaluate', {
      expression, awaitPromise: true, returnByValue: true, userGesture: true,
    });
    if (exceptionDetails) {
      throw new Error(`${exceptionDetails.exception?.description ?? exceptionDetails.text}\nin ${expression}`);
    }
    return result.value;
  }

  /** Waits until an expression is true, at most 60 seconds. */
  async until(expression) {
    for (const end = Date.now() + 60000; Date.now() < end;) {
      if (await this.evaluate(expression)) return;
      await new Promise((resolve) => { setTimeout(resolve, 10); });
    }
    throw new Error(`never: ${expression}`);
  }

  async press(key, text, modifiers = 0) {
    const code = {
      Tab: 9, Enter: 13, ' ': 32, End: 35, Home: 36, ArrowLeft: 37, ArrowUp: 38, ArrowRight: 39, ArrowDown: 40,
    }[key] ?? 0;
    await this.send('Input.dispatchKeyEvent', {
      type: 'keyDown', key, code: key === ' ' ? 'Space' : key, windowsVirtualKeyCode: code, text, modifiers,
    });
    await this.send('Input.dispatchKeyEvent', {
      type: 'keyUp', key, code: key === ' ' ? 'Space' : key, windowsVirtualKeyCode: code, modifiers,
    });
  }

  /** A letter with the control key, as a keyboard sends it. */
  async chord(letter, windowsVirtualKeyCode) {
    const event = { key: letter, code: `Key${letter.toUpperCase()}`, windowsVirtualKeyCode, modifiers: 2 };
    await this.send('Input.dispatchKeyEvent', { type: 'rawKeyDown', ...event });
    await this.send('Input.dispatchKeyEvent', { type: 'keyUp', ...event });
  }

  /** Types a text where the focus is, in the place of what is there. */
  async type(text) {
    await this.send('Input.dispatchKeyEvent', { type: 'keyDown', commands: ['selectAll'] });
    await this.send('Input.insertText', { text });
  }

  async picture(width, height, dark, isWhole = false) {
    await this.send('Emulation.setDeviceMetricsOverride', { width, height, deviceScaleFactor: 1, mobile: width < 500 });
    await this.send('Emulation.setEmulatedMedia', {
      features: [{ name: 'prefers-color-scheme', value: dark ? 'dark' : 'light' }],
    });
    await this.evaluate('new Promise((done) => setTimeout(done, 250))');
    const { data } = await this.send('Page.captureScreenshot', { format: 'png', captureBeyondViewport: isWhole });
    return Buffer.from(data, 'base64');
  }

  async close() {
    const ended = new Promise((resolve) => { this.child.once('exit', resolve); });
    this.session = undefined;
    this.send('Browser.close').catch(() => {});
    await Promise.race([ended, new Promise((resolve) => { setTimeout(resolve, 3000); })]);
    this.child.kill('SIGKILL');
    await rm(this.profile, { recursive: true, force: true, maxRetries: 5, retryDelay: 100 });
  }
}
