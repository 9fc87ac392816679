// What is saved and copied, and the set-up as a program.
import { visible } from './bytes.mjs';
import { button, copier, element, enable, onPress, speak } from './element.mjs';
import { LANGUAGES } from './languages.mjs';
import * as link from './link.mjs';
import { pictureFile } from './picture.mjs';
import { scheduleOf } from './schedule.mjs';
import { vectorFile } from './vectorfile.mjs';

const at = (id) => document.getElementById(id);

function say(text) {
  at('copied').textContent = visible(text).replaceAll('\\u{a}', '\n');
  speak(text);
}

/** Hands a file to the browser, and says so. */
function save(name, type, text) {
  const url = URL.createObjectURL(new Blob([text], { type }));
  const anchor = element('a');
  Object.assign(anchor, { href: url, download: name });
  anchor.click();
  setTimeout(() => URL.revokeObjectURL(url), 1000);
  say(`The browser saves ${name}.`);
}

/**
 * Copies a text, and says so below the buttons; where the browser doesn't let it, the text is shown to be copied by
 * hand.
 */
async function copy(text, what, more = '') {
  try {
    await navigator.clipboard.writeText(text);
    say(`${what} copied.${more}`);
  } catch {
    say(`This browser doesn’t let the page copy. ${what}: ${text}`);
  }
}

/** The text with an arrow alone for the transport messages of each party, in turn. */
export function forExplorer({ messages, oneWay }, text) {
  const arrows = ['  ->', '  <-'];
  const first = messages.length % 2;
  return `${text}${(oneWay ? [arrows[0]] : [arrows[first], arrows[1 - first]]).map((it) => `${it}\n`).join('')}`;
}

/** Of whom a program can be: of both parties, or of the one with a role. */
const PARTIES = { both: ['Both parties', undefined], client: ['Client', 'initiator'], server: ['Server', 'responder'] };

export class Take {
  #page;
  #language = 'C';
  #party = 'both';
  #shown = '';
  #coding;
  /** The program is made anew when it comes into view; one that is out of it waits, and so do the scripts for it. */
  #isInView = false;
  #scripts;

  /** `page` has `setup`, `plan`, `run` and `text`. */
  constructor(page) {
    this.#page = page;
    const wire = (id, work) => onPress(at(id), work, say);
    wire('save-vector', () => { const { name, text } = vectorFile(page.run); save(name, 'text/plain', text); });
    wire('save-pattern', () => save(`${page.plan?.base ?? 'mine'}.pattern`, 'text/plain', page.setup.text));
    wire('save-picture', () => save(`${page.plan.base}.svg`, 'image/svg+xml', pictureFile(page.plan)));
    wire('save-program', async () => { const { name, text } = await this.#program(); save(name, 'text/plain', text); });
    wire('copy-link', () => this.#copyLink([], 'A link to this set-up'));
    wire('copy-run', () => this.#copyLink(page.run.steps, 'A link to this run'));
    wire('copy-explorer', () => copy(forExplorer(page.plan, page.setup.text), 'The pattern for Noise Explorer'));
    wire('copy-log', async () =>
      copy((await scheduleOf(page.run)).whole.map((line) => `${line}\n`).join(''), 'The key schedule'),
    );
    for (const name of LANGUAGES) {
      at('languages').append(button(name, () => { this.#language = name; this.show(); this.#showCode(); }));
    }
    for (const [name, [label]] of Object.entries(PARTIES)) {
      const made = button(label, () => { this.#party = name; this.show(); this.#showCode(); });
      made.value = name;
      at('parties').append(made);
    }
    new IntersectionObserver(([{ isIntersecting }]) => {
      this.#isInView = isIntersecting;
      if (isIntersecting) this.#showCode();
    }, { rootMargin: '200px' }).observe(at('code'));
    at('program-row').append(copier('the program', async () => (await this.#program()).text));
  }

  /** Copies the page's own address, wherever it is served, with a set-up and a run's steps. */
  async #copyLink(steps, what) {
    const why = link.whyNot(this.#page.setup, steps);
    if (why) {
      return say(`No link is copied: ${why}. Save ${steps.length ? 'the run as a vector file' : 'the pattern'}.`);
    }
    const here = link.isLocal(location) ? ' It opens only on this computer, which serves this page.' : '';
    return copy(location.href.split('#')[0] + link.write(this.#page.setup, steps), what, here);
  }

  /** What makes and colours programs. */
  async #made() {
    this.#scripts ??= Promise.all([import('./code.mjs'), import('./highlight.mjs')]);
    const [{ program }, { highlighted }] = await this.#scripts;
    return { program, highlighted };
  }

  async #program() {
    const { program } = await this.#made();
    const { plan, setup } = this.#page;
    return program(this.#language, plan, setup, PARTIES[this.#party][1]);
  }

  show() {
    const { plan, run } = this.#page;
    for (const made of at('languages').children) {
      made.setAttribute('aria-pressed', String(made.textContent === this.#language));
    }
    for (const made of at('parties').children) made.setAttribute('aria-pressed', String(made.value === this.#party));
    const none = run ? 'The run belongs to another set-up.' : 'No keys are drawn yet.';
    const isLive = run && !this.#page.isStale;
    for (const id of ['save-program', 'save-picture', 'copy-explorer']) {
      enable(at(id), plan, 'The pattern isn’t valid.');
    }
    for (const id of ['copy-link', 'save-pattern']) enable(at(id), true);
    for (const id of ['copy-run', 'copy-log']) enable(at(id), isLive, none);
    enable(at('save-vector'), isLive && !run.hasOwnPsks, isLive ? at('no-vector').textContent : none);
    at('no-vector').hidden = !isLive || !run.hasOwnPsks;
    at('code').classList.toggle('old', !plan);
    at('code-old').hidden = Boolean(plan) || !this.#shown;
    at('code').hidden = !plan && !this.#shown;
    clearTimeout(this.#coding);
    if (this.#isInView) this.#coding = setTimeout(() => this.#showCode(), 0);
  }

  /** The program, once the keys that came have been seen to. */
  async #showCode() {
    if (!this.#page.plan) return;
    const { highlighted } = await this.#made();
    if (!this.#page.plan) return;
    const { text } = await this.#program();
    if (text === this.#shown) return;
    this.#shown = text;
    at('code').replaceChildren(...highlighted(this.#language, text));
  }

  /** Nothing that was said of an earlier copy is left. */
  clear() {
    at('copied').textContent = '';
  }
}
