// Undo and redo over the whole set-up: the text, the prologue, the mode and the rest. What is typed without a pause is
// one step.
const PAUSE = 1000;
const MOST = 100;
const at = (id) => document.getElementById(id);
const wordsOf = ({ text, prologue, interval, mode, window, ownPsks }) => ({
  text,
  prologue,
  interval,
  mode,
  window,
  ownPsks,
});

export class Undo {
  #past = [];
  #future = [];
  #now;
  #notedAt = 0;
  #field = '';
  #restore;

  /** `restore(setup)` puts another set-up in the place of the page's. */
  constructor(setup, restore) {
    this.#now = wordsOf(setup);
    this.#restore = restore;
    at('undo').addEventListener('click', () => this.#go(this.#past, this.#future));
    at('redo').addEventListener('click', () => this.#go(this.#future, this.#past));
    document.addEventListener('keydown', (event) => {
      const isTyping = event.target.matches?.('textarea, input:not([type=checkbox])');
      if (isTyping || !(event.ctrlKey || event.metaKey) || event.key.toLowerCase() !== 'z') return;
      event.preventDefault();
      if (event.shiftKey) this.#go(this.#future, this.#past);
      else this.#go(this.#past, this.#future);
    });
  }

  /** After each change of the set-up, which was typed or not. */
  note(setup, isTyped) {
    const now = wordsOf(setup);
    const field = Object.keys(now).filter((name) => now[name] !== this.#now[name]).join();
    if (!field) return;
    const isSame = isTyped && field === this.#field && performance.now() - this.#notedAt < PAUSE;
    if (!isSame) this.#past = [...this.#past, this.#now].slice(-MOST);
    this.#future = [];
    this.#now = now;
    this.#field = isTyped ? field : '';
    this.#notedAt = performance.now();
    this.#show();
  }

  #go(from, to) {
    const setup = from.pop();
    if (!setup) return;
    to.push(this.#now);
    this.#now = setup;
    this.#field = '';
    this.#restore(setup);
    this.#show();
  }

  #show() {
    for (const [id, list] of [['undo', this.#past], ['redo', this.#future]]) {
      if (list.length === 0 && document.activeElement === at(id)) at('text').focus();
      at(id).disabled = list.length === 0;
    }
  }
}
