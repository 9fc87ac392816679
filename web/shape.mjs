// The picture of the handshake with the run in it, what follows from its tokens, and another pattern beside it.
import { visible } from './bytes.mjs';
import { Part, element, tell } from './element.mjs';
import { Beside, showFacts } from './factsview.mjs';
import { partial } from './partial.mjs';
import { STYLE, picture, pieceName, words } from './picture.mjs';

const at = (id) => document.getElementById(id);
const CARET = 'The token under the caret is shown here, and in the picture.';
const PART = 'Not valid: ✗ marks its faults.';
const OLD = 'The last valid pattern, not the text.';
/** How many pixels a unit of the picture is: its texts grow with the browser's font. */
const unit = () => parseFloat(getComputedStyle(document.documentElement).fontSize) / 16;

export class Shape {
  #page;
  #width;
  #beside;
  #seen;
  #under;
  #facts = new Part(at('shown'));
  /** The picture as it is drawn: what is the same isn't drawn again. */
  #svg = '';

  /**
   * `page` has `setup` and `plan`. `chosen(name)` is called with the name of the pattern of the standard that was
   * chosen to be beside, or ''.
   */
  constructor(page, chosen) {
    const sheet = new CSSStyleSheet();
    sheet.replaceSync(STYLE);
    document.adoptedStyleSheets = [sheet];
    this.#page = page;
    this.#width = at('picture').clientWidth;
    this.#beside = new Beside(at('beside'), at('other'), chosen);
    this.#beside.choose(page.setup.beside);
    at('words').parentElement.addEventListener('toggle', () => this.#tell());
    this.show();
    new ResizeObserver(() => {
      if (this.#width === at('picture').clientWidth) return;
      this.#width = at('picture').clientWidth;
      this.#draw();
    }).observe(at('picture'));
  }

  #draw() {
    const { plan, setup, faults } = this.#page;
    const drawn = plan ?? partial(setup.text, faults);
    at('picture').classList.toggle('old', !drawn);
    if (drawn) tell(at('shape-of'), visible(drawn.section));
    at('shape-old').hidden = Boolean(plan);
    const none = at('shape-of').textContent ? OLD : 'The text isn’t a valid pattern, and has no picture.';
    if (!plan) tell(at('shape-old'), drawn ? PART : none);
    const seen = this.#page.isStale || !plan ? undefined : this.#seen;
    const svg = drawn ? picture(drawn, this.#width, seen, unit()) : this.#svg;
    if (svg !== this.#svg) at('picture').innerHTML = svg;
    this.#svg = svg;
    this.#mark();
  }

  /** What a run has come to, as progress.mjs gives it. */
  run(seen) {
    this.#seen = seen;
    if (this.#page.plan) this.#draw();
  }

  #mark() {
    const { plan } = this.#page;
    for (const it of at('picture').querySelectorAll('.under')) it.classList.remove('under');
    const message = plan?.messages[this.#under?.message];
    const pieces = message?.pieces.filter(({ token }) => token === this.#under.token) ?? [];
    if (!pieces.length) return at('caret').replaceChildren(CARET);
    for (const it of at('picture').querySelectorAll(`[data-piece="${this.#under.message}.${this.#under.token}"]`)) {
      it.classList.add('under');
    }
    const from = message.pieces.slice(0, message.pieces.indexOf(pieces[0])).reduce(
      (sum, { length }) => sum + length,
      0,
    );
    const length = pieces.reduce((sum, piece) => sum + piece.length, 0);
    const where = length ? `bytes ${from} to ${from + length - 1}` : 'no bytes';
    const says = ` in message ${this.#under.message + 1}: ${pieces.map(pieceName).join('; ')} (${where})`;
    return at('caret').replaceChildren(element('strong', '', message.tokens[this.#under.token]), says);
  }

  /** The token that the caret is in, as `{ message, token }` from 0 on, or undefined. */
  under(place) {
    if (place?.message === this.#under?.message && place?.token === this.#under?.token) return;
    this.#under = place;
    this.#mark();
  }

  /**
   * After each change of the pattern: while it isn't valid, the picture has what can be read, or stays if nothing can,
   * and its title says so; its facts are left out.
   */
  show() {
    const { plan, setup } = this.#page;
    this.#draw();
    this.#beside.show(setup.text, Boolean(plan));
    at('facts').hidden = !plan;
    at('no-facts').hidden = Boolean(plan);
    at('words').parentElement.hidden = !plan;
    if (!plan) return;
    this.#tell();
    this.#facts.show(() => showFacts(at('facts'), plan));
  }

  /** The picture in words, where they are unfolded. */
  #tell() {
    const { plan } = this.#page;
    if (!plan || !at('words').parentElement.open) return;
    at('words').replaceChildren(...words(plan).map((line) => element('li', '', line)));
  }

  /** Shows this pattern of the standard beside, or none. */
  choose(name) {
    this.#beside.choose(name);
    this.#beside.show(this.#page.setup.text, Boolean(this.#page.plan));
  }
}
