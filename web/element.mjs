/** An element with a class, and its children. */
export function element(name, cls, ...children) {
  const made = document.createElement(name);
  if (cls) made.className = cls;
  made.append(...children);
  return made;
}

/** Sets the text of an element, if it has another one. */
export function tell(it, text) {
  if (it.textContent !== text) it.textContent = text;
}

/**
 * Has a button do something. While it is switched off it says why instead: its title isn't seen without a pointer.
 */
export function onPress(it, act, say = speak) {
  it.addEventListener('click', (event) => {
    if (it.getAttribute('aria-disabled') !== 'true') act(event);
    else if (it.title) say(it.title);
  });
}

/** A button that does something, unless it is switched off. */
export function button(label, act, cls = '') {
  const made = element('button', cls, label);
  made.type = 'button';
  onPress(made, act);
  return made;
}

/** Switches a button on, or off with the reason as its description. It keeps the focus where it has it. */
export function enable(it, isEnabled, why = '') {
  const [isOff, title] = [String(!isEnabled), isEnabled ? '' : why];
  if (it.getAttribute('aria-disabled') !== isOff) it.setAttribute('aria-disabled', isOff);
  if (it.title !== title) it.title = title;
}

let speaking;
let spoken = '';

/**
 * Says something to those who don't see the page: once, after so many milliseconds, and not what was said last. Only
 * the newest of several is said.
 */
export function speak(text, after = 0) {
  clearTimeout(speaking);
  speaking = setTimeout(() => {
    if (text === spoken && after > 0) return;
    spoken = text;
    const region = document.getElementById('live');
    region.textContent = region.textContent === text ? `${text}\u00a0` : text;
  }, after);
}

/** How long what isn't in view waits after the last change, in milliseconds. */
const WAIT = 300;

/** A part of the page that is made anew at each change where it is in view, and else once no more changes come. */
export class Part {
  #isInView = true;
  #waiting;
  #work;

  constructor(box) {
    new IntersectionObserver((entries) => {
      this.#isInView = entries.at(-1).isIntersecting;
      if (this.#isInView) this.#make();
    }, { rootMargin: '200px' }).observe(box);
  }

  show(work) {
    this.#work = work;
    clearTimeout(this.#waiting);
    if (this.#isInView) this.#make();
    else this.#waiting = setTimeout(() => this.#make(), WAIT);
  }

  #make() {
    clearTimeout(this.#waiting);
    const work = this.#work;
    this.#work = undefined;
    work?.();
  }
}

/** Gives the focus to another element, if the one that had it isn't shown any more. */
export function refocus(had, other) {
  if (!had || had === document.body || (had.isConnected && had.getClientRects().length > 0)) return;
  other.focus({ preventScroll: true });
}

/** A button that copies a text. `what` says of what, for those who don't see where it is. */
export function copier(what, textOf, label = 'Copy') {
  const made = button(label, async () => {
    let isCopied = true;
    try { await navigator.clipboard.writeText(await textOf()); } catch { isCopied = false; }
    made.textContent = isCopied ? 'Copied' : 'Not allowed';
    speak(isCopied ? `Copied: ${what}.` : 'This browser doesn’t let the page copy.');
    setTimeout(() => { made.textContent = label; }, 1500);
  }, 'copy');
  made.setAttribute('aria-label', `${label}: ${what}`);
  return made;
}
