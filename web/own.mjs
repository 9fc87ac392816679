// The user's own patterns, the newest first. The browser keeps them for this page alone; where it keeps nothing, they
// last as long as the page. None is left out for another: two with one name are both kept, and what is over the most is
// said.
import { visible } from './bytes.mjs';
import { hasSecret } from './secret.mjs';

const PLACE = 'noise-patterns';
/** How many are kept, and how long one may be. */
export const MOST = 200;
export const LONGEST = 2000;
let kept = [];

/** Whether a text may be kept. */
export const isText = (text) => typeof text === 'string' && text.length <= LONGEST && !hasSecret(text);

/** Takes what is kept: another page of this browser may have kept more since. */
function read() {
  try {
    const found = JSON.parse(localStorage.getItem(PLACE) ?? '[]');
    kept = Array.isArray(found) ? found.filter(isText) : [];
    if (kept.length < found.length) write();    // what may not be kept was, by an earlier page
  } catch { /* nothing is kept here */ }
}

read();
globalThis.addEventListener?.('storage', read);

function write() {
  try { localStorage.setItem(PLACE, JSON.stringify(kept)); } catch { /* it lasts as long as the page */ }
}

export const nameOf = (text) => visible(text.split('\n')[0].replace(/:$/, '').slice(0, 20)) || 'text';

/** All of them, each with its text, a name for a list, and an id: of several with one name the label has a number. */
export function all() {
  const met = new Map();
  return kept.map((text) => {
    const name = nameOf(text);
    met.set(name, (met.get(name) ?? 0) + 1);
    return { text, id: text, label: met.get(name) > 1 ? `${name} (${met.get(name)})` : name };
  });
}

export const has = (text) => kept.includes(text);
export const textOf = (id) => kept.find((text) => text === id);

/** A base that none of one's own has: MINE, MINE2, MINE3 .. */
export function freeName() {
  read();
  const taken = new Set(kept.map((text) => /^[A-Z0-9]*/.exec(text)[0]));
  for (let n = 1; ; n += 1) {
    const name = n === 1 ? 'MINE' : `MINE${n}`;
    if (!taken.has(name)) return name;
  }
}

/**
 * Keeps a text as the newest, in the place of the one that it was made of by typing, if that is named. Whether it is
 * kept.
 */
export function remember(text, former) {
  read();
  if (text.trim() === '' || !isText(text)) return false;
  const others = kept.filter((it) => it !== text && it !== former);
  if (others.length >= MOST) return false;
  kept = [text, ...others];
  write();
  return true;
}

export function forget(text) {
  read();
  kept = kept.filter((it) => it !== text);
  write();
}
