// The bytes of a message by piece. A byte that is pressed by pointer or finger is only looked at, and a button beside
// it changes its lowest bit; Enter and the space bar change the byte that has the focus. One byte is reached by Tab,
// the others by the arrow keys.
import { button, element, enable } from './element.mjs';
import { hex } from './bytes.mjs';
import { TITLES, kindOf } from './pieces.mjs';

const MOST = 128;
const HEAD = 48;
const TAIL = 16;
const HINT = 'Point at a byte, or press it, to see what it is.';

/** The pieces of a message in bytes, for one of the handshake, the transport or datagrams. */
export function piecesOf(run, { number, message, isDatagram }) {
  if (number === undefined) {
    const head = isDatagram ? [{ kind: 'nonce', length: 8 }] : [];
    return [...head, { kind: 'text', length: message.length - 16 - (isDatagram ? 8 : 0) }, { kind: 'tag', length: 16 }];
  }
  const { pieces, length } = run.plan.messages[number];
  return pieces.map((piece) => ({
    length: piece.kind === 'payload' ? message.length - length : piece.length,
    kind: kindOf(piece),
  })).filter((piece) => piece.length > 0);
}

/** A piece for each byte, with the places of the piece's first and last byte. */
function placesOf(pieces) {
  const places = [];
  for (const { kind, length } of pieces) {
    const from = places.length;
    for (let n = 0; n < length; n += 1) places.push({ kind, from, to: from + length - 1 });
  }
  return places;
}

const nameAt = (places, at) => `byte ${at}: ${TITLES[places[at].kind]} (bytes ${places[at].from} to ${places[at].to})`;
const valueOf = ({ message, flips }, at) => hex([message[at] ^ (flips.has(at) ? 1 : 0)]);

function showByte(made, item, places, at) {
  const isChanged = item.flips.has(at);
  made.textContent = valueOf(item, at);
  made.setAttribute('aria-pressed', String(isChanged));
  made.setAttribute('aria-label', `${nameAt(places, at)}, ${valueOf(item, at)}${isChanged ? ', changed' : ''}`);
}

function byteButton(item, places, at) {
  const made = element('button', `p-${places[at].kind}`);
  Object.assign(made, { type: 'button', tabIndex: -1 });
  made.dataset.at = at;
  showByte(made, item, places, at);
  return made;
}

/** Moves the one that Tab reaches. */
function moveTo(box, made) {
  box.querySelector('[tabindex="0"]')?.setAttribute('tabindex', '-1');
  made.tabIndex = 0;
}

/** Where an arrow key leads from a byte. */
function neighbour(box, made, key) {
  const all = [...box.querySelectorAll('[data-at]')];
  const n = all.indexOf(made);
  const to = { ArrowLeft: n - 1, ArrowRight: n + 1, Home: 0, End: all.length - 1 }[key];
  if (to !== undefined) return all[to];
  const rows = { ArrowUp: -1, ArrowDown: 1 }[key];
  if (rows === undefined) return undefined;
  const beyond = all.filter((it) => Math.sign(it.offsetTop - made.offsetTop) === rows);
  const next = rows > 0 ? beyond[0] : beyond.at(-1);
  const row = beyond.filter((it) => it.offsetTop === next?.offsetTop);
  return row.sort((a, b) => Math.abs(a.offsetLeft - made.offsetLeft) - Math.abs(b.offsetLeft - made.offsetLeft))[0];
}

function fill(box, item, places, isWhole) {
  const { length } = item.message;
  const isShort = isWhole || length <= MOST;
  const byte = (at) => byteButton(item, places, at);
  const range = (from, to) => Array.from({ length: to - from }, (_, n) => byte(from + n));
  if (isShort) return box.replaceChildren(...range(0, length));
  const more = element('button', 'more', `… ${length - HEAD - TAIL} more bytes …`);
  more.type = 'button';
  more.addEventListener('click', () => {
    fill(box, item, places, true);
    const first = box.querySelector(`[data-at="${HEAD}"]`);
    moveTo(box, first);
    first.focus();
  });
  return box.replaceChildren(...range(0, HEAD), more, ...range(length - TAIL, length));
}

/** The bytes of a message. `changed()` is called after a byte was flipped. */
export function bytesView(run, item, name, changed) {
  const places = placesOf(piecesOf(run, item));
  const box = element('div', 'bytes');
  const tells = element('p', 'piece', HINT);
  let looked;
  box.setAttribute('role', 'toolbar');
  box.setAttribute('aria-label', `The bytes of ${name}: Enter changes one on the way`);
  fill(box, item, places, false);
  if (item.message.length) box.firstChild.tabIndex = 0;
  const of = (event) => event.target.closest('[data-at]');
  const say = (at) => { tells.textContent = `${nameAt(places, at)}${item.flips.has(at) ? ', changed' : ''}`; };
  const change = button('Change its lowest bit', () => flip(looked), 'copy flip');
  enable(change, false, 'No byte is chosen.');
  const look = (made) => {
    box.querySelector('.looked')?.classList.remove('looked');
    made.classList.add('looked');
    looked = Number(made.dataset.at);
    moveTo(box, made);
    say(looked);
    enable(change, true);
    change.textContent = `${item.flips.has(looked) ? 'Change byte' : 'Change the lowest bit of byte'} `
      + `${looked}${item.flips.has(looked) ? ' back' : ''}`;
  };
  const flip = (at) => {
    if (!item.flips.delete(at)) item.flips.add(at);
    const made = box.querySelector(`[data-at="${at}"]`);
    showByte(made, item, places, at);
    look(made);
    changed();
  };
  box.addEventListener('mouseover', (event) => { if (of(event)) say(Number(of(event).dataset.at)); });
  box.addEventListener('mouseleave', () => { if (looked !== undefined) say(looked); });
  box.addEventListener('focusin', (event) => { if (of(event)) look(of(event)); });
  box.addEventListener('click', (event) => {
    const made = of(event);
    if (made && event.detail > 0) look(made);
    else if (made) flip(Number(made.dataset.at));
  });
  box.addEventListener('keydown', (event) => {
    const made = of(event);
    const next = made && neighbour(box, made, event.key);
    if (!next) return;
    event.preventDefault();
    moveTo(box, next);
    next.focus();
  });
  return element('div', 'message', box, element('div', 'looking', change, tells));
}
