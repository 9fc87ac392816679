// What the page asks of a pattern text: its lines, split without a check; and of a valid text the tokens and pieces of
// its messages, as the package for JavaScript gives them, with what each party knows of the other's keys and has mixed
// in.
import { layout as layoutOf } from '../bindings/js/layout.mjs';

const ROLES = { '->': 'initiator', '<-': 'responder' };
const TAG = 16;

function lineOf(line) {
  const parts = /^( {2}(->|<-) )(.*)$/.exec(line);
  if (!parts) return { line };
  let start = parts[1].length;
  const tokens = parts[3].split(', ').map((name) => {
    const token = { name, start, end: start + name.length };
    start = token.end + 2;
    return token;
  });
  return { line, role: ROLES[parts[2]], tokens };
}

/** The text that was split last: at each key many ask for the lines of the same one. */
let last = { text: '', lines: [lineOf('')] };

/**
 * The lines of a text, split without a check: of each its words as they stand, and of a message its sender and its
 * tokens with their places. They are for reading alone.
 */
export function linesOf(text) {
  if (text !== last.text) last = { text, lines: text.replace(/\n$/, '').split('\n').map(lineOf) };
  return last.lines;
}

/** The pieces of a message, each tag apart from what it seals; they have `sealed` where they come apart already. */
function partsOf(pieces) {
  if (pieces.some(({ sealed }) => sealed !== undefined)) return pieces;
  return pieces.flatMap(({ kind, length, encrypted }, token) => {
    const bare = { token, kind, length: length - (encrypted ? TAG : 0), sealed: encrypted };
    return encrypted ? [bare, { token, kind: 'tag', length: TAG, sealed: false }] : [bare];
  });
}

/** What the parties know of each other, and have mixed in, after a message. */
function knownAfter(known, from, tokens) {
  const other = from === 'initiator' ? 'responder' : 'initiator';
  for (const name of tokens) {
    if (name === 'e' || name === 's') known[other].push(`${from}'s ${name}`);
    else for (const role of [from, other]) known[role].push(name);
  }
  return { initiator: [...known.initiator], responder: [...known.responder] };
}

/**
 * A valid text: `section` is its heading without the colon, `base` that without psk places, `before` the tokens of both
 * pre-messages, `static` says which party has a static key, and `messages` has for each who sends it, its tokens, its
 * pieces and its length with an empty payload.
 */
export function layout(text) {
  const { before, psks, oneWay, static: isStatic, messages } = layoutOf(text);
  const section = text.split('\n')[0].replace(/:$/, '');
  const known = {
    initiator: before.responder.map((name) => `responder's ${name}`),
    responder: before.initiator.map((name) => `initiator's ${name}`),
  };
  const atFirst = { initiator: [...known.initiator], responder: [...known.responder] };
  return {
    section, base: /^[A-Z0-9]*/.exec(section)[0], psks, before, atFirst, static: isStatic, oneWay,
    messages: messages.map(({ from, tokens, pieces, length }) => ({
      from,
      tokens,
      pieces: partsOf(pieces),
      length,
      known: knownAfter(known, from, tokens),
    })),
  };
}
