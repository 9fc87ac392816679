// What can be read of a text that isn't a valid pattern, for the picture: its messages up to the first fault as the
// library gives them, and those after it by their tokens alone, with the faults marked. There is no DOM here.
import { checkPattern } from '../bindings/js/check.mjs';
import { firstOf, WORDS } from './faults.mjs';
import { layout, linesOf } from './plan.mjs';

/** How much of a text is looked at. */
const LONGEST = 2000;
/** How many messages are drawn that can't be checked. */
const MOST = 12;

/** The first lines of a text that are a valid pattern by themselves, under a name of their own, or undefined. */
function frontOf(lines, first, count) {
  if (count < 1) return undefined;
  const places = lines.slice(first, first + count).flatMap(({ tokens }, n) => {
    const names = tokens.map(({ name }) => name);
    const [before, after] = [n === 0 && names[0] === 'psk', names.length > 1 && names.at(-1) === 'psk'];
    return [...(before ? [0] : []), ...(after ? [n + 1] : [])];
  });
  const heading = `A${places.map((place) => `psk${place}`).join('+')}:`;
  const text = `${[heading, ...lines.slice(1, first + count).map(({ line }) => line)].join('\n')}\n`;
  return checkPattern(text).valid ? layout(text) : frontOf(lines, first, count - 1);
}

/** The messages of a text that aren't in what was checked: a piece for each token. */
function unread({ line, role, tokens }, faults) {
  if (!tokens) return { from: undefined, pieces: [], tokens: [], says: line.trim().slice(0, 40), isWrong: true };
  return {
    from: role, tokens: tokens.map(({ name }) => name),
    pieces: tokens.map(({ name }, token) => ({
      kind: 'unread', token, length: 0, name: name.slice(0, 8) || '?',
      isWrong: faults.includes(token) || !WORDS.has(name),
    })),
    isWrong: faults.length > 0,
  };
}

/** For each line of a text its faults: the token's place, or undefined for one of the whole line. */
function faultsByLine(faults, first) {
  const found = new Map();
  for (const fault of faults) {
    const n = fault.rule ? first + fault.message - 1 : fault.line - 1;
    found.set(n, [...found.get(n) ?? [], fault.rule ? fault.token : undefined]);
  }
  return found;
}

/**
 * The plan of what can be read of a text with these faults, the library's first; undefined where no message can be. Its
 * messages that weren't checked have `from`, pieces of the kind `unread`, and whether they are wrong.
 */
export function partial(text, faults) {
  const lines = linesOf(text.slice(0, LONGEST));
  const first = firstOf(lines);
  const messages = lines.slice(first, first + MOST);
  if (!messages.some(({ tokens }) => tokens)) return undefined;
  const byLine = faultsByLine(faults, first);
  const bad = [...byLine.keys()].filter((n) => n >= first).sort((a, b) => a - b)[0] ?? lines.length;
  const read = messages.findIndex(({ tokens }) => !tokens?.every(({ name }) => WORDS.has(name)));
  const most = Math.min(bad - first, read < 0 ? messages.length : read);
  const front = frontOf(lines, first, most);
  const known = { before: { initiator: [], responder: [] }, atFirst: { initiator: [], responder: [] } };
  const checked = front?.messages ?? [];
  return {
    ...(front ?? known),
    section: lines[0].line.replace(/:$/, '').slice(0, 40),
    isPartial: true,
    messages: [
      ...checked,
      ...messages.slice(checked.length).map((line, n) => unread(line, byLine.get(first + checked.length + n) ?? [])),
    ],
    // a rule that is broken after the last message is the transport's
    transportWrong: byLine.has(first + messages.length),
  };
}
