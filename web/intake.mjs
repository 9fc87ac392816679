// What is opened, dropped or pasted: a pattern text with or without comments, a vector file, a protocol name, or a link
// of this page. There is no DOM here.
import { unhex, visible } from './bytes.mjs';
import { SUITE, textOfName } from './patterns.mjs';
import { SAYS, hasSecret } from './secret.mjs';

/** How many bytes a file may have that is opened. */
export const MOST = 4194304;

/** What isn't taken, since it may have keys. */
const REFUSED = {
  says: `${SAYS} It isn’t taken. A vector file begins with its line “vector 1” or “vector 2”; `
    + 'the page “Check your own implementation” says what to do with a log.',
};

const withoutComments = (text) =>
  text
    .split('\n')
    .map((line) => line.replace(/\s*#.*$/, ''))
    .filter((line) => line.trim() !== '')
    .map((line) => `${line}\n`)
    .join('');

/** Lines of a key schedule, as `noise trace` prints them and as people log them. */
const isLog = (text) => /(?:^|[\s:])trace (?:initiator|responder) \S+ \S+ \S+ /m.test(text.replaceAll('\t', ' '));
const LOG = 'This is a log of a key schedule: it is below, at “Find a mistake”, to be compared. It isn’t kept.';

/** The lines of an arrow alone, by which Noise Explorer writes transport messages. */
const BARE = /^[ \t]*(?:->|<-)[ \t]*(?:\n|$)/gm;
const EXPLORER = 'The pattern is taken, without the lines of an arrow alone, which are transport messages.';

/** A protocol name of another suite: its pattern is the same. */
function ofName(word) {
  const parts = /^Noise_([A-Z][A-Z0-9]*(?:psk[0-8](?:\+psk[0-8])*)?)_([A-Za-z0-9/_]+)$/.exec(word);
  const text = parts && textOfName(parts[1]);
  if (!text) return undefined;
  if (parts[2] === SUITE) return { setup: { text }, says: 'The pattern of this name is taken.' };
  const says = `The suite ${visible(parts[2])} isn’t here: the pattern of this name is taken, `
    + `with ${SUITE}, which this library has alone.`;
  return { setup: { text }, says };
}

/** The prologue of a vector file as a text, or undefined. */
function prologueOf(hex) {
  try {
    return new TextDecoder('utf-8', { fatal: true }).decode(unhex(hex === '-' ? '' : hex));
  } catch {
    return undefined;
  }
}

function ofVector(text) {
  const lines = text.split('\n');
  const word = (name) => lines.find((line) => line.startsWith(`${name} `))?.slice(name.length + 1);
  const end = lines.indexOf('end');
  const pattern = end > 2 ? `${lines.slice(2, end).join('\n')}\n` : textOfName(word('protocol') ?? '');
  if (!pattern) return { says: 'This vector file has no pattern that the page knows.' };
  if (hasSecret(pattern)) return REFUSED;
  const prologue = prologueOf(word('prologue') ?? '-');
  const setup = {
    text: pattern,
    interval: Math.min(Number(word('interval')) || 0, 999999999),
    mode: word('datagrams') ? 'datagrams' : 'transport',
  };
  if (/^(?:64|256|1024)$/.test(word('datagrams') ?? '')) setup.window = Number(word('datagrams'));
  const lost = prologue === undefined ? ' Its prologue isn’t text, and is left out.' : '';
  return {
    setup: { ...setup, prologue: prologue ?? '' },
    says: `The set-up of the vector file is taken, with no key and no event of it.${lost}`,
  };
}

/**
 * What a text brings: `{ setup }` or `{ fragment }`, with a sentence; or undefined for a text that says nothing of the
 * kind.
 */
export function intake(given) {
  const text = given.replace(/^\ufeff/, '').replaceAll('\r\n', '\n');
  const word = text.trim();
  if (/^\S+#\S*\bpattern=\S*$/.test(word) || /^#pattern=\S*$/.test(word)) {
    const fragment = word.slice(word.indexOf('#'));
    if (hasSecret(new URLSearchParams(fragment.slice(1)).get('pattern') ?? '')) return REFUSED;
    return { fragment, says: 'The link is followed.' };
  }
  if (/^vector [12]\n/.test(text)) return ofVector(text);
  const named = ofName(word);
  if (named) return named;
  if (isLog(text)) return { log: text, says: LOG };
  const bare = withoutComments(text);
  if (/#/.test(text) && /^\S+:\n/.test(bare) && !hasSecret(bare)) {
    return { setup: { text: bare.replace(BARE, '') }, says: 'The pattern is taken, without its comments.' };
  }
  const plain = text.replace(BARE, '');
  if (plain !== text && /^\S+:\n/.test(text) && !hasSecret(text)) return { setup: { text: plain }, says: EXPLORER };
  return hasSecret(text) ? REFUSED : undefined;
}
