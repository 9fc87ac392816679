// Colours for the programs: comments, texts between quotes, numbers and keywords. The page's own; the text stays as it
// is.
import { element } from './element.mjs';

const WORDS = {
  C: 'break case char const do else enum for if include int return size_t sizeof static struct typedef '
    + 'uint32_t uint8_t void while',
  Go: 'break chan const defer else error for func go if import interface make map nil package range '
    + 'return string struct type var',
  Rust: 'as async await const else enum fn for if impl in let loop match mod move mut pub ref return self '
    + 'static struct type use while',
  JavaScript: 'async await class const else export for from function if import in let new of return throw '
    + 'true false undefined while',
  Python: 'as async await class def else except for from if import in is lambda None not or pass raise return '
    + 'True False try while with',
};
const COMMENTS = { Python: '#.*' };
const STRINGS = String.raw`"(?:[^"\\\n]|\\.)*"|'(?:[^'\\\n]|\\.)*'|${'`'}[^${'`'}]*${'`'}`;

/** The parts of a text, each with the class of its colour, or ''. */
export function parts(language, text) {
  const words = new Set(WORDS[language]?.split(' '));
  const form = new RegExp(
    `(?<comment>${COMMENTS[language] ?? '//.*|^#.*'})|(?<string>${STRINGS})`
      + '|(?<number>\\b\\d[\\w.]*)|(?<word>[A-Za-z_]\\w*)',
    'gm',
  );
  const found = [];
  let at = 0;
  for (const match of text.matchAll(form)) {
    const [kind] = Object.entries(match.groups).find(([, value]) => value !== undefined);
    if (kind === 'word' && !words.has(match[0])) continue;
    found.push(['', text.slice(at, match.index)], [kind, match[0]]);
    at = match.index + match[0].length;
  }
  return [...found, ['', text.slice(at)]].filter(([, value]) => value !== '');
}

export function highlighted(language, text) {
  return parts(language, text).map(([kind, value]) => (kind ? element('span', `h-${kind}`, value) : value));
}
