// Lines of a pattern text as the format has them: their arrows, spaces, commas and letters. As crates/noise_explain's
// tidy.rt. There is no DOM here.

export const namesOf = ({ tokens }) => tokens.map(({ name }) => name);
export const lineBody = (role, names) => `  ${role === 'initiator' ? '->' : '<-'} ${names.join(', ')}`;

const ARROWS = [[/^(?:->|=>|→)/, '  -> '], [/^(?:<-|<=|←)/, '  <- ']];
const lower = (text) => text.replace(/[A-Z]/g, (it) => it.toLowerCase());
const upper = (text) => text.replace(/[a-z]/g, (it) => it.toUpperCase());

/** The psk modifiers that stand somewhere in a text, in rising order. */
export const modifiers = (text) =>
  [0, 1, 2, 3, 4, 5, 6, 7, 8].map((it) => `psk${it}`).filter((it) => text.includes(it)).join('+');

/** A name in upper case, of at most 8 letters and digits; one of one's own where these words are none. */
function nameOf(words) {
  if (words === '' || (/[a-z]/.test(words) && words.length > 8)) return 'MINE';
  return `${/^\d/.test(words) ? 'M' : ''}${upper(words)}`.slice(0, 8);
}

/** The heading that is meant by these words. */
function heading(words) {
  const [name] = /^(?:(?!psk)[A-Za-z0-9])*/.exec(words);
  return `${nameOf(name)}${modifiers(words.slice(name.length))}:`;
}

/**
 * A line as the format has it, where it is nearly so: the first one is the heading, unless it has an arrow. What can't
 * be read stays as it is.
 */
export function tidyLine(line, isFirst) {
  const bare = line.replace(/^\ufeff/, '').split('#', 1)[0].replace(/[\t\r]/g, ' ');
  const words = bare.replace(/^ +/, '').replace(/ +$/, '');
  if (words === '') return '';
  if (/^(?:\.\.|…)/.test(words)) return '  ...';
  for (const [arrow, front] of ARROWS) {
    if (arrow.test(words)) {
      return front + lower(words.replace(arrow, '')).split(/[ ,;]+/).filter(Boolean).join(', ');
    }
  }
  return isFirst ? heading(words) : words;
}
