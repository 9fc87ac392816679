// Letters and signs that look as those of a pattern text, and are others. There is no DOM here.

/** Of other alphabets, by the letter or sign that is meant. Wide letters are found by their normal form. */
const ALIKE = {
  e: 'еҽᴇ', s: 'ѕꜱ', p: 'рρ', k: 'кκ', A: 'АΑ', B: 'ВΒ', E: 'ЕΕ', H: 'НΗ', I: 'ІΙӀ', K: 'КΚ', M: 'МΜ', N: 'Ν',
  O: 'ОΟ', P: 'РΡ', S: 'Ѕ', T: 'ТΤ', X: 'ХΧ', ':': '：∶꞉', ',': '，‚،', '-': '‐‑‒−﹣－', '.': '。．',
};
const MEANT = new Map(Object.entries(ALIKE).flatMap(([meant, all]) => [...all].map((it) => [it, meant])));

const meantBy = (letter) => {
  if (letter <= '\u007f') return undefined;
  const normal = letter.normalize('NFKC');
  return MEANT.get(letter) ?? (/^[!-~]$/.test(normal) ? normal : undefined);
};

/** A text with the letters and signs that are meant. */
export const withoutLookalikes = (text) => [...text].map((it) => meantBy(it) ?? it).join('');

/** The first such letter of a text: `{ letter, meant, code }`, or undefined. */
export function lookalikeIn(text) {
  const letter = [...text].find((it) => meantBy(it));
  if (!letter) return undefined;
  const code = letter.codePointAt(0).toString(16).toUpperCase().padStart(4, '0');
  return { letter, meant: meantBy(letter), code: `U+${code}` };
}
