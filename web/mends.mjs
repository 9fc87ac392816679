// Corrections of a refused text that the page offers: that of `noise explain`, with its words, and others of texts that
// come from elsewhere. Each is a whole text, and is offered only if the proved check takes it, or its first fault comes
// later. There is no DOM here.
import { chosen, corrected, leftAfter, positionOf, saidOf } from './changes.mjs';
import { ofRule, ofText } from './candidates.mjs';
import { lookalikeIn, withoutLookalikes } from './lookalikes.mjs';
import { textOfName } from './patterns.mjs';
import { linesOf } from './plan.mjs';
import { tidyLine } from './tidy.mjs';

/** The changes that `noise explain` prints of a refused text; undefined where it prints none. */
export function correctionOf(text, verdict) {
  return chosen(
    text, verdict, verdict.rule ? ofRule(text, verdict) : ofText(text, verdict, positionOf(text, verdict)[1]),
  );
}

/** An arrow alone, by which Noise Explorer writes a transport message. */
const isBare = (line) => /^\s*(?:->|<-|→|←)\s*$/.test(line);
/** Arrows and spaces of other kinds. */
const plainSigns = (line) =>
  line.replace(/\u00a0/g, ' ').replace(/[→⟶⇒]|[-–−=]{1,2}>/, '->').replace(/[←⟵⇐]|<[-–−=]{1,2}/, '<-');

/** A text with the letters and signs that are meant, without arrows alone, and its lines as the format has them. */
function tidy(text) {
  const lines = withoutLookalikes(text).split('\n').filter((line) => !isBare(line)).map(plainSigns);
  const found = [];
  for (const line of lines) {
    const made = tidyLine(line, found.length === 0);
    if (made !== '') found.push(`${made}\n`);
  }
  return found.join('');
}

/** What `tidy` has changed, in words. */
function tidied(text) {
  if (lookalikeIn(text.replace(/[→←⟶⟵⇒⇐]/g, ''))) return 'Write the letters that are meant';
  if (text.split('\n').some(isBare)) return 'Take out the lines of an arrow alone';
  if (/[→←⟶⟵⇒⇐]/.test(text)) return 'Write the arrows as -> and <-';
  return 'Mend spaces, commas and letters';
}

/** The pattern of the standard whose name a text is, in capitals or not: as a mend. */
function namedBy(text) {
  const word = withoutLookalikes(text).trim().replace(/:$/, '');
  const [, base, places] = /^(?:noise_)?([a-z0-9]{1,8}?)((?:psk\d\+?)*)(?:_[\w/]*)?$/i.exec(word) ?? [];
  const name = base && `${base.toUpperCase()}${places.toLowerCase()}`;
  const found = name && textOfName(name);
  return found ? [[`Take the pattern ${name}`, found]] : [];
}

const pskCount = (text) =>
  linesOf(text).slice(1).flatMap(({ tokens = [] }) => tokens).filter(({ name }) => name === 'psk').length;

/** What is offered of a text that can't be read, besides: a pattern by its name, and its lines as they are meant. */
function ofOthers(text) {
  const tidyText = tidy(text);
  const isKept = pskCount(tidyText) >= pskCount(text);
  return { named: namedBy(text), tidied: isKept ? [[tidied(text), tidyText]] : [] };
}

/** Corrections of a refused text, each with a label and the whole text after it, valid ones first: at most two. */
export function mendsOf(text, verdict) {
  const changes = correctionOf(text, verdict);
  const own = changes ? [[saidOf(changes).join(' '), corrected(text, changes)]] : [];
  const others = verdict.rule ? { named: [], tidied: [] } : ofOthers(text);
  const met = new Set([text]);
  const tried = [...others.named, ...own, ...others.tidied]
    .filter(([, mended]) => !met.has(mended) && met.add(mended))
    .map(([label, mended]) => ({ label, text: mended, left: leftAfter(text, verdict, mended) }))
    .filter(({ left }) => left !== undefined);
  return [...tried.filter(({ left }) => left === 0), ...tried.filter(({ left }) => left > 0)]
    .slice(0, 2)
    .map(({ label, text: mended }) => ({ label, text: mended }));
}
