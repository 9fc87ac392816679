// What a refusal means, in a sentence. The proved check says that a text is refused, and which rule is broken where. It
// also gives the line and the kind of a malformed text, but no contract covers these two. The place in that line is
// this page's own reading.
import { visible } from './bytes.mjs';
import { lookalikeIn } from './lookalikes.mjs';
import { linesOf } from './plan.mjs';

/** For each rule what is wrong. Words in braces are filled in by `brokenRule`. What corrects it mends.mjs offers. */
export const RULES = Object.freeze({
  1: '{token} needs the {owner}’s {key}, which is neither sent before this place nor named above “...”.',
  2: 'The {sender} has sent {token} already.',
  above: 'The {sender}’s {token} is named above “...” already.',
  3: '{token} is mixed in already, and adds nothing the second time.',
  4: 'The {sender} encrypts here, {after} is mixed in, and {missing} isn’t: '
    + 'what it encrypts could depend on no fresh key of its own.',
  5: 'The {sender} encrypts here after psk, and has sent no e: the same key and nonce could come again.',
});
/** The same of each kind of malformed line, by its code in include/noise.h. All these are also `noise explain`'s. */
export const FORMS = Object.freeze({
  30: 'The first line has to be a name of 1 to 8 upper-case letters and digits, '
    + 'then psk modifiers such as psk0 or psk0+psk2, then a colon.',
  31: 'The line has to begin with two spaces, an arrow (-> or <-) and one space.',
  32: 'This isn’t a token.',
  33: 'Above “...” a line has e, s or “e, s”, the initiator’s first, and “...” comes once, after them.',
  34: 'It is the other party’s turn.',
  35: 'psk0 in the heading is a psk before message 1, pskN one at the end of message N; none is elsewhere.',
  36: 'This name belongs to a fundamental pattern, and the text is another one.',
  37: 'A message has from 1 to 8 tokens besides psk, and this one has more.',
  38: 'There is no message.',
});
/** What stands in the place of an entry of FORMS where the line shows more. */
const CLOSER = Object.freeze({
  empty: 'The line is empty.',
  dots: 'A key that is known before the first message stands above a line of two spaces and “...”, '
    + 'and that line is missing.',
  space: 'A space is at the end of the line.',
  arrow: 'The arrow is written as two characters: -> or <-.',
  comment: 'The library takes no comments.',
  none: 'A token has to stand here, and none does.',
  beyond: 'The heading has an index of a psk that is greater than the number of messages.',
  ninth: 'A pattern has at most 8 messages, and this is one more.',
  alone: 'A message has from 1 to 8 tokens besides psk, and this one has none.',
});
/** How many messages a pattern has at most. */
export const MOST = 8;
export const WORDS = new Set(['e', 's', 'ee', 'es', 'se', 'ss', 'psk']);
export const OTHER = Object.freeze({ initiator: 'responder', responder: 'initiator' });

/** The number of the line with the first message. */
export const firstOf = (lines) => lines.findIndex(({ line }) => line === '  ...') + 1 || 1;

/**
 * Whether line 2 has keys of the responder that are known before, whose “...” was forgotten: that line, or undefined. A
 * line that could be a message stays one.
 */
function forgottenDots(lines, n) {
  if (n !== 1 || lines.some(({ line }) => line === '  ...')) return undefined;
  const { role, tokens } = lines[1];
  return role === 'responder' && tokens !== undefined && ['s', 'e,s'].includes(tokens.map(({ name }) => name).join())
    ? 1
    : undefined;
}

/** The place of a line in the text. */
function span(lines, n, from = 0, to = lines[n].line.length) {
  const start = lines.slice(0, n).reduce((sum, { line }) => sum + line.length + 1, 0);
  return [start + from, start + Math.max(to, from)];
}

const wrongToken = (tokens) => tokens?.find(({ name }) => !WORDS.has(name));

function spanInLine(lines, n, code) {
  const { line, tokens } = lines[n];
  const token = (found) => (found ? span(lines, n, found.start, found.end) : span(lines, n));
  if (/\s$/.test(line) && line.trim() !== '') return span(lines, n, line.trimEnd().length);
  if (code === 32) return token(wrongToken(tokens));
  if (code === 34) return span(lines, n, 2, 4);
  if (code === 35) {
    return n === 0 ? span(lines, n, line.indexOf('psk')) : token(tokens?.find(({ name }) => name === 'psk'));
  }
  if (code === 36) return span(lines, n, 0, /^[A-Z0-9]*/.exec(line)[0].length);
  return span(lines, n);
}

/**
 * The place of a broken rule: the token, or for a payload the message's last token, or for the transport the last
 * message's.
 */
function spanOfRule(lines, { message, token }) {
  const n = Math.min(firstOf(lines) + message - 1, lines.length - 1);
  const { tokens } = lines[n];
  const at = firstOf(lines) + message - 1 < lines.length ? tokens[Math.min(token, tokens.length - 1)] : tokens.at(-1);
  return span(lines, n, at.start, at.end);
}

function placeOf(lines, { message, token }) {
  const line = lines[firstOf(lines) + message - 1];
  if (!line) return `the first transport message of the ${token === 0 ? 'initiator' : 'responder'}`;
  return token < line.tokens.length
    ? `message ${message}, token ${line.tokens[token].name}`
    : `the payload of message ${message}`;
}

/** Whether a key of a party is known before the first message. */
const isAbove = (lines, owner, key) =>
  lines.slice(1, firstOf(lines)).some(({ role, tokens }) => role === owner && tokens?.some(({ name }) => name === key));

const filled = (text, values) => text.replace(/\{(\w+)\}/g, (_, name) => values[name]);

/** What a broken rule is about, by name: the words that are filled in. */
export function brokenRule(lines, { rule, message, token }) {
  const line = lines[firstOf(lines) + message - 1];
  const sender = line ? line.role : ['initiator', 'responder'][token];
  const name = line?.tokens[token]?.name;
  if (rule === 1) {
    const earlier = lines.slice(1, firstOf(lines) + message - 1).map(({ role, tokens = [] }) => ({
      role,
      names: tokens.map((it) => it.name),
    }));
    earlier.push({ role: sender, names: line.tokens.slice(0, token).map((it) => it.name) });
    const has = (role, key) => earlier.some((it) => it.role === role && it.names.includes(key));
    const owner = has('initiator', name[0]) ? 'responder' : 'initiator';
    const key = owner === 'initiator' ? name[0] : name[1];
    return { token: name, sender, owner, key };
  }
  if (rule === 2) return { token: name, sender, isAbove: isAbove(lines, sender, name) };
  if (rule !== 4) return { token: name, sender };
  const names = lines.slice(firstOf(lines), firstOf(lines) + message).flatMap(({ tokens }, n) =>
    tokens.slice(0, n === message - 1 ? token : undefined).map((it) => it.name),
  );
  const needs = sender === 'initiator' ? [['se', 'ee'], ['ss', 'es']] : [['es', 'ee'], ['ss', 'se']];
  const [after, missing] = needs.find(([dh, first]) => names.includes(dh) && !names.includes(first)) ?? needs[0];
  return { token: name, sender, after, missing };
}

/** What a line of too many tokens, or of none, or a line too many says. */
function limitOf(lines, n) {
  if (n >= firstOf(lines) + MOST) return CLOSER.ninth;
  // of a text that is too long line 1 is told
  return lines[n].tokens?.every(({ name }) => name === 'psk') ? CLOSER.alone : FORMS[37];
}

function closerOf(lines, n, code) {
  const { line, tokens } = lines[n];
  if (line.trim() === '' && code === 31) return CLOSER.empty;
  if (/#/.test(line) && [30, 31, 32].includes(code)) return CLOSER.comment;
  if (code === 34 && forgottenDots(lines, n) !== undefined) return CLOSER.dots;
  if (/\s$/.test(line) && [30, 31, 32].includes(code)) return CLOSER.space;
  if (code === 31 && /[→←⟶⟵⇒⇐]/.test(line)) return CLOSER.arrow;
  if (code === 32 && wrongToken(tokens)?.name.trim() === '') return CLOSER.none;
  if (code === 35 && n === 0) return CLOSER.beyond;
  return code === 37 ? limitOf(lines, n) : FORMS[code];
}

/** Which section of the standard a rule follows, and where that is. */
const SECTIONS = {
  7.3: 'https://noiseprotocol.org/noise.html#handshake-pattern-validity',
  9.3: 'https://noiseprotocol.org/noise.html#validity-rule',
};
const sectionOf = (rule) => (rule === 5 ? '9.3' : '7.3');

/** The token that isn't one, between quotes. */
function whatIs(line, [from, to]) {
  const it = line.slice(from, to);
  return it.trim() === '' ? '' : `: “${visible(it.slice(0, 40))}${it.length > 40 ? '…' : ''}”`;
}

/**
 * What a fault says: a title, a sentence, and its place in the text as two offsets. Of a broken rule the title comes in
 * two parts, with the rule's number between them, and `section` is that of the standard.
 */
export function explain(text, fault) {
  const lines = linesOf(text);
  if (fault.rule) {
    const values = brokenRule(lines, fault);
    const says = filled(RULES[values.isAbove ? 'above' : fault.rule], values);
    const [number, where] = [sectionOf(fault.rule), ` is broken at ${placeOf(lines, fault)}`];
    return {
      title: `Rule ${fault.rule}${where}`,
      where,
      rule: fault.rule,
      section: { number, url: SECTIONS[number] },
      says,
      span: spanOfRule(lines, fault),
    };
  }
  const n = Math.min(fault.line, lines.length) - 1;
  const says = closerOf(lines, n, fault.code);
  const at = spanInLine(lines, n, fault.code);
  const [start] = span(lines, n);
  const what = fault.code === 32 ? whatIs(lines[n].line, at.map((it) => it - start)) : '';
  const alike = [30, 31, 32].includes(fault.code) ? lookalikeIn(text.slice(...at)) : undefined;
  const title = `Line ${fault.line}${what}`;
  if (!alike) return { title, says, span: at };
  return {
    title, says: `“${alike.letter}” looks like ${alike.meant}, and is another sign (${alike.code}).`, span: at,
  };
}

/** Why a message, a datagram or a set-up was refused. */
export const CAUSES = {
  10: 'it is the other party’s turn',
  11: 'it is longer than 65535 bytes',
  12: 'the handshake is over',
  13: 'this party’s handshake has ended',
  15: 'it has too few bytes',
  16: 'a tag is wrong',
  17: 'the last nonce has been used',
  22: 'the pattern is one-way',
  26: 'its nonce is 2⁶⁴ − 1, which none has',
  27: 'its nonce is below the window',
  28: 'a datagram with its nonce was opened already',
  43: 'its stream has ended',
};
