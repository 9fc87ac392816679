// The corrections that are tried of a refused text, each a list of changes (changes.mjs): those of `noise explain`, in
// its order. There is no DOM here.
import { afterLine, corrected, fromLine, lineAt } from './changes.mjs';
import { OTHER, brokenRule, firstOf } from './faults.mjs';
import { linesOf } from './plan.mjs';
import { lineBody, modifiers, namesOf, tidyLine } from './tidy.mjs';

// ---- of a broken rule

const senderOf = (message) => (message % 2 === 0 ? 'initiator' : 'responder');
const withTokens = (old, place, more) => [...old.slice(0, place), ...more, ...old.slice(place)];
const without = (old, place) => old.filter((_, at) => at !== place);
const upTo = (count) => Array.from({ length: count }, (_, n) => n);

/** The tokens of a text that is read: of the pre-messages by role, of each message; and the first message's line. */
function readOf(text) {
  const lines = linesOf(text);
  const first = firstOf(lines);
  const known = { initiator: [], responder: [] };
  for (const line of lines.slice(1, Math.max(first - 1, 1))) known[line.role] = namesOf(line);
  return { known, messages: lines.slice(first).map(namesOf), first };
}

/** The line of a message, written anew. Messages count from 0. */
const rewritten = ({ first }, message, tokens) =>
  ['write', first + message + 1, lineBody(senderOf(message), tokens)];
const knownLine = ({ known }, owner) => (owner === 'initiator' || known.initiator.length === 0 ? 2 : 3);

/** These tokens at each place of the first messages. */
const puts = (read, last, tokens) =>
  read.messages.slice(0, last).flatMap((old, message) =>
    upTo(old.length + 1).map((place) => [rewritten(read, message, withTokens(old, place, tokens))]),
  );

/** The token at a place moved to each place of these messages. */
function moves(read, from, first, end) {
  const token = read.messages[from.message]?.[from.token];
  if (token === undefined) return [];
  const left = without(read.messages[from.message], from.token);
  return upTo(Math.min(end, read.messages.length)).slice(first).flatMap((message) => {
    const isOwn = message === from.message;
    const old = isOwn ? left : read.messages[message];
    return upTo(old.length + 1).map((place) => [
      ...(isOwn ? [] : [rewritten(read, from.message, left)]),
      rewritten(read, message, withTokens(old, place, [token])),
    ]);
  });
}

/** A token left out; or its message, where that has no other one. */
function out(read, { message, token }) {
  const old = read.messages[message] ?? [];
  if (old.length > 1) return [[rewritten(read, message, without(old, token))]];
  return [[['out', read.first + message + 1]]];
}

/** A key of a party named above the messages. */
function named(read, owner, key) {
  const number = knownLine(read, owner);
  if (read.known[owner].length > 0) return [[['write', number, lineBody(owner, ['e', 's'])]]];
  const dots = read.known[OTHER[owner]].length === 0 ? [['put', 3, '  ...']] : [];
  return [[['put', number, lineBody(owner, [key])], ...dots]];
}

/** A key of a party that is named above the messages, no longer named. */
function unnamed(read, owner, key) {
  const number = knownLine(read, owner);
  const keys = read.known[owner];
  if (keys.length === 0) return [];
  if (keys.length > 1) return [[['write', number, lineBody(owner, [key === 'e' ? 's' : 'e'])]]];
  return [[['out', number], ...(read.known[OTHER[owner]].length === 0 ? [['out', number]] : [])]];
}

/** Where a party sends a key first, in a message. */
function sentAt({ messages }, owner, key) {
  const message = messages.findIndex((tokens, n) => senderOf(n) === owner && tokens.includes(key));
  return message < 0 ? undefined : { message, token: messages[message].indexOf(key) };
}

/**
 * Rule 1. A key that comes in a later message stays in one: the DH goes after it, or the key before the DH. Else the
 * key is sent before, or named. At last the DH is left out.
 */
function ofRule1(read, place, { owner, key }) {
  const sent = sentAt(read, owner, key);
  if (sent) {
    return [
      ...moves(read, place, place.message, 8), ...moves(read, sent, 0, place.message + 1), ...out(read, place),
    ];
  }
  const found = puts(read, place.message + 1, [key]);
  return [...(key === 's' ? found.reverse() : found), ...named(read, owner, key), ...out(read, place)];
}

export function ofRule(text, verdict) {
  const read = readOf(text);
  const place = { message: verdict.message - 1, token: verdict.token };
  const broken = brokenRule(linesOf(text), verdict);
  if (verdict.rule === 1) return ofRule1(read, place, broken);
  if (verdict.rule === 2) return [...out(read, place), ...unnamed(read, broken.sender, broken.token)];
  if (verdict.rule === 3) return out(read, place);
  if (verdict.rule === 5) return puts(read, verdict.message, ['e']);
  const { missing } = broken;
  return [[missing], [missing[0], missing], [missing[1], missing]].flatMap((it) => puts(read, verdict.message, it));
}

// ---- of a text that can't be read

const PSK = /psk/i;
const words = (list) => list.split(',').map((word) => word.replace(/^ /, ''));
const keysAlone = ['s', 'e, s'];

/** The text from the first message on. */
function messagesOf(text) {
  const dots = [2, 3, 4].find((number) => lineAt(text, number) === '  ...');
  return dots ? afterLine(fromLine(text, dots)) : fromLine(text, 2);
}

/** The heading with the places of the psks of the messages. */
function placed(text) {
  const messages = messagesOf(text).split('\n').slice(0, 8);
  const places = messages.flatMap((line, n) => (line.endsWith(', psk') ? [n + 1] : []));
  if (messages[0].slice(5, 8) === 'psk') places.unshift(0);
  return `${/^[A-Z0-9]*/.exec(lineAt(text, 1))[0]}${places.map((it) => `psk${it}`).join('+')}:`;
}

const ownHeading = (text) => `MINE${modifiers(lineAt(text, 1))}:`;
const headings = (text) => [
  [['write', 1, placed(text)]],
  [['write', 1, ownHeading(text)]],
  [['put', 1, 'MINE:']],
];

/** The line written so; and then the heading with the places of the psks. */
function withPlaces(text, number, line) {
  const changes = [['write', number, line]];
  const made = corrected(text, changes);
  return [changes, [['write', 1, placed(made)], ['write', number, lineAt(made, number)]]];
}

/** The line as the format has it, or left out where nothing stands in it. */
function tidyChange(number, line) {
  const made = tidyLine(line, number === 1);
  return made === '' ? ['out', number] : ['write', number, made];
}

/** All lines as the format has them. */
function tidyAll(text) {
  const changes = [];
  let [rest, number] = [text, 1];
  for (let n = 0; n < 40 && rest !== ''; n += 1) {
    const line = lineAt(rest, 1);
    const change = tidyChange(number, line);
    if (change[2] !== line) changes.push(change);
    if (change[0] === 'write') number += 1;
    rest = afterLine(rest);
  }
  return changes;
}

/** The line with its psk at the end; one of two at the front. */
function psksMoved(text, number, line) {
  const list = words(line.slice(5));
  const count = list.filter((word) => word === 'psk').length;
  if (count !== 1 && count !== 2) return [];
  const others = list.filter((word) => word !== 'psk');
  const made = [...(count === 2 ? ['psk'] : []), ...others, 'psk'].join(', ');
  return withPlaces(text, number, line.slice(0, 5) + made);
}

/** The line without the piece at this column, unless a psk stands in it. */
function withoutPiece(text, number, line, column) {
  const [front, rest] = [line.slice(0, column - 1), line.slice(column - 1)];
  const [piece] = rest.split(' ', 1);
  if (PSK.test(piece)) return [];
  const after = rest.slice(piece.length + 1);
  return withPlaces(text, number, after === '' ? front.slice(0, -2) : front + after);
}

/** The line with each of its tokens once, by its first place. */
function onceEach(line) {
  const list = words(line.slice(5));
  const kept = list.filter((word, n) => word === 'psk' || list.indexOf(word) === n);
  return line.slice(0, 5) + kept.join(', ');
}

function ofTurn(line, number) {
  const dots = number === 2 && keysAlone.includes(line.slice(5)) ? [[['put', 3, '  ...']]] : [];
  const turned = `${line.startsWith('  ->') ? '  <-' : '  ->'}${line.slice(4)}`;
  return [...dots, [['write', number, turned]]];
}

const outOf = (line, number) => (PSK.test(line) ? [] : [[['out', number]]]);

/** Those that only a fault of a kind may need, by its code in include/noise.h. */
const OF_KIND = {
  30: ({ text }) => headings(text),
  31: ({ number, line }) => outOf(line, number),
  32: ({ text, number, line, column }) => [
    ...withPlaces(text, number, tidyLine(line, false)), ...withoutPiece(text, number, line, column),
  ],
  33: ({ text, number, line }) => [
    ...(number > 2 ? [[['write', number - 1, line], ['write', number, lineAt(text, number - 1)]]] : []),
    ...outOf(line, number),
  ],
  34: ({ number, line }) => ofTurn(line, number),
  35: ({ text, number, line }) => [...headings(text), ...psksMoved(text, number, line)],
  36: ({ text }) => headings(text),
  37: ({ text, number, line }) =>
    [onceEach(line), `${line}, e`, `${line.slice(0, 5)}e, ${line.slice(5)}`].flatMap((it) =>
      withPlaces(text, number, it),
    ),
  38: ({ text, number }) => [
    [['put', number, '  -> e']],
    [['write', 1, ownHeading(text)], ['put', number, '  -> e']],
  ],
};

/** Whether a first line is a later one of a vector file, of which nothing is tried. */
const isOfVectors = (line) =>
  /^(?:protocol|prologue|interval|initiator|responder) /.test(line) && !/[#\t]|[\r ]$/.test(line);

export function ofText(text, { code, line: number }, column) {
  const line = lineAt(text, number);
  if (code === 30 && isOfVectors(line)) return [];
  return [
    ...(text.endsWith('\n') ? [] : [[['feed']]]),
    ...(text.includes('\r') ? [[['returns']]] : []),
    [tidyChange(number, line)],
    tidyAll(text),
    ...(OF_KIND[code]?.({ text, number, line, column }) ?? []),
  ];
}
