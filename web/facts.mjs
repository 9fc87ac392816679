// What a pattern's tokens show: which private keys are enough for each key, who can have written each message, and
// whether a recording of it is accepted again. `rowsOf` decides, and SENTENCES has the words; `noise explain` says the
// same in the same words, and checks/web compares the two. Nothing here is graded. A pattern is data: `messages`, each
// with `from`, `tokens` and `pieces` (of which `kind` and `sealed` count), `before` with the tokens of both
// pre-messages, and `oneWay`. There is no DOM here.

const OTHER = { initiator: 'responder', responder: 'initiator' };
const ROLES = ['initiator', 'responder'];
const DHS = ['ee', 'es', 'se', 'ss'];
const KEYS = ['initiator e', 'initiator s', 'responder e', 'responder s'];

/** The words of each fact. A name in braces is filled in. */
export const SENTENCES = Object.freeze({
  seen: 'in the clear: everybody sees it',
  everybody: 'no DH is mixed in: everybody can compute it.',
  psk: 'the {psks} alone.',
  key: '{ways}{psk}.',
  part: ' Whoever takes the {role}’s part needs only {keys} of its own{psk}.',
  untagged: 'anyone: it has no tag.',
  openWriter: 'anyone: everybody can compute the key.',
  anyone: 'anyone, with an e of its own.',
  pskWriter: 'whoever has the {psks}.',
  writer: 'whoever has {ways}{psk}.',
  isNew: 'refused: the {role}’s e is new each time.',
  again: 'accepted again: the {role} puts in no e before.',
  bare: 'accepted again: it has no tag.',
});
const pskWord = (psks) => ['', 'psk'][psks] ?? 'psks';
const inEachCase = (psks) => (psks ? `; and in each case the ${pskWord(psks)}` : '');

/** What a designer has to see. */
const WARNINGS = {
  everybody: '{name}: no DH is mixed in, and everybody can compute the key.',
  unmixed: 'The {role}’s s is named, and no DH mixes it: nothing shows that the {role} has its private key.',
};

/** What the tables mean, and what isn't judged. */
export const MEANING = [
  'Private keys are meant, and all public keys count as known; e is made for one handshake, s is kept.',
  '“Or” parts ways of which each is enough. Where an s comes in a message, the application has to compare it.',
];
export const UNJUDGED = [
  'These are facts of tokens. Not judged: how well payloads are authenticated and kept secret, '
    + 'and how well identities are hidden.',
  'Sections 7.7 and 7.8 of the standard grade the fundamental patterns; Noise Explorer grades and analyses one’s own.',
];

const filled = (text, values) => text.replace(/\{(\w+)\}/g, (_, name) => values[name] ?? '');

/** Whether these private keys are enough for every DH: a DH needs one of its two. */
const areEnough = (dhs, keys) =>
  dhs.every((dh) => keys.includes(`initiator ${dh[0]}`) || keys.includes(`responder ${dh[1]}`));

/** The smallest sets of private keys, out of these, that are enough for all the DHs. */
export function waysOf(dhs, keys = KEYS) {
  const sets = Array.from({ length: 1 << keys.length }, (_, bits) => keys.filter((_key, n) => bits & (1 << n)));
  const enough = sets.filter((set) => areEnough(dhs, set)).sort((a, b) => a.length - b.length);
  return enough.filter((set, n) => !enough.slice(0, n).some((smaller) => smaller.every((key) => set.includes(key))));
}

/** One such set in words. */
function wayWords(way) {
  if (way.length === 2 && way[0].at(-1) === way[1].at(-1)) return `both parties’ ${way[0].at(-1)}`;
  const of = ROLES.map((role) => [role, way.filter((key) => key.startsWith(role)).map((key) => key.at(-1))]).filter(
    ([, own]) => own.length,
  );
  return of.map(([role, own]) => `the ${role}’s ${own.join(' and ')}`).join(' and ');
}

const waysWords = (ways) => ways.map(wayWords).join(', or ');
const capital = (text) => text[0].toUpperCase() + text.slice(1);
const isMixed = (token) => token === 'psk' || DHS.includes(token);

/** What is mixed in by these tokens: the DHs, and how many psks. */
const mixedOf = (tokens) => ({
  dhs: DHS.filter((dh) => tokens.includes(dh)),
  psks: tokens.filter((token) => token === 'psk').length,
});
export const mixedWords = ({ dhs, psks }) => [...dhs, ...(psks ? [pskWord(psks)] : [])].join(', ') || 'nothing';

/**
 * What a party could do that takes the place of the one to read: which of the keys it chooses itself are enough, or
 * undefined.
 */
function ownPart({ before, messages }, role, until, dhs) {
  const sent = ['e', 's'].filter((own) =>
    !before[role].includes(own)
    && messages.slice(0, until).some(({ from, tokens }) => from === role && tokens.includes(own)),
  );
  const parts = sent.includes('e') ? [['e'], ['e', 's']] : [['s']];
  return parts.find((own) =>
    own.every((key) => sent.includes(key)) && areEnough(dhs, own.map((key) => `${role} ${key}`)),
  );
}

/** The row of one key: of an encrypted s, an encrypted payload or the transport. */
function keyRow(plan, { name, to, until, isTransport }, tokens) {
  const mixed = mixedOf(tokens);
  const { dhs, psks } = mixed;
  const row = { name, of: 'key', mixed };
  if (dhs.length === 0) {
    return psks ? { ...row, fact: 'psk', values: { psks: pskWord(psks) } } : { ...row, fact: 'everybody', warns: true };
  }
  const ways = waysOf(dhs);    // each DH has two ways, so there are at least two
  const part = isTransport ? undefined : ownPart(plan, to, until, dhs);
  const own = part && {
    role: to,
    keys: part.map((key) => `an ${key}`).join(' and '),
    psk: psks ? ` and the ${pskWord(psks)}` : '',
  };
  return { ...row, fact: 'key', ways, values: { ways: waysWords(ways), psk: inEachCase(psks) }, part: own };
}

/** The rows of the keys: each s that is sent, each payload, and the transport. */
function keyRows(plan) {
  const tokens = [];
  const rows = plan.messages.flatMap(({ from, tokens: own, pieces }, n) => {
    const found = [];
    const add = (kind, label) => {
      const place = { name: `Message ${n + 1}, ${label}`, to: OTHER[from], until: n + 1 };
      const isSealed = pieces.find((piece) => piece.kind === kind).sealed;
      found.push(
        isSealed
          ? keyRow(plan, { ...place, until: n }, tokens)
          : { name: place.name, of: 'key', mixed: mixedOf(tokens), fact: 'seen' },
      );
    };
    for (const token of own) {
      if (token === 's') add('s', 's');
      if (isMixed(token) || token === 'e') tokens.push(token);
    }
    add('payload', 'payload');
    return found;
  });
  return [...rows, keyRow(plan, { name: 'Transport, recorded', isTransport: true }, tokens)];
}

/** Who can have written a message, by what is mixed in at its last tag. */
function writerOf({ before, messages }, from, until, tokens, isTagged) {
  if (!isTagged) return { fact: 'untagged' };
  const { dhs, psks } = mixedOf(tokens);
  if (dhs.length + psks === 0) return { fact: 'openWriter' };
  const choosesE =
    !before[from].includes('e')
    && messages.slice(0, until).some((message) => message.from === from && message.tokens.includes('e'));
  const rest = choosesE ? dhs.filter((dh) => !areEnough([dh], [`${from} e`])) : dhs;
  if (rest.length === 0) return { fact: psks ? 'pskWriter' : 'anyone', values: { psks: pskWord(psks) } };
  const ways = waysOf(rest, KEYS.filter((key) => !choosesE || key !== `${from} e`));
  return { fact: 'writer', ways, values: { ways: waysWords(ways), psk: inEachCase(psks) } };
}

/** Whether a recording is accepted again: not if it has a tag, and the reader has put in an e before. */
function againOf({ before, messages }, to, until, isTagged) {
  if (!isTagged) return { fact: 'bare' };
  const isNew =
    before[to].includes('e')
    || messages.slice(0, until).some(({ from, tokens }) => from === to && tokens.includes('e'));
  return { fact: isNew ? 'isNew' : 'again', values: { role: to } };
}

/** The rows of the messages: those of the handshake, and the transport in each direction. */
function messageRows(plan) {
  const { messages, oneWay } = plan;
  const tokens = [];
  const row = (name, from, until, isTagged) => ({
    name, of: 'message', from, writer: writerOf(plan, from, until, tokens, isTagged),
    again: againOf(plan, OTHER[from], until, isTagged),
  });
  const rows = messages.map(({ from, tokens: own, pieces }, n) => {
    tokens.push(...own);
    return row(`Message ${n + 1}`, from, n + 1, pieces.some(({ sealed }) => sealed));
  });
  const ways = oneWay ? ['initiator'] : ROLES;
  return [...rows, ...ways.map((from) => row(`Transport, ${from}’s`, from, messages.length, true))];
}

/** All facts of a valid pattern, one row each. */
export const rowsOf = (plan) => ({ keys: keyRows(plan), messages: messageRows(plan) });

/** A fact in words: of a row of the keys. */
export const keyWords = ({ fact, values, part }) =>
  filled(SENTENCES[fact], values ?? {}) + (part ? filled(SENTENCES.part, part) : '');
export const writerWords = ({ writer }) => filled(SENTENCES[writer.fact], writer.values ?? {});
export const againWords = ({ again }) => filled(SENTENCES[again.fact], again.values ?? {});

/** The same as the text of a cell. */
export const keySentence = (row) => capital(keyWords(row)) + (row.fact === 'seen' ? '.' : '');
export const writerSentence = (row) => capital(writerWords(row));
export const againSentence = (row) => capital(againWords(row));

/** Of each static key that is named, and that no DH mixes. */
export function unmixedOf({ messages, before }) {
  const unmixed = ROLES.filter((role) => {
    const isNamed =
      before[role].includes('s') || messages.some(({ from, tokens }) => from === role && tokens.includes('s'));
    return isNamed
      && !messages.some(({ tokens }) =>
        tokens.some((token) => DHS.includes(token) && token[ROLES.indexOf(role)] === 's'),
      );
  });
  return unmixed.map((role) => filled(WARNINGS.unmixed, { role }));
}

/** What a designer has to see, in sentences. */
export function warningsOf(plan) {
  const open = keyRows(plan).filter(({ warns }) => warns);
  return [...open.map(({ name }) => filled(WARNINGS.everybody, { name })), ...unmixedOf(plan)];
}
