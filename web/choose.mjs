// Which pattern fits what two parties know of each other: read off the layouts of the 38 patterns of the standard; with
// examples by purpose, where a psk stands, and what the standard says of payloads. Loaded when it is opened.
import { button, element } from './element.mjs';
import { DEFERRED, FUNDAMENTAL, textOf, textOfName } from './patterns.mjs';
import { layout } from './plan.mjs';

const ROLES = { client: 'initiator', server: 'responder' };
const OTHER = { client: 'server', server: 'client' };
const KEYS = ['it has none', 'known before', 'sent encrypted', 'sent in the clear'];

/** What is asked, each with its answers. */
export const ASKED = {
  client: ['The client’s key', KEYS],
  server: ['The server’s key', KEYS],
  early: ['Encrypted data in message 1 (0-RTT)', ['yes', 'no']],
  messages: ['Messages', ['1', '2', '3', '4']],
  psk: ['A secret that both share (psk)', ['no', 'yes']],
};

/** How a party's static key comes to the other one: one of KEYS, and the number of its message. */
function keyOf(plan, party) {
  const role = ROLES[party];
  if (plan.before[role].includes('s')) return { how: KEYS[1] };
  const n = plan.messages.findIndex(({ from, tokens }) => from === role && tokens.includes('s'));
  if (n < 0) return { how: KEYS[0] };
  const isSealed = plan.messages[n].pieces.find(({ kind }) => kind === 's').sealed;
  return { how: KEYS[isSealed ? 2 : 3], message: n + 1 };
}

const isDH = (token) => /^[es]{2}$/.test(token);

const keyWords = (party, { how, message }) => ({
  [KEYS[0]]: `the ${party} has no static key`,
  [KEYS[1]]: `the ${OTHER[party]} knows the ${party}’s key before`,
}[how] ?? `the ${party}’s key is ${how} in message ${message}`);

/** For a deferred pattern where its DHs are mixed that the pattern of the plain name mixes earlier (7.6). */
function laterWords(base) {
  const plainName = base.replace(/1/g, '');
  if (plainName === base) return '';
  const placeOf = (name, dh) => layout(textOf(name)).messages.findIndex(({ tokens }) => tokens.includes(dh)) + 1;
  const later = ['es', 'se'].filter((dh) => placeOf(base, dh) !== placeOf(plainName, dh));
  return ` It is ${plainName} with ${later.map((dh) => `${dh} in message ${placeOf(base, dh)}`).join(' and ')}.`;
}

/**
 * What of the payload of message 1 is encrypted, and what encrypts it. In a pattern with a psk each e makes a key,
 * which everybody can compute (9.2).
 */
function earlyOf(name) {
  const { messages: [{ tokens }], psks } = layout(textOfName(name));
  if (tokens.some(isDH)) return { early: 'yes', words: 'message 1 takes encrypted data' };
  if (tokens.includes('psk')) return { early: 'yes', words: 'message 1 takes data that the secret alone encrypts' };
  const words = psks ? 'everybody can read the payload of message 1' : 'message 1 has nothing encrypted in its payload';
  return { early: 'no', words };
}

/** A pattern of the standard, or this name of it with a psk, as it is asked for, and in a sentence. */
export function rowOf(base, name = base) {
  const plan = layout(textOf(base));
  const [client, server] = ['client', 'server'].map((party) => keyOf(plan, party));
  const count = plan.messages.length;
  const { early, words: earlyWords } = earlyOf(name);
  const words = `${keyWords('server', server)}, and ${keyWords('client', client)}; ${earlyWords}`;
  return {
    base, name,
    client: client.how, server: server.how, early, messages: String(count),
    says: `${words[0].toUpperCase()}${words.slice(1)}. ${count === 1 ? 'One message, one-way' : `${count} messages`}.${
      laterWords(base)}`,
  };
}

/** The rows that fit these answers. */
export const fitting = (rows, answers) =>
  rows.filter((row) => Object.keys(row).every((name) => !answers[name] || answers[name] === row[name]));

/** A pattern's names with a psk, as 9.4 has them: before message 1 where that has no s, or at the end of a message. */
export function pskNames(base) {
  const plan = layout(textOf(base));
  const last = plan.messages.length;
  const first = plan.messages[0].tokens.includes('s') ? 1 : 0;
  return [...new Set([last < 3 ? first : last, last])].map((place) => `${base}psk${place}`);
}

/** Rows of one pattern that say the same are one item, with all their names. */
function grouped(rows) {
  const groups = new Map();
  for (const row of rows) {
    const key = `${row.base}: ${row.says}`;
    groups.set(key, [...(groups.get(key) ?? []), row]);
  }
  return [...groups.values()];
}

/** Examples: what for, which pattern, and what has to be known of it. */
export const PURPOSES = [
  ['A device and its server share a secret, and have no keys', 'NNpsk0',
    'Whoever lacks the secret is refused at message 1. Message 1 is encrypted by the secret alone: '
      + 'a recording of it is accepted again, and whoever gets the secret later can read it.'],
  ['A client that knows its server’s key, and has none itself', 'NK',
    'The server doesn’t learn who the client is. Message 1 takes data (0-RTT), at the cost that IK has.'],
  ['The same, and the server learns which client it is', 'XK',
    'The client’s key comes in message 3, encrypted, after the server has shown that it has its own.'],
  ['Data in the first message (0-RTT), and the server learns which client it is', 'IK',
    'The client’s key comes in message 1, encrypted. It costs two things: the server accepts a recording of message 1 '
      + 'again (replay), and whoever gets the server’s private key later can read what was in it (no forward secrecy). '
      + 'Later messages have neither fault.'],
  ['Neither knows the other’s key before; identities come late and hidden', 'XX',
    'The server’s key comes encrypted in message 2, the client’s in message 3. '
      + 'Whoever begins a handshake, even with an e alone, gets to see the server’s key. '
      + 'Each compares the key that came.'],
  ['Both know each other’s key', 'KK', 'No identity is sent. A recording of message 1 is accepted again.'],
  ['A file for one reader, one-way, of nobody in particular', 'N',
    'Anyone can have written it. Whoever gets the reader’s private key later can read it.'],
  ['A file for one reader, with the writer’s key inside', 'X',
    'Whoever has the reader’s private key can write one in anybody’s name, too.'],
  ['Keys, and a secret beside them in case X25519 falls', 'XKpsk3',
    'The secret is mixed in at the end, when the server knows whose it has to be.'],
];

const PSK = [
  'psk0 stands before message 1, and pskN at the end of message N: no other place has a name (9.4).',
  'At psk0 a stranger is refused at once, and the reader has to know which secret to take before it knows who writes. '
    + 'At the end of the message in which the other party’s key came, it can choose by that key. '
    + 'Without one, at psk2 it can choose by a name in the payload of message 1, which in NN everybody can read.',
  'A party encrypts after a psk only if it has sent an e: otherwise the same key and nonce could come again '
    + '(rule 5, and 9.3). A secret alone gives no forward secrecy: keep an ee beside it.',
];

/** The table of 7.7 of the standard: for each message source and destination, then the transport's that are named. */
export const TABLE = {
  N: '0 2', K: '1 2', X: '1 2',
  NN: '0 0|0 1|0 1', NK: '0 2|2 1|0 5', NX: '0 0|2 1|0 5',
  XN: '0 0|0 1|2 1|0 5', XK: '0 2|2 1|2 5|2 5', XX: '0 0|2 1|2 5|2 5',
  KN: '0 0|0 3|2 1|0 5', KK: '1 2|2 4|2 5|2 5', KX: '0 0|2 3|2 5|2 5',
  IN: '0 0|0 3|2 1|0 5', IK: '1 2|2 4|2 5|2 5', IX: '0 0|2 3|2 5|2 5',
};
const MEANS = [
  ['Source', [
    'No authentication.',
    'Sender authentication vulnerable to key-compromise impersonation (KCI).',
    'Sender authentication resistant to key-compromise impersonation (KCI).',
  ]],
  ['Destination', [
    'No confidentiality.', 'Encryption to an ephemeral recipient.',
    'Encryption to a known recipient, forward secrecy for sender compromise only, vulnerable to replay.',
    'Encryption to a known recipient, weak forward secrecy.',
    'Encryption to a known recipient, weak forward secrecy if the sender’s private key has been compromised.',
    'Encryption to a known recipient, strong forward secrecy.',
  ]],
];
const STANDARD = 'https://noiseprotocol.org/noise.html';

/** A link to a section of the standard. */
const cited = (words, section) => Object.assign(element('a', '', words), { href: `${STANDARD}#${section}` });

function quotation() {
  const cell = (name, text) => element(name, '', text);
  const count = Math.max(...Object.values(TABLE).map((it) => it.split('|').length));
  const numbers = Array.from({ length: count }, (_, n) => cell('th', String(n + 1)));
  const head = element('tr', '', cell('th', 'Pattern'), ...numbers);
  for (const it of head.children) it.scope = 'col';
  const rows = Object.entries(TABLE).map(([base, cells]) => {
    const name = Object.assign(cell('th', base), { scope: 'row' });
    const own = cells.split('|');
    return element('tr', '', name, ...Array.from({ length: count }, (_, n) => cell('td', own[n] ?? '')));
  });
  const table = element('table', '', element('thead', '', head), element('tbody', '', ...rows));
  const lists = MEANS.map(([name, all]) =>
    element('p', '', `${name}: ${all.map((it, n) => `${n} “${it}”`).join(' ')}`));
  const made = element('details', '', element('summary', '', 'What the standard says of each payload (7.7)'),
    element('p', '', 'Source and destination of each payload, in turn, the initiator’s first; after the handshake’s '
      + 'last message come those of the transport that the standard names. Quoted from ',
    cited('The Noise Protocol Framework, revision 34, section 7.7', 'payload-security-properties'), '.'),
    element('blockquote', '', element('div', 'scroll', table), ...lists));
  // It is the last thing of a box that scrolls, and would open below its edge.
  made.addEventListener('toggle', () => { if (made.open) made.scrollIntoView({ block: 'nearest' }); });
  return made;
}

/** Who sees whose key: where it can be read off, and where it is graded. */
const identities = () => element('p', '', 'In the clear everybody sees a static key. Of an encrypted one '
  + '“What the tokens show” has which private keys are enough to read it. How well each pattern hides identities is '
  + 'graded in ', cited('section 7.8 of the standard', 'identity-hiding'), '.');

/** A button that takes the pattern of this name. */
const taking = (name, take) => button(name, () => take(textOfName(name)), 'copy');

function purposes(take) {
  const rows = PURPOSES.map(([what, name, says]) => element('li', '', taking(name, take), ' ',
    element('strong', '', `${what}. `), says));
  return element('ul', 'choices', ...rows);
}

/** How many items of what fits are shown until all are asked for: a phone has all of them below each other. */
const SHOWN = 12;

/** The patterns that fit: `show(rows)` puts them there. */
function fittingList(take) {
  const list = element('ul', 'choices');
  const more = button('', () => {
    for (const it of list.children) it.hidden = false;
    more.hidden = true;
    list.children[SHOWN].querySelector('button').focus();
  });
  const itemOf = (rows, n) => {
    const names = rows.flatMap(({ name }) => [taking(name, take), ' ']);
    return Object.assign(element('li', '', ...names, rows[0].says), { hidden: n >= SHOWN });
  };
  const show = (rows) => {
    const groups = grouped(rows);
    list.replaceChildren(...groups.map(itemOf));
    more.hidden = groups.length <= SHOWN;
    more.textContent = `Show ${groups.length - SHOWN} more`;
  };
  return { parts: [list, more], show };
}

/** The boxes with what is asked, and the patterns that fit. */
function questions(take, marked) {
  const bases = [...FUNDAMENTAL, ...DEFERRED];
  const rows = { plain: bases.map((base) => rowOf(base)) };
  const answers = {};
  const told = element('p', 'fit');
  const { parts, show: list } = fittingList(take);
  told.setAttribute('role', 'status');
  const show = () => {
    if (answers.psk === 'yes') rows.psk ??= bases.flatMap((base) => pskNames(base).map((name) => rowOf(base, name)));
    const found = fitting(answers.psk === 'yes' ? rows.psk : rows.plain, answers);
    const count = new Set(found.map(({ base }) => base)).size;
    told.textContent = count
      ? `${count} of the standard’s ${bases.length} patterns ${count === 1 ? 'fits' : 'fit'}.`
      : 'No pattern of the standard fits: leave one answer open.';
    list(found);
    marked();
  };
  const boxes = Object.entries(ASKED).map(([name, [label, values]]) => {
    const select = element('select', '', new Option('any', ''), ...values.map((it) => new Option(it)));
    select.id = `ask-${name}`;
    select.addEventListener('change', () => { answers[name] = select.value; show(); });
    return element('label', '', `${label} `, select);
  });
  show();
  return [element('div', 'row', ...boxes), told, ...parts];
}

/**
 * Fills the box. `take(text)` puts a pattern into the editor, and `taken()` is the name of the one that is there. What
 * comes back marks that name, and is called after each change of it.
 */
export function choosing(box, take, taken) {
  const marked = () => {
    const name = taken();
    for (const it of box.querySelectorAll('.choices button')) it.ariaCurrent = String(it.textContent === name);
  };
  box.replaceChildren(
    element('p', 'hint', 'The client is the initiator, which writes first, and the server the responder. '
      + 'A static key is one that a party keeps. Press a name to take the pattern.'),
    element('h3', '', 'By purpose'), purposes(take),
    element('h3', '', 'By what they know'), ...questions(take, marked),
    element('h3', '', 'Where a psk stands'), ...PSK.map((it) => element('p', '', it)),
    element('h3', '', 'Who sees whose key'), identities(),
    quotation(),
  );
  marked();
  return marked;
}
