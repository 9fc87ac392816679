// A log compared with a vector file, and messages in hex read by the pattern, as they are shown. Nothing of either is
// kept: the fields are left out of what a browser restores.
import { readCapture } from './capture.mjs';
import { compareLog, rightLines } from './compare.mjs';
import { button, element, speak } from './element.mjs';
import { scheduleOfVector } from './vectorrun.mjs';

/** A field for a text of several lines, with its label. */
function field(id, label, rows) {
  const made = element('textarea', 'lines');
  Object.assign(made, { id, rows, spellcheck: false, autocomplete: 'off', wrap: 'off' });
  made.setAttribute('autocapitalize', 'off');
  return [made, element('label', 'above', label, made)];
}

/** The values that differ, whole, with the digits from the first other one on marked. */
function valueRows(values) {
  const row = (who, name, text, from) => element('tr', '',
    Object.assign(element('th', '', `${who} ${name}`), { scope: 'row' }),
    element('td', '', text.slice(0, from), element('b', 'changed', text.slice(from))));
  return values.flatMap(([name, theirs, yours]) => {
    let from = 0;
    while (from < theirs.length && theirs[from] === yours[from]) from += 1;
    return [row('right', name, theirs, from), row('yours', name, yours, from)];
  });
}

/** What each call does, by sections 5.1 and 5.2 of the standard. */
const CALLS = {
  InitializeSymmetric: 'h is the protocol name with zeros behind it up to 32 bytes, or the hash of a longer one. '
    + 'ck is h.',
  MixHash: 'h becomes the hash of h and these bytes, also of none. ck, k and n stay.',
  MixKey: 'HKDF of ck and the DH result gives ck and k, in this order, and n becomes 0. h stays.',
  'MixHash,MixKey': 'h becomes the hash of h and the public e. In a pattern with psk, HKDF of ck and e gives ck and k, '
    + 'in this order, and n becomes 0.',
  MixKeyAndHash: 'HKDF of ck and the psk gives three results: ck, what MixHash then takes in, and k. n becomes 0.',
  EncryptAndHash: 'It encrypts with k, n and h as associated data, adds 1 to n, and then mixes the encrypted bytes '
    + 'and their tag into h, and not the plain ones. Without k it mixes in the plain ones.',
  DecryptAndHash: 'It decrypts with k, n and h as associated data, adds 1 to n, '
    + 'and then mixes the bytes that came into h, with their tag, and not the plain ones.',
  Split: 'HKDF of ck and of no bytes gives two keys: the first for what the initiator sends, the second for what the '
    + 'responder sends. n begins at 0 for each.',
  EncryptWithAd: 'It encrypts with k and n, and no associated data. Then n is one more, and k stays.',
  DecryptWithAd: 'It decrypts with k and n, and no associated data. Then n is one more, unless the tag is wrong. '
    + 'k stays.',
  Rekey: 'k becomes the first 32 bytes of 32 zeros encrypted with k and the nonce 2^64 - 1. n stays.',
};

/** What is done at the step where a log first differs. */
function callOf({ next }) {
  const call = next?.words[5];
  if (!Object.hasOwn(CALLS, call ?? '')) return [];
  const section = /^(?:EncryptWithAd|DecryptWithAd|Rekey)$/.test(call) ? '5.1' : '5.2';
  return [element('p', '', 'This step is ', element('code', '', call), ` (${section}). ${CALLS[call]}`)];
}

/** Selects a line of a text in its field, and brings it into view. */
function select(area, number) {
  const before = area.value.split('\n').slice(0, number - 1);
  const start = before.reduce((sum, { length }) => sum + length + 1, 0);
  const end = area.value.indexOf('\n', start);
  area.focus();
  area.setSelectionRange(start, end < 0 ? area.value.length : end);
  const height = parseFloat(getComputedStyle(area).lineHeight);
  area.scrollTo(0, Math.max(0, (number - 3) * height));
}

const lineButton = (log, number) => button(`Show line ${number}`, () => select(log, number), 'copy');

const MORE = {
  agrees: ({ count, split }) => `All ${count} lines are right, and nothing else was compared: `
    + `${split ? `${split} of them are of Split` : 'none of them is of Split, so its keys may be wrong'}. `
    + 'What your party decrypted is in no log: compare the payloads, too.',
  ends: ({ place }) => `All lines are right, and the log ends before ${place}. `
    + 'If it wasn’t cut off and your party should have gone on, it refused there.',
  differs: ({ next }) => (next
    ? 'This is the first line of your log that differs. Lines before it are right.'
    : 'The right schedule has no further line of this role, part and name.'),
};

/** What finds more. */
const naming = () => element('p', '', 'This page names no mistake; the command names those that it knows: ',
  element('code', '', './noise compare your.log your.vector'));

function outcome(found, log) {
  if (found.fault) return [element('p', 'bad', `The log can’t be compared: ${found.fault}.`)];
  const { finding, text: [first], values = [], skipped, cut } = found;
  const table = values.length ? [element('table', 'values', element('tbody', '', ...valueRows(values)))] : [];
  return [
    element('p', finding === 'agrees' ? 'title good' : 'title bad', first),
    ...table,
    element('p', '', MORE[finding](found)),
    ...(finding === 'differs' ? [...callOf(found), naming(), lineButton(log, found.number)] : []),
    ...(skipped ? [element('p', 'hint', `Lines that aren’t of a key schedule, passed over: ${skipped}.`)] : []),
    ...(cut ? [element('p', 'hint', `${cut.replace('the', 'The').replace("isn't", 'isn’t')}.`)] : []),
  ];
}

/** Fills the box of the log. `page` has `run` and `isStale`. */
export function comparing(box, page) {
  const [log, logLabel] = field('log-text', 'Your log', 7);
  const [vector, vectorLabel] = field('vector-text', 'The vector file', 7);
  const result = element('div', 'compared');
  const rightOf = async () => {
    if (vector.value.trim() !== '') return scheduleOfVector(vector.value.replaceAll('\r\n', '\n'));
    if (!page.run || page.isStale) throw new Error('The field of the vector file is empty.');
    const { scheduleOf } = await import('./schedule.mjs');
    return (await scheduleOf(page.run)).whole;
  };
  const act = async () => {
    try {
      result.replaceChildren(...outcome(compareLog(log.value, rightLines(await rightOf())), log));
    } catch (error) {
      result.replaceChildren(element('p', 'bad', error.message));
    }
    speak(result.textContent);
  };
  const more = Object.assign(element('a', '', 'Check your own implementation'), { href: 'mistakes.html' });
  box.replaceChildren(
    element('p', '', 'Have your party log its state after each step, as lines ', element('code', '', 'trace …'),
      '. The library runs the vector file, and the first line that differs from its key schedule is shown. ',
      'With no vector file it is the run above. ', more, ' has the format. ',
      'Neither field is kept or sent: they have secrets.'),
    element('div', 'fields', logLabel, vectorLabel),
    element('div', 'row', button('Compare', act, 'main')),
    result,
  );
}

function messageItem({ title, pieces = [], isBad }) {
  const items = pieces.map(({ name, start, end, clear }) => element('li', '',
    `bytes ${start} to ${end}: ${name}`, ...(clear ? [' ', element('code', '', clear)] : [])));
  return element('li', isBad ? 'bad' : '', element('strong', '', title), element('ul', '', ...items));
}

/** Fills the box of captured messages, which are read by the pattern of the page as it is then. */
export function capturing(box, page) {
  const [text, label] = field('capture-text', 'Messages in hex: a line each, or with two bytes of length in front', 5);
  const result = element('div', 'captured');
  const show = () => {
    const { plan, setup } = page;
    if (!plan) return result.replaceChildren(element('p', 'bad', 'The pattern isn’t valid.'));
    const { fault, messages, isFramed } = readCapture(plan, text.value, setup.mode === 'datagrams');
    if (fault) return result.replaceChildren(element('p', 'bad', fault));
    if (!messages.length) return result.replaceChildren();
    return result.replaceChildren(
      element('p', 'hint', `Read as messages of ${plan.section}${isFramed ? ', with the length in front' : ''}: `
        + 'by their lengths alone. The other pieces are encrypted.'),
      element('ol', 'messages', ...messages.map(messageItem)),
    );
  };
  text.addEventListener('input', show);
  box.replaceChildren(label, result);
  return show;
}
