// The facts about tokens (web/facts.mjs), the faults of a text (web/reading.mjs), and the corrections that the page
// offers (web/mends.mjs): node --test facts.test.mjs. What is expected was worked out by hand from the patterns of the
// standard.
import assert from 'node:assert/strict';
import { before, test } from 'node:test';
import { checkPattern } from '../../bindings/js/check.mjs';
import { load } from '../../bindings/js/module.mjs';
import {
  UNJUDGED,
  againSentence,
  keySentence,
  mixedWords,
  rowsOf,
  warningsOf,
  waysOf,
  writerSentence,
} from '../../web/facts.mjs';
import { differencesOf } from '../../web/factsview.mjs';
import { explain } from '../../web/faults.mjs';
import { mendsOf } from '../../web/mends.mjs';
import { DEFERRED, FUNDAMENTAL, textOf } from '../../web/patterns.mjs';
import { layout } from '../../web/plan.mjs';
import { faultsOf, readingOf } from '../../web/reading.mjs';

before(() => load());

const planOf = (text) => layout(text.includes('\n') ? text : textOf(text));
const keyOf = (text, name) => keySentence(rowsOf(planOf(text)).keys.find((row) => row.name === name));
const transportOf = (text) => keyOf(text, 'Transport, recorded');
const messageOf = (text, name) => rowsOf(planOf(text)).messages.find((row) => row.name === name);
/** All that is said of a pattern, but its name. */
const saidOfTokens = (plan) => {
  const { keys, messages } = rowsOf(plan);
  return [...keys.map((row) => `${row.name}: ${mixedWords(row.mixed)}. ${keySentence(row)}`),
    ...messages.map((row) => `${row.name}: ${writerSentence(row)} ${againSentence(row)}`), ...warningsOf(plan)];
};
const writerOf = (text, name) => writerSentence(messageOf(text, name));
const againOf = (text, name) => againSentence(messageOf(text, name));

test('the smallest sets of private keys that are enough for some DHs', () => {
  assert.deepEqual(waysOf(['ee']), [['initiator e'], ['responder e']]);
  assert.deepEqual(waysOf(['ee', 'es']), [['initiator e'], ['responder e', 'responder s']]);
  assert.deepEqual(waysOf(['ss']), [['initiator s'], ['responder s']]);
  assert.deepEqual(waysOf(['ee', 'es', 'se']), [
    ['initiator e', 'initiator s'],
    ['initiator e', 'responder e'],
    ['responder e', 'responder s'],
  ]);
});

test('the keys of the transport need other private keys in NN, NK, XX and IK', () => {
  assert.equal(transportOf('NN'), 'The initiator’s e, or the responder’s e.');
  assert.equal(transportOf('NK'), 'The initiator’s e, or the responder’s e and s.');
  assert.equal(transportOf('XX'), 'The initiator’s e and s, or both parties’ e, or the responder’s e and s.');
  assert.equal(transportOf('IK'), 'The initiator’s e and s, or the responder’s e and s.');
  assert.equal(transportOf('N'), 'The initiator’s e, or the responder’s s.');
  assert.equal(transportOf('K'), 'The responder’s s, or the initiator’s e and s.');
  assert.equal(transportOf(textOf('NN', [2])), 'The initiator’s e, or the responder’s e; and in each case the psk.');
});

test('no two of NN, NK, XX, IX, IK and KK have the same facts', () => {
  const all = ['NN', 'NK', 'XX', 'IX', 'IK', 'KK'].map((name) => saidOfTokens(planOf(name)).join('\n'));
  assert.equal(new Set(all).size, all.length);
});

test('who can compute the key at each encrypted s and payload', () => {
  assert.equal(
    keyOf('XX', 'Message 2, s'),
    'The initiator’s e, or the responder’s e. Whoever takes the initiator’s part needs only an e of its own.',
  );
  assert.equal(keyOf('IK', 'Message 1, s'), 'The initiator’s e, or the responder’s s.');
  assert.equal(keyOf('IK', 'Message 1, payload'), 'The responder’s s, or the initiator’s e and s.');
  assert.match(
    keyOf('XX', 'Message 3, s'),
    /Whoever takes the responder’s part needs only an e and an s of its own\.$/,
  );
  assert.doesNotMatch(keyOf('XK', 'Message 3, s'), /part/);
  assert.equal(
    keyOf('MINE:\n  -> s\n  <- e, se\n  -> e, ee\n', 'Message 2, payload'),
    'The initiator’s s, or the responder’s e. Whoever takes the initiator’s part needs only an s of its own.',
  );
  assert.equal(keyOf('IX', 'Message 1, s'), 'In the clear: everybody sees it.');
  assert.equal(keyOf('NN', 'Message 1, payload'), 'In the clear: everybody sees it.');
  assert.equal(keyOf(textOf('NN', [0]), 'Message 1, payload'), 'The psk alone.');
  assert.equal(keyOf(textOf('XX', [3]), 'Message 1, payload'), 'No DH is mixed in: everybody can compute it.');
});

test('who can have written a message', () => {
  for (const name of ['K', 'X', 'IK', 'KK']) {
    assert.equal(writerOf(name, 'Message 1'), 'Whoever has the initiator’s s, or the responder’s s.', name);
  }
  assert.equal(writerOf('N', 'Message 1'), 'Anyone, with an e of its own.');
  assert.equal(writerOf('NN', 'Message 1'), 'Anyone: it has no tag.');
  assert.equal(writerOf('XX', 'Message 3'), 'Whoever has the initiator’s s, or the responder’s e.');
  assert.equal(writerOf('IK', 'Transport, initiator’s'), 'Whoever has the initiator’s s, or the responder’s e and s.');
  assert.equal(writerOf('NK', 'Transport, initiator’s'), 'Anyone, with an e of its own.');
  assert.equal(writerOf('NK', 'Transport, responder’s'), 'Whoever has the initiator’s e, or the responder’s s.');
  assert.equal(writerOf(textOf('NN', [0]), 'Message 1'), 'Whoever has the psk.');
  assert.equal(writerOf(textOf('XX', [3]), 'Message 1'), 'Anyone: everybody can compute the key.');
  assert.equal(messageOf('N', 'Transport, responder’s'), undefined);
});

test('which recordings are accepted again', () => {
  assert.equal(againOf('NN', 'Message 1'), 'Accepted again: it has no tag.');
  assert.equal(againOf('IK', 'Message 1'), 'Accepted again: the responder puts in no e before.');
  assert.equal(againOf('IK', 'Message 2'), 'Refused: the initiator’s e is new each time.');
  assert.equal(againOf('N', 'Transport, initiator’s'), 'Accepted again: the responder puts in no e before.');
  assert.equal(againOf('XX', 'Transport, initiator’s'), 'Refused: the responder’s e is new each time.');
  assert.equal(
    againOf('M:\n  <- e, s\n  ...\n  -> e, ee, es\n', 'Message 1'),
    'Refused: the responder’s e is new each time.',
  );
  assert.equal(againOf('M:\n  -> e\n  <- e\n', 'Message 2'), 'Accepted again: it has no tag.');
});

test('keys that everybody can compute, and an s that no DH mixes, are warned of', () => {
  assert.deepEqual(warningsOf(planOf('M:\n  -> e\n  <- e\n')), [
    'Transport, recorded: no DH is mixed in, and everybody can compute the key.',
  ]);
  assert.deepEqual(warningsOf(planOf('M:\n  -> e, s\n  <- e, ee\n')), [
    'The initiator’s s is named, and no DH mixes it: nothing shows that the initiator has its private key.',
  ]);
  assert.deepEqual(warningsOf(planOf('MINEpsk1:\n  -> e, s, psk\n  <- e, ee, se\n')), [
    'Message 1, s: no DH is mixed in, and everybody can compute the key.',
  ]);
  for (const name of FUNDAMENTAL) assert.deepEqual(warningsOf(planOf(name)), [], name);
});

test('two patterns beside each other show only what differs', () => {
  assert.deepEqual(differencesOf(textOf('NN'), textOf('NN')), []);
  const rows = differencesOf(textOf('NK'), textOf('NK1'));
  assert.deepEqual(rows.find(([name]) => name === 'Message 1'), ['Message 1', '→ e, es (48 bytes)', '→ e (32 bytes)']);
  assert.equal(rows.find(([name]) => name === 'Known before'), undefined);
  assert.ok(rows.every(([, left, right]) => left !== right));
});

test('each sentence is filled, and the last one says what isn’t judged', () => {
  for (const base of [...FUNDAMENTAL, ...DEFERRED]) {
    const last = layout(textOf(base)).messages.length;
    for (const places of [[], [0], [last]]) {
      for (const line of saidOfTokens(layout(textOf(base, places)))) assert.doesNotMatch(line, /[{}]|undefined/, base);
    }
  }
  assert.match(UNJUDGED.join(' '), /7\.7 and 7\.8.*Noise Explorer/);
  assert.equal(mixedWords({ dhs: [], psks: 2 }), 'psks');
});

/** Numbers below a bound, the same in each run (mulberry32). */
function numbers(start) {
  let seed = start;
  return (most) => {
    seed = (seed + 0x6D2B79F5) | 0;
    let t = Math.imul(seed ^ (seed >>> 15), 1 | seed);
    t = (t + Math.imul(t ^ (t >>> 7), 61 | t)) ^ t;
    return ((t ^ (t >>> 14)) >>> 0) % most;
  };
}

test('the first fault that the page reads is the library’s', () => {
  const next = numbers(7);
  const pick = (list) => list[next(list.length)];
  const known = [
    '',
    '',
    '',
    '  <- s\n  ...\n',
    '  -> s\n  <- s\n  ...\n',
    '  <- e, s\n  ...\n',
    '  <- s\n  -> s\n  ...\n',
  ];
  const met = new Set();
  for (let n = 0; n < 4000; n += 1) {
    const names = pick([['e', 's', 'ee', 'es', 'se', 'ss'], ['e', 's', 'ee', 'es', 'se', 'ss', 'psk', 'E', 'x', '']]);
    const message = () => Array.from({ length: 1 + next(4) }, () => pick(names)).join(', ');
    const arrow = (at) => (next(12) ? ['  -> ', '  <- '][at % 2] : pick(['  -> ', '  <- ', ' -> ']));
    const heading = pick(['MINE:', 'MINE:', 'MINEpsk0:', 'MINEpsk0:', 'mine']);
    const body = Array.from({ length: next(5) }, (_, at) => `${arrow(at)}${message()}\n`).join('');
    const text = `${heading}\n${pick(known)}${heading === 'MINEpsk0:' ? body.replace('-> ', '-> psk, ') : body}`;
    const verdict = checkPattern(text);
    const [first] = readingOf(text);
    if (verdict.valid) {
      assert.equal(first, undefined, JSON.stringify(text));
    } else if (verdict.code !== 35) { // Places of psk are the library's alone.
      const same = Object.fromEntries(Object.keys(first).map((key) => [key, verdict[key]]));
      assert.deepEqual({ ...first }, same, JSON.stringify(text));
    }
    met.add(verdict.valid ? 0 : verdict.rule ?? verdict.code);
    for (const fault of verdict.valid ? [] : faultsOf(text, verdict)) {
      const { span, title, says } = explain(text, fault);
      assert.ok(span[0] >= 0 && span[0] <= span[1] && span[1] <= text.length, JSON.stringify(text));
      assert.doesNotMatch(title + says, /[{}]|undefined/, JSON.stringify(text));
    }
  }
  for (const kind of [0, 30, 31, 32, 33, 34, 35, 37, 38, 1, 2, 3, 4, 5]) {
    assert.ok(met.has(kind), `no text has the fault ${kind}`);
  }
});

test('all faults that reading can see are told', () => {
  const text = 'DEV:\n  -> e, es\n  <- e, ee, ee\n  -> e\n';
  assert.deepEqual(faultsOf(text, checkPattern(text)).map((fault) => explain(text, fault).title), [
    'Rule 1 is broken at message 1, token es', 'Rule 3 is broken at message 2, token ee',
    'Rule 2 is broken at message 3, token e']);
  const malformed = 'DEV:\n-> e\n  -> e, foo\n  -> ee\n';
  assert.deepEqual(faultsOf(malformed, checkPattern(malformed)).map((fault) => explain(malformed, fault).title), [
    'Line 2', 'Line 3: “foo”', 'Line 4']);
});

test('no correction takes a psk away, or makes a message a key known before', () => {
  const [text, verdict] = ['DEV:\n  -> e, psk, s\n', checkPattern('DEV:\n  -> e, psk, s\n')];
  assert.deepEqual(mendsOf(text, verdict).map((it) => it.text), ['DEVpsk1:\n  -> e, s, psk\n']);
  const lost = 'DEV:\n  -> s\n  -> e\n  <- e, ee, se\n';
  assert.deepEqual(mendsOf(lost, checkPattern(lost)).filter((it) => it.text.includes('...')), []);
  const count = (it) => it.split('\n').slice(1).join().split(/[ ,]+/).filter((word) => word === 'psk').length;
  const next = numbers(3);
  const pieces = ['e', 's', 'ee', 'es', 'psk', 'psk', 'x'];
  for (let n = 0; n < 1500; n += 1) {
    const message = () => Array.from({ length: 1 + next(4) }, () => pieces[next(pieces.length)]).join(', ');
    const given = `${['MINE:', 'MINEpsk0:', 'MINEpsk1:', 'mine'][next(4)]}\n`
      + `${Array.from({ length: 1 + next(3) }, (_, at) => `  ${at % 2 ? '<-' : '->'} ${message()}\n`).join('')}`;
    const found = checkPattern(given);
    for (const offer of found.valid ? [] : mendsOf(given, found)) {
      assert.ok(count(offer.text) >= count(given), JSON.stringify([given, offer]));
    }
  }
});

/** What is said of a refused text, and what is offered. */
function saidOf(text) {
  const verdict = checkPattern(text);
  assert.equal(verdict.valid, false, text);
  const { title, says, span } = explain(text, verdict);
  return { title, says, marked: text.slice(...span), offers: mendsOf(text, verdict) };
}

test('a forgotten “...” is named, and offered', () => {
  for (const [text, mended] of [
    ['MINE:\n  <- s\n  -> e, es\n  <- e, ee\n', 'MINE:\n  <- s\n  ...\n  -> e, es\n  <- e, ee\n'],
  ]) {
    const { says, offers } = saidOf(text);
    assert.match(says, /“\.\.\.”, and that line is missing/);
    assert.equal(offers[0].text, mended);
    assert.equal(checkPattern(mended).valid, true);
  }
  const [{ label }] = saidOf('MINE:\n  -> e\n  -> e, ee\n').offers;
  assert.equal(label, 'Write line 3 so: “  <- e, ee”.');
});

test('rule 1 names the key that lacks', () => {
  assert.match(saidOf('MINE:\n  -> e, es\n').says, /^es needs the responder’s s,/);
  assert.match(saidOf('MINE:\n  <- s\n  ...\n  -> es\n').says, /^es needs the initiator’s e,/);
  assert.match(saidOf('MINE:\n  <- s\n  ...\n  -> e, ss\n').says, /^ss needs the initiator’s s,/);
  assert.match(saidOf('MINE:\n  -> e, ee\n').says, /^ee needs the responder’s e,/);
  assert.equal(saidOf('MINE:\n  -> e, es\n').offers[0].text, 'MINE:\n  <- s\n  ...\n  -> e, es\n');
});

test('the other rules name token, party and what is missing', () => {
  const rule4 = saidOf('MINE:\n  -> e, s\n  <- e, se\n');
  assert.equal(rule4.title, 'Rule 4 is broken at the first transport message of the initiator');
  assert.match(rule4.says, /^The initiator encrypts here, se is mixed in, and ee isn’t/);
  assert.equal(rule4.offers[0].text, 'MINE:\n  -> e, s\n  <- e, ee, se\n');
  assert.match(saidOf('MINE:\n  -> e, s\n  <- s, ss\n').says, /ss is mixed in, and (es|se) isn’t/);
  assert.match(saidOf('MINE:\n  -> e\n  <- e, ee\n  -> e\n').says, /^The initiator has sent e already/);
  assert.equal(saidOf('MINE:\n  -> e\n  <- e, ee, ee\n').offers[0].text, 'MINE:\n  -> e\n  <- e, ee\n');
  assert.equal(saidOf('MINEpsk0:\n  -> psk, s\n').offers[0].text, 'MINEpsk0:\n  -> psk, e, s\n');
});

test('what the editor can mend it offers to', () => {
  for (const [text, mended] of [
    ['MINE:\n  -> e \n  <- e, ee\n', 'MINE:\n  -> e\n  <- e, ee\n'],
    ['MINE:\n  → e\n  ← e, ee\n', 'MINE:\n  -> e\n  <- e, ee\n'],
    ['MINE:\r\n  -> e\r\n', 'MINE:\n  -> e\n'],
    ['mine\n-> e,s\n<- E ee; SE\n', 'MINE:\n  -> e, s\n  <- e, ee, se\n'],
    ['MINE:\n\n  -> e\n\n', 'MINE:\n  -> e\n'],
    ['XX:\n  -> e\n', 'MINE:\n  -> e\n'],
    ['MINE:\n  -> e, psk\n', 'MINEpsk1:\n  -> e, psk\n'],
    ['MINE:\n', 'MINE:\n  -> e\n'],
    ['MINE:\n-> s\n', 'MINE:\n  -> s\n'],
    ['  -> e\n', 'MINE:\n  -> e\n'],
    ['MINE:\n  <- s\n  -> s\n  ...\n  -> e, es, ss\n', 'MINE:\n  -> s\n  <- s\n  ...\n  -> e, es, ss\n'],
  ]) assert.equal(saidOf(text).offers[0]?.text, mended, JSON.stringify(text));
  assert.equal(saidOf('MINE:\n  -> e \n').marked, ' ');
  assert.deepEqual(saidOf('MINE:\n  -> e, foo\n').offers, [
    { label: 'Write line 2 so: “  -> e”.', text: 'MINE:\n  -> e\n' },
  ]);
  assert.deepEqual(saidOf('NN:\n  -> e, foo\n').offers, []);
});

test('texts of others: names, arrows alone and letters that look alike go in one mend', () => {
  const xx = textOf('XX');
  for (const [text, label, mended] of [
    ['IKpsk2\n', 'Take the pattern IKpsk2', textOf('IK', [2])], ['xx\n', 'Take the pattern XX', xx],
    ['XX:\n', 'Take the pattern XX', xx], ['Noise_XX_25519_AESGCM_SHA256\n', 'Take the pattern XX', xx],
    ['nnPSK0\n', 'Take the pattern NNpsk0', textOf('NN', [0])],
    [`${xx}  <-\n  ->\n`, 'Take out the lines of an arrow alone', xx],
    [`${xx}<-\n->\n\n`, 'Take out the lines of an arrow alone', xx],
    ['MINE:\n  -> \u0435\n', 'Write the letters that are meant', 'MINE:\n  -> e\n'],
    ['\u041c\u0406NE:\n  -> e, \u0455\n', 'Write the letters that are meant', 'MINE:\n  -> e, s\n'],
    ['MINE\uff1a\n  -> \uff45\n', 'Write the letters that are meant', 'MINE:\n  -> e\n'],
  ]) {
    const { offers } = saidOf(text);
    assert.deepEqual(offers[0], { label, text: mended }, JSON.stringify(text));
    assert.ok(checkPattern(mended).valid);
  }
  const { says, marked } = saidOf('MINE:\n  -> e, \u0435\u0435\n');
  assert.equal(marked, '\u0435\u0435');
  assert.equal(says, '“\u0435” looks like e, and is another sign (U+0435).');
  assert.deepEqual(saidOf('NN:\n  -> e, \u00e9\n').offers, []);
  assert.ok(!saidOf('MINE\n').offers.some(({ label }) => label.startsWith('Take the pattern')));
});

test('an offer is right, or its fault is further on', () => {
  const pieces = ['e', 's', 'ee', 'es', 'se', 'ss', 'psk', 'E', 'x', ''];
  const next = numbers(5);
  const message = () =>
    Array.from({ length: 1 + next(4) }, () => pieces[next(pieces.length)]).join(next(5) ? ', ' : ',');
  for (let n = 0; n < 2000; n += 1) {
    const arrows = ['  -> ', '  <- ', ' -> ', '  → '];
    const text = `${['MINE:', 'MINEpsk0:', 'XX:', 'mine'][next(4)]}\n`
      + `${Array.from({ length: next(4) }, () => `${arrows[next(4)]}${message()}\n`).join('')}`;
    const verdict = checkPattern(text);
    if (verdict.valid) continue;
    const { span } = explain(text, verdict);
    assert.ok(span[0] >= 0 && span[0] <= span[1] && span[1] <= text.length, JSON.stringify(text));
    for (const offer of mendsOf(text, verdict)) assert.ok(offer.label && offer.text !== text, JSON.stringify(text));
  }
});

test('a missing DH is mixed where both its keys are known', () => {
  const mends = (text) => mendsOf(text, checkPattern(text)).map((it) => [it.label, it.text]);
  const nk = 'MINE:\n  <- s\n  ...\n  -> e, es\n';
  assert.deepEqual(mends(`${nk}  <- e\n`), [['Write line 5 so: “  <- e, ee”.', `${nk}  <- e, ee\n`]]);
  assert.deepEqual(mends('MINE:\n  -> e\n  <- e, s, es\n  -> s, se\n'), [
    ['Write line 3 so: “  <- e, ee, s, es”.', 'MINE:\n  -> e\n  <- e, ee, s, es\n  -> s, se\n'],
  ]);
  assert.deepEqual(mends('MINEpsk2:\n  -> e\n  <- s, es, psk\n'), [
    ['Write line 3 so: “  <- e, ee, s, es, psk”.', 'MINEpsk2:\n  -> e\n  <- e, ee, s, es, psk\n'],
  ]);
});

test('each pattern without one of its DHs has an offer that works', () => {
  for (const name of [...FUNDAMENTAL, ...DEFERRED]) {
    const whole = textOf(name).replace(/^[A-Z0-9]*/, 'MINE');
    for (const [dh] of whole.matchAll(/, (?:ee|es|se|ss)\b/g)) {
      const text = whole.replace(dh, '');
      const verdict = checkPattern(text);
      if (verdict.rule === 4) assert.ok(mendsOf(text, verdict).length > 0, `${name} without${dh}`);
    }
  }
});

/** How many bytes are left from a broken rule on, by the verdict alone. */
function leftBehind(text, { message, token }) {
  const lines = text.split('\n').slice(0, -1);
  const n = (lines.indexOf('  ...') + 1 || 1) + message - 1;
  return n < lines.length
    ? [lines[n].slice(5).split(', ').slice(token).join(', '), ...lines.slice(n + 1)].join('\n').length
    : 0;
}

test('after an offer for a broken rule the text is valid, or less of it is left from its fault on', () => {
  const next = numbers(82);
  const known = ['', '  <- s', '  -> s', '  -> s\n  <- s', '  <- e, s', '  -> e'];
  const counts = { broken: 0, offered: 0 };
  while (counts.broken < 500) {
    const body = Array.from({ length: 1 + next(4) }, (_, at) => {
      const tokens = ['e', 's', 'ee', 'es', 'se', 'ss'].filter(() => next(5) < 2);
      return `  ${at % 2 ? '<-' : '->'} ${[...tokens, ...(next(4) ? [] : ['psk'])].join(', ')}\n`;
    });
    const places = body.flatMap((line, n) => (line.includes('psk') ? [`psk${n + 1}`] : [])).join('+');
    const above = known[next(known.length)];
    const text = `MINE${places}:\n${above && `${above}\n  ...\n`}${body.join('')}`;
    const verdict = checkPattern(text);
    if (!verdict.rule) continue;
    const offers = mendsOf(text, verdict);
    counts.broken += 1;
    counts.offered += Math.min(offers.length, 1);
    for (const { text: mended } of offers) {
      const found = checkPattern(mended);
      const isBetter = found.valid || (found.rule && leftBehind(mended, found) < leftBehind(text, verdict));
      assert.ok(isBetter, JSON.stringify([text, mended]));
    }
  }
  assert.ok(counts.offered > 400, `only ${counts.offered} of them have an offer`);
});
