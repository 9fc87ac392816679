// What of the page has no DOM besides its facts: links, the picture, and runs whose parties have other psks. node
// --test parts.test.mjs.
import assert from 'node:assert/strict';
import { readFileSync } from 'node:fs';
import { before, test } from 'node:test';
import { checkPattern } from '../../bindings/js/check.mjs';
import { load } from '../../bindings/js/module.mjs';
import { visible } from '../../web/bytes.mjs';
import { readCapture } from '../../web/capture.mjs';
import { PURPOSES, TABLE, pskNames, rowOf } from '../../web/choose.mjs';
import { intake } from '../../web/intake.mjs';
import * as own from '../../web/own.mjs';
import { MOST_TEXT, address, faultOf, isLocal, isSetup, read, readRun, whyNot, write } from '../../web/link.mjs';
import { DEFERRED, FUNDAMENTAL, textOf, textOfName } from '../../web/patterns.mjs';
import { picture, words } from '../../web/picture.mjs';
import { layout } from '../../web/plan.mjs';
import { Run } from '../../web/run.mjs';
import { scheduleOf } from '../../web/schedule.mjs';
import { sentenceOf } from '../../web/sentences.mjs';
import { forExplorer } from '../../web/take.mjs';

before(() => load());

const SETUP = { text: 'NN:\n', prologue: 'p', interval: 3, mode: 'stream', window: 256, ownPsks: true, beside: 'XX' };

test('a link has the set-up and the run, and is read as it was written', () => {
  const steps = [
    { step: 'write', role: 'initiator', payload: Uint8Array.of(1, 255) },
    { step: 'write', role: 'responder', payload: new Uint8Array(0) },
    { step: 'deliver', role: 'responder', n: 0, flips: [3, 40] },
    { step: 'end', role: 'initiator' },
    { step: 'cut', role: 'responder', n: 1, count: 9 },
    { step: 'close', role: undefined },
  ];
  assert.deepEqual(read(write(SETUP, steps), {}), SETUP);
  assert.deepEqual(readRun(write(SETUP, steps)), { steps, fault: '' });
  assert.deepEqual(readRun(write(SETUP)), { steps: [], fault: '' });
  assert.equal(faultOf(write(SETUP, steps)), '');
  const { ownPsks, beside } = read('', SETUP);
  assert.deepEqual([ownPsks, beside], [false, '']);
});

test('a run that can’t be read is left out, with the step', () => {
  for (const run of [
    'x', 'wi.0', 'wi.gg', 'w', 'wi.aa.bb', 'd.0', 'di', 'di.1.x', 'di.123456', 'ci.1', 'ci.1.2.3', 'e', 'ei.1', 'qi',
    'q.1', '',
  ]) {
    assert.deepEqual(
      readRun(`#run=wr_${run}`), { steps: [], fault: 'The run of this link is left out: its step 2 can’t be read.' },
      run,
    );
  }
  assert.equal(readRun(`#run=${Array(400).fill('wi').join('_')}`).steps.length, 400);
  assert.match(
    readRun(`#run=${Array(401).fill('wi').join('_')}`).fault, /: it has 401 steps, and a link can have 400\.$/,
  );
});

test('a set-up that can’t be read is left out, by name', () => {
  assert.match(
    faultOf('#interval=-1&mode=x&window=65&psks=no&beside=xx'), /left out: interval, mode, window, psks, beside\.$/,
  );
  assert.match(faultOf(`#pattern=${'x'.repeat(2001)}`), /left out: pattern\.$/);
  assert.deepEqual(read('#interval=x&mode=x&window=65&__proto__=1&toString=2', SETUP), {
    ...SETUP, mode: 'transport', window: 64, ownPsks: false, beside: '',
  });
  assert.deepEqual([isSetup('#run'), isSetup(''), isSetup('#mode=stream')], [false, false, true]);
});

test('which addresses open only on this computer', () => {
  const local = [
    'http://localhost:8000/web/', 'http://a.localhost/', 'http://127.0.0.1/', 'http://[::1]:1/', 'http://0.0.0.0:8000/',
    'file:///web/index.html',
  ];
  const others = [
    'https://example.org/', 'https://localhost.example.org/', 'https://127.0.0.1.example.org/', 'http://192.168.1.2/',
    'http://notlocalhost/',
  ];
  for (const url of local) assert.equal(isLocal(new URL(url)), true, url);
  for (const url of others) assert.equal(isLocal(new URL(url)), false, url);
});

test('the page’s own address has no run, and nothing too long', () => {
  assert.equal(address(SETUP), write(SETUP));
  assert.equal(address({ ...SETUP, text: 'x'.repeat(1e6) }), '#');
  const steps = Array(300).fill({ step: 'write', role: 'initiator', payload: new Uint8Array(2000) });
  assert.match(whyNot(SETUP, steps), /^it would have \d+ characters, and a link can have 60000$/);
  assert.equal(whyNot(SETUP, steps.slice(0, 14)), '');
});

test('what may have a key goes into no address and no link, isn’t kept, and isn’t taken', () => {
  const key = '00112233445566778899aabbccddeeff'.repeat(2);
  const vector = `vector 2\nprotocol Noise_XX_25519_ChaChaPoly_SHA256\ninitiator keys ${key} -\n`;
  for (const text of [key, key.toUpperCase(), `k ${key.slice(0, 32)}\n`, `M:\n  -> e\n${key}\n`, vector]) {
    assert.equal(address({ ...SETUP, text }), '#', text);
    assert.match(whyNot({ ...SETUP, text }), /32 hex digits/);
    assert.equal(own.remember(text), false);
    assert.equal(own.has(text), false);
  }
  const given = [
    ` ${vector}`, `\n${vector}`, `# of ours\n${vector}`, vector.replaceAll('\n', '\r'), `initiator k1 ${key}\n`, key,
    `M:\n  -> e   # a comment\n${key}\n`, `vector 2\nprotocol none\nk ${key}\nend\n`,
    `https://example.org/#pattern=${key}&mode=stream`,
  ];
  for (const text of given) {
    const found = intake(text);
    assert.match(found?.says ?? '', /^This text has 32 hex digits in a row/, text);
    assert.deepEqual([found.setup, found.fragment], [undefined, undefined]);
  }
  assert.deepEqual(intake(`# ${key}\nM:\n  -> e\n`).setup, { text: 'M:\n  -> e\n' });
  assert.ok(intake(vector).setup, 'a vector file, of which no key is taken');
  assert.equal(intake('0123456789abcdef0123456789abcde'), undefined);
});

test('a link that the page makes can be read', () => {
  const setup = { ...SETUP, text: 'é'.repeat(MOST_TEXT), prologue: '\u202e&=#+% '.repeat(200) };
  const steps = Array(14).fill({ step: 'write', role: 'responder', payload: new Uint8Array(1000) });
  assert.equal(whyNot(setup, steps), '');
  assert.equal(faultOf(write(setup, steps)), '');
  assert.deepEqual(read(write(setup, steps), {}), setup);
  assert.deepEqual(readRun(write(setup, steps)), { steps, fault: '' });
  assert.notEqual(whyNot({ ...setup, text: 'x'.repeat(MOST_TEXT + 1) }), '');
});

test('names, comments, vector files and links are taken', () => {
  assert.deepEqual(intake(' Noise_XX_25519_ChaChaPoly_SHA256\n').setup, { text: textOf('XX') });
  assert.deepEqual(intake('Noise_IKpsk2_25519_ChaChaPoly_SHA256').setup, { text: textOf('IK', [2]) });
  assert.equal(intake('Noise_NNpsk5_25519_ChaChaPoly_SHA256'), undefined);
  assert.equal(intake('NN'), undefined, 'a word of a heading');
  assert.equal(intake('  -> e, ee'), undefined);
  assert.deepEqual(intake('# ours\r\nM: # mine\r\n  -> e   # new\r\n\r\n').setup, { text: 'M:\n  -> e\n' });
  assert.equal(
    intake('https://example.org/web/index.html#pattern=NN%3A&mode=stream').fragment, '#pattern=NN%3A&mode=stream',
  );
  const vector = 'vector 2\nprotocol Noise_M_25519_ChaChaPoly_SHA256\nM:\n  -> e\nend\nprologue ff\ninterval 3\n'
    + 'initiator xor - -\nresponder xor - -\ndatagrams 256\n';
  const { setup, says } = intake(vector);
  assert.deepEqual(setup, { text: 'M:\n  -> e\n', interval: 3, mode: 'datagrams', window: 256, prologue: '' });
  assert.match(says, /isn’t text/);
  assert.match(intake('vector 1\nprotocol Noise_NK1_25519\n').says, /no pattern that the page knows/);
});

test('texts of others are taken for what they are', () => {
  assert.deepEqual(intake('Noise_XX_25519_AESGCM_SHA256').setup, { text: textOf('XX') });
  assert.match(intake('Noise_XXpsk3_448_ChaChaPoly_BLAKE2b').says, /^The suite 448_ChaChaPoly_BLAKE2b isn’t here:/);
  assert.equal(intake('Noise_XXfallback_25519_AESGCM_SHA256'), undefined);
  for (const [base, places] of [['XX', []], ['N', []], ['IK', [2]], ['NK1', []]]) {
    const text = textOf(base, places);
    const found = intake(forExplorer(layout(text), text));
    assert.deepEqual(found.setup, { text }, base);
    assert.match(found.says, /lines of an arrow alone/);
  }
  const theirs = 'XX:\n  -> e\n  <- e, ee, s, es\n  -> s, se\n  <-\n  ->';
  assert.deepEqual(intake(theirs.replaceAll('\n', '\r\n')).setup, { text: textOf('XX') });
  const line = `trace responder 1 0 e MixHash 0 ${'ab'.repeat(32)} ${'cd'.repeat(32)} ${'ef'.repeat(32)} - 0\n`;
  for (const log of [line, `2026 debug ${line}`, `\n${line}`, `# mine\n${line}${line}`]) {
    assert.deepEqual([intake(log).log, intake(log).setup], [log, undefined], log);
  }
  assert.equal(intake(line.toUpperCase()).log, undefined);
  assert.ok(intake(`vector 2\nprotocol Noise_NN_25519_ChaChaPoly_SHA256\n`).setup);
});

test('captured messages are read by their lengths', () => {
  const nk = layout(textOf('NK'));
  const [first, second] = ['11'.repeat(32) + '22'.repeat(16), `${'33'.repeat(32)}${'44'.repeat(2)}${'55'.repeat(16)}`];
  const captured = (text, isDatagrams) => readCapture(nk, text, isDatagrams);
  const lines = ({ messages }) => messages.flatMap(({ title, pieces = [] }) => [
    title, ...pieces.map(({ name, start, end, clear }) => `${start} ${end} ${name}${clear ? ` ${clear}` : ''}`),
  ]);
  const wanted = [
    'Message 1, from the initiator: 48 bytes', `0 31 ephemeral key ${'11'.repeat(32)}`, '32 47 tag',
    'Message 2, from the responder: 50 bytes', `0 31 ephemeral key ${'33'.repeat(32)}`, '32 33 payload, encrypted',
    '34 49 tag',
  ];
  assert.deepEqual(lines(captured(`${first}\n${second}\n`)), wanted);
  assert.deepEqual(lines(captured(`0030${first}0032${second}`)), wanted);
  assert.equal(captured(`0030${first}\n0032${second}`).isFramed, true);
  assert.deepEqual(lines(captured(` 0x${first.toUpperCase()}\n\n${second.match(/../g).join(':')}`)), wanted);
  assert.deepEqual(lines(captured(`${first}\n${second}\n${'66'.repeat(17)}`)).slice(-3), [
    'Transport message: 17 bytes, of which 1 are the payload', '0 0 payload, encrypted', '1 16 tag',
  ]);
  assert.deepEqual(lines(captured(`${first}\n${second}\n${'00'.repeat(7)}09${'66'.repeat(17)}`, true)).slice(-3), [
    '0 7 nonce 0000000000000009', '8 8 payload, encrypted', '9 24 tag',
  ]);
  assert.match(lines(captured(first.slice(2)))[0], /47 bytes, and it has at least 48$/);
  assert.equal(captured('abc').fault, 'Line 1 isn’t hex.');
  assert.deepEqual(lines(readCapture(layout(textOf('NN')), `${'11'.repeat(32)}6869`)), [
    'Message 1, from the initiator: 34 bytes', `0 31 ephemeral key ${'11'.repeat(32)}`, '32 33 payload, clear “hi”',
  ]);
});

test('a text for Noise Explorer ends with an arrow alone for each party', () => {
  assert.equal(forExplorer(layout(textOf('NN')), textOf('NN')), 'NN:\n  -> e\n  <- e, ee\n  ->\n  <-\n');
  assert.equal(forExplorer(layout(textOf('XX')), textOf('XX')).slice(-10), '  <-\n  ->\n');
  assert.equal(forExplorer(layout(textOf('N')), textOf('N')).slice(-5), '  ->\n');
});

test('what can’t be seen, or turns a text around, is shown as an escape', () => {
  assert.equal(visible('a\u202eb\u2066\u200f\u0000é漢'), 'a\\u{202e}b\\u{2066}\\u{200f}\\u{0}é漢');
});

/** What the words and the picture say that the hash covers after each message. */
function coveredBy(text, width) {
  const plan = layout(text);
  const said = words(plan).map((line) => /The hash then covers (.*?)\. The initiator/.exec(line)?.[1]).filter(Boolean);
  const drawn = picture(plan, width).match(/>(?:the )?hash(?: covers)?: [^<]*/g).map((it) => it.slice(1));
  return [said, drawn];
}

test('the hash covers the psks so far too', () => {
  const start = 'the protocol name, the prologue';
  const [said, drawn] = coveredBy(textOf('NN', [2]), 900);
  assert.deepEqual(said, [
    `${start}, and all bytes of message 1`, `${start}, the psk, and all bytes of messages 1 and 2`,
  ]);
  assert.deepEqual(drawn, [
    'the hash covers: name, prologue, message 1', 'the hash covers: name, prologue, psk, messages 1 and 2',
  ]);
  assert.deepEqual(coveredBy(textOf('XK', [0, 3]), 900)[1], [
    'the hash covers: name, prologue, known keys, psk, message 1',
    'the hash covers: name, prologue, known keys, psk, messages 1 and 2',
    'the hash covers: name, prologue, known keys, 2 psks, messages 1 to 3']);
  assert.deepEqual(
    coveredBy(textOf('XK', [0, 3]), 900)[0][2],
    `${start}, the keys known before, 2 psks, and all bytes of messages 1 to 3`,
  );
  assert.deepEqual(coveredBy(textOf('NN'), 900)[0][0], `${start}, and all bytes of message 1`);
  assert.deepEqual(coveredBy(textOf('XK', [0]), 250)[1][0], 'hash: name, prologue, keys, psk,');
});

test('what is left of a handshake is passed, also where a message is on its way', async () => {
  const started = () => Run.start({
    text: textOf('XX'), prologue: new Uint8Array(0), interval: 0, mode: 'transport', window: 64,
  });
  const nothing = () => new Uint8Array(0);
  for (const written of [0, 1, 2]) {
    const run = await started();
    for (let n = 0; n < written; n += 1) {
      if (run.pending) await run.deliver(run.pending.to, run.pending.item.n);
      await run.write(run.next, nothing());
    }
    await run.passAll(nothing);
    assert.equal(run.isOpen, true, String(written));
    assert.equal(run.log.length, 6);
    assert.deepEqual([run.next, run.pending], [undefined, undefined]);
    run.dispose();
  }
  const run = await started();
  const { item } = await run.write('initiator', nothing());
  await run.deliver('responder', 0);
  (await run.write('responder', nothing())).item.flips.add(95);
  await run.passAll(nothing);
  assert.match(
    sentenceOf(run, run.log.at(-1)),
    /^Initiator refused message 2, payload: a tag is wrong\. Changed on the way: byte 95\./,
  );
  assert.deepEqual([run.next, run.pending, item.comings], [undefined, undefined, ['accepted']]);
  run.dispose();
});

async function runOf(base, places, ownPsks) {
  const run = await Run.start({
    text: textOf(base, places), prologue: new Uint8Array(0), interval: 0, mode: 'transport', window: 64, ownPsks,
  });
  await run.passAll(() => new Uint8Array(0));
  return run;
}

test('parties with other psks: the first tag after a psk is refused', async () => {
  for (const [base, places, said] of [
    ['NN', [0], 'Responder refused message 1, payload'], ['NN', [2], 'Initiator refused message 2, payload'],
    ['XX', [0], 'Responder refused message 1, payload'],
    ['IK', [1], 'Responder refused message 1, payload'], ['XX', [1, 3], 'Responder refused message 1, payload'],
    ['X', [0], 'Responder refused message 1, token s'],
  ]) {
    const run = await runOf(base, places, true);
    assert.equal(
      sentenceOf(run, run.log.at(-1)), `${said}: a tag is wrong. The parties’ psks differ. Its handshake has ended.`,
      base,
    );
    assert.equal(run.hasOwnPsks, true);
    // Each party's schedule is worked out from its own psks: what was written has the hash of the library's.
    const { whole, entries } = await scheduleOf(run);
    const psks = whole.filter((line) => line.split(' ')[4] === 'psk').map((line) => line.split(' ').slice(8).join());
    assert.equal(psks.length, new Set(psks).size, base);
    assert.equal(
      [...entries.values()].flat().length + whole.filter((line) => line.split(' ')[2] === 'start').length, whole.length,
    );
    run.dispose();
  }
});

test('a stream’s payload is written in one frame and read, and then its end', async () => {
  const run = await Run.start({
    text: textOf('NN'), prologue: new Uint8Array(0), interval: 0, mode: 'stream', window: 64,
  });
  await run.passAll(() => new Uint8Array(0));
  for (const size of [1, 45000]) {
    const { item } = await run.write('initiator', new Uint8Array(size).fill(7));
    assert.equal(item.message.length, size + 16);
    await run.deliver('responder', item.n);
    assert.match(sentenceOf(run, run.log.at(-1)), /^Responder accepted transport message \d of the initiator/);
  }
  await run.write('initiator');
  await run.deliver('responder', 3);
  assert.match(sentenceOf(run, run.log.at(-1)), /^Responder accepted the end of the initiator’s stream/);
  run.dispose();
});

test('without psks, or with the same, nothing of it shows', async () => {
  for (const [base, places, ownPsks] of [['NN', [], true], ['NN', [2], false]]) {
    const run = await runOf(base, places, ownPsks);
    assert.deepEqual([run.hasOwnPsks, run.isOpen], [false, true]);
    assert.deepEqual(run.initiator.psks, run.responder.psks);
    run.dispose();
  }
});

test('a refusal before the psk isn’t laid to it', async () => {
  const run = await Run.start({
    text: textOf('XX', [3]), prologue: new Uint8Array(0), interval: 0, mode: 'transport', window: 64, ownPsks: true,
  });
  await run.write('initiator', Uint8Array.of(1));
  const entry = await run.deliver('responder', 0, [40]);
  assert.equal(
    sentenceOf(run, entry),
    'Responder refused message 1, payload: a tag is wrong. Changed on the way: byte 40. Its handshake has ended.',
  );
  await assert.rejects(run.deliver('responder', 0, [400]), { message: 'The message has no such byte.' });
  run.dispose();
});

/** Source and destination of what a party writes as payload N, by the definitions of 7.7. */
function gradeOf(from, seen, writers, n) {
  const other = from === 'initiator' ? 'responder' : 'initiator';
  const dh = (ours, theirs) => (from === 'initiator' ? ours + theirs : theirs + ours);
  const has = (name) => seen.some(({ token }) => token === name);
  const source = has(dh('s', 'e')) ? 2 : Number(has('ss'));
  if (!has(dh('e', 's')) && !has('ss')) return `${source} ${has('ee') ? 1 : 0}`;
  if (!has('ee')) return `${source} 2`;
  // strong where the reader has written after its s was mixed with an e, so that its own e is known to be its
  const mixed = seen.find(({ token }) => token === dh('e', 's')).n;
  if (writers.slice(mixed, n).includes(other)) return `${source} 5`;
  return `${source} ${has('ss') ? 4 : 3}`;
}

test('the table of 7.7 is that of its definitions', () => {
  for (const [base, cells] of Object.entries(TABLE)) {
    const text = textOf(base);
    const { messages, oneWay } = layout(text);
    const writers = [...messages.map(({ from }) => from), 'initiator', 'responder'];
    if (messages.at(-1).from === 'initiator') writers.splice(messages.length, 1);
    const seen = [];
    const graded = cells.split('|').map((_, n) => {
      const from = writers[n];
      for (const token of messages[n]?.tokens ?? []) seen.push({ token, n });
      return gradeOf(from, seen, writers, n);
    });
    assert.equal(graded.join('|'), cells, base);
    assert.equal(oneWay, cells.length === 3, base);
  }
  assert.deepEqual(Object.keys(TABLE), FUNDAMENTAL);
});

test('the deferred patterns are those of examples/patterns', () => {
  const folder = new URL('../../examples/patterns/', import.meta.url);
  for (const base of DEFERRED) assert.equal(textOf(base), readFileSync(new URL(`${base}.pattern`, folder), 'utf8'));
});

test('what helps to choose says what the layouts show', () => {
  assert.match(rowOf('XK1').says, /It is XK with es in message 2\.$/);
  assert.match(rowOf('X1X1').says, /It is XX with es in message 3 and se in message 4\.$/);
  assert.equal(
    rowOf('IK').says, 'The client knows the server’s key before, and the client’s key is sent encrypted in message 1; '
      + 'message 1 takes encrypted data. 2 messages.',
  );
  assert.match(rowOf('NN').says, /; message 1 has nothing encrypted in its payload\./);
  assert.match(rowOf('NN', 'NNpsk0').says, /; message 1 takes data that the secret alone encrypts\./);
  assert.match(rowOf('IN', 'INpsk1').says, /in the clear in message 1; message 1 takes data that the secret alone/);
  assert.match(rowOf('NN', 'NNpsk2').says, /; everybody can read the payload of message 1\./);
  assert.match(rowOf('NK', 'NKpsk0').says, /; message 1 takes encrypted data\./);
  // the names of 9.4
  const named = 'Npsk0 Kpsk0 Xpsk1 NNpsk0 NNpsk2 NKpsk0 NKpsk2 NXpsk2 XNpsk3 XKpsk3 XXpsk3 KNpsk0 KNpsk2 KKpsk0 KKpsk2 '
    + 'KXpsk2 INpsk1 INpsk2 IKpsk1 IKpsk2 IXpsk2';
  const made = [...FUNDAMENTAL, ...DEFERRED].flatMap((base) => pskNames(base));
  for (const name of named.split(' ')) assert.ok(made.includes(name), name);
  for (const name of made) assert.ok(checkPattern(textOfName(name)).valid, name);
  for (const [, name] of PURPOSES) assert.ok(checkPattern(textOfName(name)).valid, name);
});
