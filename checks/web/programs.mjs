// Writes the programs that the page shows for several set-ups: node programs.mjs FOLDER. Their files are
// FOLDER/LANGUAGE/NUMBER/NAME, and FOLDER/LANGUAGE/NUMBER/expected is what the program has to print. Those of one party
// are in FOLDER/LANGUAGE/parties/NUMBER-PARTY. FOLDER/pairs has a line for each set-up of theirs: its number, how many
// psks it has, and whether programs in two languages say the same to each other.
import { mkdir, writeFile } from 'node:fs/promises';
import { join } from 'node:path';
import { load } from '../../bindings/js/noise.mjs';
import { layout } from '../../web/plan.mjs';
import { textOf } from '../../web/patterns.mjs';
import { LANGUAGES, program } from '../../web/code.mjs';

const [folder] = process.argv.slice(2);
const OWN = 'MINE:\n  <- s\n  ...\n  -> e, es\n  <- e, ee\n  -> s, se\n';
const EPHEMERAL = 'EARLY:\n  <- e, s\n  ...\n  -> e, ee, es\n';
/** Six patterns and more, each mode with several. */
const SETUPS = [
  { text: textOf('XX'), interval: 1000 },
  { text: textOf('XX'), mode: 'stream', interval: 1 },
  { text: textOf('XX'), mode: 'datagrams' },
  { text: textOf('NN'), prologue: 'a "quoted" \\ text,\n\u0001 and é\u202e' },
  { text: textOf('NN', [0]), mode: 'stream' },
  { text: textOf('X', [0, 1]), interval: 1 },
  { text: textOf('N'), mode: 'stream' },
  { text: textOf('IK', [2]), mode: 'datagrams', window: 256 },
  { text: textOf('NK'), mode: 'stream' },
  { text: OWN },
  { text: OWN, mode: 'stream' },
  { text: textOf('K1K1', [0, 2]), mode: 'datagrams' },
  { text: EPHEMERAL, isForCAndJavaScript: true },
];
/** What a program calls in each mode, and in no other. */
const CALLS = {
  C: { transport: /noise_seal\(/, stream: /noise_stream_write\(/, datagrams: /noise_datagram_seal\(/ },
  Go: { transport: /\.Split\(/, stream: /noise\.Client\(/, datagrams: /\.Datagrams\(/ },
  Rust: { transport: /\.finish\(/, stream: /Stream::/, datagrams: /\.finish_datagrams\(/ },
  JavaScript: { transport: /\.finish\(/, stream: /NoiseSocket\.open\(/, datagrams: /\.finishDatagrams\(/ },
  Python: { transport: /\.split\(/, stream: /connect\(/, datagrams: /\.datagrams\(/ },
};
/** What compares the responder's static key. */
const COMPARES = {
  C: /compare\(&client, &server\.s\)/, Go: /client\.PeerStatic/, Rust: /server_public/,
  JavaScript: /serverKey\.publicKey/, Python: /peer_key=server_key/,
};

function mustFit(language, { mode, text }, made, plan) {
  const called = Object.entries(CALLS[language]).filter(([, call]) => call.test(made)).map(([name]) => name);
  if (called.join() !== mode) {
    throw new Error(`the program in ${language} of ${text.split('\n')[0]} is one for ${called}, not for ${mode}`);
  }
  if (plan.static.responder && !COMPARES[language].test(made)) {
    throw new Error(`the program in ${language} of ${text.split('\n')[0]} compares no key`);
  }
  if (/[\u202a-\u202e\u2066-\u2069]/.test(made)) throw new Error(`the program in ${language} turns its text around`);
}

/** Set-ups of which each party has a program of its own. */
const APART = [
  { text: textOf('XX'), interval: 1 },
  { text: textOf('XX'), mode: 'stream', interval: 1000 },
  { text: textOf('XX'), mode: 'datagrams' },
  { text: textOf('IK', [2]), prologue: 'a "quoted" \\ text,\n\u0001 and é\u202e' },
  { text: textOf('IK'), mode: 'stream' },
  { text: textOf('NN', [0]), mode: 'stream' },
  { text: textOf('NK'), mode: 'datagrams', window: 256 },
  { text: textOf('NN') },
  { text: textOf('X', [0, 1]), interval: 1 },
  { text: textOf('N'), mode: 'stream' },
  { text: textOf('KK', [0, 2]), mode: 'datagrams' },
  { text: OWN },
];
const PARTIES = { client: 'initiator', server: 'responder' };
/** Languages whose streams send no payload with message 1. */
const PLAIN = ['Rust', 'JavaScript'];

/** What the program of a party has to print. */
function printed(party, { oneWay, isEarly }) {
  if (party === 'client') return oneWay ? '' : 'the client reads: and hello\n';
  return `the server waits\n${isEarly ? 'with message 1 came: early hello\n' : ''}the server reads: hello\n`;
}

/** The programs of both parties in each language. */
async function apart(number, setup, port) {
  const plan = layout(setup.text);
  const isSealed = plan.messages[0].pieces.some(({ kind, sealed }) => kind === 'payload' && sealed);
  for (const language of LANGUAGES) {
    const isEarly = isSealed && !(setup.mode === 'stream' && PLAIN.includes(language));
    for (const [party, role] of Object.entries(PARTIES)) {
      const { name, text } = program(language, plan, setup, role);
      const sendsEarly = isEarly && party === 'client';
      if (text.includes('early hello') !== sendsEarly) throw new Error(`${name}: the payload of message 1`);
      if (/[\u202a-\u202e\u2066-\u2069]/.test(text)) throw new Error(`${name} turns its text around`);
      const place = join(folder, language, 'parties', `${number}-${party}`);
      await mkdir(place, { recursive: true });
      await writeFile(join(place, name), text.replaceAll('4050', port));
      await writeFile(join(place, 'expected'), printed(party, { oneWay: plan.oneWay, isEarly }));
    }
  }
  return `${number} ${plan.psks} ${isSealed && setup.mode === 'stream' ? 'alone' : 'mixed'}`;
}

const USUAL = { prologue: 'my protocol 1', interval: 0, mode: 'transport', window: 64 };
await load();
const pairs = [];
for (const [number, setup] of APART.entries()) {
  pairs.push(await apart(number, { ...USUAL, ...setup }, 20000 + process.pid % 1000 * 20 + number));
}
await writeFile(join(folder, 'pairs'), pairs.map((line) => `${line}\n`).join(''));
for (const [number, setup] of SETUPS.entries()) {
  const { isForCAndJavaScript, ...given } = setup;
  const whole = { ...USUAL, ...given };
  const plan = layout(whole.text);
  for (const language of LANGUAGES) {
    if (isForCAndJavaScript && ['Go', 'Rust', 'Python'].includes(language)) continue;
    const { name, text } = program(language, plan, whole);
    mustFit(language, whole, text, plan);
    const answers = language !== 'C' && whole.mode === 'stream' && !plan.oneWay;
    const place = join(folder, language, String(number));
    await mkdir(place, { recursive: true });
    await writeFile(join(place, name), text);
    await writeFile(
      join(place, 'expected'), `the server reads: hello\n${answers ? 'the client reads: and hello\n' : ''}`,
    );
  }
}
