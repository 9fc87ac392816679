// One party of a pattern as a program in JavaScript, for Node, over the package of bindings/js.
import { visible } from '../bytes.mjs';
import { PORT, REPLAYED, SAID, guide, lines, noParty, partyHead } from './text.mjs';

const quoted = (text) =>
  `'${visible(JSON.stringify(text)).slice(1, -1).replaceAll('\\"', '"').replaceAll("'", "\\'")}'`;

function imports({ isStream, isDatagrams, isServer, hasOwn, hasOther, psks }) {
  const named = [
    !isStream && 'Handshake', hasOwn && 'KeyPair', isStream && 'NoiseSocket', hasOther && 'equal',
    (hasOwn || hasOther || psks > 0) && 'fromHex', hasOwn && 'hex', 'load',
  ].filter(Boolean);
  const net = isServer ? 'createServer' : 'connect';
  return lines(
    isDatagrams && "import { createSocket } from 'node:dgram';",
    isDatagrams ? "import { on } from 'node:events';" : isServer && "import { once } from 'node:events';",
    (hasOwn || hasOther || psks > 0) && "import { readFile } from 'node:fs/promises';",
    !isDatagrams && `import { ${net} } from 'node:net';`,
    `import { ${named.join(', ')} } from 'yulimosar';`,
  );
}

function keys({ own, other, hasOwn, hasOther, psks }) {
  const files = Array.from({ length: psks }, (_, n) => `read('psk${n + 1}')`).join(', ');
  return lines(
    hasOwn && [
      `const staticKey = await KeyPair.fromSecret(await read('${own}.key'));`,
      "if (process.argv[2] === 'public') {",
      '  console.log(hex(staticKey.publicKey));',
      '  process.exit();',
      '}',
    ],
    hasOther && `const ${other} = await read('${other}.public');`,
    psks > 0 && `const psks = await Promise.all([${files}]);    // in the order of the psk tokens`,
  );
}

function options(facts) {
  const { section, isNamed, prologue, isServer, hasOwn, hasOther, knowsOther, other, psks, interval, isStream } = facts;
  const pattern = isNamed
    ? `'${section}'`
    : `[\n${facts.lines.map((line) => `    '${line}',`).join('\n')}\n    '',\n  ].join('\\n')`;
  return lines(
    'const options = {',
    `  pattern: ${pattern},`,
    isServer && '  responder: true,',
    `  prologue: bytes(${quoted(prologue)}),`,
    hasOwn && '  staticKey,',
    knowsOther && `  remoteStatic: ${other},`,
    psks > 0 && '  psks,',
    isStream && interval > 0 && `  interval: ${interval},`,
    isStream && hasOther && `  verify: (key) => equal(key, ${other}),`,
    isStream && !hasOther && psks === 0 && `  acceptAnyKey: true,    // the pattern has no static key of the ${other}`,
    isStream && '  signal: AbortSignal.timeout(10000),    // for the handshake',
    '};',
  );
}

const CONNECTED = (isServer) => (isServer
  ? [
    'const listening = createServer();',
    `listening.listen(${PORT}, '127.0.0.1', () => console.log('the server waits'));`,
    "const [socket] = await once(listening, 'connection');",
    'listening.close();    // one client is served',
  ]
  : [`const socket = connect(${PORT}, '127.0.0.1');`]);

/** Frames: each message after its length in two bytes. */
const FRAMES = (isServer) => lines(
  CONNECTED(isServer),
  "socket.setTimeout(10000, () => socket.destroy(new Error('nothing came for 10 seconds')));", '',
  '/** The messages that come, each after its length in two bytes. */',
  'async function* messages() {',
  '  let held = Buffer.alloc(0);',
  '  for await (const data of socket) {',
  '    held = Buffer.concat([held, data]);',
  '    while (held.length >= 2 && held.length >= 2 + held.readUInt16BE()) {',
  '      const end = 2 + held.readUInt16BE();',
  '      yield held.subarray(2, end);',
  '      held = held.subarray(end);',
  '    }',
  '  }',
  "  throw new Error('the connection has ended');",
  '}', '',
  'const incoming = messages();',
  'const receive = async () => (await incoming.next()).value;',
  'const send = (message) => socket.write(Buffer.concat([Buffer.of(message.length >> 8, message.length), message]));',
);

const DATAGRAMS = (isServer) => lines(
  "const socket = createSocket('udp4');",
  "const incoming = on(socket, 'message', { signal: AbortSignal.timeout(10000) });",
  isServer
    ? [
      `socket.bind(${PORT}, '127.0.0.1', () => console.log('the server waits'));`,
      'let last;    // where the last datagram came from',
      'const receive = async () => {',
      '  const { value: [message, from] } = await incoming.next();',
      '  last = from;',
      '  return message;',
      '};',
      'const send = (message) => new Promise((done) => { socket.send(message, last.port, last.address, done); });',
    ]
    : [
      'const receive = async () => (await incoming.next()).value[0];',
      `const send = (message) => new Promise((done) => { socket.send(message, ${PORT}, '127.0.0.1', done); });`,
    ],
);

/** Who sends, and who reads, in turn. */
function talk({ isServer, own, oneWay }, sends, reads) {
  const send = sends(SAID[own]);
  const read = `console.log('the ${own} reads:', ${reads});`;
  if (oneWay) return isServer ? [read] : [send];
  return isServer ? [read, send] : [send, read];
}

function messages(facts) {
  const { isServer, isEarly, hasOther, other, isDatagrams, window, interval } = facts;
  const finish = isDatagrams
    ? `finishDatagrams({ window: ${window} })`
    : `finish(${interval > 0 ? `{ interval: ${interval} }` : ''})`;
  return lines(
    (isDatagrams ? DATAGRAMS : FRAMES)(isServer).trimEnd(), '',
    'const handshake = new Handshake(options);',
    isEarly && (isServer
      ? 'const early = await handshake.read(await receive());'
      : `await send(await handshake.write(bytes('${SAID.early}')));    // ${REPLAYED}`),
    'while (!handshake.stage.done) {',
    '  if (handshake.stage.writesNext) await send(await handshake.write());',
    '  else await handshake.read(await receive());',
    '}',
    hasOther && `if (!equal(handshake.remoteStatic, ${other})) throw new Error("this isn't the ${other}");`,
    isEarly && isServer && `console.log('with message 1 came:', text(early));    // ${REPLAYED}`,
    `const channel = handshake.${finish};`,
    talk(facts, (said) => `await send(channel.seal(bytes('${said}')));`, 'text(channel.open(await receive()))'),
    'channel.dispose();',
    isDatagrams ? 'socket.close();' : 'socket.destroySoon();    // once all is sent',
  );
}

function streams(facts) {
  const { isServer, own, oneWay } = facts;
  const send = `await channel.send(bytes('${SAID[own]}'));`;
  const read = `for await (const payload of channel) console.log('the ${own} reads:', text(payload));    // to the end`;
  const steps = isServer ? [read, !oneWay && send] : [send, 'await channel.end();', !oneWay && read];
  return lines(
    CONNECTED(isServer),
    '// Streams of this package send no payload with message 1.',
    'const channel = await NoiseSocket.open(socket, options);',
    steps,
    'await channel.close();',
  );
}

export function javascriptParty(facts) {
  const { name, own, isStream, isEarly, hasOwn, hasOther, psks } = facts;
  if (facts.hasEphemeral) return noParty(facts, '//');
  const body = isStream ? streams(facts) : messages(facts);
  return lines(
    partyHead(facts, '//', `node ${name}-${own}.mjs`, [`${guide('JAVASCRIPT')} says how the package is installed.`]),
    imports(facts).trimEnd(), '',
    'const bytes = (it) => new TextEncoder().encode(it);',
    'const text = (it) => new TextDecoder().decode(it);',
    (hasOwn || hasOther || psks > 0)
      && "const read = async (file) => fromHex((await readFile(file, 'ascii')).trim());",
    '',
    'await load();',
    keys(facts).trimEnd() || undefined,
    options(facts).trimEnd(), '',
    (isStream && !isEarly ? body.replace(/^\/\/ Streams of.*\n/m, '') : body).trimEnd(),
  );
}
