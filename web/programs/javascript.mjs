// A pattern as a program in JavaScript, over the package of bindings/js.
import { visible } from '../bytes.mjs';
import { guide, lines } from './text.mjs';

const quoted = (text) =>
  `'${visible(JSON.stringify(text)).slice(1, -1).replaceAll('\\"', '"').replaceAll("'", "\\'")}'`;

function options(role, { has, knows, knowsEphemeral, psks }) {
  const [own, other] = role === 'initiator' ? ['client', 'server'] : ['server', 'client'];
  const parts = [
    '...both',
    role === 'responder' && 'responder: true',
    has[role] && `staticKey: ${own}Key`,
    knows[role] && `remoteStatic: ${other}Key.publicKey`,
    knowsEphemeral[role === 'initiator' ? 'responder' : 'initiator'] && `ephemeralKey: ${own}Ephemeral`,
    knowsEphemeral[role] && `remoteEphemeral: ${other}Ephemeral.publicKey`,
    psks > 0 && 'psks',
  ];
  return parts.filter(Boolean);
}

/** The options as an object over several lines, which begin with so many spaces. */
function object(parts, indent) {
  return `{\n${[...parts].map((part) => `${indent}  ${part},\n`).join('')}${indent}}`;
}

function keys({ has, knowsEphemeral, psks }) {
  const draw = (name) => `const ${name} = await KeyPair.generate();`;
  return lines(
    has.initiator && draw('clientKey'),
    has.responder && draw('serverKey'),
    knowsEphemeral.responder && `${draw('clientEphemeral')}    // a new one for each handshake`,
    knowsEphemeral.initiator && `${draw('serverEphemeral')}    // a new one for each handshake`,
    psks > 0
      && `const psks = Array.from({ length: ${psks} }, () => crypto.getRandomValues(new Uint8Array(32)));`
        + '    // in the order of the psk tokens',
  );
}

function socket(role, facts) {
  const { has, interval, psks } = facts;
  const [reads, writes, other, isOther] =
    role === 'initiator' ? ['back', 'there', 'server', has.responder] : ['there', 'back', 'client', has.initiator];
  const more = [
    interval > 0 && `interval: ${interval}`,
    isOther && `verify: (key) => String(key) === String(${other}Key.publicKey)`,
    !isOther && psks === 0 && 'acceptAnyKey: true',
  ].filter(Boolean);
  const given = object([...options(role, facts), ...more], '  ');
  return `  NoiseSocket.open({ readable: ${reads}.readable, writable: ${writes}.writable }, ${given}),`;
}

function streams(facts) {
  const { oneWay } = facts;
  return lines(
    '// A pair of streams, each way one. Or a WebSocket, or a socket of node:net.',
    'const [there, back] = [new TransformStream(), new TransformStream()];',
    'const [client, server] = await Promise.all([',
    socket('initiator', facts),
    socket('responder', facts),
    ']);',
    "const sent = client.send(bytes('hello'));",
    "console.log('the server reads:', text(await server.receive()));",
    'await sent;',
    !oneWay && [
      "const answered = server.send(bytes('and hello'));",
      "console.log('the client reads:', text(await client.receive()));",
      'await answered;',
    ],
    'await Promise.all([client.close(), server.close()]);',
  );
}

/** The comparison of the other party's static key, where the pattern has one. */
const compare = (n, own, other) =>
  `if (String(handshakes[${n}].remoteStatic) !== String(${other}Key.publicKey)) `
  + `throw new Error('the ${own} expects another key');`;

/** Messages in order, or datagrams. */
function messages(facts) {
  const { window, interval, isDatagrams, has } = facts;
  const finish = isDatagrams
    ? `finishDatagrams({ window: ${window} })`
    : `finish(${interval > 0 ? `{ interval: ${interval} }` : ''})`;
  return lines(
    'const handshakes = [',
    `  new Handshake(${object(options('initiator', facts), '  ')}),`,
    `  new Handshake(${object(options('responder', facts), '  ')}),`,
    '];',
    'while (!handshakes[0].stage.done) {',
    '  const [writer, reader] = handshakes[0].stage.writesNext ? handshakes : [...handshakes].reverse();',
    '  await reader.read(await writer.write());    // a network comes between the two calls',
    '}',
    has.responder && compare(0, 'client', 'server'),
    has.initiator && compare(1, 'server', 'client'),
    `const [client, server] = handshakes.map((it) => it.${finish});`,
    "console.log('the server reads:', text(server.open(client.seal(bytes('hello')))));",
    'client.dispose();',
    'server.dispose();',
  );
}

export function javascript(facts) {
  const { section, name, isNamed, prologue, isStream, has, knowsEphemeral } = facts;
  const isKeyed = [has, knowsEphemeral].some((who) => who.initiator || who.responder);
  const imported = [!isStream && 'Handshake', isKeyed && 'KeyPair', isStream && 'NoiseSocket', 'load'].filter(Boolean);
  const pattern = isNamed
    ? `'${section}'`
    : `[\n${facts.lines.map((line) => `  '${line}',`).join('\n')}\n  '',\n].join('\\n')`;
  return lines(
    `// The pattern ${section}: both parties in one program, ${name}.mjs.`,
    `// ${guide('JAVASCRIPT')} says how the package is installed.`,
    `import { ${imported.join(', ')} } from 'yulimosar';`, '',
    'const bytes = (it) => new TextEncoder().encode(it);',
    'const text = (it) => new TextDecoder().decode(it);', '',
    'await load();',
    `const both = { pattern: ${pattern}, prologue: bytes(${quoted(prologue)}) };`,
    keys(facts).trimEnd() || undefined,
    (isStream ? streams(facts) : messages(facts)).trimEnd(),
  );
}
