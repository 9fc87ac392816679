// A pattern as a program in Rust, over the crate of bindings/rust.
import { guide, hexEscape, lines, quoted } from './text.mjs';

/** The calls of a Builder, for one party. */
function builder(role, { has, knows, psks, interval, isDatagrams }) {
  const [own, other] = role === 'initiator' ? ['client', 'server'] : ['server', 'client'];
  const parts = [
    'Builder::new(PATTERN)',
    '.prologue(PROLOGUE)',
    !isDatagrams && interval > 0 && `.interval(${interval})`,
    has[role] && `.static_key(${own}_key)`,
    knows[role] && `.remote_static(&${other}_public)`,
    ...Array.from({ length: psks }, (_, n) => `.psk(&psk_${n + 1})`),
    `.${role}()?`,
  ].filter(Boolean);
  const line = parts.join('');
  return line.length <= 60 ? line : parts.join('\n        ');    // as rustfmt lays out a chain
}

function keys({ has, psks }) {
  const draw = (own) => [
    `    let ${own}_key = KeyPair::generate()?;`,
    `    let ${own}_public = *${own}_key.public_key();`,
  ];
  const psk = '*KeyPair::generate()?.secret_key()?';
  return lines(
    has.initiator && draw('client'),
    has.responder && draw('server'),
    ...Array.from({ length: psks }, (_, n) => `    let psk_${n + 1} = ${psk}; // 32 random bytes`),
  );
}

/** The stream of a party: the other party's static key is compared, if the pattern has one. */
function open(isOther, other, below) {
  return isOther
    ? `Stream::new(${below}, handshake, |key| key == &${other}_public)?`
    : `Stream::anonymous(${below}, handshake)?`;
}

const indented = (text, by) => text.replaceAll('\n', `\n${by}`);

function streams(facts) {
  const { has, oneWay } = facts;
  return lines(
    '    let (here, there) = UnixStream::pair()?; // or a TcpStream',
    '    let server = std::thread::spawn(move || -> io::Result<()> {',
    `        let handshake = ${indented(builder('responder', facts), '    ')};`,
    `        let mut stream = ${open(has.initiator, 'client', 'there')};`,
    '        let mut text = String::new();',
    '        stream.read_to_string(&mut text)?;',
    '        println!("the server reads: {text}");',
    !oneWay && ['        stream.write_all(b"and hello")?;', '        stream.close_write()?;'],
    '        Ok(())',
    '    });',
    `    let handshake = ${builder('initiator', facts)};`,
    `    let mut stream = ${open(has.responder, 'server', 'here')};`,
    '    stream.write_all(b"hello")?;',
    '    stream.close_write()?;',
    !oneWay && [
      '    let mut answer = String::new();',
      '    stream.read_to_string(&mut answer)?;',
      '    println!("the client reads: {answer}");',
    ],
    '    server.join().expect("the server doesn\'t panic")',
  );
}

/** Messages in order, or datagrams. */
function messages(facts) {
  const { window, has, isDatagrams } = facts;
  const finish = isDatagrams ? `finish_datagrams(${window})?` : 'finish()?';
  const compare = (own, other) => `    assert_eq!(${own}.remote_static(), Some(${other}_public));`;
  return lines(
    `    let mut client = ${builder('initiator', facts)};`,
    `    let mut server = ${builder('responder', facts)};`,
    '    let mut message = [0; MAX_MESSAGE];',
    '    while !client.is_done() {',
    '        // A network comes between the two calls.',
    '        if client.writes_next() {',
    '            let len = client.write(b"", &mut message)?;',
    '            server.read(&mut message[..len])?;',
    '        } else {',
    '            let len = server.write(b"", &mut message)?;',
    '            client.read(&mut message[..len])?;',
    '        }',
    '    }',
    has.responder && compare('client', 'server'),
    has.initiator && compare('server', 'client'),
    `    let (mut client, mut server) = (client.${finish}, server.${finish});`,
    '    let len = client.seal(b"hello", &mut message)?;',
    '    let text = server.open(&mut message[..len])?;',
    '    println!("the server reads: {}", String::from_utf8_lossy(text));',
    '    Ok(())',
  );
}

export function rust(facts) {
  const { section, name, isNamed, prologue, isStream, knowsEphemeral } = facts;
  if (knowsEphemeral.initiator || knowsEphemeral.responder) {
    return `// ${section} has an ephemeral key before "...", which the crate for Rust has no call `
      + 'for. Take the program in C.\n';
  }
  const pair = facts.has.initiator || facts.has.responder || facts.psks > 0 ? 'KeyPair, ' : '';
  const text = isNamed ? `"${section}"` : `concat!(\n${facts.lines.map((line) => `    "${line}\\n",`).join('\n')}\n)`;
  return lines(
    `// The pattern ${section}: both parties in one program, ${name}.rs.`,
    `// ${guide('RUST')} has the Cargo.toml for it.`,
    !isStream ? `use yulimosar::{Builder, Error, ${pair}MAX_MESSAGE};`
      : [
        'use std::io::{self, Read, Write};',
        'use std::os::unix::net::UnixStream;',
        `use yulimosar::{Builder, ${pair}Stream};`,
      ],
    '',
    `const PATTERN: &str = ${text};`,
    `const PROLOGUE: &[u8] = b${quoted(prologue, hexEscape)};`, '',
    `fn main() -> ${isStream ? 'io::Result<()>' : 'Result<(), Error>'} {`,
    keys(facts).trimEnd() || undefined,
    (isStream ? streams(facts) : messages(facts)).trimEnd(),
    '}',
  );
}
