// One party of a pattern as a program in Rust, over the crate of bindings/rust.
import { PORT, REPLAYED, SAID, guide, hexEscape, lines, noParty, partyHead, quoted } from './text.mjs';

const AT = `"127.0.0.1:${PORT}"`;

function imports({ isStream, isDatagrams, isServer, hasOwn, hasOther, psks, oneWay }) {
  const files = hasOwn || hasOther || psks > 0;
  const stream = isServer ? (isStream ? 'TcpListener' : '{TcpListener, TcpStream}') : 'TcpStream';
  const traits = isStream
    ? [(isServer || !oneWay) && 'Read', (!isServer || !oneWay) && 'Write']
    : [!isDatagrams && 'Read', !isDatagrams && 'Write'];
  const named = ['Builder', hasOwn && 'KeyPair', isStream ? 'Stream' : 'MAX_MESSAGE'].filter(Boolean);
  const of = traits.filter(Boolean).join(', ');
  return lines(
    'use std::error::Error;',
    files && 'use std::fs;',
    of && `use std::io::${of.includes(',') ? `{${of}}` : of};`,
    `use std::net::${isDatagrams ? 'UdpSocket' : stream};`,
    'use std::time::Duration;',
    `use yulimosar::${named.length > 1 ? `{${named.join(', ')}}` : named[0]};`,
  );
}

function keys({ own, other, hasOwn, hasOther, psks }) {
  return lines(
    hasOwn && [
      `    let key = KeyPair::from_secret(&load("${own}.key")?)?;`,
      '    if std::env::args().nth(1).as_deref() == Some("public") {',
      '        for byte in key.public_key() {', '            print!("{byte:02x}");', '        }',
      '        println!();', '        return Ok(());', '    }',
    ],
    hasOther && `    let ${other} = load("${other}.public")?;`,
    ...Array.from({ length: psks }, (_, n) => `    let psk_${n + 1} = load("psk${n + 1}")?;`),
  );
}

/** The calls of a Builder, as rustfmt lays out a chain. */
function builder({ isServer, other, hasOwn, knowsOther, psks, interval, isDatagrams }) {
  const parts = [
    'Builder::new(PATTERN)',
    '.prologue(PROLOGUE)',
    !isDatagrams && interval > 0 && `.interval(${interval})`,
    hasOwn && '.static_key(key)',
    knowsOther && `.remote_static(&${other})`,
    ...Array.from({ length: psks }, (_, n) => `.psk(&psk_${n + 1})`),
    `.${isServer ? 'responder' : 'initiator'}()?`,
  ].filter(Boolean);
  const line = parts.join('');
  return line.length <= 60 ? line : parts.join('\n        ');
}

const CONNECTED = (isServer, name) => [
  ...(isServer
    ? [
      `    let listener = TcpListener::bind(${AT})?;`, '    println!("the server waits");',
      `    let (${name}, _) = listener.accept()?; // one client is served`,
    ]
    : [`    let ${name} = TcpStream::connect(${AT})?;`]),
  `    ${name.replace('mut ', '')}.set_read_timeout(Some(Duration::from_secs(10)))?;`,
];

const DATAGRAMS = (isServer) => [
  ...(isServer
    ? [`    let socket = UdpSocket::bind(${AT})?;`, '    println!("the server waits");']
    : ['    let socket = UdpSocket::bind("127.0.0.1:0")?;', `    socket.connect(${AT})?;`]),
  '    socket.set_read_timeout(Some(Duration::from_secs(10)))?;',
];

/** The functions that send and receive a message. */
const FRAMED = (socket) => lines(
  '', '/// A message comes after its length in two bytes.',
  `fn send(socket: &mut ${socket}, message: &[u8]) -> std::io::Result<()> {`,
  '    socket.write_all(&[(message.len() as u16).to_be_bytes().as_slice(), message].concat())', '}', '',
  `fn receive(socket: &mut ${socket}, message: &mut [u8]) -> std::io::Result<usize> {`,
  '    let mut len = [0; 2];', '    socket.read_exact(&mut len)?;',
  '    let len = usize::from(u16::from_be_bytes(len));',
  '    socket.read_exact(&mut message[..len])?;', '    Ok(len)', '}',
);

const LOAD = lines(
  '', '/// The 32 bytes of a file, which has them in 64 hexadecimal digits.',
  'fn load(file: &str) -> Result<[u8; 32], Box<dyn Error>> {', '    let text = fs::read_to_string(file)?;',
  '    let digits = text.trim();', '    if digits.len() != 64 || !digits.is_ascii() {',
  '        return Err(format!("{file}: not 64 digits").into());', '    }', '    let mut bytes = [0; 32];',
  '    for (n, byte) in bytes.iter_mut().enumerate() {',
  '        *byte = u8::from_str_radix(&digits[2 * n..2 * n + 2], 16)?;', '    }', '    Ok(bytes)', '}',
);

/** Who sends, and who reads, in turn. */
function talk({ isServer, own, oneWay }, calls) {
  const send = [
    `    let len = channel.seal(b"${SAID[own]}", &mut message)?;`, `    ${calls.send}`,
  ];
  const read = [
    `    let len = ${calls.receive};`, '    let text = channel.open(&mut message[..len])?;',
    `    println!("the ${own} reads: {}", String::from_utf8_lossy(text));`,
  ];
  if (oneWay) return isServer ? read : send;
  return isServer ? [...read, ...send] : [...send, ...read];
}

/** How a message is sent and received: over TCP in frames, over UDP as it is. */
const CALLS = {
  tcp: { send: 'send(&mut socket, &message[..len])?;', receive: 'receive(&mut socket, &mut message)?' },
  udp: { send: 'socket.send(&message[..len])?;', receive: 'socket.recv(&mut message)?' },
};

/** What reads the first message of a client over UDP, from which its address is known. */
const FIRST = ['    let (len, from) = socket.recv_from(&mut message)?;', '    socket.connect(from)?;'];

/** The first message, where it has a payload, or where it says who the client is. */
function first({ isServer, isEarly, isDatagrams }, calls) {
  const received = isDatagrams ? FIRST : [`    let len = ${calls.receive};`];
  if (!isServer) {
    return isEarly
      ? [`    let len = handshake.write(b"${SAID.early}", &mut message)?; // ${REPLAYED}`, `    ${calls.send}`]
      : [];
  }
  if (isEarly) return [...received, '    let early = handshake.read(&mut message[..len])?.to_vec();'];
  return isDatagrams ? [...FIRST, '    handshake.read(&mut message[..len])?;'] : [];
}

function messages(facts) {
  const { isServer, isEarly, hasOther, other, isDatagrams, window } = facts;
  const calls = CALLS[isDatagrams ? 'udp' : 'tcp'];
  return lines(
    isDatagrams ? DATAGRAMS(isServer) : CONNECTED(isServer, 'mut socket'),
    `    let mut handshake = ${builder(facts)};`,
    '    let mut message = [0; MAX_MESSAGE];',
    first(facts, calls),
    '    while !handshake.is_done() {', '        if handshake.writes_next() {',
    '            let len = handshake.write(b"", &mut message)?;', `            ${calls.send}`, '        } else {',
    `            let len = ${calls.receive};`, '            handshake.read(&mut message[..len])?;',
    '        }', '    }',
    hasOther && [
      `    if handshake.remote_static() != Some(${other}) {`,
      `        return Err("this isn't the ${other}".into());`, '    }',
    ],
    isEarly && isServer && [
      `    // ${REPLAYED[0].toUpperCase()}${REPLAYED.slice(1)}.`,
      '    println!("with message 1 came: {}", String::from_utf8_lossy(&early));',
    ],
    `    let mut channel = handshake.${isDatagrams ? `finish_datagrams(${window})?` : 'finish()?'};`,
    talk(facts, calls),
    '    Ok(())',
  );
}

function streams(facts) {
  const { isServer, own, other, hasOther, oneWay } = facts;
  const send = [`    stream.write_all(b"${SAID[own]}")?;`, '    stream.close_write()?;'];
  const read = [
    '    let mut text = String::new();', '    stream.read_to_string(&mut text)?;',
    `    println!("the ${own} reads: {text}");`,
  ];
  const opened = hasOther
    ? `Stream::new(socket, handshake, |key| key == &${other})?`
    : 'Stream::anonymous(socket, handshake)?';
  return lines(
    CONNECTED(isServer, 'socket'),
    '    socket.set_nodelay(true)?;',
    `    let handshake = ${builder(facts)};`,
    '    // Streams of this crate send no payload with message 1.',
    `    let mut stream = ${opened};`,
    isServer ? [...read, ...(oneWay ? [] : send)] : [...send, ...(oneWay ? [] : read)],
    '    Ok(())',
  );
}

export function rustParty(facts) {
  const { name, own, section, isNamed, prologue, isStream, isDatagrams, isEarly, hasOwn, hasOther, psks } = facts;
  if (facts.hasEphemeral) return noParty(facts, '//');
  const text = isNamed ? `"${section}"` : `concat!(\n${facts.lines.map((line) => `    "${line}\\n",`).join('\n')}\n)`;
  const body = isStream ? streams(facts) : messages(facts);
  return lines(
    partyHead(facts, '//', `./${name}-${own}`, [`${guide('RUST')} has the Cargo.toml for it.`]),
    imports(facts).trimEnd(), '',
    `const PATTERN: &str = ${text};`,
    `const PROLOGUE: &[u8] = b${quoted(prologue, hexEscape)};`, '',
    'fn main() -> Result<(), Box<dyn Error>> {',
    keys(facts).trimEnd() || undefined,
    (isStream && !isEarly ? body.replace(/^ *\/\/ Streams of.*\n/m, '') : body).trimEnd(),
    '}',
    (hasOwn || hasOther || psks > 0) && LOAD.trimEnd(),
    !isStream && !isDatagrams && FRAMED('TcpStream').trimEnd(),
  );
}
