// One party of a pattern as a program in Python, over the package of bindings/python.
import { PORT, REPLAYED, SAID, guide, hexEscape, lines, noParty, partyHead, quoted } from './text.mjs';

const bytes = (text) => `b${quoted(text, hexEscape)}`;
const AT = `("127.0.0.1", ${PORT})`;

function imports({ isStream, isServer, hasOwn, hasOther, psks }) {
  const named = ['Config', !isStream && 'Handshake', hasOwn && 'KeyPair', isStream && 'NoiseSocket',
    isStream && (isServer ? 'accept' : 'connect')].filter(Boolean);
  return lines(
    'import socket',
    hasOwn && 'import sys',
    (hasOther || psks > 0) && 'from pathlib import Path',
    '',
    `from yulimosar import ${named.join(', ')}`,
  );
}

function config(facts) {
  const { own, other, isServer, hasOwn, hasOther, psks, prologue, interval, isDatagrams, isStream, isEarly } = facts;
  return lines(
    hasOwn && [
      `key = KeyPair.from_file("${own}.key")`, 'if sys.argv[1:] == ["public"]:', '    print(key.public.hex())',
      '    sys.exit()',
    ],
    'config = Config(',
    '    pattern=PATTERN,',
    `    prologue=${bytes(prologue)},`,
    !isDatagrams && interval > 0 && `    interval=${interval},`,
    hasOwn && '    key=key,',
    hasOther && `    peer_key=bytes.fromhex(Path("${other}.public").read_text(encoding="ascii")),`,
    psks > 0 && `    psks=[bytes.fromhex(Path(f"psk{n}").read_text(encoding="ascii")) for n in range(1, ${psks + 1})],`,
    !hasOther && psks === 0 && `    accept_any_key=True,  # the pattern has no static key of the ${other}`,
    isStream && isEarly && !isServer && `    payloads=[b"${SAID.early}"],  # with message 1: ${REPLAYED}`,
    ')',
  );
}

const CONNECTED = (isServer) => (isServer
  ? [
    `with socket.create_server(${AT}) as listening:`, '    print("the server waits", flush=True)',
    '    sock, _ = listening.accept()  # one client is served', 'sock.settimeout(10)',
  ]
  : [`sock = socket.create_connection(${AT}, 10)`]);

const FRAMES = (isServer) => lines(
  CONNECTED(isServer),
  'incoming = sock.makefile("rb")', '', '',
  'def send(message: bytes) -> None:',
  '    sock.sendall(len(message).to_bytes(2, "big") + message)', '', '',
  'def receive() -> bytes:',
  '    length = int.from_bytes(incoming.read(2), "big")',
  '    return incoming.read(length)  # what the connection\'s end cuts is refused', '', '',
);

const DATAGRAMS = (isServer) => lines(
  'sock = socket.socket(type=socket.SOCK_DGRAM)',
  'sock.settimeout(10)',
  isServer
    ? [`sock.bind(${AT})`, 'print("the server waits", flush=True)']
    : `sock.connect(${AT})`,
  '', '',
  'def send(message: bytes) -> None:', '    sock.send(message)', '', '',
  'def receive() -> bytes:',
  isServer
    ? ['    message, client = sock.recvfrom(65535)', '    sock.connect(client)', '    return message']
    : '    return sock.recv(65535)',
  '', '',
);

/** Who sends, and who reads, in turn. */
function talk({ isServer, own, oneWay }, sends, reads) {
  const send = sends(SAID[own]);
  const read = `print("the ${own} reads:", ${reads}.decode())`;
  if (oneWay) return isServer ? [read] : [send];
  return isServer ? [read, send] : [send, read];
}

function messages(facts) {
  const { isServer, isEarly, isDatagrams, window } = facts;
  return lines(
    (isDatagrams ? DATAGRAMS : FRAMES)(isServer).trimEnd(), '', '',
    `handshake = Handshake(config, initiator=${isServer ? 'False' : 'True'})  # it verifies the other party's key`,
    isEarly && (isServer
      ? `print("with message 1 came:", handshake.read(receive()).decode())  # ${REPLAYED}`
      : `send(handshake.write(b"${SAID.early}"))  # ${REPLAYED}`),
    'while not handshake.done:',
    '    if handshake.writes_next:', '        send(handshake.write())',
    '    else:', '        handshake.read(receive())',
    isDatagrams ? `sender = receiver = handshake.datagrams(${window})` : 'sender, receiver = handshake.split()',
    talk(facts, (said) => `send(sender.seal(b"${said}"))`, 'receiver.open(receive())'),
    'sock.close()',
  );
}

const READ_ALL = lines(
  '', '', 'def read_all(channel: NoiseSocket) -> str:', '    data = b""', '    while part := channel.recv(4096):',
  '        data += part', '    return data.decode()', '', '',
);

function streams(facts) {
  const { isServer, own, oneWay, isEarly } = facts;
  const send = `    channel.sendall(b"${SAID[own]}")`;
  const read = `    print("the ${own} reads:", read_all(channel))`;
  const reads = isServer || !oneWay;
  return lines(
    reads && READ_ALL.slice(0, -1),
    CONNECTED(isServer),
    `with ${isServer ? 'accept' : 'connect'}(sock, config) as channel:`,
    isServer && isEarly && `    print("with message 1 came:", channel.noise.payloads[0].decode())  # ${REPLAYED}`,
    isServer ? [read, !oneWay && send] : [send, !oneWay && ['    channel.shutdown(socket.SHUT_WR)', read]],
  );
}

export function pythonParty(facts) {
  const { name, own, isNamed, section, isStream } = facts;
  if (facts.hasEphemeral) return noParty(facts, '#');
  const text = isNamed ? `"${section}"` : `(\n${facts.lines.map((line) => `    "${line}\\n"\n`).join('')})`;
  const { isServer, oneWay } = facts;
  const made = isStream && !isServer && oneWay ? imports(facts).replace('NoiseSocket, ', '') : imports(facts);
  return lines(
    partyHead(facts, '#', `python3 ${name}-${own}.py`, [`${guide('PYTHON')} says how the package is installed.`]),
    made.trimEnd(),
    '',
    `PATTERN = ${text}`,
    config(facts).trimEnd(),
    (isStream ? streams(facts) : messages(facts)).trimEnd(),
  );
}
