// A pattern as a program in Python, over the package of bindings/python.
import { guide, hexEscape, lines, quoted } from './text.mjs';

const bytes = (text) => `b${quoted(text, hexEscape)}`;

function keys({ has, psks }) {
  return lines(
    has.initiator && 'client_key = KeyPair.generate()',
    has.responder && 'server_key = KeyPair.generate()',
    psks > 0 && `psks = [secrets.token_bytes(32) for _ in range(${psks})]  # in the order of the psk tokens`,
  );
}

/** The Config of a party. */
function config(role, { has, psks, prologue, interval, isDatagrams }) {
  const [own, other] = role === 'initiator' ? ['client', 'server'] : ['server', 'client'];
  const [isOwn, isOther] = role === 'initiator' ? [has.initiator, has.responder] : [has.responder, has.initiator];
  return lines(
    `${own} = Config(`,
    '    pattern=PATTERN,',
    `    prologue=${bytes(prologue)},`,
    !isDatagrams && interval > 0 && `    interval=${interval},`,
    isOwn && `    key=${own}_key,`,
    isOther && `    peer_key=${other}_key.public,  # or verify, for more than one`,
    psks > 0 && '    psks=psks,',
    !isOther && psks === 0 && `    accept_any_key=True,  # the pattern has no static key of the ${other}`,
    ')',
  );
}

const STREAM = (oneWay) => lines(
  '', '',
  'def read_all(channel: NoiseSocket) -> str:',
  '    data = b""',
  '    while part := channel.recv(4096):',
  '        data += part',
  '    return data.decode()',
  '', '',
  'def serve(sock: socket.socket) -> None:',
  '    with accept(sock, server) as channel:',
  '        print("the server reads:", read_all(channel))',
  !oneWay && '        channel.sendall(b"and hello")',
  '', '',
  'here, there = socket.socketpair()  # or a connection of TCP',
  'thread = threading.Thread(target=serve, args=(there,))',
  'thread.start()',
  'with connect(here, client) as channel:',
  '    channel.sendall(b"hello")',
  !oneWay && ['    channel.shutdown(socket.SHUT_WR)', '    print("the client reads:", read_all(channel))'],
  'thread.join()',
);

/** Messages in order, or datagrams. */
const MESSAGES = ({ isDatagrams, window }) => lines(
  '',
  'initiator, responder = Handshake(client, True), Handshake(server, False)',
  'while not initiator.done:',
  '    writer, reader = (initiator, responder) if initiator.writes_next else (responder, initiator)',
  '    reader.read(writer.write())  # a network comes between the two calls',
  ...(isDatagrams ? [`sending, receiving = initiator.datagrams(${window}), responder.datagrams(${window})`]
    : ['sending, _ = initiator.split()', '_, receiving = responder.split()']),
  'print("the server reads:", receiving.open(sending.seal(b"hello")).decode())',
);

export function python(facts) {
  const { section, name, isNamed, psks, has, isStream, oneWay, knowsEphemeral } = facts;
  if (knowsEphemeral.initiator || knowsEphemeral.responder) {
    return `# ${section} has an ephemeral key before "...", `
      + 'which the package for Python refuses. Take the program in C.\n';
  }
  const imported = [
    'Config',
    !isStream && 'Handshake',
    (has.initiator || has.responder) && 'KeyPair',
    isStream && 'NoiseSocket',
    isStream && 'accept',
    isStream && 'connect',
  ];
  const text = isNamed ? `"${section}"` : `(\n${facts.lines.map((line) => `    "${line}\\n"\n`).join('')})`;
  const modules = lines(psks > 0 && 'import secrets', isStream && ['import socket', 'import threading']);
  return lines(
    `# The pattern ${section}: both parties in one program, ${name}.py.`,
    `# ${guide('PYTHON')} says how the package is installed.`,
    modules.trimEnd() || undefined,
    modules && '',
    `from yulimosar import ${imported.filter(Boolean).join(', ')}`,
    '',
    `PATTERN = ${text}`,
    keys(facts).trimEnd() || undefined,
    config('initiator', facts).trimEnd(),
    config('responder', facts).trimEnd(),
    (isStream ? STREAM(oneWay) : MESSAGES(facts)).trimEnd(),
  );
}
