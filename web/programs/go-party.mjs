// One party of a pattern as a program in Go, over the package of bindings/go.
import { PORT, REPLAYED, SAID, guide, hexEscape, lines, noParty, partyHead, quoted } from './text.mjs';

const AT = `127.0.0.1:${PORT}`;

function imports({ isStream, isServer, isDatagrams, hasOwn, hasOther, psks, isEarly, oneWay }) {
  const prints = hasOwn || psks > 0 || isServer || !oneWay || (isServer && isEarly);
  const names = [
    !isStream && !isDatagrams && 'encoding/binary',
    prints && 'fmt',
    !isDatagrams && 'io',
    'log',
    !isStream && 'net',
    (hasOwn || hasOther || psks > 0) && 'os',
    !isStream && 'time',
  ];
  return lines(names.filter(Boolean).map((name) => `\t"${name}"`), '', '\t"example.org/yulimosar/noise"');
}

function config(facts) {
  const { own, other, isServer, hasOwn, hasOther, psks, prologue, interval, isDatagrams, isStream, isEarly } = facts;
  return lines(
    `\tconfig := &noise.Config{Pattern: pattern, Prologue: []byte(${quoted(prologue, hexEscape)})}`,
    !isDatagrams && interval > 0 && `\tconfig.Interval = ${interval}`,
    hasOwn && [
      `\tkey, err := noise.LoadKeyPair("${own}.key")`, '\tmust(err)',
      '\tif len(os.Args) == 2 && os.Args[1] == "public" {', '\t\tfmt.Println(key.Public())', '\t\treturn', '\t}',
      '\tconfig.Static = key',
    ],
    hasOther && [
      `\t${other}, err := noise.ParsePublicKey(read("${other}.public"))`, '\tmust(err)',
      `\tconfig.PeerStatic = &${other}`,
    ],
    psks > 0 && [
      `\tfor n := 1; n <= ${psks}; n++ { // in the order of the psk tokens`,
      '\t\tpsk, err := noise.ParsePSK(read(fmt.Sprintf("psk%d", n)))', '\t\tmust(err)',
      '\t\tconfig.PSKs = append(config.PSKs, psk)', '\t}',
    ],
    !hasOther && psks === 0
      && `\tconfig.InsecureAcceptAnyKey = true // the pattern has no static key of the ${other}`,
    isStream && isEarly && !isServer && [
      `\t// With message 1: ${REPLAYED}.`, `\tconfig.Payloads = [][]byte{[]byte("${SAID.early}")}`,
    ],
  );
}

const SEND = (call) => ['\tsend := func(message []byte) {', `\t\t_, err := ${call}`, '\t\tmust(err)', '\t}'];

const FRAMES = (isServer) => lines(
  isServer
    ? [
      `\tlistener, err := net.Listen("tcp", "${AT}")`, '\tmust(err)', '\tfmt.Println("the server waits")',
      '\tconn, err := listener.Accept() // one client is served', '\tmust(err)',
    ]
    : [`\tconn, err := net.Dial("tcp", "${AT}")`, '\tmust(err)'],
  '\tmust(conn.SetDeadline(time.Now().Add(10 * time.Second)))',
  SEND('conn.Write(append([]byte{byte(len(message) >> 8), byte(len(message))}, message...))'),
  '\treceive := func() []byte {', '\t\tvar length [2]byte',
  '\t\t_, err := io.ReadFull(conn, length[:])', '\t\tmust(err)',
  '\t\tmessage := make([]byte, binary.BigEndian.Uint16(length[:]))',
  '\t\t_, err = io.ReadFull(conn, message)', '\t\tmust(err)', '\t\treturn message', '\t}',
);

const DATAGRAMS = (isServer) => lines(
  isServer
    ? [
      '\t// noise.ListenPacket sees to lost datagrams, and to those of strangers.',
      `\tconn, err := net.ListenPacket("udp", "${AT}")`, '\tmust(err)', '\tfmt.Println("the server waits")',
      '\tvar last net.Addr // where the last datagram came from',
    ]
    : ['\t// noise.DialPacket sees to lost datagrams, and to those of strangers.',
      `\tconn, err := net.Dial("udp", "${AT}")`, '\tmust(err)'],
  '\tmust(conn.SetDeadline(time.Now().Add(10 * time.Second)))',
  SEND(isServer ? 'conn.WriteTo(message, last)' : 'conn.Write(message)'),
  '\treceive := func() []byte {', '\t\tmessage := make([]byte, 65535)',
  isServer ? '\t\tlen, from, err := conn.ReadFrom(message)' : '\t\tlen, err := conn.Read(message)', '\t\tmust(err)',
  isServer && '\t\tlast = from', '\t\treturn message[:len]', '\t}',
);

/** Who sends, and who reads, in turn. */
function talk({ isServer, own, oneWay }) {
  const said = SAID[own];
  const send = [`\tsealed, err := sender.Seal(nil, []byte("${said}"))`, '\tmust(err)', '\tsend(sealed)'];
  const read = [
    '\ttext, err := receiver.Open(nil, receive())', '\tmust(err)', `\tfmt.Printf("the ${own} reads: %s\\n", text)`,
  ];
  if (oneWay) return isServer ? read : send;
  return isServer ? [...read, ...send] : [...send, ...read];
}

function messages(facts) {
  const { isServer, isEarly, isDatagrams, window, oneWay } = facts;
  const names = oneWay ? ['sender, _', '_, receiver'][Number(isServer)] : 'sender, receiver';
  return lines(
    (isDatagrams ? DATAGRAMS : FRAMES)(isServer).trimEnd(), '',
    `\thandshake, err := noise.NewHandshakeState(config, ${!isServer}) // it verifies the other party's key`,
    '\tmust(err)',
    isEarly && (isServer
      ? [
        '\tearly, err := handshake.ReadMessage(nil, receive())', '\tmust(err)',
        `\tfmt.Printf("with message 1 came: %s\\n", early) // ${REPLAYED}`,
      ]
      : [
        `\tfirst, err := handshake.WriteMessage(nil, []byte("${SAID.early}")) // ${REPLAYED}`, '\tmust(err)',
        '\tsend(first)',
      ]),
    '\tfor !handshake.Done() {', '\t\tif handshake.WritesNext() {',
    '\t\t\tmessage, err := handshake.WriteMessage(nil, nil)', '\t\t\tmust(err)', '\t\t\tsend(message)', '\t\t} else {',
    '\t\t\t_, err := handshake.ReadMessage(nil, receive())', '\t\t\tmust(err)', '\t\t}', '\t}',
    `\t${names}, err := handshake.${isDatagrams ? `Datagrams(${window})` : 'Split()'}`, '\tmust(err)',
    talk(facts),
    '\tmust(conn.Close())',
  );
}

function streams(facts) {
  const { isServer, own, oneWay, isEarly } = facts;
  const send = [`\t_, err = io.WriteString(conn, "${SAID[own]}")`, '\tmust(err)'];
  const read = [
    '\ttext, err := io.ReadAll(conn)', '\tmust(err)', `\tfmt.Printf("the ${own} reads: %s\\n", text)`,
  ];
  const connected = isServer
    ? [
      `\tlistener, err := noise.Listen("tcp", "${AT}", config)`, '\tmust(err)', '\tfmt.Println("the server waits")',
      '\taccepted, err := listener.Accept() // one client is served', '\tmust(err)',
      '\tconn := accepted.(*noise.Conn)', '\tmust(conn.Handshake())',
      isEarly && `\tfmt.Printf("with message 1 came: %s\\n", conn.ConnectionState().Payloads[0]) // ${REPLAYED}`,
    ]
    : [`\tconn, err := noise.Dial("tcp", "${AT}", config)`, '\tmust(err)'];
  const steps = isServer ? [read, !oneWay && send] : [send, '\tmust(conn.CloseWrite())', !oneWay && read];
  return lines(connected, steps, '\tmust(conn.Close())');
}

const isCommand = (line) => line?.startsWith('//     ');

/** A comment as gofmt lays it out: commands stand after a tab, between empty lines. */
const laidOut = (head) => head.flatMap((line, n) => (isCommand(line)
  ? [
    !isCommand(head[n - 1]) && '//',
    `//\t${line.slice(7)}`,
    n + 1 < head.length && !isCommand(head[n + 1]) && '//',
  ].filter(Boolean)
  : [line]));

export function goParty(facts) {
  const { name, own, section, isNamed, isStream, hasOther, psks } = facts;
  if (facts.hasEphemeral) return noParty(facts, '//');
  const text = isNamed ? `"${section}"` : facts.lines.map((line) => `"${line}\\n"`).join(' +\n\t');
  return lines(
    laidOut(partyHead(facts, '//', `./${name}-${own}`, [`${guide('GO')} has the go.mod for it.`])),
    'package main', '', 'import (', imports(facts).trimEnd(), ')', '',
    `const pattern = ${text}`, '',
    'func main() {',
    config(facts).trimEnd(), '',
    (isStream ? streams(facts) : messages(facts)).trimEnd(),
    '}', '',
    (hasOther || psks > 0) && [
      'func read(file string) string {', '\ttext, err := os.ReadFile(file)', '\tmust(err)',
      '\treturn string(text)', '}', '',
    ],
    'func must(err error) {', '\tif err != nil {', '\t\tlog.Fatal(err)', '\t}', '}',
  );
}
