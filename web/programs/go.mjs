// A pattern as a program in Go, over the package of bindings/go.
import { guide, hexEscape, lines, quoted } from './text.mjs';

/** What a party's Config has besides what both have. */
function config(role, { has, psks }) {
  const [own, other] = role === 'initiator' ? ['client', 'server'] : ['server', 'client'];
  const [isOwn, isOther] = role === 'initiator' ? [has.initiator, has.responder] : [has.responder, has.initiator];
  return lines(
    isOwn && `\t${own}.Static = ${own}Key`,
    isOther && `\t${own}.PeerStatic = public(${other}Key) // or VerifyPeer, for more than one`,
    !isOther && psks === 0 && `\t${own}.InsecureAcceptAnyKey = true // the pattern has no static key of the ${other}`,
  );
}

function keys({ has, psks }) {
  const draw = (name) => [`\t${name}, err := noise.GenerateKeyPair()`, '\tmust(err)'];
  return lines(
    has.initiator && draw('clientKey'),
    has.responder && draw('serverKey'),
    psks > 0 && [
      `\tpsks := make([]noise.PSK, ${psks}) // in the order of the psk tokens`, '\tfor i := range psks {',
      '\t\t_, err := rand.Read(psks[i][:])', '\t\tmust(err)', '\t}',
    ],
  );
}

const STREAM = (oneWay) => lines(
  '',
  '\t// In place of the pipe take a connection of TCP: noise.Dial and noise.Listen.',
  '\there, there := net.Pipe()',
  '\tdone := make(chan struct{})',
  '\tgo serve(there, &server, done)',
  '\tconn, err := noise.Client(here, &client)',
  '\tmust(err)',
  '\t_, err = io.WriteString(conn, "hello")',
  '\tmust(err)',
  '\tmust(conn.CloseWrite())',
  !oneWay && ['\tanswer, err := io.ReadAll(conn)', '\tmust(err)', '\tfmt.Printf("the client reads: %s\\n", answer)'],
  '\t<-done',
  '}',
  '',
  'func serve(there net.Conn, config *noise.Config, done chan<- struct{}) {',
  '\tdefer close(done)',
  '\tconn, err := noise.Server(there, config)',
  '\tmust(err)',
  '\ttext, err := io.ReadAll(conn)',
  '\tmust(err)',
  '\tfmt.Printf("the server reads: %s\\n", text)',
  !oneWay && ['\t_, err = io.WriteString(conn, "and hello")', '\tmust(err)'],
  '\tmust(conn.Close())',
);

/** Messages in order, or datagrams. */
const MESSAGES = ({ isDatagrams, window }) => lines(
  '',
  '\twriter, err := noise.NewHandshakeState(&client, true)',
  '\tmust(err)',
  '\treader, err := noise.NewHandshakeState(&server, false)',
  '\tmust(err)',
  '\tinitiator, responder := writer, reader',
  '\tfor !initiator.Done() {',
  '\t\tmessage, err := writer.WriteMessage(nil, nil)',
  '\t\tmust(err)',
  '\t\t_, err = reader.ReadMessage(nil, message) // a network comes between the two calls',
  '\t\tmust(err)',
  '\t\twriter, reader = reader, writer',
  '\t}',
  `\tsending, _, err := initiator.${isDatagrams ? `Datagrams(${window})` : 'Split()'}`,
  '\tmust(err)',
  `\t_, receiving, err := responder.${isDatagrams ? `Datagrams(${window})` : 'Split()'}`,
  '\tmust(err)',
  '\tsealed, err := sending.Seal(nil, []byte("hello"))',
  '\tmust(err)',
  '\ttext, err := receiving.Open(nil, sealed)',
  '\tmust(err)',
  '\tfmt.Printf("the server reads: %s\\n", text)',
);

export function go(facts) {
  const { section, name, isNamed, prologue, psks, has, isDatagrams, isStream, interval, oneWay, knowsEphemeral } =
    facts;
  if (knowsEphemeral.initiator || knowsEphemeral.responder) {
    return `// ${section} has an ephemeral key before "...", which the package for Go has no field `
      + 'for. Take the program in C.\n';
  }
  const text = isNamed ? `"${section}"` : facts.lines.map((line) => `"${line}\\n"`).join(' +\n\t');
  const imports = lines(
    psks > 0 && '\t"crypto/rand"',
    '\t"fmt"',
    isStream && '\t"io"',
    '\t"log"',
    isStream && '\t"net"',
    '',
    '\t"example.org/yulimosar/noise"',
  );
  return lines(
    `// The pattern ${section}: both parties in one program, ${name}.go.`, `// ${guide('GO')} has the go.mod for it.`,
    'package main', '', 'import (', imports.trimEnd(), ')', '',
    `const pattern = ${text}`, '',
    'func main() {',
    keys(facts).trimEnd() || undefined,
    '\tboth := noise.Config{',
    '\t\tPattern:  pattern,',
    `\t\tPrologue: []byte(${quoted(prologue, hexEscape)}),`,
    !isDatagrams && interval > 0 && `\t\tInterval: ${interval},`,
    psks > 0 && '\t\tPSKs:     psks,',
    '\t}',
    '\tclient, server := both, both',
    (config('initiator', facts) + config('responder', facts)).trimEnd() || undefined,
    (isStream ? STREAM(oneWay) : MESSAGES(facts)).trimEnd(),
    '}', '',
    (has.initiator || has.responder) && [
      'func public(key *noise.KeyPair) *noise.PublicKey {',
      '\tpublic := key.Public()',
      '\treturn &public',
      '}',
      '',
    ],
    'func must(err error) {', '\tif err != nil {', '\t\tlog.Fatal(err)', '\t}', '}',
  );
}
