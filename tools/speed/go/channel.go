package main

import (
	"crypto/tls"
	"crypto/x509"
	"io"
	"net"
	"os"
	"path/filepath"

	"example.org/yulimosar/noise"
)

// An end is one party's connection: noise.Conn, or that of crypto/tls.
type end interface {
	io.ReadWriteCloser
	Handshake() error
	CloseWrite() error
}

// A channel is a connection over TCP on this machine. Its other end reads in a goroutine, which says at the end of the
// stream how much came.
type channel struct {
	writer, reader end
	came           chan int
	sent           int
}

// open connects the ends that a function makes of sockets, and waits for both handshakes.
func (c *channel) open(ends func(client, server net.Conn) (writer, reader end)) {
	listener, err := net.Listen("tcp", "127.0.0.1:0")
	must(err)
	client, err := net.Dial("tcp", listener.Addr().String())
	must(err)
	server, err := listener.Accept()
	must(err)
	must(listener.Close())
	c.writer, c.reader = ends(client, server)
	c.came, c.sent = make(chan int), 0
	shaken := make(chan error)
	go func() { shaken <- c.reader.Handshake() }()
	must(c.writer.Handshake())
	must(<-shaken)
	go c.read()
}

func (c *channel) read() {
	count, room := 0, make([]byte, 1<<16)
	for {
		n, err := c.reader.Read(room)
		count += n
		if err == io.EOF {
			c.came <- count
			return
		}
		must(err)
	}
}

func (c *channel) write(size int) {
	n, err := c.writer.Write(buffer[:size])
	must(err)
	c.sent += n
}

// finish ends the stream, and waits until all has come.
func (c *channel) finish() {
	must(c.writer.CloseWrite())
	if came := <-c.came; came != c.sent {
		panic("another count has come than was sent")
	}
}

// close closes both ends, whose time isn't measured.
func (c *channel) close() {
	c.writer.Close()
	c.reader.Close()
}

func noiseEnds(client, server net.Conn) (end, end) {
	config := &noise.Config{Pattern: "NN", InsecureAcceptAnyKey: true}
	writer, err := noise.Client(client, config)
	must(err)
	reader, err := noise.Server(server, config)
	must(err)
	return writer, reader
}

// tlsEnds takes TLS_CHACHA20_POLY1305_SHA256, which crypto/tls prefers where the processor has no AES: GODEBUG has to
// say cpu.aes=off. SPEED_KEYS is a folder with a certificate for localhost.
func tlsEnds(client, server net.Conn) (end, end) {
	folder := os.Getenv("SPEED_KEYS")
	pair, err := tls.LoadX509KeyPair(filepath.Join(folder, "cert.pem"), filepath.Join(folder, "key.pem"))
	must(err)
	authority, err := os.ReadFile(filepath.Join(folder, "ca.pem"))
	must(err)
	roots := x509.NewCertPool()
	roots.AppendCertsFromPEM(authority)
	version := uint16(tls.VersionTLS13)
	return tls.Client(client, &tls.Config{RootCAs: roots, ServerName: "localhost", MinVersion: version}),
		tls.Server(server, &tls.Config{Certificates: []tls.Certificate{pair}, MinVersion: version})
}

// channels are the operations of both kinds.
func channels() map[string]operation {
	var c channel
	made := map[string]operation{"channel": {
		func(int) { c.open(noiseEnds) }, c.write, c.finish, c.close,
	}}
	if os.Getenv("SPEED_KEYS") != "" {
		made["tls.channel"] = operation{func(int) { c.openTLS() }, c.write, c.finish, c.close}
	}
	return made
}

func (c *channel) openTLS() {
	c.open(tlsEnds)
	state := c.writer.(*tls.Conn).ConnectionState()
	if state.CipherSuite != tls.TLS_CHACHA20_POLY1305_SHA256 {
		panic("crypto/tls took " + tls.CipherSuiteName(state.CipherSuite) + ": GODEBUG has to be cpu.aes=off")
	}
}
