// One end over TCP, as examples/live/main.rs says: main noise|flynn PATTERN OWN_SECRET PEER_KEY PSK ADDRESS ORDER SIZE,
// by the package for Go or by flynn/noise.
package main

import (
	"errors"
	"fmt"
	"io"
	"net"
	"os"
	"strconv"
	"strings"

	"example.org/flynnpeer"
	"example.org/yulimosar/noise"
)

// channel is what both have.
type channel interface {
	io.ReadWriter
	CloseWrite() error
}

type words struct {
	pattern   string
	own, peer []byte
	psk       []byte
	initiator bool
	first     bool
	size      int
}

func bytes32(digits string) []byte {
	bytes := make([]byte, 32)
	if n, err := fmt.Sscanf(digits, "%x", &bytes); n != 1 || err != nil {
		panic(err)
	}
	return bytes
}

func main() {
	arguments := os.Args[2:]
	size, err := strconv.Atoi(arguments[6])
	must(err)
	w := words{
		arguments[0],
		bytes32(arguments[1]),
		bytes32(arguments[2]),
		nil,
		!strings.HasPrefix(arguments[4], "@"),
		arguments[5] == "first",
		size,
	}
	if arguments[3] != "-" {
		w.psk = bytes32(arguments[3])
	}
	conn := connect(strings.TrimPrefix(arguments[4], "@"), w.initiator)
	open := openNoise
	if os.Args[1] == "flynn" {
		open = openFlynn
	}
	c, err := open(conn, w)
	if err != nil {
		fmt.Printf("wrote 0 open, read 0 %s\n", nameOf(err))
		return
	}
	run(c, w)
}

func connect(address string, initiator bool) net.Conn {
	if initiator {
		conn, err := net.Dial("tcp", address)
		must(err)
		return conn
	}
	l, err := net.Listen("tcp", address)
	must(err)
	fmt.Println(l.Addr())
	conn, err := l.Accept()
	must(err)
	return conn
}

func openNoise(conn net.Conn, w words) (channel, error) {
	own, err := noise.NewKeyPair(*(*noise.Secret)(w.own))
	must(err)
	config := &noise.Config{Pattern: w.pattern, Prologue: []byte("live"), Static: own}
	if w.psk != nil {
		config.PSKs = []noise.PSK{*(*noise.PSK)(w.psk)}
	}
	if !strings.HasPrefix(w.pattern, "NN") {
		config.PeerStatic = (*noise.PublicKey)(w.peer)
	}
	make := noise.Server
	if w.initiator {
		make = noise.Client
	}
	c, err := make(conn, config)
	must(err)
	return c, c.Handshake()
}

// byteOf is byte i of what a party sends.
func byteOf(initiator bool, i int) byte {
	if initiator {
		i = i*7 + 1
	} else {
		i *= 7
	}
	return byte(i % 251)
}

func run(c channel, w words) {
	hears, wrote, ended := make(chan bool, 1), 0, false
	done := make(chan struct{})
	go func() {
		defer close(done)
		var ok bool
		if wrote, ok = write(c, w); ok && (w.first || <-hears) {
			ended = c.CloseWrite() == nil
		}
	}()
	count, err := read(c, w)
	hears <- err == nil
	<-done
	state := map[bool]string{true: "ended", false: "open"}[ended]
	fmt.Printf("wrote %d %s, read %d %s\n", wrote, state, count, nameOf(err))
}

func write(c channel, w words) (int, bool) {
	wrote := 0
	for wrote < w.size {
		part := make([]byte, min(10000, w.size-wrote))
		for i := range part {
			part[i] = byteOf(w.initiator, wrote+i)
		}
		wrote += len(part) // also where it fails after a part of it was sent
		if _, err := c.Write(part); err != nil {
			return wrote, false
		}
	}
	return wrote, true
}

func read(c channel, w words) (int, error) {
	part, count := make([]byte, 5000), 0
	for {
		n, err := c.Read(part)
		for i, b := range part[:n] {
			if b != byteOf(!w.initiator, count+i) {
				panic("other bytes")
			}
		}
		count += n
		if err == io.EOF {
			return count, nil
		}
		if err != nil {
			return count, err
		}
	}
}

func nameOf(err error) string {
	switch {
	case err == nil:
		return "end"
	case errors.Is(err, noise.ErrTag), errors.Is(err, noise.ErrShort),
		errors.Is(err, noise.ErrTooLong), errors.Is(err, flynnpeer.ErrRefused):
		return "refused"
	case errors.Is(err, noise.ErrCut), errors.Is(err, io.ErrUnexpectedEOF):
		return "cut"
	default:
		return "lost"
	}
}

func min(a, b int) int {
	if a < b {
		return a
	}
	return b
}

func must(err error) {
	if err != nil {
		panic(err)
	}
}
