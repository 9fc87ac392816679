// The other party of a channel, by the package for Go or by github.com/flynn/noise: peer noise|flynn, and the words of
// peer.py.
package main

import (
	"bytes"
	"errors"
	"net"
	"os"
	"strings"

	"example.org/flynnpeer"
	"example.org/yulimosar/noise"
)

func main() {
	if len(os.Args) < 2 {
		fail(errors.New(usage))
	}
	w := parse(os.Args[2:])
	if os.Args[1] == "flynn" {
		each(w, byFlynn(w))
	} else {
		each(w, byPackage(w))
	}
}

func byFlynn(w words) func(net.Conn) (stream, error) {
	own, err := flynnpeer.KeyPair(w.secret)
	fail(err)
	config, err := flynnpeer.Config(w.pattern, !w.listens, own, w.peer, w.psk)
	fail(err)
	return func(conn net.Conn) (stream, error) {
		c, err := flynnpeer.Open(conn, config, "")
		if err != nil {
			return nil, err
		}
		if key := c.State.PeerStatic(); len(key) > 0 && !bytes.Equal(key, w.peer) {
			return nil, errors.New("another static key")
		}
		return c, nil
	}
}

func byPackage(w words) func(net.Conn) (stream, error) {
	own, err := noise.NewKeyPair(*(*[32]byte)(w.secret))
	fail(err)
	base, _, hasPSK := strings.Cut(w.pattern, "psk")
	config := &noise.Config{Pattern: w.pattern, Prologue: []byte("live")}
	if base != "NN" {
		peer := noise.PublicKey(*(*[32]byte)(w.peer))
		config.Static, config.PeerStatic = own, &peer
	}
	if hasPSK {
		config.PSKs = []noise.PSK{*(*[32]byte)(w.psk)}
	}
	open := noise.Client
	if w.listens {
		open = noise.Server
	}
	return func(conn net.Conn) (stream, error) {
		c, err := open(conn, config)
		if err == nil {
			err = c.Handshake()
		}
		return c, err
	}
}
