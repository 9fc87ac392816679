// Package live runs the package against github.com/flynn/noise over TCP on 127.0.0.1.
package live

import (
	"bytes"
	"context"
	"crypto/rand"
	"errors"
	"fmt"
	"io"
	"net"
	"strings"
	"testing"
	"time"

	"example.org/flynnpeer"
	"example.org/yulimosar/noise"
	flynn "github.com/flynn/noise"
)

var patterns, suite = flynnpeer.Patterns, flynnpeer.Suite

func TestFlynn(t *testing.T) {
	for _, pattern := range patterns {
		for place := -1; place <= len(pattern.Messages); place++ {
			for _, initiator := range []bool{true, false} {
				name := pattern.Name
				if place >= 0 {
					name = fmt.Sprintf("%spsk%d", name, place)
				}
				t.Run(fmt.Sprintf("%s/%v", name, initiator), func(t *testing.T) {
					live(t, name, initiator)
				})
			}
		}
	}
}

func live(t *testing.T, name string, initiator bool) {
	own, err := noise.GenerateKeyPair()
	must(t, err)
	other, err := suite.GenerateKeypair(rand.Reader)
	must(t, err)
	public, theirKey, psk := own.Public(), noise.PublicKey{}, pskOf(7)
	copy(theirKey[:], other.Public)
	config := &noise.Config{Pattern: name, Prologue: []byte("live"), Static: own, InsecureAcceptAnyKey: true}
	them, err := flynnpeer.Config(name, !initiator, other, public[:], psk[:])
	must(t, err)
	if strings.Contains(name, "psk") {
		config.PSKs = []noise.PSK{psk}
	}
	before := them.Pattern.InitiatorPreMessages
	if initiator {
		before = them.Pattern.ResponderPreMessages
	}
	if len(before) > 0 {
		config.PeerStatic = &theirKey
	}
	a, b := tcp(t)
	run(t, a, b, config, them)
}

// choosing are patterns in which a server may choose the psk by the client's key.
var choosing = []string{"XXpsk3", "IKpsk2", "IKpsk1"}

func newKeys(t *testing.T, count int) (keys []*noise.KeyPair) {
	t.Helper()
	for len(keys) < count {
		key, err := noise.GenerateKeyPair()
		must(t, err)
		keys = append(keys, key)
	}
	return keys
}

// pskOf returns 32 times the same byte.
func pskOf(b byte) (psk noise.PSK) {
	for i := range psk {
		psk[i] = b
	}
	return psk
}

// pskOfClient returns the psk of client i.
func pskOfClient(i int) noise.PSK { return pskOf(byte(i + 1)) }

// chooser returns the Config of a server that has a psk with each of these clients.
func chooser(own noise.DH, name string, clients []*noise.KeyPair) *noise.Config {
	return &noise.Config{
		Pattern:  name,
		Prologue: []byte("live"),
		Static:   own,
		PSKFor: func(_ context.Context, key noise.PublicKey) ([]noise.PSK, error) {
			for i, client := range clients {
				if client.Public() == key {
					return []noise.PSK{pskOfClient(i)}, nil
				}
			}
			return nil, errors.New("no psk for this key")
		},
	}
}

// TestFlynnPSKOfEachPeer runs two clients of flynn's, which have a psk each, with a server that chooses it.
func TestFlynnPSKOfEachPeer(t *testing.T) {
	for _, name := range choosing {
		keys := newKeys(t, 3)
		for i, client := range keys[:2] {
			t.Run(fmt.Sprintf("%s/%d", name, i), func(t *testing.T) {
				secret, public, server, psk := client.Secret(), client.Public(), keys[2].Public(), pskOfClient(i)
				own := flynn.DHKey{Private: secret[:], Public: public[:]}
				them, err := flynnpeer.Config(name, true, own, server[:], psk[:])
				must(t, err)
				a, b := tcp(t)
				run(t, a, b, chooser(keys[2], name, keys[:2]), them)
			})
		}
	}
}

func run(t *testing.T, a, b net.Conn, config *noise.Config, them flynn.Config) {
	open := noise.Client
	if them.Initiator {
		open = noise.Server
	}
	c, err := open(a, config)
	must(t, err)
	defer c.Close()
	var end *flynnpeer.Channel
	failed := goes(func() (err error) {
		end, err = flynnpeer.Open(b, them, "theirs")
		return err
	})
	must(t, c.Handshake())
	must(t, <-failed)
	if got := c.ConnectionState(); !bytes.Equal(got.HandshakeHash[:], end.State.ChannelBinding()) {
		t.Fatal("the hashes differ")
	}
	megabyte, oneWay := bytes.Repeat([]byte("0123456789abcdef"), 1<<16), len(them.Pattern.Messages) == 1
	if !oneWay || !them.Initiator {
		failed = goes(func() error { _, err := c.Write(megabyte); return err })
		mustCome(t, end, megabyte)
		must(t, <-failed)
	}
	if !oneWay || them.Initiator {
		failed = goes(func() error { return end.WriteAll(megabyte) })
		mustCome(t, c, megabyte)
		must(t, <-failed)
	}
}

func mustCome(t *testing.T, r io.Reader, want []byte) {
	t.Helper()
	got := make([]byte, len(want))
	_, err := io.ReadFull(r, got)
	must(t, err)
	if !bytes.Equal(got, want) {
		t.Fatal("other bytes came")
	}
}

func goes(call func() error) chan error {
	failed := make(chan error, 1)
	go func() { failed <- call() }()
	return failed
}

func must(t testing.TB, err error) {
	t.Helper()
	if err != nil {
		t.Fatal(err)
	}
}

func tcp(t testing.TB) (net.Conn, net.Conn) {
	l, err := net.Listen("tcp", "127.0.0.1:0")
	must(t, err)
	defer l.Close()
	a, err := net.Dial("tcp", l.Addr().String())
	must(t, err)
	b, err := l.Accept()
	must(t, err)
	for _, conn := range []net.Conn{a, b} {
		conn := conn
		conn.SetDeadline(time.Now().Add(20 * time.Second))
		t.Cleanup(func() { conn.Close() })
	}
	return a, b
}
