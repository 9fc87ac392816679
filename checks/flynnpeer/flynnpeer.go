// Package flynnpeer is the other end of a channel by github.com/flynn/noise: frames round its messages, and an empty
// payload at the end of a stream. The checks of the packages for Go, JavaScript and Rust run it.
package flynnpeer

import (
	"crypto/rand"
	"encoding/binary"
	"errors"
	"fmt"
	"io"
	"net"
	"strconv"
	"strings"

	"github.com/flynn/noise"
	"golang.org/x/crypto/curve25519"
)

// Suite has the algorithms of the library.
var Suite = noise.NewCipherSuite(noise.DH25519, noise.CipherChaChaPoly, noise.HashSHA256)

// Patterns are the fundamental patterns.
var Patterns = []noise.HandshakePattern{
	noise.HandshakeN, noise.HandshakeK, noise.HandshakeX,
	noise.HandshakeNN, noise.HandshakeNK, noise.HandshakeNX,
	noise.HandshakeKN, noise.HandshakeKK, noise.HandshakeKX,
	noise.HandshakeXN, noise.HandshakeXK, noise.HandshakeXX,
	noise.HandshakeIN, noise.HandshakeIK, noise.HandshakeIX,
}

// ErrRefused is that of a message which flynn/noise refuses. Where the connection closes before the other party has
// ended its stream, the error is io.ErrUnexpectedEOF.
var ErrRefused = errors.New("a message was refused")

// KeyPair returns that of a secret key.
func KeyPair(secret []byte) (noise.DHKey, error) {
	public, err := curve25519.X25519(secret, curve25519.Basepoint)
	return noise.DHKey{Private: secret, Public: public}, err
}

// Config returns that of a party of the pattern of this name, as XXpsk3, with the prologue "live". The other party's
// key is used where a pre-message has it, and the psk where the name has a place for it.
func Config(name string, initiator bool, own noise.DHKey, peer, psk []byte) (noise.Config, error) {
	config := noise.Config{
		CipherSuite:   Suite,
		Random:        rand.Reader,
		Prologue:      []byte("live"),
		Initiator:     initiator,
		StaticKeypair: own,
	}
	base, place, hasPSK := strings.Cut(name, "psk")
	for _, pattern := range Patterns {
		if pattern.Name == base {
			config.Pattern = pattern
		}
	}
	before := config.Pattern.InitiatorPreMessages
	if initiator {
		before = config.Pattern.ResponderPreMessages
	}
	if len(before) > 0 {
		config.PeerStatic = peer
	}
	var err error
	if hasPSK {
		config.PresharedKey = psk
		config.PresharedKeyPlacement, err = strconv.Atoi(place)
	}
	if config.Pattern.Name == "" {
		err = fmt.Errorf("%q is no fundamental pattern", base)
	}
	return config, err
}

// Channel is one end. Its handshake was that of State.
type Channel struct {
	net.Conn
	State           *noise.HandshakeState
	sends, receives *noise.CipherState
	rest            []byte
	isOver          bool
}

// Open passes the handshake, and has this payload in each message that it writes. Where that fails, it closes the
// connection.
func Open(conn net.Conn, config noise.Config, payload string) (*Channel, error) {
	state, err := noise.NewHandshakeState(config)
	c := &Channel{Conn: conn, State: state}
	for i := 0; err == nil && i < len(config.Pattern.Messages); i++ {
		var one, two *noise.CipherState // of the initiator, of the responder
		if config.Initiator == (i%2 == 0) {
			one, two, err = c.writeMessage(payload)
		} else {
			one, two, err = c.readMessage()
		}
		if c.sends, c.receives = one, two; !config.Initiator {
			c.sends, c.receives = two, one
		}
		if err != nil {
			err = fmt.Errorf("message %d: %w", i+1, err)
		}
	}
	if err != nil {
		conn.Close()
		return nil, err
	}
	return c, nil
}

func (c *Channel) writeMessage(payload string) (one, two *noise.CipherState, err error) {
	message, one, two, err := c.State.WriteMessage(nil, []byte(payload))
	if err == nil {
		err = c.put(message)
	}
	return one, two, err
}

func (c *Channel) readMessage() (one, two *noise.CipherState, err error) {
	message, err := c.take()
	if err != nil {
		return nil, nil, err
	}
	if _, one, two, err = c.State.ReadMessage(nil, message); err != nil {
		err = fmt.Errorf("%w: %v", ErrRefused, err)
	}
	return one, two, err
}

// take returns the message of the next frame.
func (c *Channel) take() ([]byte, error) {
	var head [2]byte
	_, err := io.ReadFull(c.Conn, head[:])
	message := make([]byte, binary.BigEndian.Uint16(head[:]))
	if err == nil {
		_, err = io.ReadFull(c.Conn, message)
	}
	if err == io.EOF {
		err = io.ErrUnexpectedEOF
	}
	return message, err
}

func (c *Channel) put(message []byte) error {
	_, err := c.Conn.Write(append([]byte{byte(len(message) >> 8), byte(len(message))}, message...))
	return err
}

// Read returns io.EOF once the other party has ended its stream. It closes the connection at a message that is refused.
func (c *Channel) Read(b []byte) (int, error) {
	if len(c.rest) == 0 && !c.isOver {
		message, err := c.take()
		if err != nil {
			return 0, err
		}
		if c.rest, err = c.receives.Decrypt(nil, nil, message); err != nil {
			c.Conn.Close()
			return 0, fmt.Errorf("%w: %v", ErrRefused, err)
		}
		c.isOver = len(c.rest) == 0
	}
	if c.isOver {
		return 0, io.EOF
	}
	n := copy(b, c.rest)
	c.rest = c.rest[n:]
	return n, nil
}

// Write writes one message.
func (c *Channel) Write(payload []byte) (int, error) {
	message, err := c.sends.Encrypt(nil, nil, payload)
	if err == nil {
		err = c.put(message)
	}
	if err != nil {
		return 0, err
	}
	return len(payload), nil
}

// WriteAll writes messages of several lengths.
func (c *Channel) WriteAll(all []byte) error {
	for size := 1; len(all) > 0; size = size*3%60000 + 1 {
		if size > len(all) {
			size = len(all)
		}
		if _, err := c.Write(all[:size]); err != nil {
			return err
		}
		all = all[size:]
	}
	return nil
}

// CloseWrite ends the stream.
func (c *Channel) CloseWrite() error {
	_, err := c.Write(nil)
	return err
}
