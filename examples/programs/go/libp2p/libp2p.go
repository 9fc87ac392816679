// Package libp2p makes a channel as libp2p's noise does, between peers with identities of Ed25519, ECDSA, secp256k1 or
// RSA: XX with an empty prologue, each message after its length in two bytes, and in messages 2 and 3 a payload with
// the identity and its signature of the static key.
package libp2p

import (
	"context"
	"crypto"
	"encoding/binary"
	"io"
	"net"
	"sync"

	"example.org/yulimosar/noise"
)

// field is a field of a protocol buffer that has bytes.
func field(tag byte, value []byte) []byte {
	return append(binary.AppendUvarint([]byte{tag<<3 | 2}, uint64(len(value))), value...)
}

// fields reads a protocol buffer: the numbers, and the bytes, by their tags. Other fields than these, as extensions,
// are among them and aren't used.
func fields(b []byte) (numbers map[uint64]uint64, values map[uint64][]byte, err error) {
	numbers, values = map[uint64]uint64{}, map[uint64][]byte{}
	for len(b) > 0 {
		key, n := binary.Uvarint(b)
		if n <= 0 {
			return nil, nil, errPayload
		}
		value, m := binary.Uvarint(b[n:])
		if m <= 0 {
			return nil, nil, errPayload
		}
		b = b[n+m:]
		switch {
		case key&7 == 0:
			numbers[key>>3] = value
		case key&7 == 2 && value <= uint64(len(b)):
			values[key>>3], b = b[:value], b[value:]
		default:
			return nil, nil, errPayload
		}
	}
	return numbers, values, nil
}

// Channel is a secured connection, and a net.Conn. It has no end of its own: that the other party has sent all, a
// protocol above has to say. After a deadline that has passed in Read, a later Read goes on; after any error of Write
// nothing more can be written.
type Channel struct {
	net.Conn
	Remote   crypto.PublicKey // the other party's identity
	sender   *noise.Sender
	receiver *noise.Receiver

	in   sync.Mutex
	came []byte // what has come of a message, with its length
	rest []byte // what wasn't read yet of one

	out      sync.Mutex
	writeErr error
}

// Secure runs the handshake over conn, which it closes at an error, and when the context ends first. It calls verify,
// which decides on the other party, with that party's identity: an ed25519.PublicKey, *ecdsa.PublicKey,
// Secp256k1 or *rsa.PublicKey. This party's is a private key of these kinds, or a device's; Go has none of secp256k1.
func Secure(
	ctx context.Context,
	conn net.Conn,
	identity crypto.Signer,
	initiator bool,
	verify func(crypto.PublicKey) error,
) (*Channel, error) {
	c := &Channel{Conn: conn}
	stop, ended := make(chan struct{}), make(chan bool)
	go func() {
		select {
		case <-ctx.Done():
			conn.Close()
			ended <- true
		case <-stop:
			ended <- false
		}
	}()
	err := c.shake(ctx, identity, initiator, verify)
	close(stop)
	if <-ended {
		err = ctx.Err()
	}
	if err != nil {
		conn.Close()
		return nil, err
	}
	return c, nil
}

func (c *Channel) shake(
	ctx context.Context, identity crypto.Signer, initiator bool, verify func(crypto.PublicKey) error,
) error {
	static, err := noise.GenerateKeyPair()
	if err != nil {
		return err
	}
	own, err := payload(identity, static.Public())
	if err != nil {
		return err
	}
	h, err := noise.NewHandshakeState(&noise.Config{
		Pattern: "XX",
		Static:  static,
		VerifyPeer: func(_ context.Context, peer noise.Peer) (err error) {
			if c.Remote, err = identityOf(peer.Payload, peer.Static); err != nil {
				return err
			}
			return verify(c.Remote)
		},
	}, initiator)
	if err != nil {
		return err
	}
	defer h.Close()
	for !h.Done() {
		if err := c.pass(ctx, h, own); err != nil {
			return err
		}
	}
	c.sender, c.receiver, err = h.Split()
	return err
}

// pass passes one message of the handshake. The first has no payload, since nothing of it is encrypted.
func (c *Channel) pass(ctx context.Context, h *noise.HandshakeState, payload []byte) error {
	if !h.WritesNext() {
		message, err := c.frame()
		if err == nil {
			_, err = h.ReadMessageContext(ctx, nil, message)
		}
		return err
	}
	if h.MessageIndex() == 0 {
		payload = nil
	}
	message, err := h.WriteMessageContext(ctx, make([]byte, 2, 512), payload)
	if err != nil {
		return err
	}
	binary.BigEndian.PutUint16(message, uint16(len(message)-2))
	_, err = c.Conn.Write(message)
	return err
}

// frame receives a message. io.EOF says that the connection has ended before it, and io.ErrUnexpectedEOF within it.
// What has come of one before another error is kept.
func (c *Channel) frame() ([]byte, error) {
	for {
		wanted := 2 - len(c.came)
		if len(c.came) >= 2 {
			wanted = 2 + int(binary.BigEndian.Uint16(c.came)) - len(c.came)
		}
		if wanted == 0 {
			message := c.came[2:]
			c.came = nil
			return message, nil
		}
		room := make([]byte, wanted)
		n, err := io.ReadAtLeast(c.Conn, room, 1)
		c.came = append(c.came, room[:n]...)
		switch {
		case err == io.EOF && len(c.came) > 0:
			return nil, io.ErrUnexpectedEOF
		case err != nil:
			return nil, err
		}
	}
}

// Read reads what the other party has written.
func (c *Channel) Read(b []byte) (int, error) {
	c.in.Lock()
	defer c.in.Unlock()
	for len(c.rest) == 0 && len(b) > 0 {
		message, err := c.frame()
		if err != nil {
			return 0, err
		}
		if c.rest, err = c.receiver.Open(message[:0], message); err != nil {
			c.Conn.Close()
			return 0, err
		}
	}
	n := copy(b, c.rest)
	c.rest = c.rest[n:]
	return n, nil
}

// Write writes b, in messages of at most 65519 bytes.
func (c *Channel) Write(b []byte) (int, error) {
	c.out.Lock()
	defer c.out.Unlock()
	for sent := 0; c.writeErr == nil; {
		n := len(b) - sent
		if most := noise.MaxMessage - noise.TagLen; n > most {
			n = most
		}
		frame, err := c.sender.Seal(make([]byte, 2, 2+n+noise.TagLen), b[sent:sent+n])
		if err == nil {
			binary.BigEndian.PutUint16(frame, uint16(len(frame)-2))
			_, err = c.Conn.Write(frame)
		}
		if c.writeErr = err; err != nil {
			return sent, err
		}
		if sent += n; sent == len(b) {
			return sent, nil
		}
	}
	return 0, c.writeErr
}
