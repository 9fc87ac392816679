package libp2p

import (
	"bytes"
	"context"
	"crypto"
	"crypto/ed25519"
	"crypto/rand"
	"encoding/binary"
	"errors"
	"io"
	"net"
	"testing"

	"example.org/yulimosar/noise"
	flynn "github.com/flynn/noise"
)

func must(t *testing.T, errs ...error) {
	t.Helper()
	for _, err := range errs {
		if err != nil {
			t.Fatal(err)
		}
	}
}

// other is the other party: the steps of libp2p's specification over flynn/noise, with the bytes of
// its payload written out.
type other struct {
	conn          net.Conn
	identity      ed25519.PrivateKey
	signed        string // what is signed before the static key
	send, receive *flynn.CipherState
	seen          []byte // the payload that has come
	static        []byte
}

func (o *other) write(message []byte) {
	o.conn.Write(append([]byte{byte(len(message) >> 8), byte(len(message))}, message...))
}

func (o *other) read() []byte {
	var length [2]byte
	io.ReadFull(o.conn, length[:])
	message := make([]byte, binary.BigEndian.Uint16(length[:]))
	io.ReadFull(o.conn, message)
	return message
}

func (o *other) payload(static []byte) []byte {
	// Field 1: type Ed25519, and the key.
	b := append([]byte{0x0a, 36, 0x08, 0x01, 0x12, 32}, o.identity.Public().(ed25519.PublicKey)...)
	b = append(b, 0x12, 64) // field 2: the signature
	b = append(b, ed25519.Sign(o.identity, append([]byte(o.signed), static...))...)
	return append(b, 0x22, 4, 0x12, 2, 'h', '2') // field 4: extensions, here a stream muxer
}

func (o *other) shake(initiator bool) error {
	suite := flynn.NewCipherSuite(flynn.DH25519, flynn.CipherChaChaPoly, flynn.HashSHA256)
	key, err := suite.GenerateKeypair(rand.Reader)
	if err != nil {
		return err
	}
	h, err := flynn.NewHandshakeState(flynn.Config{
		CipherSuite:   suite,
		Pattern:       flynn.HandshakeXX,
		Initiator:     initiator,
		StaticKeypair: key,
	})
	if err != nil {
		return err
	}
	if initiator {
		message, _, _, err := h.WriteMessage(nil, nil)
		if err != nil {
			return err
		}
		o.write(message)
		if o.seen, _, _, err = h.ReadMessage(nil, o.read()); err != nil {
			return err
		}
		message, o.send, o.receive, err = h.WriteMessage(nil, o.payload(key.Public))
		o.write(message)
		o.static = h.PeerStatic()
		return err
	}
	if _, _, _, err := h.ReadMessage(nil, o.read()); err != nil {
		return err
	}
	message, _, _, err := h.WriteMessage(nil, o.payload(key.Public))
	if err != nil {
		return err
	}
	o.write(message)
	o.seen, o.receive, o.send, err = h.ReadMessage(nil, o.read())
	o.static = h.PeerStatic()
	return err
}

// TestWithFlynn has both roles: each party finds the other's identity, and texts pass both ways, also
// longer ones than a message.
func TestWithFlynn(t *testing.T) {
	for _, initiator := range []bool{true, false} {
		_, mine, err := ed25519.GenerateKey(rand.Reader)
		must(t, err)
		public, theirs, err := ed25519.GenerateKey(rand.Reader)
		must(t, err)
		a, b := net.Pipe()
		o, shaken := &other{conn: b, identity: theirs, signed: "noise-libp2p-static-key:"}, make(chan error, 1)
		go func() { shaken <- o.shake(!initiator) }()
		c, err := Secure(context.Background(), a, mine, initiator, func(key crypto.PublicKey) error {
			if !public.Equal(key) {
				t.Error("another identity")
			}
			return nil
		})
		must(t, err, <-shaken)
		key := mine.Public().(ed25519.PublicKey)
		want := append(append([]byte{0x0a, 36, 0x08, 0x01, 0x12, 32}, key...), 0x12, 64)
		signed := append([]byte("noise-libp2p-static-key:"), o.static...)
		if !bytes.HasPrefix(o.seen, want) || len(o.seen) != len(want)+64 ||
			!ed25519.Verify(key, signed, o.seen[len(want):]) {
			t.Errorf("the payload is %x", o.seen)
		}
		long := bytes.Repeat([]byte("0123456789"), 7000)
		go c.Write(long)
		var got []byte
		for len(got) < len(long) {
			text, err := o.receive.Decrypt(nil, nil, o.read())
			must(t, err)
			got = append(got, text...)
		}
		if !bytes.Equal(got, long) || !public.Equal(c.Remote) {
			t.Error("other bytes came than were sent")
		}
		sealed, err := o.send.Encrypt(nil, nil, []byte("pong"))
		must(t, err)
		go o.write(sealed)
		four := make([]byte, 4)
		_, err = io.ReadFull(c, four)
		must(t, err)
		if string(four) != "pong" {
			t.Errorf("%q", four)
		}
		sealed, err = o.send.Encrypt(nil, nil, []byte("pong"))
		must(t, err)
		sealed[0] ^= 1
		go o.write(sealed)
		if _, err := c.Read(four); !errors.Is(err, noise.ErrTag) {
			t.Error(err)
		}
	}
}

// TestIdentities has a signature of something else, and an identity that isn't wanted.
func TestIdentities(t *testing.T) {
	unwanted := errors.New("unwanted")
	for _, it := range []struct {
		signed string
		want   error
	}{{"noise-libp2p-static-key", errIdentity}, {"noise-libp2p-static-key:", unwanted}} {
		for _, initiator := range []bool{true, false} {
			_, mine, err := ed25519.GenerateKey(rand.Reader)
			must(t, err)
			_, theirs, err := ed25519.GenerateKey(rand.Reader)
			must(t, err)
			a, b := net.Pipe()
			o := &other{conn: b, identity: theirs, signed: it.signed}
			go o.shake(!initiator)
			refuse := func(crypto.PublicKey) error { return unwanted }
			if _, err := Secure(context.Background(), a, mine, initiator, refuse); !errors.Is(err, it.want) {
				t.Error(err)
			}
			a.Close()
		}
	}
	for _, bad := range [][]byte{
		{0x0a},
		{0x0a, 5, 1},
		{0x0b, 1},
		{0xff},
		{0x0a, 0xff, 0xff, 0xff, 0xff, 0xff, 0xff, 0xff, 0xff, 0xff, 0x01},
	} {
		if _, err := identityOf(bad, noise.PublicKey{}); err == nil {
			t.Errorf("%x", bad)
		}
	}
}
