package libp2p

import (
	"bytes"
	"context"
	"crypto"
	"crypto/ecdsa"
	"crypto/ed25519"
	"crypto/elliptic"
	"crypto/rand"
	"crypto/rsa"
	"crypto/sha256"
	"crypto/x509"
	"encoding/binary"
	"errors"
	"io"
	"net"
	"os"
	"testing"
	"time"

	"example.org/yulimosar/noise"
)

// identities are one of each kind, by the number that libp2p's specification gives it.
func identities(t *testing.T) map[byte]crypto.Signer {
	t.Helper()
	_, one, err := ed25519.GenerateKey(rand.Reader)
	must(t, err)
	two, err := ecdsa.GenerateKey(elliptic.P256(), rand.Reader)
	must(t, err)
	three, err := rsa.GenerateKey(rand.Reader, 2048)
	must(t, err)
	return map[byte]crypto.Signer{1: one, 3: two, 0: three}
}

// lengthy is a field of a protocol buffer, by hand.
func lengthy(tag byte, value []byte) []byte {
	return append(binary.AppendUvarint([]byte{tag}, uint64(len(value))), value...)
}

// TestKeyTypes reads payloads that are made by hand, by the specification's text: the keys are PKIX but for Ed25519's,
// and the signatures of SHA-256 are ASN.1 for ECDSA and PKCS#1 v1.5 for RSA.
func TestKeyTypes(t *testing.T) {
	static := noise.PublicKey{1, 2, 3}
	signed := append([]byte("noise-libp2p-static-key:"), static[:]...)
	sum := sha256.Sum256(signed)
	for kind, identity := range identities(t) {
		var key, signature []byte
		var err error
		switch it := identity.(type) {
		case ed25519.PrivateKey:
			key, signature = it.Public().(ed25519.PublicKey), ed25519.Sign(it, signed)
		case *ecdsa.PrivateKey:
			signature, err = ecdsa.SignASN1(rand.Reader, it, sum[:])
		case *rsa.PrivateKey:
			signature, err = rsa.SignPKCS1v15(nil, it, crypto.SHA256, sum[:])
		}
		must(t, err)
		if key == nil {
			key, err = x509.MarshalPKIXPublicKey(identity.Public())
			must(t, err)
		}
		inner := append([]byte{0x08, kind}, lengthy(0x12, key)...)
		whole := append(lengthy(0x0a, inner), lengthy(0x12, signature)...)
		public, err := identityOf(whole, static)
		if err != nil || !identity.Public().(interface{ Equal(crypto.PublicKey) bool }).Equal(public) {
			t.Errorf("type %d: %v", kind, err)
		}
		made, err := payload(identity, static)
		if err != nil || !bytes.HasPrefix(made, lengthy(0x0a, inner)) {
			t.Errorf("type %d: %x, %v", kind, made, err)
		}
		if _, err := identityOf(made, static); err != nil {
			t.Error(err)
		}
		if _, err := identityOf(whole, noise.PublicKey{1, 2, 4}); !errors.Is(err, errIdentity) {
			t.Errorf("type %d, another static key: %v", kind, err)
		}
		for other := byte(0); other < 5; other++ {
			inner[1] = other
			wrong := append(lengthy(0x0a, inner), lengthy(0x12, signature)...)
			if _, err := identityOf(wrong, static); (err == nil) != (other == kind) {
				t.Errorf("a key of type %d as %d: %v", kind, other, err)
			}
		}
	}
	small, err := rsa.GenerateKey(rand.Reader, 1024)
	must(t, err)
	if _, err := payload(small, static); !errors.Is(err, errKind) {
		t.Error(err)
	}
}

// secured are two parties, of which the client has an identity of one kind and the server another.
func secured(t *testing.T, client, server crypto.Signer) (c, s *Channel) {
	t.Helper()
	a, b := net.Pipe()
	done := make(chan error, 1)
	anybody := func(crypto.PublicKey) error { return nil }
	go func() {
		var err error
		s, err = Secure(context.Background(), b, server, false, anybody)
		done <- err
	}()
	c, err := Secure(context.Background(), a, client, true, anybody)
	must(t, err, <-done)
	t.Cleanup(func() { c.Close(); s.Close() })
	return c, s
}

func TestKindsTogether(t *testing.T) {
	all := identities(t)
	for _, one := range all {
		for _, two := range all {
			c, s := secured(t, one, two)
			go c.Write([]byte("hello"))
			room := make([]byte, 5)
			_, err := io.ReadFull(s, room)
			must(t, err)
			if string(room) != "hello" || !two.Public().(interface{ Equal(crypto.PublicKey) bool }).Equal(c.Remote) {
				t.Errorf("%q from %T", room, c.Remote)
			}
		}
	}
}

// TestDeadlines lets deadlines pass within a message: a later Read goes on. The context ends a handshake.
func TestDeadlines(t *testing.T) {
	all := identities(t)
	c, s := secured(t, all[1], all[3])
	var conn net.Conn = s
	frame, err := c.sender.Seal(make([]byte, 2), []byte("hello"))
	must(t, err)
	binary.BigEndian.PutUint16(frame, uint16(len(frame)-2))
	go func() {
		for i := range frame {
			time.Sleep(2 * time.Millisecond)
			c.Conn.Write(frame[i : i+1])
		}
	}()
	passed, got := 0, []byte(nil)
	for room := make([]byte, 5); len(got) < 5; {
		must(t, conn.SetReadDeadline(time.Now().Add(time.Millisecond)))
		n, err := conn.Read(room)
		if got = append(got, room[:n]...); err != nil {
			passed++
			if !errors.Is(err, os.ErrDeadlineExceeded) {
				t.Fatal(err)
			}
		}
	}
	if string(got) != "hello" || passed == 0 {
		t.Errorf("%q after %d deadlines", got, passed)
	}
	must(t, conn.SetWriteDeadline(time.Now()))
	for i := 0; i < 2; i++ {
		if _, err := conn.Write([]byte("x")); !errors.Is(err, os.ErrDeadlineExceeded) {
			t.Error(err)
		}
		conn.SetWriteDeadline(time.Time{})
	}
	a, b := net.Pipe()
	defer b.Close()
	ctx, cancel := context.WithTimeout(context.Background(), 10*time.Millisecond)
	defer cancel()
	if _, err := Secure(ctx, a, all[1], false, nil); err != context.DeadlineExceeded {
		t.Error(err)
	}
}
