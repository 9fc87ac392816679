package live

import (
	"bytes"
	"crypto/rand"
	"errors"
	"testing"

	"example.org/yulimosar/noise"
	flynn "github.com/flynn/noise"
)

// TestFlynnCipherStates passes a handshake IX with flynn's, and then packets each way with associated data: in order,
// after a rekey, and with the nonces named (which flynn's does by its Cipher).
func TestFlynnCipherStates(t *testing.T) {
	for _, initiator := range []bool{true, false} {
		send, receive, encrypts, decrypts := ciphersWithFlynn(t, initiator)
		for i := 0; i < 6; i++ {
			if i == 3 {
				must(t, send.Rekey())
				must(t, receive.Rekey())
				encrypts.Rekey()
				decrypts.Rekey()
			}
			data, text := bytes.Repeat([]byte{byte(i)}, 16*i), bytes.Repeat([]byte("text"), 300*i)
			packet, err := send.Encrypt(nil, data, text)
			must(t, err)
			got, err := decrypts.Decrypt(nil, data, packet)
			must(t, err)
			same(t, got, text)
			packet, err = encrypts.Encrypt(nil, data, text)
			must(t, err)
			if _, err := receive.Decrypt(nil, append(data, 1), packet); !errors.Is(err, noise.ErrTag) {
				t.Errorf("with other data: %v", err)
			}
			got, err = receive.Decrypt(packet[:0], data, packet)
			must(t, err)
			same(t, got, text)
		}
		withNonces(t, send, receive, encrypts.Cipher(), decrypts.Cipher())
	}
}

// withNonces passes packets in another order than that of their nonces.
func withNonces(t *testing.T, send, receive *noise.CipherState, encrypts, decrypts flynn.Cipher) {
	data, text := []byte("header"), []byte("a packet")
	for _, nonce := range []uint64{1000, 7, 1<<64 - 2} {
		must(t, send.SetNonce(nonce))
		must(t, receive.SetNonce(nonce))
		packet, err := send.Encrypt(nil, data, text)
		must(t, err)
		got, err := decrypts.Decrypt(nil, nonce, data, packet)
		must(t, err)
		same(t, got, text)
		got, err = receive.Decrypt(nil, data, encrypts.Encrypt(nil, nonce, data, text))
		must(t, err)
		same(t, got, text)
	}
}

func same(t *testing.T, got, want []byte) {
	t.Helper()
	if !bytes.Equal(got, want) {
		t.Errorf("%q came in the place of %q", got, want)
	}
}

// ciphersWithFlynn are the CipherStates of a handshake IX: the package's, and flynn's.
func ciphersWithFlynn(t *testing.T, initiator bool) (
	send, receive *noise.CipherState,
	encrypts, decrypts *flynn.CipherState,
) {
	own, err := noise.GenerateKeyPair()
	must(t, err)
	other, err := suite.GenerateKeypair(rand.Reader)
	must(t, err)
	config := &noise.Config{Pattern: "IX", Static: own, InsecureAcceptAnyKey: true}
	mine, err := noise.NewHandshakeState(config, initiator)
	must(t, err)
	yours, err := flynn.NewHandshakeState(flynn.Config{
		CipherSuite:   suite,
		Pattern:       flynn.HandshakeIX,
		Initiator:     !initiator,
		StaticKeypair: other,
	})
	must(t, err)
	for i := 0; i < 2; i++ {
		var message []byte
		if mine.WritesNext() {
			message, err = mine.WriteMessage(nil, nil)
			must(t, err)
			_, encrypts, decrypts, err = yours.ReadMessage(nil, message)
		} else {
			message, encrypts, decrypts, err = yours.WriteMessage(nil, nil)
			must(t, err)
			_, err = mine.ReadMessage(nil, message)
		}
		must(t, err)
	}
	send, receive, err = mine.CipherStates()
	must(t, err)
	if initiator { // flynn's first one is that of the initiator
		encrypts, decrypts = decrypts, encrypts
	}
	return send, receive, encrypts, decrypts
}
