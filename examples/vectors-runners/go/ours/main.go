// Command ours runs the suite with the package of bindings/go. Copy this file, and have it call your implementation.
package main

import (
	"errors"
	"fmt"
	"strings"

	"example.org/vectors/suite"
	"example.org/yulimosar/noise"
)

type party struct {
	handshake     *noise.HandshakeState
	hash, remote  []byte
	send, receive *noise.CipherState
}

// keyOf returns a key of the type that is wanted.
func keyOf[T ~[32]byte](b suite.Bytes) (key T) {
	copy(key[:], b.Data)
	return key
}

// setKey sets a key of a Config, if there is one.
func setKey[T ~[32]byte](to **T, b suite.Bytes) {
	if len(b.Data) > 0 {
		key := keyOf[T](b)
		*to = &key
	}
}

func setPSKs[T ~[32]byte](to *[]T, psks []suite.Bytes) {
	for _, it := range psks {
		*to = append(*to, keyOf[T](it))
	}
}

func pairOf[T ~[32]byte](pair func(T) (*noise.KeyPair, error), b suite.Bytes) (*noise.KeyPair, error) {
	return pair(keyOf[T](b))
}

func start(g *suite.Setup, role string) (suite.Party, error) {
	keys, name := g.Keys(role), strings.Split(strings.TrimPrefix(g.Protocol, "Noise_"), "_")[0]
	if g.What != "name" && !strings.HasSuffix(g.Protocol, "_25519_ChaChaPoly_SHA256") {
		return nil, fmt.Errorf("%w: another suite", suite.ErrNotSupported)
	}
	config := &noise.Config{
		Pattern:              name + ":\n  " + strings.Join(g.Pattern, "\n  ") + "\n",
		Prologue:             g.Prologue.Data,
		InsecureAcceptAnyKey: true,
		AllowZeroPSK:         true,
	}
	if g.What == "name" {
		config.Pattern = g.Protocol
	} else if g.What == "lengths" {
		return nil, fmt.Errorf("%w: keys are arrays of 32 bytes", suite.ErrNotSupported)
	}
	setPSKs(&config.PSKs, g.PSKs)
	setKey(&config.PeerStatic, keys.RS)
	if len(keys.S.Data) > 0 {
		pair, err := pairOf(noise.NewKeyPair, keys.S)
		if err != nil {
			return nil, err
		}
		config.Static = pair
	}
	ephemeral, err := pairOf(noise.NewKeyPair, keys.E) // of zeros, if the party has none
	if err != nil {
		return nil, err
	}
	var peer *noise.PublicKey
	setKey(&peer, keys.RE)
	h, err := noise.NewHandshakeForVectors(config, role == "initiator", ephemeral, peer)
	return &party{handshake: h}, err
}

// passed makes the cipher states after the last message.
func (p *party) passed(err error) error {
	if err == nil && p.handshake.Done() {
		hash := p.handshake.HandshakeHash()
		p.hash = hash[:]
		if key, is := p.handshake.PeerStatic(); is {
			p.remote = key[:]
		}
		p.send, p.receive, err = p.handshake.CipherStates()
	}
	return err
}

func (p *party) Write(payload []byte) ([]byte, error) {
	if p.send != nil {
		return p.send.Encrypt(nil, nil, payload)
	}
	message, err := p.handshake.WriteMessage(nil, payload)
	return message, p.passed(err)
}

func (p *party) Read(message []byte) ([]byte, error) {
	if p.receive != nil {
		return p.receive.Decrypt(nil, nil, message)
	}
	payload, err := p.handshake.ReadMessage(nil, message)
	return payload, p.passed(err)
}

func (p *party) cipher(direction string) *noise.CipherState {
	if direction == "send" {
		return p.send
	}
	return p.receive
}

func (p *party) Rekey(direction string) error { return p.cipher(direction).Rekey() }

func (p *party) SetNonce(direction string, nonce uint64) error {
	return p.cipher(direction).SetNonce(nonce)
}

func (p *party) Hash() []byte { return p.hash }

// RemoteStatic returns nothing of a party that has none.
func (p *party) RemoteStatic() ([]byte, error) {
	return p.remote, nil
}

// Place returns the token that the error names.
func (p *party) Place(err error) string {
	var refused *noise.HandshakeError
	if errors.As(err, &refused) {
		return refused.Token
	}
	return ""
}

func main() { suite.Main("yulimosar for Go", start) }
