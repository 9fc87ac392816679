// Command flynn runs the suite with github.com/flynn/noise. Copy this file, and have it call your implementation.
package main

import (
	"bytes"
	"fmt"
	"regexp"
	"strconv"
	"strings"

	"example.org/vectors/suite"
	"github.com/flynn/noise"
)

var (
	ciphers = map[string]noise.CipherFunc{"ChaChaPoly": noise.CipherChaChaPoly, "AESGCM": noise.CipherAESGCM}
	hashes  = map[string]noise.HashFunc{
		"SHA256": noise.HashSHA256, "SHA512": noise.HashSHA512,
		"BLAKE2s": noise.HashBLAKE2s, "BLAKE2b": noise.HashBLAKE2b,
	}
	tokens = map[string]noise.MessagePattern{
		"s":  noise.MessagePatternS,
		"e":  noise.MessagePatternE,
		"ee": noise.MessagePatternDHEE,
		"es": noise.MessagePatternDHES,
		"se": noise.MessagePatternDHSE,
		"ss": noise.MessagePatternDHSS,
	}
	name = regexp.MustCompile(`^Noise_([A-Z0-9]+)(psk(\d)(\+.*)?)?_`)
)

type party struct {
	handshake     *noise.HandshakeState
	initiator     bool
	oneWay        bool
	send, receive *noise.CipherState
}

func start(g *suite.Setup, role string) (suite.Party, error) {
	if g.What == "name" || g.What == "pattern" {
		return nil, fmt.Errorf("%w: names aren't read, and patterns aren't checked", suite.ErrNotSupported)
	}
	keys, found := g.Keys(role), name.FindStringSubmatch(g.Protocol)
	if found[4] != "" || len(g.PSKs) > 1 {
		return nil, fmt.Errorf("%w: more than one psk", suite.ErrNotSupported)
	}
	cipher, hash := ciphers[g.Algorithm(1)], hashes[g.Algorithm(2)]
	if cipher == nil || hash == nil || g.Algorithm(0) != "25519" {
		return nil, fmt.Errorf("%w: another suite", suite.ErrNotSupported)
	}
	config := noise.Config{
		CipherSuite:   noise.NewCipherSuite(noise.DH25519, cipher, hash),
		Random:        bytes.NewReader(keys.E.Data),
		Pattern:       patternOf(g, found[1]),
		Initiator:     role == "initiator",
		Prologue:      g.Prologue.Data,
		PeerStatic:    keys.RS.Data,
		PeerEphemeral: keys.RE.Data,
	}
	if len(g.PSKs) > 0 {
		config.PresharedKey = g.PSKs[0].Data
		config.PresharedKeyPlacement, _ = strconv.Atoi(found[3])
	}
	if g.What == "lengths" && role == "responder" {
		return nil, fmt.Errorf("%w: a key pair is made of 32 bytes", suite.ErrNotSupported)
	}
	if len(keys.S.Data) > 0 {
		pair, err := noise.DH25519.GenerateKeypair(bytes.NewReader(keys.S.Data))
		if err != nil {
			return nil, err
		}
		config.StaticKeypair = pair
	}
	if strings.Contains(g.Before(role), "e") {
		config.EphemeralKeypair, _ = noise.DH25519.GenerateKeypair(bytes.NewReader(keys.E.Data))
	}
	h, err := noise.NewHandshakeState(config)
	return &party{handshake: h, initiator: config.Initiator, oneWay: len(config.Pattern.Messages) == 1}, err
}

func list(joined string) (made []noise.MessagePattern) {
	for _, it := range strings.Split(joined, ", ") {
		if token, ok := tokens[it]; ok { // but psk, which it places itself
			made = append(made, token)
		}
	}
	return made
}

func patternOf(g *suite.Setup, base string) noise.HandshakePattern {
	made := noise.HandshakePattern{
		Name:                 base,
		InitiatorPreMessages: list(g.Before("initiator")),
		ResponderPreMessages: list(g.Before("responder")),
	}
	for _, it := range g.Tokens() {
		made.Messages = append(made.Messages, list(strings.Join(it, ", ")))
	}
	return made
}

func (p *party) split(first, second *noise.CipherState) {
	if p.send, p.receive = first, second; !p.initiator {
		p.send, p.receive = second, first
	}
}

var errSecond = fmt.Errorf("%w: the second cipher state of a one-way pattern is the caller's to discard",
	suite.ErrNotSupported)

func (p *party) Write(payload []byte) (message []byte, err error) {
	if p.send != nil {
		if p.oneWay && !p.initiator {
			return nil, errSecond
		}
		return p.send.Encrypt(nil, nil, payload)
	}
	message, first, second, err := p.handshake.WriteMessage(nil, payload)
	if err == nil {
		p.split(first, second)
	}
	return message, err
}

func (p *party) Read(message []byte) (payload []byte, err error) {
	if p.receive != nil {
		if p.oneWay && p.initiator {
			return nil, errSecond
		}
		return p.receive.Decrypt(nil, nil, message)
	}
	payload, first, second, err := p.handshake.ReadMessage(nil, message)
	if err == nil {
		p.split(first, second)
	}
	return payload, err
}

func (p *party) Rekey(direction string) error {
	if direction == "send" {
		p.send.Rekey()
	} else {
		p.receive.Rekey()
	}
	return nil
}

func (p *party) SetNonce(string, uint64) error {
	return fmt.Errorf("%w: no call sets a nonce", suite.ErrNotSupported)
}

func (p *party) Hash() []byte { return p.handshake.ChannelBinding() }

func (p *party) RemoteStatic() ([]byte, error) { return p.handshake.PeerStatic(), nil }

func (p *party) Place(error) string { return "" }

func main() { suite.Main("flynn/noise", start) }
