package noise

import (
	"encoding/hex"
	"encoding/json"
	"errors"
	"os"
	"path/filepath"
	"strings"
	"testing"
)

// hexBytes are bytes in hexadecimal digits.
type hexBytes []byte

func (b *hexBytes) UnmarshalText(text []byte) (err error) {
	*b, err = hex.DecodeString(string(text))
	return err
}

// sharedVector is one in the format of cacophony and snow.
type sharedVector struct {
	Name             string     `json:"protocol_name"`
	InitPrologue     hexBytes   `json:"init_prologue"`
	InitPSKs         []hexBytes `json:"init_psks"`
	InitEphemeral    hexBytes   `json:"init_ephemeral"`
	InitStatic       hexBytes   `json:"init_static"`
	InitRemoteStatic hexBytes   `json:"init_remote_static"`
	RespPrologue     hexBytes   `json:"resp_prologue"`
	RespPSKs         []hexBytes `json:"resp_psks"`
	RespEphemeral    hexBytes   `json:"resp_ephemeral"`
	RespStatic       hexBytes   `json:"resp_static"`
	RespRemoteStatic hexBytes   `json:"resp_remote_static"`
	Hash             hexBytes   `json:"handshake_hash"`
	Messages         []struct {
		Payload    hexBytes `json:"payload"`
		Ciphertext hexBytes `json:"ciphertext"`
	} `json:"messages"`
}

// deferred are the deferred patterns of the specification, with a semicolon between two lines.
var deferred = map[string]string{
	"NK1":  "<- s; ...; -> e; <- e, ee, es",
	"NX1":  "-> e; <- e, ee, s; -> es",
	"X1N":  "-> e; <- e, ee; -> s; <- se",
	"X1K":  "<- s; ...; -> e, es; <- e, ee; -> s; <- se",
	"XK1":  "<- s; ...; -> e; <- e, ee, es; -> s, se",
	"X1K1": "<- s; ...; -> e; <- e, ee, es; -> s; <- se",
	"X1X":  "-> e; <- e, ee, s, es; -> s; <- se",
	"XX1":  "-> e; <- e, ee, s; -> es, s, se",
	"X1X1": "-> e; <- e, ee, s; -> es, s; <- se",
	"K1N":  "-> s; ...; -> e; <- e, ee; -> se",
	"K1K":  "-> s; <- s; ...; -> e, es; <- e, ee; -> se",
	"KK1":  "-> s; <- s; ...; -> e; <- e, ee, se, es",
	"K1K1": "-> s; <- s; ...; -> e; <- e, ee, es; -> se",
	"K1X":  "-> s; ...; -> e; <- e, ee, s, es; -> se",
	"KX1":  "-> s; ...; -> e; <- e, ee, se, s; -> es",
	"K1X1": "-> s; ...; -> e; <- e, ee, s; -> se, es",
	"I1N":  "-> e, s; <- e, ee; -> se",
	"I1K":  "<- s; ...; -> e, es, s; <- e, ee; -> se",
	"IK1":  "<- s; ...; -> e, s; <- e, ee, se, es",
	"I1K1": "<- s; ...; -> e, s; <- e, ee, es; -> se",
	"I1X":  "-> e, s; <- e, ee, s, es; -> se",
	"IX1":  "-> e, s; <- e, ee, se, s; -> es",
	"I1X1": "-> e, s; <- e, ee, s; -> se, es",
}

// patternOfVector returns the pattern of a protocol's name: a text, where the package knows no such name.
func patternOfVector(name string) string {
	base := strings.TrimSuffix(strings.TrimPrefix(name, "Noise_"), suite)
	if lines, ok := deferred[base]; ok {
		return base + ":\n  " + strings.ReplaceAll(lines, "; ", "\n  ") + "\n"
	}
	return name
}

// vectorParty starts a party with the keys of a vector.
func vectorParty(
	t *testing.T, name string, initiator bool, prologue, ephemeral, static, remote []byte, psks []hexBytes,
) *HandshakeState {
	t.Helper()
	config := &Config{Pattern: patternOfVector(name), Prologue: prologue, InsecureAcceptAnyKey: true}
	for _, it := range psks {
		var psk PSK
		copy(psk[:], it)
		config.PSKs = append(config.PSKs, psk)
	}
	if len(static) > 0 {
		key, err := ParseSecret(hex.EncodeToString(static))
		must(t, err)
		config.Static, err = NewKeyPair(key)
		must(t, err)
	}
	if len(remote) > 0 {
		key, err := ParsePublicKey(hex.EncodeToString(remote))
		must(t, err)
		config.PeerStatic = &key
	}
	var secret Secret // of zeros, if the party has none
	copy(secret[:], ephemeral)
	key, err := NewKeyPair(secret)
	must(t, err)
	h, err := NewHandshakeForVectors(config, initiator, key, nil)
	must(t, err)
	return h
}

// run passes the messages of a vector, both written and read.
func (v *sharedVector) run(t *testing.T) {
	t.Helper()
	w := vectorParty(t, v.Name, true, v.InitPrologue, v.InitEphemeral, v.InitStatic, v.InitRemoteStatic, v.InitPSKs)
	r := vectorParty(t, v.Name, false, v.RespPrologue, v.RespEphemeral, v.RespStatic, v.RespRemoteStatic, v.RespPSKs)
	isOneWay, next := w.pattern.isOneWay, 0
	check := func(i int, made, want []byte, err error) {
		t.Helper()
		if err != nil || string(made) != string(want) {
			t.Fatalf("%s: message %d: %x, %v", v.Name, i+1, made, err)
		}
	}
	for ; !w.Done(); next++ {
		message, err := w.WriteMessage(nil, v.Messages[next].Payload)
		check(next, message, v.Messages[next].Ciphertext, err)
		payload, err := r.ReadMessage(nil, message)
		check(next, payload, v.Messages[next].Payload, err)
		w, r = r, w
	}
	hash, other := w.HandshakeHash(), r.HandshakeHash()
	if len(v.Hash) > 0 && string(hash[:]) != string(v.Hash) || hash != other {
		t.Fatalf("%s: hash %x", v.Name, hash)
	}
	if isOneWay {
		w, r = r, w // the initiator goes on
	}
	var ends [2]struct {
		*Sender
		*Receiver
	}
	for i, h := range []*HandshakeState{w, r} {
		s, r, err := h.Split()
		must(t, err)
		ends[i].Sender, ends[i].Receiver = s, r
	}
	for i := next; i < len(v.Messages); i++ {
		from := (i - next) % 2
		if isOneWay {
			from = 0
		}
		message, err := ends[from].Seal(nil, v.Messages[i].Payload)
		check(i, message, v.Messages[i].Ciphertext, err)
		payload, err := ends[1-from].Open(nil, message)
		check(i, payload, v.Messages[i].Payload, err)
	}
}

// TestVectors runs the right conversations of vectors/ in the format that Noise projects share, with the suite of this
// package, and of the file NOISE_VECTORS, as cacophony's.
func TestVectors(t *testing.T) {
	files := []string{"../../vectors/25519_ChaChaPoly_SHA256_shared.json"}
	if more := os.Getenv("NOISE_VECTORS"); more != "" {
		files = filepath.SplitList(more)
	}
	count, unseen := 0, map[string]bool{}
	for base := range deferred {
		unseen[base] = true
	}
	for _, name := range files {
		text, err := os.ReadFile(name)
		if errors.Is(err, os.ErrNotExist) {
			t.Skip(err) // the package is alone
		}
		must(t, err)
		var all struct{ Vectors []sharedVector }
		must(t, json.Unmarshal(text, &all))
		for i := range all.Vectors {
			name := all.Vectors[i].Name
			if !strings.HasSuffix(name, suite) || errors.Is(patternOf(patternOfVector(name)).fault, ErrName) {
				continue // another suite, or a pattern that no text here has
			}
			all.Vectors[i].run(t)
			delete(unseen, strings.TrimSuffix(strings.TrimPrefix(name, "Noise_"), suite))
			count++
		}
	}
	t.Logf("%d vectors", count)
	if count < 100 || len(unseen) > 0 {
		t.Errorf("%d vectors are too few, and %v have none", count, unseen)
	}
}

// TestEphemeralKeyOfVectors refuses what NewHandshakeForVectors can't start from.
func TestEphemeralKeyOfVectors(t *testing.T) {
	config := &Config{Pattern: "PE:\n  <- e\n  ...\n  -> e, ee\n", InsecureAcceptAnyKey: true}
	_, err := NewHandshakeState(config, true)
	wants(t, err, errEarly)
	wants(t, config.Check(true), errEarly)
	_, err = NewHandshakeForVectors(config, true, pair(t), nil)
	wants(t, err, ErrRemoteMissing)
	_, err = NewHandshakeForVectors(config, true, nil, nil)
	wants(t, err, errNilKey)
	peer := pair(t)
	public := peer.Public()
	a, err := NewHandshakeForVectors(config, true, pair(t), &public)
	must(t, err)
	b, err := NewHandshakeForVectors(config, false, peer, nil)
	must(t, err)
	message, err := a.WriteMessage(nil, []byte("hello"))
	must(t, err)
	payload, err := b.ReadMessage(nil, message)
	must(t, err)
	if string(payload) != "hello" || a.HandshakeHash() != b.HandshakeHash() {
		t.Errorf("%q", payload)
	}
}
