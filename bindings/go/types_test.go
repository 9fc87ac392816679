package noise

import (
	"context"
	"encoding/hex"
	"encoding/json"
	"errors"
	"fmt"
	"strings"
	"sync"
	"testing"
)

// TestSecretsDontPrint prints keys by every verb, alone and in what has them.
func TestSecretsDontPrint(t *testing.T) {
	own := pair(t)
	secret, psk := own.Secret(), pskOf(0xa7)
	config := &Config{Static: own, PSKs: []PSK{psk}}
	forbidden := []string{
		hex.EncodeToString(psk[:]),
		fmt.Sprint([KeyLen]byte(psk)),
		hex.EncodeToString(secret[:]),
		fmt.Sprint([KeyLen]byte(secret)),
		strings.Trim(fmt.Sprintf("%#v", [KeyLen]byte(secret)), "[32]uint8{}"),
		strings.Trim(fmt.Sprintf("%#v", [KeyLen]byte(psk)), "[32]uint8{}"),
	}
	for _, verb := range []string{"%v", "%+v", "%#v", "%s", "%q", "%x", "%X", "%d", "%t"} {
		for _, what := range []any{
			secret, &secret, psk, &psk, own, *own, config, *config,
			[]PSK{psk}, map[PublicKey]PSK{own.Public(): psk},
		} {
			said := strings.ToLower(fmt.Sprintf(verb, what))
			for _, it := range forbidden {
				if strings.Contains(said, it) {
					t.Errorf("%s of %T prints it: %s", verb, what, said)
				}
			}
		}
	}
}

func TestPublicKeysPrint(t *testing.T) {
	key := PublicKey{0xab, 1}
	digits := "ab01" + strings.Repeat("00", 30)
	for verb, want := range map[string]string{
		"%v": digits,
		"%s": digits,
		"%x": digits,
		"%X": strings.ToUpper(digits),
		"%q": `"` + digits + `"`,
	} {
		if got := fmt.Sprintf(verb, key); got != want {
			t.Errorf("%s: %s", verb, got)
		}
	}
	text, err := json.Marshal(map[PublicKey]PublicKey{key: key})
	must(t, err)
	back := map[PublicKey]PublicKey{}
	must(t, json.Unmarshal(text, &back))
	if string(text) != `{"`+digits+`":"`+digits+`"}` || back[key] != key || key.String() != digits {
		t.Errorf("%s", text)
	}
	if err := key.UnmarshalText([]byte("ab")); err == nil || key != (PublicKey{0xab, 1}) {
		t.Error(err)
	}
	for _, digits := range []string{"", digits[1:], digits + "00", "g" + digits[1:]} {
		if _, err := ParseSecret(digits); err == nil {
			t.Error(digits)
		}
	}
}

// TestNonceOfEachPacket encrypts from many goroutines packets whose header has the nonce, and
// opens them in another order.
func TestNonceOfEachPacket(t *testing.T) {
	s, r, back := ciphers(t, "NN")
	const each = 1000
	var packets [8 * each][]byte
	var group sync.WaitGroup
	for i := 0; i < 8; i++ {
		group.Add(1)
		go func(i int) {
			defer group.Done()
			for k := 0; k < each; k++ {
				packet := make([]byte, 4, 100)
				packet, err := s.EncryptNext(packet, []byte("text"), func(nonce uint64) []byte {
					packet[0], packet[1] = byte(nonce>>24), byte(nonce>>16)
					packet[2], packet[3] = byte(nonce>>8), byte(nonce)
					return packet
				})
				if err != nil {
					t.Error(err)
				}
				packets[i*each+k] = packet
			}
		}(i)
	}
	group.Wait()
	used := map[uint64]bool{}
	for i := len(packets) - 1; i >= 0; i-- {
		packet := packets[i]
		nonce := uint64(packet[0])<<24 | uint64(packet[1])<<16 | uint64(packet[2])<<8 | uint64(packet[3])
		_, err := r.DecryptAt(nonce+1, nil, packet[:4], packet[4:])
		wants(t, err, ErrTag)
		before := r.Nonce()
		text, err := r.DecryptAt(nonce, nil, packet[:4], packet[4:])
		if err != nil || string(text) != "text" || used[nonce] {
			t.Fatalf("nonce %d: %q, %v", nonce, text, err)
		}
		if used[nonce] = true; r.Nonce() != nonce+1 || before != r.Nonce() && i == len(packets)-1 && before != 0 {
			t.Fatal(r.Nonce())
		}
	}
	none := func(uint64) []byte { t.Error("called"); return nil }
	_, err := r.EncryptNext(nil, nil, none)
	wants(t, err, ErrDirection)
	_, err = s.DecryptAt(0, nil, nil, make([]byte, 16))
	wants(t, err, ErrDirection)
	must(t, s.Close(), r.Close(), back.Close())
	_, err = s.EncryptNext(nil, nil, none)
	wants(t, err, ErrClosed)
	_, err = r.DecryptAt(0, nil, nil, make([]byte, 16))
	wants(t, err, ErrClosed)
}

// TestPeerHasPayloadAndAddress verifies a certificate, which the payload beside the key is, and answers with a
// payload of the peer's own.
func TestPeerHasPayloadAndAddress(t *testing.T) {
	refused := errors.New("no certificate of this key")
	for pattern, message := range map[string]int{"XX": 3, "IX": 1, "IK": 1} {
		for _, isRight := range []bool{true, false} {
			client, server := configs(t, pattern)
			own := client.Static.Public()
			if !isRight {
				own[0] ^= 1
			}
			client.PayloadFor = func(_ context.Context, peer Peer) ([]byte, error) {
				if peer.Message == 2 && string(peer.Payload) != "for you" {
					t.Errorf("%+v", peer)
				}
				return own[:], nil
			}
			server.PayloadFor = func(_ context.Context, peer Peer) ([]byte, error) {
				if peer.Message != 1 || string(peer.Payload) != string(own[:]) ||
					peer.Static != client.Static.Public() && pattern != "XX" {
					t.Errorf("%+v", peer)
				}
				return []byte("for you"), nil
			}
			var c *Conn
			server.VerifyPeer = func(_ context.Context, peer Peer) error {
				if peer.Message != message || peer.Addr.String() != c.LocalAddr().String() {
					t.Errorf("%s: %+v", pattern, peer)
				}
				if string(peer.Payload) != string(peer.Static[:]) {
					return refused
				}
				return nil
			}
			var s *Conn
			c, s = connected(t, client, server)
			errC, errS := both(c, s)
			if isRight {
				must(t, errC, errS)
				continue
			}
			wants(t, errS, refused)
		}
	}
	client, _ := configs(t, "XX")
	client.Payloads, client.PayloadFor = [][]byte{nil}, func(context.Context, Peer) ([]byte, error) { return nil, nil }
	wants(t, client.Check(true), errTwoOf)
}

// TestPatternFaults has pattern texts with a fault in a line, and one that breaks a rule: se needs the initiator's s,
// which isn't sent (the framework's 7.3).
func TestPatternFaults(t *testing.T) {
	for text, want := range map[string]PatternError{
		"MINE:\n  -> e\n  <- e, eee\n":            {Line: 3},
		"MINE:\n  -> e\n  -> e, ee\n":             {Line: 3},
		"mine:\n  -> e\n":                         {Line: 1},
		"MINE:\n  -> e\n  <- e, ee, s\n  -> se\n": {Rule: 1},
	} {
		key := pair(t)
		err := (&Config{Pattern: text, Static: key, InsecureAcceptAnyKey: true}).Check(true)
		var fault *PatternError
		if !errors.Is(err, ErrPattern) || !errors.As(err, &fault) ||
			fault.Line != want.Line || fault.Rule > 0 != (want.Rule > 0) {
			t.Errorf("%q: %v", text, err)
		}
	}
	if err := (&Config{Pattern: "XY", InsecureAcceptAnyKey: true}).Check(true); !errors.Is(err, ErrName) {
		t.Error(err)
	}
}
