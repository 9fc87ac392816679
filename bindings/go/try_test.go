package noise

import (
	"context"
	"errors"
	"testing"
)

// TestTryReadMessage tries what strangers send in the place of each message of several patterns: altered, cut, longer,
// repeated and other messages, and keys of which X25519 is zeros. Then the right one comes.
func TestTryReadMessage(t *testing.T) {
	ctx := context.Background()
	for _, pattern := range []string{"IK", "IKpsk2", "NNpsk0", "KK", "Kpsk0", "IKpsk1", "XX", "XXpsk3"} {
		client, server := configs(t, pattern)
		a, err := NewHandshakeState(client, true)
		must(t, err)
		b, err := NewHandshakeState(server, false)
		must(t, err)
		var before [][]byte
		for w, r := a, b; !a.Done() || !b.Done(); w, r = r, w {
			message, err := w.WriteMessage(nil, []byte("payload"))
			must(t, err)
			hash := r.HandshakeHash()
			// Nothing of this message is encrypted: an altered one can't be told.
			isPlain := len(before) == 0 && pattern[:2] == "XX"
			junk := append([][]byte{
				nil,
				make([]byte, len(message)),
				append(append([]byte(nil), message...), 0),
				make([]byte, MaxMessage+1),
			}, before...)
			if isPlain {
				junk = [][]byte{nil, message[:31], make([]byte, MaxMessage+1)}
			}
			for i := 0; i < len(message) && !isPlain; i++ {
				altered := append([]byte(nil), message...)
				altered[i] ^= 4
				junk = append(junk, altered, message[:i])
			}
			for _, it := range junk {
				var fault *HandshakeError
				if _, err := r.TryReadMessage(ctx, nil, it); !errors.As(err, &fault) {
					t.Fatalf("%s: %v", pattern, err)
				}
				if r.HandshakeHash() != hash || r.MessageIndex() != len(before) {
					t.Fatalf("%s: a refusal has changed the handshake", pattern)
				}
			}
			payload, err := r.TryReadMessage(ctx, []byte("a "), message)
			must(t, err)
			if string(payload) != "a payload" {
				t.Fatalf("%q", payload)
			}
			before = append(before, message)
			_, err = r.TryReadMessage(ctx, nil, message)
			if !errors.Is(err, ErrNotYourTurn) && !errors.Is(err, ErrDone) {
				t.Fatal(err)
			}
		}
		if a.HandshakeHash() != b.HandshakeHash() {
			t.Error(pattern)
		}
		s, _, err := a.Split()
		must(t, err)
		_, r, err := b.Split()
		must(t, err)
		sealed, err := s.Seal(nil, []byte("x"))
		must(t, err)
		_, err = r.Open(nil, sealed)
		must(t, err)
	}
}

// TestTryAfterARefusal has a server whose VerifyPeer refuses one client, and one that panics: the next client is
// accepted by the same handshake.
func TestTryAfterARefusal(t *testing.T) {
	client, server := configs(t, "IK")
	other := *client
	other.Static = pair(t)
	server.PeerStatic, server.VerifyPeer = nil, func(_ context.Context, peer Peer) error {
		if peer.Static != client.Static.Public() {
			return errUnknown
		}
		return nil
	}
	var first [2][]byte
	var ends [2]*HandshakeState
	for i, config := range []*Config{&other, client} {
		h, err := NewHandshakeState(config, true)
		must(t, err)
		first[i], err = h.WriteMessage(nil, nil)
		must(t, err)
		ends[i] = h
	}
	s, err := NewHandshakeState(server, false)
	must(t, err)
	for i := 0; i < 3; i++ {
		_, err = s.TryReadMessage(context.Background(), nil, first[0])
		wants(t, err, errUnknown)
	}
	if _, isKnown := s.PeerStatic(); isKnown {
		t.Error("the key of a client that was refused")
	}
	_, err = s.TryReadMessage(context.Background(), nil, first[1])
	must(t, err)
	second, err := s.WriteMessage(nil, nil)
	must(t, err)
	_, err = ends[1].TryReadMessage(context.Background(), nil, second)
	must(t, err)
	must(t, s.Close())
	_, err = s.TryReadMessage(context.Background(), nil, second)
	wants(t, err, ErrClosed)
	_, err = ends[0].ReadMessage(nil, second)
	wants(t, err, ErrTag)
	_, err = ends[0].TryReadMessage(context.Background(), nil, second)
	wants(t, err, ErrEnded)
}
