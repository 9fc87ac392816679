package noise

import (
	"context"
	"errors"
	"strings"
	"testing"
)

// forger has the public key of somebody else, and no secret key.
type forger struct{ PublicKey }

func (f forger) Public() PublicKey { return f.PublicKey }

func (forger) Agree(context.Context, PublicKey) (Secret, error) { return Secret{1}, nil }

// taken reads a message as docs/GO.md shows: a psk that is wanted is looked up by the other party's key.
func taken(h *HandshakeState, message []byte, psks map[PublicKey]PSK) error {
	for {
		_, err := h.TryReadMessage(context.Background(), nil, message)
		var wanted *WantedPSKError
		if !errors.As(err, &wanted) {
			return err
		}
		psk, ok := psks[*wanted.PeerStatic]
		if !ok {
			return errUnknown
		}
		if err := h.SetPSK(psk); err != nil {
			return err
		}
	}
}

// firstOf returns message 1 of a client.
func firstOf(t *testing.T, config Config, static DH, psks ...PSK) (*HandshakeState, []byte) {
	t.Helper()
	config.Static, config.PSKs = static, psks
	h, err := NewHandshakeState(&config, true)
	must(t, err)
	message, err := h.WriteMessage(nil, []byte("hello"))
	must(t, err)
	return h, message
}

// TestPSKOfAForgedMessage has a server of two clients, each with a psk of its own, and a stranger who knows the public
// keys of the server and of one client: what the stranger sends doesn't keep the other client out, nor that one.
func TestPSKOfAForgedMessage(t *testing.T) {
	one, two := pair(t), pair(t)
	psks := map[PublicKey]PSK{one.Public(): pskOf(1), two.Public(): pskOf(2)}
	client, server := configs(t, "IKpsk1")
	server.PSKs, server.PeerStatic = nil, nil
	for _, right := range []DH{two, one} {
		s, err := NewHandshakeState(server, false)
		must(t, err)
		for i := 0; i < 3; i++ {
			_, forged := firstOf(t, *client, forger{one.Public()}, pskOf(9))
			wants(t, taken(s, forged, psks), ErrTag)
			_, unknown := firstOf(t, *client, pair(t), pskOf(9))
			wants(t, taken(s, unknown, psks), errUnknown)
		}
		c, first := firstOf(t, *client, right, psks[right.Public()])
		must(t, taken(s, first, psks))
		second, err := s.WriteMessage(nil, nil)
		must(t, err)
		_, err = c.ReadMessage(nil, second)
		must(t, err)
		if c.HandshakeHash() != s.HandshakeHash() {
			t.Error("the handshakes differ")
		}
	}
}

// TestPSKsSetBefore sets the first of two psks before any message, and the second one at a WantedPSKError: a refusal
// takes the second back, and the first stays.
func TestPSKsSetBefore(t *testing.T) {
	ctx := context.Background()
	client, server := configs(t, "IKpsk0+psk1")
	server.PSKs = nil
	s, err := NewHandshakeState(server, false)
	must(t, err, s.SetPSK(pskOf(1)))
	_, forged := firstOf(t, *client, forger{client.Static.Public()}, pskOf(1), pskOf(2))
	_, first := firstOf(t, *client, client.Static, pskOf(1), pskOf(2))
	for i := 0; i < 3; i++ {
		_, err = s.TryReadMessage(ctx, nil, forged)
		wants(t, err, ErrWantedPSK)
		must(t, s.SetPSK(pskOf(2)))
		wants(t, s.SetPSK(pskOf(3)), ErrPSKCount)
		_, err = s.TryReadMessage(ctx, nil, forged)
		wants(t, err, ErrTag)
	}
	_, err = s.TryReadMessage(ctx, nil, first)
	wants(t, err, ErrWantedPSK)
	must(t, s.SetPSK(pskOf(2)))
	payload, err := s.TryReadMessage(ctx, nil, first)
	must(t, err)
	if string(payload) != "hello" {
		t.Errorf("%q", payload)
	}
	wants(t, s.SetPSK(pskOf(2)), ErrPSKCount)
}

// TestPSKThatStays sets both psks before any message, with no WantedPSKError: refusals leave them.
func TestPSKThatStays(t *testing.T) {
	client, server := configs(t, "IKpsk0+psk1")
	server.PSKs = nil
	s, err := NewHandshakeState(server, false)
	must(t, err, s.SetPSK(pskOf(1)), s.SetPSK(pskOf(2)))
	_, forged := firstOf(t, *client, forger{client.Static.Public()}, pskOf(1), pskOf(2))
	_, first := firstOf(t, *client, client.Static, pskOf(1), pskOf(2))
	for i := 0; i < 3; i++ {
		_, err = s.TryReadMessage(context.Background(), nil, forged)
		wants(t, err, ErrTag)
	}
	_, err = s.TryReadMessage(context.Background(), nil, first)
	must(t, err)
}

// TestUnsetPSK replaces psks that were passed, before they are used.
func TestUnsetPSK(t *testing.T) {
	client, server := configs(t, "IKpsk0+psk1")
	server.PSKs = nil
	s, err := NewHandshakeState(server, false)
	must(t, err, s.UnsetPSK()) // there is none
	must(t, s.SetPSK(pskOf(1)), s.SetPSK(pskOf(3)))
	wants(t, s.SetPSK(pskOf(2)), ErrPSKCount)
	must(t, s.UnsetPSK(), s.SetPSK(pskOf(2)))
	_, first := firstOf(t, *client, client.Static, pskOf(1), pskOf(2))
	_, err = s.TryReadMessage(context.Background(), nil, first)
	must(t, err, s.UnsetPSK())
	must(t, s.Close())
	wants(t, s.UnsetPSK(), ErrEnded)
	s, err = NewHandshakeState(server, false)
	must(t, err)
	_, err = s.TryReadMessage(context.Background(), nil, first)
	wants(t, err, ErrWantedPSK)
	must(t, s.SetPSK(pskOf(1)), s.UnsetPSK(), s.SetPSK(pskOf(1)), s.SetPSK(pskOf(7)))
	_, err = s.TryReadMessage(context.Background(), nil, first)
	wants(t, err, ErrTag)
	must(t, s.SetPSK(pskOf(1)), s.SetPSK(pskOf(2))) // with none taken back the first would be one too many
	_, err = s.TryReadMessage(context.Background(), nil, first)
	must(t, err)
}

// TestPSKsOfLaterMessages passes the psks of all messages before the first one, one after another, to the initiator: of
// three messages, and of eight with nine psks, the most that there may be. The responder has them from the start.
func TestPSKsOfLaterMessages(t *testing.T) {
	nine := "Tpsk0+psk1+psk2+psk3+psk4+psk5+psk6+psk7+psk8:\n  -> psk, e, psk\n  <- e, psk\n  -> ee, psk\n" +
		"  <- s, psk\n  -> s, psk\n  <- es, psk\n  -> se, psk\n  <- ss, psk\n"
	// Its first message has no ephemeral key, and nothing in it is encrypted.
	static := "SEpsk2:\n  -> s\n  <- e, psk\n  -> e, ee\n"
	for pattern, count := range map[string]int{"XXpsk3": 1, "XXpsk0+psk3": 2, nine: 9, static: 1} {
		client, server := configs(t, pattern)
		client.PSKs, server.PSKs = nil, nil
		a, err := NewHandshakeState(client, true)
		must(t, err)
		for i := 0; i < count; i++ {
			must(t, a.SetPSK(pskOf(byte(i+1))))
			server.PSKs = append(server.PSKs, pskOf(byte(i+1)))
		}
		wants(t, a.SetPSK(pskOf(1)), ErrPSKCount)
		b, err := NewHandshakeState(server, false)
		must(t, err)
		for w, r := a, b; !w.Done(); w, r = r, w {
			message, err := w.WriteMessage(nil, nil)
			must(t, err)
			_, err = r.ReadMessage(nil, message)
			must(t, err)
		}
		if a.HandshakeHash() != b.HandshakeHash() {
			t.Error("the hashes differ")
		}
	}
}

// TestDeferredPatterns runs the deferred patterns of the specification, of which the package has no name, without a psk
// and with one at the start of message 1.
func TestDeferredPatterns(t *testing.T) {
	for base := range deferred {
		text := patternOfVector("Noise_" + base + suite)
		withPSK := strings.Replace(strings.Replace(text, ":", "psk0:", 1), "-> e", "-> psk, e", 1)
		for _, pattern := range []string{text, withPSK} {
			a, b := finished(t, pattern)
			if a.HandshakeHash() != b.HandshakeHash() {
				t.Errorf("%s: the hashes differ", pattern)
			}
		}
	}
}
