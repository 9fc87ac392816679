package noise

import (
	"context"
	"errors"
	"testing"
)

func TestSecretsOfAKey(t *testing.T) {
	for _, it := range []struct {
		pattern   string
		initiator bool
	}{
		{"IKpsk2", false}, {"IXpsk2", false}, {"XXpsk3", true}, {"XXpsk3", false}, {"IKpsk1", false},
		{"KKpsk0", false}, {"KKpsk0", true}, {"IKpsk1+psk2", false},
		{"XA1psk3:\n  -> e\n  <- e, ee, s, es\n  -> s, se, psk\n", true},
	} {
		client, server := configs(t, it.pattern)
		asked, other := client, server.Static
		if !it.initiator {
			asked, other = server, client.Static
		}
		secrets := asked.PSKs
		asked.PSKs, asked.PSKFor = nil, func(_ context.Context, got PublicKey) ([]PSK, error) {
			if got != other.Public() {
				t.Error("asked for another's secrets")
			}
			return secrets, nil
		}
		client.Payloads, server.Payloads = [][]byte{nil, nil, []byte("third")}, [][]byte{nil, []byte("second")}
		c, s := connected(t, client, server)
		errC, errS := both(c, s)
		must(t, errC, errS)
		exchange(t, c, s)
		if c.ConnectionState().HandshakeHash != s.ConnectionState().HandshakeHash {
			t.Error(it.pattern)
		}
	}
}

// TestKeyBeforeSecret looks up who may choose the secret by the other party's key.
func TestKeyBeforeSecret(t *testing.T) {
	for _, it := range []struct {
		pattern           string
		initiator, server bool
	}{
		{"XXpsk3", true, true}, {"XXpsk2", true, false}, {"XXpsk1", false, false},
		{"IKpsk2", true, true}, {"IKpsk1", true, true}, {"IKpsk0", true, false},
		{"IXpsk1", false, true}, {"IXpsk0", false, false},
		{"NNpsk2", false, false}, {"KKpsk0", true, true}, {"XXpsk0+psk3", false, false},
	} {
		for i, may := range []bool{it.server, it.initiator} {
			config, server := configs(t, it.pattern)
			if i == 0 {
				config = server
			}
			config.PSKs, config.PSKFor = nil, func(context.Context, PublicKey) ([]PSK, error) { return nil, nil }
			err := config.Check(i == 1)
			if may {
				must(t, err)
				continue
			}
			wants(t, err, errPSKTooLate)
		}
	}
}

var errUnknown = errors.New("no secret for this key")

// secretsOf returns the secrets of two known parties, by their keys.
func secretsOf(one, two DH) (map[PublicKey]PSK, func(context.Context, PublicKey) ([]PSK, error)) {
	secrets := map[PublicKey]PSK{one.Public(): pskOf(1), two.Public(): pskOf(2)}
	return secrets, func(_ context.Context, key PublicKey) ([]PSK, error) {
		if secret, ok := secrets[key]; ok {
			return []PSK{secret}, nil
		}
		return nil, errUnknown
	}
}

// TestSecretOfEachPeer runs a server that has a secret with each of two clients, with both; with a third; and with one
// that has another's secret.
func TestSecretOfEachPeer(t *testing.T) {
	for _, it := range []struct {
		pattern string
		reader  int // which reads the message that has the secret: 0 the client, 1 the server
		message int
	}{{"XXpsk3", 1, 3}, {"IKpsk2", 0, 2}, {"IKpsk1", 1, 1}} {
		one, two, stranger := pair(t), pair(t), pair(t)
		secrets, choose := secretsOf(one, two)
		run := func(key DH, secret PSK) (errs [2]error) {
			client, server := configs(t, it.pattern)
			client.Static, client.PSKs = key, []PSK{secret}
			server.PeerStatic, server.PSKs, server.PSKFor, server.InsecureAcceptAnyKey = nil, nil, choose, false
			c, s := connected(t, client, server)
			if errs[0], errs[1] = both(c, s); errs[0] == nil && errs[1] == nil {
				exchange(t, c, s)
				exchange(t, s, c)
			}
			return errs
		}
		for _, key := range []DH{one, two} {
			errs := run(key, secrets[key.Public()])
			must(t, errs[0], errs[1])
		}
		errs := run(stranger, pskOf(7))
		wants(t, errs[1], errUnknown)
		if it.pattern == "IKpsk2" {
			wants(t, errs[0], ErrCut) // and no message 2
		}
		errs = run(one, secrets[two.Public()])
		wants(t, errs[it.reader], ErrTag)
		var fault *HandshakeError
		if !errors.As(errs[it.reader], &fault) || fault.Message != it.message || fault.Token != "payload" {
			t.Errorf("%s: %v", it.pattern, errs[it.reader])
		}
	}
}

// TestFaultsOfPSKFor ends handshakes by what PSKFor returns, and by VerifyPeer after it.
func TestFaultsOfPSKFor(t *testing.T) {
	for _, it := range []struct {
		secrets []PSK
		want    error
	}{
		{nil, ErrPSKCount}, {make([]PSK, 2), ErrPSKCount}, {make([]PSK, 1), ErrZeroPSK}, {[]PSK{pskOf(7)}, ErrTag},
		{[]PSK{pskOf(1)}, errUnknown},
	} {
		client, server := configs(t, "XXpsk3")
		isAsked := false
		server.PSKs, server.PSKFor = nil, func(context.Context, PublicKey) ([]PSK, error) {
			isAsked = true
			return it.secrets, nil
		}
		server.VerifyPeer = func(context.Context, Peer) error {
			if !isAsked {
				t.Error("VerifyPeer is called before message 3 is accepted")
			}
			return errUnknown
		}
		c, s := connected(t, client, server)
		_, err := both(c, s)
		wants(t, err, it.want)
		wants(t, s.Handshake(), it.want)
	}
}

// TestSetPSK passes the secrets message by message.
func TestSetPSK(t *testing.T) {
	client, server := configs(t, "IKpsk1+psk2")
	secrets := server.PSKs
	server.PSKs = nil
	wants(t, server.Check(false), ErrPSKCount)
	a, err := NewHandshakeState(client, true)
	must(t, err)
	b, err := NewHandshakeState(server, false)
	must(t, err)
	first, err := a.WriteMessage(nil, []byte("first"))
	must(t, err)
	var wanted *WantedPSKError
	for i := 0; i < 20; i++ {
		_, err = b.ReadMessage(nil, first)
		wants(t, err, ErrWantedPSK)
		if !errors.As(err, &wanted) || *wanted.PeerStatic != client.Static.Public() || b.MessageIndex() != 0 {
			t.Fatal(err)
		}
	}
	must(t, b.SetPSK(secrets[0]))
	payload, err := b.ReadMessage(nil, first)
	must(t, err)
	for i := 0; i < 20; i++ {
		_, err = b.WriteMessage(nil, payload)
		wants(t, err, ErrWantedPSK)
	}
	must(t, b.SetPSK(secrets[1]))
	wants(t, b.SetPSK(secrets[1]), ErrPSKCount)
	second, err := b.WriteMessage(nil, payload)
	must(t, err)
	payload, err = a.ReadMessage(nil, second)
	must(t, err)
	if string(payload) != "first" || a.HandshakeHash() != b.HandshakeHash() {
		t.Error("the handshakes differ")
	}
	c, err := NewHandshakeState(&Config{Pattern: "NNpsk0"}, true)
	must(t, err)
	_, err = c.WriteMessage(nil, nil)
	if !errors.As(err, &wanted) || wanted.PeerStatic != nil {
		t.Error(err)
	}
	must(t, c.Close())
	wants(t, c.SetPSK(secrets[0]), ErrEnded)
}
