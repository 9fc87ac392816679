package noise

import (
	"context"
	"errors"
	"testing"
)

var errDevice = errors.New("the device is away")

// away is a key in a device that has been taken away.
type away struct{ DH }

func (away) Agree(context.Context, PublicKey) (result Secret, err error) { return result, errDevice }

// TestErrorsNameMessageAndToken ends handshakes at each kind of token, and looks at the message, from 1
// on, the token and the text.
func TestErrorsNameMessageAndToken(t *testing.T) {
	differ := "a tag is wrong: the message was changed, or the parties differ in the pattern"
	for _, it := range []struct {
		pattern string
		message int // the one that is refused, or can't be written
		change  func(client, server *Config, message *[]byte)
		token   string
		text    string
	}{
		{"NN", 1, short(31), "e", "noise: message 1, token e: the message is too short"},
		{"XX", 2, short(40), "s", "noise: message 2, token s: the message is too short"},
		{"XX", 2, short(81), "payload", "noise: message 2, payload: the message is too short"},
		{"XX", 2, flip(40), "s", "noise: message 2, token s: " + differ + " or the prologue"},
		{"XX", 2, flip(90), "payload", "noise: message 2, payload: " + differ + " or the prologue"},
		{"IK", 1, func(client, _ *Config, _ *[]byte) { client.PeerStatic = key(pair(t)) }, "s",
			"noise: message 1, token s: " + differ + ", the prologue or a static key known beforehand"},
		{"NNpsk0", 1, func(client, _ *Config, _ *[]byte) { client.PSKs = []PSK{pskOf(9)} }, "payload",
			"noise: message 1, payload: " + differ + ", the prologue or a psk"},
		{"NKpsk2", 2, func(client, _ *Config, _ *[]byte) { client.PSKs = []PSK{pskOf(9)} }, "payload",
			"noise: message 2, payload: " + differ + ", the prologue, a psk or a static key known beforehand"},
		{"XXpsk3", 2, flip(90), "payload", "noise: message 2, payload: " + differ + " or the prologue"},
		{"IK", 1, func(_, _ *Config, message *[]byte) { copy(*message, make([]byte, 32)) }, "es",
			"noise: message 1, token es: X25519 of the other party's public key is zeros"},
		{"X", 1, takenFromClient, "ss", "noise: message 1, token ss: the device is away"},
		{"X", 1, takenFromServer, "es", "noise: message 1, token es: the device is away"},
		{"XX", 2, takenFromServer, "es", "noise: message 2, token es: the device is away"},
		{"XX", 3, takenFromClient, "se", "noise: message 3, token se: the device is away"},
		{"KX", 2, takenFromClient, "se", "noise: message 2, token se: the device is away"},
		{"IX", 2, takenFromServer, "es", "noise: message 2, token es: the device is away"},
		{"XXpsk3", 3, func(_, server *Config, _ *[]byte) {
			server.PSKs, server.PSKFor = nil, func(context.Context, PublicKey) ([]PSK, error) { return nil, errUnknown }
		}, "psk", "noise: message 3, token psk: no secret for this key"},
		{"XX", 2, func(client, _ *Config, _ *[]byte) { client.PeerStatic = key(pair(t)) }, "s",
			"noise: message 2, token s: the other party has another static key than the one expected"},
		{"XX", 3, func(_, server *Config, _ *[]byte) {
			server.VerifyPeer = func(context.Context, Peer) error { return errUnknown }
		}, "s", "noise: message 3, token s: no secret for this key"},
		{"KK", 0, func(_, server *Config, _ *[]byte) {
			server.VerifyPeer = func(context.Context, Peer) error { return errUnknown }
		}, "", "noise: before message 1: no secret for this key"},
	} {
		err := refusal(t, it.pattern, it.message, it.change)
		var fault *HandshakeError
		if !errors.As(err, &fault) || fault.Message != it.message || fault.Token != it.token || err.Error() != it.text {
			t.Errorf("%s: %v\nwant %s", it.pattern, err, it.text)
		}
	}
}

// short and flip change the message that is refused.
func short(length int) func(client, server *Config, message *[]byte) {
	return func(_, _ *Config, message *[]byte) {
		if *message != nil {
			*message = (*message)[:length]
		}
	}
}

func flip(at int) func(client, server *Config, message *[]byte) {
	return func(_, _ *Config, message *[]byte) {
		if *message != nil {
			(*message)[at] ^= 4
		}
	}
}

func takenFromClient(client, _ *Config, _ *[]byte) { client.Static = away{client.Static} }
func takenFromServer(_, server *Config, _ *[]byte) { server.Static = away{server.Static} }

// refusal runs a handshake until a message is refused or can't be written. A change is made to the Configs, with no
// message, and to the message at hand.
func refusal(t *testing.T, pattern string, message int, change func(client, server *Config, message *[]byte)) error {
	t.Helper()
	client, server := configs(t, pattern)
	var none []byte
	change(client, server, &none)
	a, err := NewHandshakeState(client, true)
	must(t, err)
	b, err := NewHandshakeState(server, false)
	must(t, err)
	for i := 1; ; i++ {
		text, err := a.WriteMessage(nil, nil)
		if err != nil {
			return err
		}
		if i == message {
			change(new(Config), new(Config), &text)
		}
		if _, err := b.ReadMessage(nil, text); err != nil {
			return err
		}
		a, b = b, a
	}
}
