package noise

import (
	"bytes"
	"context"
	"encoding/gob"
	"encoding/json"
	"encoding/xml"
	"errors"
	"fmt"
	"io"
	"net"
	"strings"
	"testing"
	"time"
)

// TestSecretsAreNotMarshalled has secrets alone, and in what has them.
func TestSecretsAreNotMarshalled(t *testing.T) {
	own := pair(t)
	secret, psk := own.Secret(), pskOf(0xa7)
	for _, it := range []any{
		secret, &secret, psk, &psk, []PSK{psk}, map[string]Secret{"key": secret}, map[PSK]int{psk: 1},
		struct{ Key *Secret }{&secret}, struct{ PSKs []PSK }{[]PSK{psk}}, own, struct{ Static DH }{own},
	} {
		for name, marshal := range map[string]func(any) ([]byte, error){
			"json": json.Marshal,
			"xml":  xml.Marshal,
			"gob": func(it any) ([]byte, error) {
				var to bytes.Buffer
				err := gob.NewEncoder(&to).Encode(it)
				return to.Bytes(), err
			},
		} {
			made, err := marshal(it)
			if err == nil || bytes.Contains(made, []byte("167,167")) || bytes.Contains(made, psk[:]) ||
				bytes.Contains(made, secret[:]) {
				t.Errorf("%s of %T: %q, %v", name, it, made, err)
			}
		}
	}
}

// TestZeroKeys are in Configs: an unset key is refused before a byte is sent.
func TestZeroKeys(t *testing.T) {
	var none *KeyPair
	for name, it := range map[string]struct {
		change func(c *Config)
		field  string
		want   error
	}{
		"PeerStatic":  {func(c *Config) { c.PeerStatic = new(PublicKey) }, "PeerStatic", errZeroKey},
		"a KeyPair":   {func(c *Config) { c.Static = new(KeyPair) }, "Static", errZeroKey},
		"a typed nil": {func(c *Config) { c.Static = none }, "Static", errNilKey},
		"a psk":       {func(c *Config) { c.PSKs = []PSK{{}} }, "PSKs", ErrZeroPSK},
		"a second psk": {func(c *Config) {
			c.Pattern, c.PSKs = "KKpsk0+psk2", []PSK{pskOf(1), {}}
		}, "PSKs", ErrZeroPSK},
		"a psk for anybody": {func(c *Config) {
			c.Pattern, c.PSKs, c.AllowZeroPSK = "NNpsk0", []PSK{{}}, true
			c.Static, c.PeerStatic, c.InsecureAcceptAnyKey = nil, nil, false
		}, "VerifyPeer", ErrUnauthenticated},
	} {
		config, _ := configs(t, "KKpsk0")
		it.change(config)
		for _, initiator := range []bool{true, false} {
			err := config.Check(initiator)
			var fault *ConfigError
			if !errors.As(err, &fault) || fault.Field != it.field || !errors.Is(err, it.want) {
				t.Errorf("%s: %v", name, err)
			}
			if _, err = NewHandshakeState(config, initiator); !errors.Is(err, it.want) {
				t.Errorf("%s: %v", name, err)
			}
		}
	}
}

// TestZeroPSK has psks of zeros, as WireGuard's without a psk: by the setting, and without it from PSKFor and SetPSK.
func TestZeroPSK(t *testing.T) {
	client, server := configs(t, "IKpsk2")
	client.PSKs, server.PSKs = []PSK{{}}, nil
	server.PSKFor = func(context.Context, PublicKey) ([]PSK, error) { return []PSK{{}}, nil }
	client.AllowZeroPSK = true
	c, s := connected(t, client, server)
	_, err := both(c, s)
	wants(t, err, ErrZeroPSK)
	server.AllowZeroPSK = true
	c, s = connected(t, client, server)
	errC, errS := both(c, s)
	must(t, errC, errS)
	exchange(t, c, s)
	server.PSKFor, server.AllowZeroPSK = nil, false
	h, err := NewHandshakeState(server, false)
	must(t, err)
	wants(t, h.SetPSK(PSK{}), ErrZeroPSK)
	must(t, h.SetPSK(pskOf(1)))
	server.AllowZeroPSK = true
	h, err = NewHandshakeState(server, false)
	must(t, err, h.SetPSK(PSK{}))
}

// TestZeroConn makes every call of a Conn that nobody has made.
func TestZeroConn(t *testing.T) {
	c := new(Conn)
	for name, call := range map[string]func() error{
		"Read":             func() error { _, err := c.Read(make([]byte, 1)); return err },
		"Write":            func() error { _, err := c.Write([]byte("x")); return err },
		"Handshake":        c.Handshake,
		"CloseWrite":       c.CloseWrite,
		"SetDeadline":      func() error { return c.SetDeadline(time.Now()) },
		"SetReadDeadline":  func() error { return c.SetReadDeadline(time.Now()) },
		"SetWriteDeadline": func() error { return c.SetWriteDeadline(time.Now()) },
		"Close":            c.Close,
		"Abort":            new(Conn).Abort,
	} {
		if err := soon(t, name, call); !errors.Is(err, errZeroConn) {
			t.Errorf("%s: %v", name, err)
		}
	}
	if c.LocalAddr() != nil || c.RemoteAddr() != nil || c.NetConn() != nil || c.ConnectionState().HandshakeComplete {
		t.Error("a Conn that nobody has made has something")
	}
}

// TestZeroPackets makes every call of a session and of a listener over datagrams that nobody has made.
func TestZeroPackets(t *testing.T) {
	s, l := new(PacketSession), new(PacketListener)
	for name, it := range map[string]struct {
		call func() error
		want error
	}{
		"Read":             {func() error { _, err := s.Read(make([]byte, 1)); return err }, errZeroSession},
		"Write":            {func() error { _, err := s.Write([]byte("x")); return err }, errZeroSession},
		"SetDeadline":      {func() error { return s.SetDeadline(time.Now()) }, errZeroSession},
		"SetReadDeadline":  {func() error { return s.SetReadDeadline(time.Now()) }, errZeroSession},
		"SetWriteDeadline": {func() error { return s.SetWriteDeadline(time.Now()) }, errZeroSession},
		"Close":            {s.Close, errZeroSession},
		"Accept":           {func() error { _, err := l.Accept(); return err }, errZeroListener},
		"AcceptSession":    {func() error { _, err := l.AcceptSession(); return err }, errZeroListener},
		"Listener.Close":   {l.Close, errZeroListener},
	} {
		if err := soon(t, name, it.call); err != it.want {
			t.Errorf("%s: %v", name, err)
		}
	}
	if s.LocalAddr() != nil || s.RemoteAddr() != nil || s.ConnectionState().HandshakeComplete || l.Addr() != nil {
		t.Error("what nobody has made has something")
	}
}

// TestZeroHandshakeState makes every call of a handshake that nobody has made.
func TestZeroHandshakeState(t *testing.T) {
	h, ctx := new(HandshakeState), context.Background()
	for name, call := range map[string]func() error{
		"WriteMessage":   func() error { _, err := h.WriteMessage(nil, nil); return err },
		"ReadMessage":    func() error { _, err := h.ReadMessage(nil, nil); return err },
		"TryReadMessage": func() error { _, err := h.TryReadMessage(ctx, nil, nil); return err },
		"SetPSK":         func() error { return h.SetPSK(pskOf(1)) },
		"UnsetPSK":       func() error { return h.UnsetPSK() },
		"Split":          func() error { _, _, err := h.Split(); return err },
		"Datagrams":      func() error { _, _, err := h.Datagrams(64); return err },
		"CipherStates":   func() error { _, _, err := h.CipherStates(); return err },
	} {
		if err := call(); !errors.Is(err, ErrEnded) || !strings.Contains(err.Error(), "NewHandshakeState") {
			t.Errorf("%s: %v", name, err)
		}
	}
	_, isKnown := h.PeerStatic()
	if h.Done() || h.WritesNext() || h.MessageIndex() != 0 || isKnown || h.HandshakeHash() != [KeyLen]byte{} {
		t.Error("a handshake that nobody has made has something")
	}
	must(t, h.Close())
}

// TestZeroTransport makes the calls of what no handshake has made.
func TestZeroTransport(t *testing.T) {
	message := make([]byte, 100)
	for name, call := range map[string]func() error{
		"Sender":           func() error { _, err := new(Sender).Seal(nil, message); return err },
		"Receiver":         func() error { _, err := new(Receiver).Open(nil, message); return err },
		"DatagramSender":   func() error { _, err := new(DatagramSender).Seal(nil, message); return err },
		"DatagramReceiver": func() error { _, err := new(DatagramReceiver).Open(nil, message); return err },
		"CipherState":      func() error { _, err := new(CipherState).Encrypt(nil, nil, message); return err },
		"EncryptNext": func() error {
			_, err := new(CipherState).EncryptNext(nil, message, func(uint64) []byte { return nil })
			return err
		},
		"KeyPair": func() error { _, err := new(KeyPair).Agree(context.Background(), PublicKey{9}); return err },
	} {
		if err := call(); err == nil {
			t.Errorf("%s: no error", name)
		}
	}
	if new(KeyPair).Secret() != (Secret{}) || new(Sender).Nonce()+new(Receiver).Nonce()+new(CipherState).Nonce() != 0 {
		t.Error("what nobody has made has something")
	}
	new(KeyPair).Wipe()
}

// TestClosedIsClosed asks of each closed thing whether it is net.ErrClosed.
func TestClosedIsClosed(t *testing.T) {
	a, b := finished(t, "NN")
	s, r, err := a.Split()
	must(t, err)
	e, d, err := b.CipherStates()
	must(t, err, s.Close(), r.Close(), e.Close(), d.Close())
	a, _ = finished(t, "NN")
	ds, dr, err := a.Datagrams(64)
	must(t, err, ds.Close(), dr.Close())
	key := pair(t)
	key.Wipe()
	h, err := NewHandshakeState(&Config{Pattern: "NN", InsecureAcceptAnyKey: true}, true)
	must(t, err, h.Close())
	client, server := configs(t, "NN")
	c, _ := connected(t, client, server)
	must(t, c.Close())
	for name, call := range map[string]func() error{
		"Sender":           func() error { _, err := s.Seal(nil, nil); return err },
		"Receiver":         func() error { _, err := r.Open(nil, nil); return err },
		"DatagramSender":   func() error { _, err := ds.Seal(nil, nil); return err },
		"DatagramReceiver": func() error { _, err := dr.Open(nil, nil); return err },
		"CipherState":      func() error { _, err := e.Encrypt(nil, nil, nil); return err },
		"Decrypt":          func() error { _, err := d.Decrypt(nil, nil, nil); return err },
		"KeyPair":          func() error { _, err := key.Agree(context.Background(), PublicKey{9}); return err },
		"HandshakeState":   func() error { _, err := h.WriteMessage(nil, nil); return err },
		"Conn":             func() error { _, err := c.Read(nil); return err },
	} {
		err := call()
		wants(t, err, net.ErrClosed)
		wants(t, err, ErrClosed)
		if name != "Conn" && strings.Contains(err.Error(), "network") {
			t.Errorf("%s: %v", name, err)
		}
	}
}

// TestErrorOfTheContext ends contexts while functions of a Config run: HandshakeContext returns the context's own
// error, whatever a function makes of it.
func TestErrorOfTheContext(t *testing.T) {
	for i := 0; i < 100; i++ {
		client, server := configs(t, "XX")
		ctx, cancel := context.WithCancel(context.Background())
		if i%2 == 1 {
			ctx, cancel = context.WithTimeout(context.Background(), time.Millisecond)
		}
		far := func(inner context.Context) error {
			if i%2 == 0 {
				cancel()
			}
			<-inner.Done()
			return fmt.Errorf("database: %w", inner.Err())
		}
		server.VerifyPeer = func(inner context.Context, _ Peer) error { return far(inner) }
		c, s := connected(t, client, server)
		if i%4 >= 2 { // it hasn't waited for anything before
			client.PayloadFor = func(inner context.Context, _ Peer) ([]byte, error) { return nil, far(inner) }
			c, s = s, c
		}
		go c.Handshake()
		if err := s.HandshakeContext(ctx); err != ctx.Err() {
			t.Fatalf("%d: %v", i, err)
		}
		if i%2 == 0 {
			if err := s.Handshake(); err != ctx.Err() {
				t.Fatalf("%d: %v", i, err)
			}
		}
		cancel()
		c.Abort()
	}
}

// TestErrorOfTheLimit lets the time limit end the context of such a function.
func TestErrorOfTheLimit(t *testing.T) {
	for i := 0; i < 50; i++ {
		client, server := configs(t, "XX")
		server.HandshakeTimeout = 5 * time.Millisecond
		server.VerifyPeer = func(inner context.Context, _ Peer) error { <-inner.Done(); return inner.Err() }
		c, s := connected(t, client, server)
		go c.Handshake()
		if err := s.Handshake(); err != ErrHandshakeTimeout {
			t.Fatalf("%d: %v", i, err)
		}
		c.Abort()
	}
}

// failed is a key in a device that answers zeros.
type failed struct{ DH }

func (failed) Agree(context.Context, PublicKey) (Secret, error) { return Secret{}, nil }

// TestTextsOfErrors has those that a user may meet first.
func TestTextsOfErrors(t *testing.T) {
	client, server := configs(t, "NN")
	c, s := connected(t, client, server)
	_, err := io.WriteString(c.conn, "GET / HTTP/1.0\r\n\r\n")
	must(t, err)
	err = s.Handshake()
	wants(t, err, ErrTooLong)
	if want := "noise: message 1: it has 18245 bytes, and Config allows 4128: " +
		"perhaps the other party speaks another protocol"; err.Error() != want {
		t.Errorf("%v\nwant %s", err, want)
	}
	a, _ := finished(t, "NN")
	sender, _, err := a.Split()
	must(t, err)
	_, err = sender.Seal(nil, make([]byte, 65520))
	if err.Error() != "noise: more bytes than a message may have" {
		t.Error(err)
	}
	err = refusal(t, "XX", 2, func(client, server *Config, message *[]byte) {
		if *message == nil {
			server.Static = failed{server.Static}
		}
	})
	wants(t, err, ErrLowOrder)
	if want := "noise: message 2, token es: Agree has returned zeros: it has failed, " +
		"or the other party's public key is of low order"; err.Error() != want {
		t.Errorf("%v\nwant %s", err, want)
	}
}
