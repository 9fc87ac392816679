package noise

import (
	"bytes"
	"context"
	"crypto/sha256"
	"errors"
	"fmt"
	"io"
	"math/rand"
	"net"
	"os"
	"runtime"
	"strings"
	"sync"
	"testing"
	"time"

	"example.org/yulimosar/noise/internal/library"
)

var fifteen = strings.Fields("N K X NN NK NX KN KK KX XN XK XX IN IK IX")

// messages is how many messages a fundamental pattern has.
func messages(base string) int {
	switch {
	case len(base) == 1:
		return 1
	case base[0] == 'X':
		return 3
	}
	return 2
}

func pair(t testing.TB) *KeyPair {
	t.Helper()
	k, err := GenerateKeyPair()
	if err != nil {
		t.Fatal(err)
	}
	return k
}

func key(k DH) *PublicKey { p := k.Public(); return &p }

// pskOf returns 32 times the same byte.
func pskOf(b byte) (psk PSK) {
	for i := range psk {
		psk[i] = b
	}
	return psk
}

// configs returns those of both parties, which know each other's key if the pattern has it.
func configs(t testing.TB, pattern string) (client, server *Config) {
	c, s := pair(t), pair(t)
	client = &Config{Pattern: pattern, Prologue: []byte("test"), Static: c, InsecureAcceptAnyKey: true}
	server = &Config{Pattern: pattern, Prologue: []byte("test"), Static: s, InsecureAcceptAnyKey: true}
	p := patternOf(client.pattern())
	if p.knows(true) || p.learns(true) >= 0 {
		client.PeerStatic = key(s)
	}
	if p.knows(false) || p.learns(false) >= 0 {
		server.PeerStatic = key(c)
	}
	for i := 0; i < p.psks; i++ {
		client.PSKs, server.PSKs = append(client.PSKs, pskOf(byte(i+1))), append(server.PSKs, pskOf(byte(i+1)))
	}
	return client, server
}

// connected are two parties over a connection in memory, with the handshake still to come.
func connected(t testing.TB, client, server *Config) (*Conn, *Conn) {
	t.Helper()
	a, b := tcp(t)
	c, err := Client(a, client)
	if err != nil {
		t.Fatal(err)
	}
	s, err := Server(b, server)
	if err != nil {
		t.Fatal(err)
	}
	t.Cleanup(func() { c.Close(); s.Close() })
	return c, s
}

func tcp(t testing.TB) (net.Conn, net.Conn) {
	t.Helper()
	l, err := net.Listen("tcp", "127.0.0.1:0")
	if err != nil {
		t.Fatal(err)
	}
	defer l.Close()
	a, err := net.Dial("tcp", l.Addr().String())
	if err != nil {
		t.Fatal(err)
	}
	b, err := l.Accept()
	if err != nil {
		t.Fatal(err)
	}
	t.Cleanup(func() { a.Close(); b.Close() })
	return a, b
}

// both passes the handshake at both parties.
func both(c, s *Conn) (error, error) {
	done := make(chan error, 1)
	go func() {
		err := s.Handshake()
		if err != nil {
			s.conn.Close()
		}
		done <- err
	}()
	err := c.Handshake()
	if err != nil {
		c.conn.Close()
	}
	return err, <-done
}

func must(t testing.TB, errs ...error) {
	t.Helper()
	for _, err := range errs {
		if err != nil {
			t.Fatal(err)
		}
	}
}

func wants(t testing.TB, err, want error) {
	t.Helper()
	if !errors.Is(err, want) {
		t.Fatalf("got %v, want %v", err, want)
	}
}

// goes runs a call in a goroutine, and returns where its error comes.
func goes(call func() error) chan error {
	ends := make(chan error, 1)
	go func() { ends <- call() }()
	return ends
}

// readAll is io.ReadAll that returns io.EOF too.
func readAll(c *Conn) (got []byte, err error) {
	room := make([]byte, 150)
	for {
		n, err := c.Read(room)
		if got = append(got, room[:n]...); err != nil {
			return got, err
		}
	}
}

func TestPatterns(t *testing.T) {
	for _, base := range fifteen {
		for place := -1; place <= messages(base); place++ {
			pattern := base
			if place >= 0 {
				pattern = fmt.Sprintf("%spsk%d", base, place)
			}
			t.Run(pattern, func(t *testing.T) {
				client, server := configs(t, pattern)
				c, s := connected(t, client, server)
				errC, errS := both(c, s)
				must(t, errC, errS)
				a, b := c.ConnectionState(), s.ConnectionState()
				if a.HandshakeHash != b.HandshakeHash || a.HandshakeHash == [KeyLen]byte{} || !a.HandshakeComplete {
					t.Fatal("the hashes differ")
				}
				if client.PeerStatic != nil && *a.PeerStatic != server.Static.Public() ||
					a.ProtocolName != "Noise_"+pattern+suite {
					t.Fatal("the state is wrong")
				}
				exchange(t, c, s)
				if len(base) > 1 {
					exchange(t, s, c)
				}
			})
		}
	}
}

// exchange sends 200000 bytes, and compares what comes.
func exchange(t testing.TB, from, to net.Conn) {
	t.Helper()
	sent := make([]byte, 200000)
	rand.New(rand.NewSource(1)).Read(sent)
	failed := make(chan error, 1)
	go func() { _, err := from.Write(sent); failed <- err }()
	got := make([]byte, len(sent))
	if _, err := io.ReadFull(to, got); err != nil {
		t.Fatal(err)
	}
	must(t, <-failed)
	if !bytes.Equal(sent, got) {
		t.Fatal("other bytes came than were sent")
	}
}

func TestFullDuplexWithRekey(t *testing.T) {
	client, server := configs(t, "IK")
	client.Interval, server.Interval = 3, 3
	c, s := connected(t, client, server)
	var group sync.WaitGroup
	for _, ends := range [][2]*Conn{{c, s}, {s, c}} {
		group.Add(2)
		from, to := ends[0], ends[1]
		go func() {
			defer group.Done()
			for i := 0; i < 50; i++ {
				if _, err := from.Write(bytes.Repeat([]byte{byte(i)}, 20000)); err != nil {
					t.Error(err)
				}
			}
			if err := from.CloseWrite(); err != nil {
				t.Error(err)
			}
		}()
		go func() {
			defer group.Done()
			sum := sha256.New()
			n, err := io.Copy(sum, to)
			want := sha256.New()
			for i := 0; i < 50; i++ {
				want.Write(bytes.Repeat([]byte{byte(i)}, 20000))
			}
			if err != nil || n != 1000000 || !bytes.Equal(sum.Sum(nil), want.Sum(nil)) {
				t.Errorf("%d bytes, %v", n, err)
			}
		}()
	}
	group.Wait()
}

func TestConfigFaults(t *testing.T) {
	k, ok := pair(t), func(context.Context, Peer) error { return nil }
	psk := pskOf(1)
	psksFor := func(context.Context, PublicKey) ([]PSK, error) { return []PSK{psk}, nil }
	for _, it := range []struct {
		name   string
		config *Config
		field  string
		want   error
	}{
		{"nil", nil, "", errNil},
		{"no pattern", &Config{Pattern: "ZZ", VerifyPeer: ok}, "Pattern", ErrName},
		{"no text", &Config{Pattern: "NN:\n  -> ee\n", VerifyPeer: ok}, "Pattern", ErrPattern},
		{"no static key", &Config{VerifyPeer: ok}, "Static", ErrStaticMissing},
		{"no peer's key", &Config{Pattern: "NK", VerifyPeer: ok}, "PeerStatic", ErrRemoteMissing},
		{"a peer's key too many", &Config{Pattern: "NN", PeerStatic: key(k)}, "PeerStatic", ErrRemoteUnexpected},
		{"two psks", &Config{Pattern: "NNpsk0", PSKs: []PSK{psk, psk}}, "PSKs", ErrPSKCount},
		{"no psk", &Config{Pattern: "NNpsk0", InsecureAcceptAnyKey: true}, "PSKs", ErrPSKCount},
		{"ten psks", &Config{Pattern: "NNpsk0", PSKs: make([]PSK, 10)}, "PSKs", ErrPSKCount},
		{
			"PSKs and PSKFor",
			&Config{Pattern: "NKpsk2", PeerStatic: key(k), PSKs: []PSK{psk}, PSKFor: psksFor},
			"PSKFor", errTwo,
		},
		{
			"a psk too late",
			&Config{Pattern: "XXpsk1", Static: k, VerifyPeer: ok, PSKFor: psksFor},
			"PSKFor", errPSKTooLate,
		},
		{"anybody", &Config{Static: k}, "VerifyPeer", ErrUnauthenticated},
		{"anybody, without keys", &Config{Pattern: "NN"}, "VerifyPeer", ErrUnauthenticated},
		{"a verifier that isn't asked", &Config{Pattern: "NN", VerifyPeer: ok}, "VerifyPeer", errNoKey},
		{"PSKFor in a pattern without psks", &Config{Static: k, PSKFor: psksFor}, "PSKFor", ErrPSKCount},
		{
			"an ephemeral key beforehand",
			&Config{Pattern: "EARLY:\n  <- e\n  ...\n  -> e, ee\n", InsecureAcceptAnyKey: true},
			"Pattern", errEarly,
		},
		{
			"a long prologue",
			&Config{Static: k, VerifyPeer: ok, Prologue: make([]byte, MaxPrologue+1)},
			"Prologue", ErrLength,
		},
	} {
		a, _ := net.Pipe()
		_, err := Client(a, it.config)
		var fault *ConfigError
		if !errors.As(err, &fault) || fault.Field != it.field || !errors.Is(err, it.want) {
			t.Errorf("%s: %v", it.name, err)
		}
	}
}

func TestPeerIsJudged(t *testing.T) {
	refused := errors.New("not on the list")
	for pattern, message := range map[string]int{"XX": 3, "IX": 1, "IK": 1, "KK": 0} {
		client, server := configs(t, pattern)
		server.VerifyPeer = func(_ context.Context, got Peer) error {
			if got.Static != client.Static.Public() {
				t.Error("VerifyPeer gets another key")
			}
			return refused
		}
		if pattern == "KK" {
			h, err := NewHandshakeState(server, false)
			must(t, err)
			_, err = h.ReadMessage(nil, make([]byte, 48))
			wants(t, err, refused)
			var fault *HandshakeError
			if !errors.As(err, &fault) || fault.Message != 0 || fault.Token != "" {
				t.Error(err)
			}
			continue
		}
		c, s := connected(t, client, server)
		_, err := both(c, s)
		wants(t, err, refused)
		var fault *HandshakeError
		if !errors.As(err, &fault) || fault.Message != message || fault.Token != "s" {
			t.Error(err)
		}
		_, err = s.Read(make([]byte, 1))
		wants(t, err, refused)
	}
	client, server := configs(t, "XX")
	client.PeerStatic = key(pair(t))
	c, s := connected(t, client, server)
	err, _ := both(c, s)
	wants(t, err, ErrPeerKey)
	var fault *HandshakeError
	if !errors.As(err, &fault) || fault.Message != 2 || fault.Token != "s" {
		t.Error(err)
	}
}

func TestPayloads(t *testing.T) {
	client, server := configs(t, "XX")
	client.Payloads, server.Payloads = [][]byte{[]byte("one"), nil, []byte("three")}, [][]byte{nil, []byte("two")}
	c, s := connected(t, client, server)
	errC, errS := both(c, s)
	must(t, errC, errS)
	a, b := c.ConnectionState().Payloads, s.ConnectionState().Payloads
	if a[0] != nil || string(a[1]) != "two" || string(b[0]) != "one" || b[1] != nil || string(b[2]) != "three" {
		t.Error(a, b)
	}
	client.Payloads[0] = make([]byte, MaxMessage)
	c, s = connected(t, client, server)
	err, _ := both(c, s)
	wants(t, err, ErrTooLong)
}

func TestEnds(t *testing.T) {
	fresh := func() (*Conn, *Conn) {
		client, server := configs(t, "XX")
		c, s := connected(t, client, server)
		errC, errS := both(c, s)
		must(t, errC, errS)
		return c, s
	}
	one := make([]byte, 1)
	c, s := fresh()
	must(t, c.CloseWrite(), c.CloseWrite())
	_, err := s.Read(one)
	wants(t, err, io.EOF)
	_, err = c.Write(one)
	wants(t, err, errEnded)
	exchange(t, s, c)
	c, s = fresh()
	must(t, c.Close())
	wants(t, c.Close(), net.ErrClosed)
	_, err = s.Read(one)
	wants(t, err, io.EOF)
	_, err = c.Read(one)
	wants(t, err, net.ErrClosed)
	_, err = c.Write(one)
	wants(t, err, net.ErrClosed)
	c, s = fresh()
	c.conn.Close()
	_, err = s.Read(one)
	wants(t, err, ErrCut)
	c, s = fresh()
	c.conn.Write([]byte{0, 20, 1})
	c.conn.Close()
	_, err = s.Read(one)
	wants(t, err, ErrCut)
	c, s = fresh()
	c.conn.Write([]byte{0, 3, 1, 2, 3})
	_, err = s.Read(one)
	wants(t, err, ErrShort)
	c, s = fresh()
	c.conn.Write(append([]byte{0, 30}, make([]byte, 30)...))
	_, err = s.Read(one)
	wants(t, err, ErrTag)
	_, err = s.Read(one)
	wants(t, err, ErrTag)
	_, s = fresh()
	waiting := make(chan error)
	go func() { _, err := s.Read(one); waiting <- err }()
	time.Sleep(10 * time.Millisecond)
	s.Close()
	if err := <-waiting; err == nil {
		t.Error("read from what was closed")
	}
}

// TestCutInAHandshake ends the connection between the messages of a handshake, within the
// length of one, and within one.
func TestCutInAHandshake(t *testing.T) {
	for _, it := range []struct {
		sent []byte
		want error
	}{{nil, ErrCut}, {[]byte{0}, ErrCut}, {[]byte{0, 32}, ErrCut}, {make([]byte, 33)[:33:33], ErrShort},
		{append([]byte{0, 32}, make([]byte, 31)...), ErrCut}} {
		client, server := configs(t, "XX")
		c, s := connected(t, client, server)
		c.conn.Write(it.sent)
		c.conn.Close()
		for i := 0; i < 2; i++ {
			n, err := s.Read(make([]byte, 1))
			wants(t, err, it.want)
			if n != 0 {
				t.Error("a byte that nobody has sealed")
			}
		}
	}
}

// tape is a connection that keeps what is written.
type tape struct {
	net.Conn
	bytes.Buffer
}

func (t *tape) Write(b []byte) (int, error)      { return t.Buffer.Write(b) }
func (t *tape) Read(b []byte) (int, error)       { return t.Conn.Read(b) }
func (t *tape) SetWriteDeadline(time.Time) error { return nil }

// taped returns what a call writes to the connection below, which doesn't get it.
func taped(t *testing.T, c *Conn, call func() error) []byte {
	t.Helper()
	below, copied := c.conn, new(tape)
	c.conn = copied
	must(t, call())
	c.conn = below
	return copied.Bytes()
}

// TestCutAtEachByte ends the connection after each byte of a frame: that is ErrCut, and what came whole was read.
func TestCutAtEachByte(t *testing.T) {
	for cut := 0; cut <= 23; cut++ {
		client, server := configs(t, "NN")
		c, s := connected(t, client, server)
		errC, errS := both(c, s)
		must(t, errC, errS)
		frame := taped(t, c, func() error { _, err := c.Write([]byte("hello")); return err })
		c.conn.Write(frame[:cut])
		c.conn.Close()
		got, err := io.ReadAll(s)
		wants(t, err, ErrCut)
		if want := map[bool]string{true: "hello"}[cut == len(frame)]; string(got) != want {
			t.Errorf("%q, want %q", got, want)
		}
	}
}

func TestOneWay(t *testing.T) {
	client, server := configs(t, "N")
	c, s := connected(t, client, server)
	errC, errS := both(c, s)
	must(t, errC, errS)
	exchange(t, c, s)
	_, err := s.Write([]byte("x"))
	wants(t, err, ErrOneWay)
	_, err = c.Read(make([]byte, 1))
	wants(t, err, ErrOneWay)
}

func TestDeadlineInAFrame(t *testing.T) {
	client, server := configs(t, "XX")
	c, s := connected(t, client, server)
	errC, errS := both(c, s)
	must(t, errC, errS)
	sealed := taped(t, c, func() error { _, err := c.Write([]byte("hello")); return err })
	for _, part := range [][]byte{sealed[:1], sealed[1:9]} {
		c.conn.Write(part)
		s.SetReadDeadline(time.Now().Add(20 * time.Millisecond))
		_, err := s.Read(make([]byte, 9))
		wants(t, err, os.ErrDeadlineExceeded)
	}
	c.conn.Write(sealed[9:])
	s.SetReadDeadline(time.Time{})
	got := make([]byte, 9)
	n, err := s.Read(got)
	must(t, err)
	if string(got[:n]) != "hello" {
		t.Errorf("%q", got[:n])
	}
}

func TestHandshakeEndsWithContext(t *testing.T) {
	client, server := configs(t, "XX")
	c, _ := connected(t, client, server)
	ctx, cancel := context.WithTimeout(context.Background(), 20*time.Millisecond)
	defer cancel()
	wants(t, c.HandshakeContext(ctx), context.DeadlineExceeded)
	wants(t, c.Handshake(), context.DeadlineExceeded)
}

func TestListenAndDial(t *testing.T) {
	client, server := configs(t, "IK")
	l, err := Listen("tcp", "127.0.0.1:0", server)
	must(t, err)
	defer l.Close()
	go func() {
		conn, err := l.Accept()
		if err == nil {
			io.Copy(conn, conn)
			conn.Close()
		}
	}()
	conn, err := (&Dialer{Config: client}).Dial("tcp", l.Addr().String())
	must(t, err)
	must(t, err, echo(conn))
}

func echo(conn net.Conn) error {
	if _, err := conn.Write([]byte("hello")); err != nil {
		return err
	}
	if err := conn.(*Conn).CloseWrite(); err != nil {
		return err
	}
	got, err := io.ReadAll(conn)
	if string(got) != "hello" {
		return fmt.Errorf("%q, %v", got, err)
	}
	return err
}

type zeros struct{ *KeyPair }

func (zeros) Agree(context.Context, PublicKey) (answer Secret, err error) { return answer, nil }

func TestZerosAreRefused(t *testing.T) {
	client, server := configs(t, "XX")
	_, err := client.Static.Agree(context.Background(), PublicKey{})
	wants(t, err, ErrLowOrder)
	server.Static = zeros{server.Static.(*KeyPair)}
	c, s := connected(t, client, server)
	_, err = both(c, s)
	wants(t, err, ErrLowOrder)
	h, err := NewHandshakeState(client, false)
	must(t, err)
	_, err = h.ReadMessage(nil, make([]byte, 32))
	must(t, err)
	_, err = h.WriteMessage(nil, nil)
	wants(t, err, ErrLowOrder)
	_, err = h.WriteMessage(nil, nil)
	wants(t, err, ErrEnded)
}

// TestNoAllocation counts what a message takes of the heap, once the buffers have grown.
func TestNoAllocation(t *testing.T) {
	if isRace && library.InGo {
		t.Skip("the calls in Go take their memory from a sync.Pool, which drops some of it under the race detector")
	}
	a, b := finished(t, "XX")
	s, _, err := a.Split()
	must(t, err)
	_, r, err := b.Split()
	must(t, err)
	a, b = finished(t, "XX")
	x, _, err := a.Datagrams(64)
	must(t, err)
	_, y, err := b.Datagrams(64)
	must(t, err)
	a, b = finished(t, "XX")
	e, _, err := a.CipherStates()
	must(t, err)
	_, f, err := b.CipherStates()
	must(t, err)
	client, server := configs(t, "XX")
	c, d := connected(t, client, server)
	errC, errD := both(c, d)
	must(t, errC, errD)
	payload, room := make([]byte, 1000), make([]byte, 0, 2000)
	for name, pass := range map[string]func() error{
		"transport": func() error {
			message, err := s.Seal(room, payload)
			if err == nil {
				_, err = r.Open(message[:0], message)
			}
			return err
		},
		"datagrams": func() error {
			datagram, err := x.Seal(room, payload)
			if err == nil {
				_, err = y.Open(datagram[:0], datagram)
			}
			return err
		},
		"cipher states": func() error {
			packet := append(room, payload[:16]...)
			packet, err := e.Encrypt(packet, packet[:16], payload[:900])
			if err == nil {
				err = f.SetNonce(f.Nonce())
			}
			if err == nil {
				_, err = f.Decrypt(packet[16:16], packet[:16], packet[16:])
			}
			return err
		},
		"connection": func() error {
			_, err := c.Write(payload)
			if err == nil {
				_, err = io.ReadFull(d, payload)
			}
			return err
		},
	} {
		if name == "connection" && (isRace || runtime.GOOS == "js") {
			continue // its memory is from such a pool too; and on js/wasm Go's own connections allocate
		}
		if n := testing.AllocsPerRun(100, func() { must(t, pass()) }); n != 0 {
			t.Errorf("%s: %v allocations at a message", name, n)
		}
	}
}

func FuzzServer(f *testing.F) {
	f.Add([]byte("\x00\x20aaaaaaaaaaaaaaaaaaaaaaaaaaaaaaaa"), uint8(0))
	f.Add([]byte{0, 0}, uint8(7))
	f.Fuzz(func(t *testing.T, wire []byte, which uint8) {
		client, server := configs(t, fifteen[int(which)%len(fifteen)])
		for _, make := range []func(net.Conn, *Config) (*Conn, error){Client, Server} {
			config := server
			if which%2 == 0 {
				config = client
			}
			c, err := make(&script{Reader: bytes.NewReader(wire)}, config)
			if err != nil {
				continue
			}
			if n, err := c.Read([]byte{0}); n != 0 || err == nil {
				t.Fatal("a byte nobody has sealed")
			}
			c.Close()
		}
	})
}

func FuzzOpen(f *testing.F) {
	f.Add([]byte("hello"), uint16(3))
	f.Fuzz(func(t *testing.T, payload []byte, flip uint16) {
		if len(payload) > MaxMessage-TagLen {
			return
		}
		a, b := finished(t, "NN")
		s, _, _ := a.Split()
		_, r, _ := b.Split()
		message, err := s.Seal(nil, payload)
		must(t, err)
		changed := append([]byte(nil), message...)
		changed[int(flip)%len(changed)] ^= 1
		_, err = r.Open(nil, changed)
		wants(t, err, ErrTag)
		got, err := r.Open(nil, message)
		must(t, err)
		if !bytes.Equal(got, payload) {
			t.Fatal("another payload")
		}
	})
}

// script is a connection that has these bytes to read.
type script struct {
	io.Reader
	net.Conn
}

func (s *script) Read(b []byte) (int, error)         { return s.Reader.Read(b) }
func (s *script) Write(b []byte) (int, error)        { return len(b), nil }
func (s *script) Close() error                       { return nil }
func (s *script) SetWriteDeadline(_ time.Time) error { return nil }
