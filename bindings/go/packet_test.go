package noise

import (
	"bytes"
	"context"
	"errors"
	"fmt"
	"io"
	"log"
	"math/rand"
	"net"
	"os"
	"strings"
	"sync"
	"testing"
	"time"
)

// packetConfigs returns a Config for each party.
func packetConfigs(t *testing.T, pattern string) (initiator, responder *Config) {
	t.Helper()
	var keys [2]*KeyPair
	for i := range keys {
		key, err := GenerateKeyPair()
		if err != nil {
			t.Fatal(err)
		}
		keys[i] = key
	}
	made := [2]*Config{}
	for i := range made {
		made[i] = &Config{Pattern: pattern, Prologue: []byte("test"), InsecureAcceptAnyKey: true}
		if pattern[i] != 'N' {
			made[i].Static = keys[i]
		}
		if pattern[1-i] != 'N' {
			key := keys[1-i].Public()
			made[i].PeerStatic = &key
		}
		if strings.Contains(pattern, "psk") {
			made[i].PSKs = []PSK{{1, 2, 3}}
		}
	}
	return made[0], made[1]
}

// badConn is a socket that loses, repeats, delays and alters what it sends, with junk and old datagrams between.
type badConn struct {
	net.PacketConn
	mutex sync.Mutex
	dice  *rand.Rand
	kept  [][]byte
}

func badSocket(t *testing.T, seed int64) *badConn {
	t.Helper()
	conn, err := net.ListenPacket("udp", "127.0.0.1:0")
	if err != nil {
		t.Fatal(err)
	}
	t.Cleanup(func() { conn.Close() })
	return &badConn{PacketConn: conn, dice: rand.New(rand.NewSource(seed))}
}

func (b *badConn) WriteTo(datagram []byte, to net.Addr) (int, error) {
	b.mutex.Lock()
	defer b.mutex.Unlock()
	datagram = append([]byte(nil), datagram...)
	b.kept = append(b.kept, datagram)
	send := func(it []byte) {
		time.AfterFunc(time.Duration(b.dice.Intn(4000))*time.Microsecond, func() { b.PacketConn.WriteTo(it, to) })
	}
	for count := b.dice.Intn(3); count > 0; count-- { // not at all, once, twice
		send(datagram)
	}
	altered := append([]byte(nil), datagram...)
	altered[b.dice.Intn(len(altered))] ^= 1 << b.dice.Intn(8)
	junk := make([]byte, b.dice.Intn(200))
	b.dice.Read(junk)
	if len(junk) > 0 {
		junk[0] %= 12
	}
	old, cut := b.kept[b.dice.Intn(len(b.kept))], datagram[:b.dice.Intn(len(datagram))]
	for _, it := range [][]byte{altered, junk, old, cut} {
		send(it)
	}
	return len(datagram), nil
}

// echoPackets accepts sessions, and sends back what comes; its result is how many were accepted.
func echoPackets(l *PacketListener) (accepted func() int) {
	var mutex sync.Mutex
	count := 0
	go func() {
		for {
			s, err := l.AcceptSession()
			if err != nil {
				return
			}
			mutex.Lock()
			count++
			mutex.Unlock()
			go func() {
				for room := make([]byte, 65536); ; {
					n, err := s.Read(room)
					if err != nil {
						return
					}
					s.Write(room[:n])
				}
			}()
		}
	}()
	return func() int {
		mutex.Lock()
		defer mutex.Unlock()
		return count
	}
}

// getBack sends a text until it comes back.
func getBack(s net.Conn, text string) error {
	room := make([]byte, 65536)
	for until := time.Now().Add(30 * time.Second); time.Now().Before(until); {
		if _, err := s.Write([]byte(text)); err != nil {
			return err
		}
		for s.SetReadDeadline(time.Now().Add(100 * time.Millisecond)); ; {
			n, err := s.Read(room)
			if errors.Is(err, os.ErrDeadlineExceeded) {
				break
			} else if err != nil {
				return err
			}
			if string(room[:n]) == text {
				return nil
			}
		}
	}
	return errors.New("nothing comes back")
}

// TestPacketBadNetwork has clients over such sockets, at no load and with a cookie for each.
func TestPacketBadNetwork(t *testing.T) {
	for i, pattern := range []string{"XX", "IK", "NNpsk0"} {
		for busy := -1; busy <= 0; busy++ {
			initiator, responder := packetConfigs(t, pattern)
			initiator.HandshakeTimeout = time.Minute
			l, err := PacketConfig{Config: responder, CookiesFrom: busy}.Listener(badSocket(t, int64(i)))
			if err != nil {
				t.Fatal(err)
			}
			echoPackets(l)
			var group sync.WaitGroup
			for n := 0; n < 4; n++ {
				group.Add(1)
				go func(n int, conn net.PacketConn) {
					defer group.Done()
					s, err := PacketConfig{Config: initiator}.Client(context.Background(), conn, l.Addr())
					if err != nil {
						t.Errorf("%s: client %d: %v", pattern, n, err)
						return
					}
					for text := 0; text < 5; text++ {
						if err := getBack(s, fmt.Sprintf("text %d of %d", text, n)); err != nil {
							t.Errorf("%s: client %d: %v", pattern, n, err)
						}
					}
					s.Close()
				}(n, badSocket(t, int64(10+n)))
			}
			group.Wait()
			l.Close()
		}
	}
}

// TestPacketSession tries each call of a session, and what both parties agree on.
func TestPacketSession(t *testing.T) {
	initiator, responder := packetConfigs(t, "XX")
	responder.Payloads = [][]byte{nil, []byte("certificate")}
	l, err := ListenPacket("udp", "127.0.0.1:0", responder)
	if err != nil {
		t.Fatal(err)
	}
	defer l.Close()
	client, err := DialPacket("udp", l.Addr().String(), initiator)
	if err != nil {
		t.Fatal(err)
	}
	accepted, err := l.Accept()
	if err != nil {
		t.Fatal(err)
	}
	server := accepted.(*PacketSession)
	ours, theirs := client.ConnectionState(), server.ConnectionState()
	if ours.HandshakeHash != theirs.HandshakeHash || *ours.PeerStatic != responder.Static.Public() ||
		*theirs.PeerStatic != initiator.Static.Public() || string(ours.Payloads[1]) != "certificate" {
		t.Errorf("%+v and %+v", ours, theirs)
	}
	for _, size := range []int{1, 1199, maxPacketPayload} {
		sent := bytes.Repeat([]byte{7}, size)
		if n, err := client.Write(sent); n != size || err != nil {
			t.Fatal(n, err)
		}
		room := make([]byte, 65536)
		server.SetReadDeadline(time.Now().Add(20 * time.Second))
		if n, err := server.Read(room); err != nil || !bytes.Equal(room[:n], sent) {
			t.Errorf("%d bytes: %d, %v", size, n, err)
		}
	}
	if _, err := client.Write(nil); err != ErrEmptyPayload {
		t.Error(err)
	}
	if _, err := client.Write(make([]byte, maxPacketPayload+1)); err != ErrTooLong {
		t.Error(err)
	}
	if server.RemoteAddr().(*net.UDPAddr).Port != client.LocalAddr().(*net.UDPAddr).Port {
		t.Errorf("%v is not %v", server.RemoteAddr(), client.LocalAddr())
	}
	tryDeadlines(t, client)
	tryEnds(t, l, client, server)
}

func tryDeadlines(t *testing.T, s *PacketSession) {
	t.Helper()
	for i := 0; i < 3; i++ {
		s.SetDeadline(time.Now().Add(time.Duration(i-1) * time.Millisecond))
		if _, err := s.Read(make([]byte, 9)); !errors.Is(err, os.ErrDeadlineExceeded) {
			t.Error(err)
		}
	}
	s.SetDeadline(time.Now().Add(-time.Second))
	if _, err := s.Write([]byte("late")); !errors.Is(err, os.ErrDeadlineExceeded) {
		t.Error(err)
	}
	s.SetDeadline(time.Time{})
	waits := make(chan error)
	go func() {
		_, err := s.Read(make([]byte, 9))
		waits <- err
	}()
	time.Sleep(10 * time.Millisecond)
	s.SetReadDeadline(time.Now())
	if err := <-waits; !errors.Is(err, os.ErrDeadlineExceeded) {
		t.Error("a Read that waits:", err)
	}
	s.SetDeadline(time.Time{})
}

// tryEnds closes: a Read that waits returns, and no end is an io.EOF.
func tryEnds(t *testing.T, l *PacketListener, client, server *PacketSession) {
	t.Helper()
	waits := make(chan error)
	go func() {
		_, err := client.Read(make([]byte, 9))
		waits <- err
	}()
	time.Sleep(10 * time.Millisecond)
	client.Close()
	if err := <-waits; err != net.ErrClosed {
		t.Error("a Read that waits:", err)
	}
	if _, err := client.Write([]byte("late")); err != net.ErrClosed {
		t.Error(err)
	}
	l.Close()
	if _, err := server.Read(make([]byte, 9)); err == nil || errors.Is(err, io.EOF) {
		t.Error(err)
	}
	if _, err := l.Accept(); !errors.Is(err, net.ErrClosed) {
		t.Error(err)
	}
	if err := l.Close(); err == nil {
		t.Error("a second Close has no error")
	}
}

// TestPacketLimits has sessions that are silent, too many, and replaced.
func TestPacketLimits(t *testing.T) {
	t.Parallel()
	initiator, responder := packetConfigs(t, "XX")
	l, err := PacketConfig{Config: responder, MaxSessions: 2, Idle: 12 * time.Second}.Listen("udp", "127.0.0.1:0")
	if err != nil {
		t.Fatal(err)
	}
	defer l.Close()
	var sessions []*PacketSession
	for i := 0; i < 3; i++ {
		client, err := DialPacket("udp", l.Addr().String(), initiator)
		if err != nil {
			t.Fatal(err)
		}
		defer client.Close()
		s, err := l.AcceptSession()
		if err != nil {
			t.Fatal(err)
		}
		sessions = append(sessions, s)
	}
	for i, words := range []string{"it gave way", "nothing has come", "nothing has come"} {
		_, err := sessions[i].Read(make([]byte, 9))
		if !errors.Is(err, ErrLost) || !strings.Contains(err.Error(), words) || errors.Is(err, io.EOF) {
			t.Errorf("session %d: %v", i, err)
		}
	}
	l.mutex.Lock()
	defer l.mutex.Unlock()
	if len(l.sessions)+len(l.firsts)+len(l.begun)+len(l.at)+len(l.done)+l.order.Len() != 0 {
		t.Errorf("something is left: %v %v %v %v %v", l.sessions, l.firsts, l.begun, l.at, l.done)
	}
}

// sameSocket is a socket that outlives its session.
type sameSocket struct {
	net.PacketConn
	came   chan arrival
	closed chan struct{}
	once   sync.Once
}

func (s *sameSocket) ReadFrom(b []byte) (int, net.Addr, error) {
	select {
	case a := <-s.came:
		return copy(b, a.datagram), a.from, nil
	case <-s.closed:
		return 0, nil, net.ErrClosed
	}
}

func (s *sameSocket) Close() error {
	s.once.Do(func() { close(s.closed) })
	return nil
}

// TestPacketReplaced has a client begin anew at its address: the new session replaces the old one, and one of another
// key wouldn't.
func TestPacketReplaced(t *testing.T) {
	initiator, responder := packetConfigs(t, "XX")
	responder.PeerStatic = nil
	l, err := ListenPacket("udp", "127.0.0.1:0", responder)
	if err != nil {
		t.Fatal(err)
	}
	defer l.Close()
	conn, err := net.ListenPacket("udp", "127.0.0.1:0")
	if err != nil {
		t.Fatal(err)
	}
	defer conn.Close()
	came := make(chan arrival, 100)
	go func() {
		for room := make([]byte, 65536); ; {
			n, from, err := conn.ReadFrom(room)
			if err != nil {
				return
			}
			came <- arrival{append([]byte(nil), room[:n]...), from, 0}
		}
	}()
	other := *initiator
	if other.Static, err = GenerateKeyPair(); err != nil {
		t.Fatal(err)
	}
	var sessions []*PacketSession
	for _, config := range []*Config{initiator, &other, initiator} {
		client, err := PacketConfig{Config: config}.Client(context.Background(),
			&sameSocket{PacketConn: conn, came: came, closed: make(chan struct{})}, l.Addr())
		if err != nil {
			t.Fatal(err)
		}
		client.Close()
		s, err := l.AcceptSession()
		if err != nil {
			t.Fatal(err)
		}
		sessions = append(sessions, s)
	}
	if _, err := sessions[0].Read(make([]byte, 9)); !errors.Is(err, ErrLost) {
		t.Error("the session that was replaced:", err)
	}
	sessions[1].SetReadDeadline(time.Now())
	if _, err := sessions[1].Read(make([]byte, 9)); !errors.Is(err, os.ErrDeadlineExceeded) {
		t.Error("the session of another key:", err)
	}
}

// TestPacketFaults has Configs that aren't right, a server of another key, one that is silent, and a context that ends.
func TestPacketFaults(t *testing.T) {
	t.Parallel()
	initiator, responder := packetConfigs(t, "XX")
	oneWay := &Config{Pattern: "N", PeerStatic: initiator.PeerStatic}
	for _, config := range []*Config{nil, {Pattern: "NN"}, oneWay} {
		var fault *ConfigError
		if _, err := DialPacket("udp", "127.0.0.1:9", config); !errors.As(err, &fault) {
			t.Errorf("%+v: %v", config, err)
		}
	}
	if _, err := (PacketConfig{Config: responder, Window: 65}).Listen("udp", "127.0.0.1:0"); err != ErrWindow {
		t.Error(err)
	}
	silent, err := net.ListenPacket("udp", "127.0.0.1:0")
	if err != nil {
		t.Fatal(err)
	}
	defer silent.Close()
	short := *initiator
	short.HandshakeTimeout = 300 * time.Millisecond
	if _, err := DialPacket("udp", silent.LocalAddr().String(), &short); err != ErrHandshakeTimeout {
		t.Error(err)
	}
	ctx, cancel := context.WithCancel(context.Background())
	time.AfterFunc(20*time.Millisecond, cancel)
	_, err = PacketConfig{Config: initiator}.Dial(ctx, "udp", silent.LocalAddr().String())
	if err != context.Canceled {
		t.Error(err)
	}
	_, other := packetConfigs(t, "XX")
	other.PeerStatic = nil
	l, err := ListenPacket("udp", "127.0.0.1:0", other)
	if err != nil {
		t.Fatal(err)
	}
	defer l.Close()
	short.HandshakeTimeout = 10 * time.Second // so that an answer comes by then
	_, err = DialPacket("udp", l.Addr().String(), &short)
	if !errors.Is(err, ErrHandshakeTimeout) || !errors.Is(err, ErrPeerKey) {
		t.Error(err)
	}
}

// TestPacketAddresses dials what net.Dial takes.
func TestPacketAddresses(t *testing.T) {
	initiator, responder := packetConfigs(t, "NNpsk0")
	l, err := ListenPacket("udp", ":0", responder)
	if err != nil {
		t.Fatal(err)
	}
	defer l.Close()
	echoPackets(l)
	port := l.Addr().(*net.UDPAddr).Port
	for _, host := range []string{"", "0.0.0.0", "127.0.0.1", "localhost", "[::1]", "[::]"} {
		if probe, err := net.ListenPacket("udp6", "[::1]:0"); err == nil {
			probe.Close()
		} else if strings.HasPrefix(host, "[") {
			continue // no IPv6 here
		}
		s, err := DialPacket("udp", fmt.Sprintf("%s:%d", host, port), initiator)
		if err != nil {
			t.Errorf("%q: %v", host, err)
			continue
		}
		if err := getBack(s, "text"); err != nil {
			t.Errorf("%q: %v", host, err)
		}
		s.Close()
	}
}

// TestPacketVerifyWaits has a VerifyPeer that waits for one client, and no other client waits for it.
func TestPacketVerifyWaits(t *testing.T) {
	t.Parallel()
	initiator, responder := packetConfigs(t, "IK")
	slow, err := GenerateKeyPair()
	if err != nil {
		t.Fatal(err)
	}
	var lines strings.Builder
	responder.ErrorLog = log.New(&lines, "", 0)
	responder.PeerStatic = nil
	var ended sync.WaitGroup
	ended.Add(1)
	responder.HandshakeTimeout = 20 * time.Second
	var once sync.Once
	responder.VerifyPeer = func(ctx context.Context, peer Peer) error {
		if peer.Addr == nil {
			t.Error("VerifyPeer gets no address")
		}
		if peer.Static != slow.Public() {
			return nil
		}
		<-ctx.Done()
		once.Do(ended.Done)
		return ctx.Err()
	}
	l, err := ListenPacket("udp", "127.0.0.1:0", responder)
	if err != nil {
		t.Fatal(err)
	}
	accepted := echoPackets(l)
	waits := *initiator
	waits.Static, waits.HandshakeTimeout = slow, 3*time.Second
	failed := make(chan error, 1)
	go func() {
		_, err := DialPacket("udp", l.Addr().String(), &waits)
		failed <- err
	}()
	for i := 0; i < 3; i++ {
		s, err := DialPacket("udp", l.Addr().String(), initiator)
		if err != nil {
			t.Fatal(err)
		}
		if err := getBack(s, "text"); err != nil {
			t.Error(err)
		}
		s.Close()
	}
	if err := <-failed; !errors.Is(err, ErrHandshakeTimeout) {
		t.Error(err)
	}
	same(t, "sessions", accepted(), 3)
	l.Close()
	ended.Wait() // the context of VerifyPeer ends with the listener
}

// TestPacketCookies has a client of whom a cookie is asked, as the answer is long; and the reply of a stranger, who
// hasn't seen the first message.
func TestPacketCookies(t *testing.T) {
	initiator, responder := packetConfigs(t, "XX")
	responder.Payloads = [][]byte{nil, bytes.Repeat([]byte{1}, 1000)}
	lines := make(chan string, 10)
	responder.ErrorLog = log.New(writerFunc(func(line []byte) { lines <- string(line) }), "", 0)
	l, err := ListenPacket("udp", "127.0.0.1:0", responder)
	if err != nil {
		t.Fatal(err)
	}
	defer l.Close()
	s, err := DialPacket("udp", l.Addr().String(), initiator)
	if err != nil {
		t.Fatal(err)
	}
	defer s.Close()
	same(t, "the payload", len(s.ConnectionState().Payloads[1]), 1000)
	select {
	case line := <-lines:
		if !strings.Contains(line, "it needs a cookie") {
			t.Error(line)
		}
	case <-time.After(20 * time.Second):
		t.Error("the log has no line on the cookie")
	}
	channel, err := newPacketChannel(context.Background(), initiator, true, 64, l.Addr())
	if err != nil {
		t.Fatal(err)
	}
	same(t, "what is sent at first", len(channel.toSend()), 1)
	channel.take(context.Background(), cookieReply([]byte("another message"), make([]byte, 16)))
	same(t, "what a reply for another message brings", len(channel.toSend()), 0)
	channel.take(context.Background(), cookieReply(channel.first, make([]byte, 16)))
	same(t, "what the first reply brings", len(channel.toSend()), 1)
	channel.take(context.Background(), cookieReply(channel.first, bytes.Repeat([]byte{1}, 16)))
	same(t, "what the second reply brings", len(channel.toSend()), 0)
	channel.repeat()
	same(t, "the repetition", channel.toSend(), [][]byte{withCookie(bytes.Repeat([]byte{1}, 16), channel.first)})
	channel.close()
}

// TestPacketQueueIsBounded has a session that nobody reads: what waits for Read is bounded by its bytes, and comes in
// its order once it is read.
func TestPacketQueueIsBounded(t *testing.T) {
	s := newPacketSession(nil, &packetChannel{}, nil, nil)
	for i := 0; i < 1000; i++ {
		s.deliver(append(make([]byte, 60000), byte(i)))
	}
	if n, err := s.Read(nil); n != 0 || err != nil {
		t.Error(n, err)
	}
	room, whole := make([]byte, 65536), 0
	for i := 0; len(s.queue) > 0; i++ {
		n, err := s.Read(room)
		if err != nil || room[n-1] != byte(i) {
			t.Fatal(i, n, err)
		}
		whole += n
	}
	if whole < 60000 || whole > packetQueueBytes {
		t.Errorf("%d bytes have waited", whole)
	}
	for i := 0; i < 1000; i++ { // as much as is read comes in again
		s.deliver(make([]byte, 60000))
		if n, err := s.Read(room); n != 60000 || err != nil {
			t.Fatal(i, n, err)
		}
	}
}

type writerFunc func(line []byte)

func (f writerFunc) Write(line []byte) (int, error) {
	f(append([]byte(nil), line...))
	return len(line), nil
}
