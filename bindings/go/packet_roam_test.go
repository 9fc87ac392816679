package noise

import (
	"bytes"
	"context"
	"errors"
	"net"
	"os"
	"testing"
	"time"
)

// rawPacket is a client of a listener without an endpoint: a socket for each address that it has.
type rawPacket struct {
	t       *testing.T
	to      net.Addr
	channel *packetChannel
}

func newRawPacket(t *testing.T, config *Config, to net.Addr) *rawPacket {
	t.Helper()
	channel, err := newPacketChannel(context.Background(), config, true, 64, to)
	if err != nil {
		t.Fatal(err)
	}
	t.Cleanup(channel.close)
	return &rawPacket{t, to, channel}
}

func rawSocket(t *testing.T) net.PacketConn {
	t.Helper()
	conn, err := net.ListenPacket("udp", "127.0.0.1:0")
	if err != nil {
		t.Fatal(err)
	}
	t.Cleanup(func() { conn.Close() })
	return conn
}

// send sends what the channel has to send.
func (r *rawPacket) send(conn net.PacketConn) {
	r.t.Helper()
	for _, it := range r.channel.toSend() {
		if _, err := conn.WriteTo(it, r.to); err != nil {
			r.t.Fatal(err)
		}
	}
}

// next returns the next datagram; nil if none comes.
func (r *rawPacket) next(conn net.PacketConn, limit time.Duration) []byte {
	r.t.Helper()
	room := make([]byte, 65536)
	conn.SetReadDeadline(time.Now().Add(limit))
	n, _, err := conn.ReadFrom(room)
	if errors.Is(err, os.ErrDeadlineExceeded) {
		return nil
	} else if err != nil {
		r.t.Fatal(err)
	}
	return room[:n]
}

// shake runs the handshake of a pattern whose last message is the responder's, until a transport datagram is due.
func (r *rawPacket) shake(conn net.PacketConn) {
	r.t.Helper()
	for r.send(conn); !r.channel.isDone; {
		datagram := r.next(conn, 20*time.Second)
		if datagram == nil {
			r.t.Fatal("no message comes")
		}
		r.channel.take(context.Background(), datagram)
	}
}

// echoes reports whether a payload that is sent from one socket comes back at another.
func (r *rawPacket) echoes(from, at net.PacketConn, payload string) bool {
	r.t.Helper()
	r.sendTo(from, r.seal(payload))
	for {
		datagram := r.next(at, 20*time.Second)
		if datagram == nil {
			return false
		}
		if datagram[0] == transportByte {
			if got, isOpen, _ := r.channel.open(datagram); isOpen && string(got) == payload {
				return true
			}
		}
	}
}

func (r *rawPacket) seal(payload string) []byte {
	r.t.Helper()
	datagram, err := r.channel.seal([]byte(payload))
	if err != nil {
		r.t.Fatal(err)
	}
	return datagram
}

func (r *rawPacket) sendTo(from net.PacketConn, datagram []byte) {
	r.t.Helper()
	if _, err := from.WriteTo(datagram, r.to); err != nil {
		r.t.Fatal(err)
	}
}

func listenRaw(t *testing.T, pattern string) (l *PacketListener, initiator *Config) {
	t.Helper()
	initiator, responder := packetConfigs(t, pattern)
	l, err := ListenPacket("udp", "127.0.0.1:0", responder)
	if err != nil {
		t.Fatal(err)
	}
	t.Cleanup(func() { l.Close() })
	return l, initiator
}

// TestPacketMoves has a session's address follow the newest datagram that opens, and no other.
func TestPacketMoves(t *testing.T) {
	l, initiator := listenRaw(t, "IK")
	echoPackets(l)
	client, first, second, stranger := newRawPacket(t, initiator, l.Addr()), rawSocket(t), rawSocket(t), rawSocket(t)
	client.shake(first)
	client.send(first)
	if !client.echoes(first, first, "here") {
		t.Fatal("nothing comes back")
	}
	late, newest := client.seal("late"), client.seal("newest")
	client.sendTo(first, newest)
	forged := client.seal("forged")
	forged[len(forged)-1] ^= 1
	ahead := append(append([]byte(nil), newest[:9]...), bytes.Repeat([]byte{0x7f}, 40)...) // of a greater nonce
	for _, it := range [][]byte{forged, ahead, newest, late} {
		client.sendTo(stranger, it)
	}
	for _, want := range []string{"newest", "late"} { // nothing else is sent before: it would move the session back
		datagram := client.next(first, 20*time.Second)
		if datagram == nil {
			t.Fatalf("%q doesn't come back", want)
		}
		if got, isOpen, _ := client.channel.open(datagram); !isOpen || string(got) != want {
			t.Errorf("%q, and not %q", got, want)
		}
	}
	if client.next(stranger, 50*time.Millisecond) != nil {
		t.Error("a session has moved to a stranger")
	}
	if !client.echoes(second, second, "moved") {
		t.Error("a session doesn't follow its client")
	}
}

// TestPacketBeginsElsewhere has a stranger begin a session in the name of another client: where clients have no static
// key, that must not end the other's.
func TestPacketBeginsElsewhere(t *testing.T) {
	l, initiator := listenRaw(t, "NN")
	accepted := echoPackets(l)
	client, own := newRawPacket(t, initiator, l.Addr()), rawSocket(t)
	client.shake(own)
	client.send(own)
	if !client.echoes(own, own, "here") {
		t.Fatal("nothing comes back")
	}
	stranger, theirs := newRawPacket(t, initiator, l.Addr()), rawSocket(t)
	stranger.shake(theirs)
	stranger.send(own) // the empty datagram, from the client's address
	for until := time.Now().Add(20 * time.Second); accepted() < 2; time.Sleep(time.Millisecond) {
		if time.Now().After(until) {
			t.Fatal("the second session isn't there")
		}
	}
	if !client.echoes(own, own, "still here") {
		t.Error("a stranger has ended a session")
	}
}

// TestPacketDoneHasTime has a client that is done late in its time, and sends its first transport datagram after that.
func TestPacketDoneHasTime(t *testing.T) {
	t.Parallel()
	initiator, responder := packetConfigs(t, "XX")
	responder.HandshakeTimeout = 10 * time.Second
	l, err := ListenPacket("udp", "127.0.0.1:0", responder)
	if err != nil {
		t.Fatal(err)
	}
	defer l.Close()
	echoPackets(l)
	client, own := newRawPacket(t, initiator, l.Addr()), rawSocket(t)
	client.send(own)
	client.channel.take(context.Background(), client.next(own, 20*time.Second))
	time.Sleep(6 * time.Second)
	client.send(own) // message 2
	time.Sleep(5 * time.Second)
	if !client.echoes(own, own, "late") {
		t.Error("the listener has forgotten a session of which its client knows")
	}
}

// TestPacketBeginsAnew has a responder that is silent: the initiator begins a handshake each second, and repeats the
// newest alone.
func TestPacketBeginsAnew(t *testing.T) {
	initiator, _ := packetConfigs(t, "XX")
	initiator.HandshakeTimeout = time.Minute
	silent := rawSocket(t)
	ctx, cancel := context.WithCancel(context.Background())
	defer cancel()
	ended := goes(func() error {
		_, err := PacketConfig{Config: initiator}.Dial(ctx, "udp", silent.LocalAddr().String())
		return err
	})
	var begun [][]byte
	silent.SetReadDeadline(time.Now().Add(20 * time.Second))
	for room := make([]byte, 65536); len(begun) < 3; {
		n, _, err := silent.ReadFrom(room)
		if err != nil {
			t.Fatalf("%d handshakes were begun: %v", len(begun), err)
		}
		place := len(begun)
		for i, it := range begun {
			if bytes.Equal(it, room[:n]) {
				place = i
			}
		}
		if place == len(begun) {
			begun = append(begun, append([]byte(nil), room[:n]...))
		} else if place < len(begun)-1 {
			t.Error("a handshake that isn't the newest was repeated")
		}
	}
	cancel()
	if err := <-ended; err != context.Canceled {
		t.Error(err)
	}
}

// TestPacketEstablishedAnswersNone has message 0 of an established session repeated, from its address and another one.
func TestPacketEstablishedAnswersNone(t *testing.T) {
	l, initiator := listenRaw(t, "IK")
	echoPackets(l)
	client, own, other := newRawPacket(t, initiator, l.Addr()), rawSocket(t), rawSocket(t)
	first := append([]byte{0}, client.channel.first...)
	client.shake(own)
	client.send(own)
	if !client.echoes(own, own, "here") {
		t.Fatal("nothing comes back")
	}
	for _, from := range []net.PacketConn{own, other, own} {
		client.sendTo(from, first)
	}
	client.sendTo(own, client.seal("still here"))
	if datagram := client.next(own, 20*time.Second); datagram == nil || datagram[0] != transportByte {
		t.Errorf("%x, and no payload", datagram)
	}
	if client.next(other, 50*time.Millisecond) != nil || client.next(own, 50*time.Millisecond) != nil {
		t.Error("message 0 of an established session was answered")
	}
	l.mutex.Lock()
	defer l.mutex.Unlock()
	same(t, "handshakes", len(l.begun), 0)
}

// TestPacketCookieIsNeeded has a cookie that is wrong, one of another address, and the right one.
func TestPacketCookieIsNeeded(t *testing.T) {
	initiator, responder := packetConfigs(t, "XX")
	l, err := PacketConfig{Config: responder, CookiesFrom: -1}.Listen("udp", "127.0.0.1:0")
	if err != nil {
		t.Fatal(err)
	}
	defer l.Close()
	client, own, other := newRawPacket(t, initiator, l.Addr()), rawSocket(t), rawSocket(t)
	client.send(own)
	reply := client.next(own, 20*time.Second)
	same(t, "the length of the first answer", len(reply), cookieReplyLen)
	right := append([]byte(nil), cookieIn(reply, client.channel.first)...)
	wrong := append([]byte(nil), right...)
	wrong[15] ^= 1
	for _, it := range []struct {
		from   net.PacketConn
		cookie []byte
		kind   byte
	}{{own, wrong, cookieReplyByte}, {other, right, cookieReplyByte}, {own, right, 1}, {own, wrong, 1}} {
		client.sendTo(it.from, withCookie(it.cookie, client.channel.first))
		if answer := client.next(it.from, 20*time.Second); answer == nil || answer[0] != it.kind {
			t.Errorf("%x is answered by %x, and not by %d", it.cookie, answer, it.kind)
		}
	}
}

// TestPacketClosesOthers has a client with two handshakes: once one is established the other is closed.
func TestPacketClosesOthers(t *testing.T) {
	l, initiator := listenRaw(t, "NN")
	echoPackets(l)
	own := rawSocket(t)
	first, second := newRawPacket(t, initiator, l.Addr()), newRawPacket(t, initiator, l.Addr())
	second.shake(own)
	first.shake(own)
	first.send(own)
	if !first.echoes(own, own, "here") {
		t.Error("nothing comes back")
	}
	l.mutex.Lock()
	defer l.mutex.Unlock()
	same(t, "handshakes", len(l.begun)+len(l.at)+len(l.done), 0)
}

// TestPacketSilence has two sessions: late datagrams that open keep one; those that are forged, and messages, don't
// keep the other.
func TestPacketSilence(t *testing.T) {
	initiator, responder := packetConfigs(t, "IK")
	l, err := PacketConfig{Config: responder, Idle: 3 * time.Second}.Listen("udp", "127.0.0.1:0")
	if err != nil {
		t.Fatal(err)
	}
	defer l.Close()
	var clients [2]*rawPacket
	var sockets [2]net.PacketConn
	var sessions [2]*PacketSession
	for i := range clients {
		clients[i], sockets[i] = newRawPacket(t, initiator, l.Addr()), rawSocket(t)
		clients[i].shake(sockets[i])
		clients[i].send(sockets[i])
		if sessions[i], err = l.AcceptSession(); err != nil {
			t.Fatal(err)
		}
	}
	lost := make(chan error, 1)
	go func() {
		_, err := sessions[0].Read(make([]byte, 9))
		lost <- err
	}()
	var late [20][]byte
	for i := range late {
		late[len(late)-1-i] = clients[1].seal("late")
	}
	forged := clients[0].seal("forged")
	forged[len(forged)-1] ^= 1
	for _, it := range late {
		clients[0].sendTo(sockets[0], forged)
		clients[0].sendTo(sockets[0], append([]byte{0}, clients[0].channel.first...))
		clients[1].sendTo(sockets[1], it)
		select {
		case err := <-lost:
			if !errors.Is(err, ErrLost) {
				t.Error(err)
			}
			if isClosed(sessions[1].over) {
				t.Error("late datagrams don't keep a session")
			}
			return
		case <-time.After(300 * time.Millisecond):
		}
	}
	t.Error("a session is kept by what doesn't open")
}

// TestPacketHoldsToOne has an initiator that has read the last message: it closes its other handshakes, and this one
// before it begins another. Else the responder could have a session of one of them, and the initiator of another.
func TestPacketHoldsToOne(t *testing.T) {
	initiator, responder := packetConfigs(t, "NNpsk0")
	settings, err := PacketConfig{Config: initiator}.checked(true)
	if err != nil {
		t.Fatal(err)
	}
	conn := badSocket(t, 1).PacketConn
	ctx := context.Background()
	c := &packetClient{conn: conn, to: conn.LocalAddr(), settings: settings, context: ctx, made: make(chan struct{})}
	defer c.over()
	answer := func(to *packetChannel) []byte {
		channel, err := newPacketChannel(ctx, responder, false, 64, c.to)
		if err != nil {
			t.Fatal(err)
		}
		defer channel.close()
		channel.take(ctx, to.own)
		return channel.toSend()[0]
	}
	for i := 0; i < 2; i++ {
		if err := c.try(); err != nil {
			t.Fatal(err)
		}
	}
	first, second := c.tried[0], c.tried[1]
	late := answer(second)
	c.take(answer(first))
	c.take(late)
	same(t, "the other, once one has read the last message", second.isDone, false)
	for _, it := range []struct {
		since time.Duration
		holds bool
	}{{2 * restartAfter, true}, {aloneFor, false}} {
		c.since = time.Now().Add(-it.since)
		if err := c.repeat(); err != nil {
			t.Fatal(err)
		}
		same(t, "how many handshakes there are", len(c.tried), 1)
		same(t, "whether it is still the first", c.tried[0] == first, it.holds)
	}
	same(t, "whether the new one is done", c.tried[0].isDone, false)
}
