package main

import (
	"context"
	"encoding/binary"
	"errors"
	"fmt"
	"net"
	"os"
	"syscall"
	"time"

	"example.org/yulimosar/noise"
)

// The header of a packet: version and type, subtype, two reserved bytes, the receiver's index, a counter.
const (
	headerLen     = 16
	version       = 1
	typeHandshake = 0
	typeMessage   = 1 // a packet of the tunnel's network
	typeTest      = 4
	testRequest   = 0
	testReply     = 1
)

func header(kind, subtype byte, index uint32, counter uint64) []byte {
	b := []byte{version<<4 | kind, subtype, 0, 0}
	return binary.BigEndian.AppendUint64(binary.BigEndian.AppendUint32(b, index), counter)
}

// party is what a client starts from.
type party struct {
	authority, own *certificate
	key            *noise.KeyPair
}

// tunnel is what a handshake makes: packets have their header as associated data, and its counter as nonce.
type tunnel struct {
	send, receive *noise.CipherState
	own, other    uint32 // the parties' indices
	window        window
	peer          *certificate
}

const ownIndex = 0x01020304 // a client with more tunnels than one draws them

// hello returns the payload of the first message.
func (p *party) hello() []byte {
	details := text(nil, helloCert, p.own.encoded(nil))
	details = number(number(details, helloInitiator, ownIndex), helloTime, uint64(time.Now().UnixNano()))
	return text(nil, payloadDetails, details)
}

// connect runs the handshake IX over conn: one packet each way. It sends its own as often as no right answer
// comes, until the deadline. An answer that isn't right, which anybody can send, changes nothing; the last such
// is why nothing else has come.
func (p *party) connect(conn net.Conn, until time.Time) (*tunnel, error) {
	t := &tunnel{own: ownIndex}
	h, err := noise.NewHandshakeState(&noise.Config{
		Pattern: "IX",
		Static:  p.key,
		VerifyPeer: func(_ context.Context, peer noise.Peer) error {
			return t.accept(p.authority, peer)
		},
	}, true)
	if err != nil {
		return nil, err
	}
	defer h.Close()
	first, err := h.WriteMessage(header(typeHandshake, 0, 0, 1), p.hello())
	if err != nil {
		return nil, err
	}
	var refused error
	if _, err = asked(conn, first, until, func(packet []byte) bool {
		if packet[0] != version<<4|typeHandshake || binary.BigEndian.Uint32(packet[4:]) != ownIndex {
			return false
		}
		_, refused = h.TryReadMessage(context.Background(), nil, packet[headerLen:])
		return refused == nil
	}); err == errSilent && refused != nil {
		err = refused
	}
	if err != nil {
		return nil, err
	}
	return t, t.finish(h)
}

// answer runs the handshake as the responder: it reads the first packet of a node, and returns the tunnel
// and the packet to send back. A caller that gets the same first packet again, since its answer was lost,
// sends the same answer again.
func (p *party) answer(packet []byte) (*tunnel, []byte, error) {
	if len(packet) < headerLen || packet[0] != version<<4|typeHandshake || binary.BigEndian.Uint64(packet[8:]) != 1 {
		return nil, nil, errors.New("not the first packet of a handshake")
	}
	t := &tunnel{own: ownIndex}
	h, err := noise.NewHandshakeState(&noise.Config{
		Pattern: "IX",
		Static:  p.key,
		VerifyPeer: func(_ context.Context, peer noise.Peer) error {
			return t.accept(p.authority, peer)
		},
	}, false)
	if err != nil {
		return nil, nil, err
	}
	defer h.Close()
	if _, err := h.ReadMessage(nil, packet[headerLen:]); err != nil {
		return nil, nil, err
	}
	details := number(text(nil, helloCert, p.own.encoded(nil)), helloInitiator, uint64(t.other))
	details = number(number(details, helloResponder, ownIndex), helloTime, uint64(time.Now().UnixNano()))
	reply, err := h.WriteMessage(header(typeHandshake, 0, t.other, 2), text(nil, payloadDetails, details))
	if err != nil {
		return nil, nil, err
	}
	return t, reply, t.finish(h)
}

// finish takes the keys of a handshake that is done, which has counted 1 and 2.
func (t *tunnel) finish(h *noise.HandshakeState) (err error) {
	if t.send, t.receive, err = h.CipherStates(); err != nil {
		return err
	}
	t.window = window{next: 3}
	return t.send.SetNonce(3)
}

// accept verifies the other party by its certificate, which is in the payload beside its key, and keeps its index.
func (t *tunnel) accept(authority *certificate, peer noise.Peer) error {
	outer, err := fields(peer.Payload)
	if err != nil || len(outer) == 0 || outer[0].tag != payloadDetails {
		return errBuffer
	}
	details, err := fields(outer[0].bytes)
	if err != nil {
		return err
	}
	var shown *certificate
	index := uint64(helloResponder)
	if peer.Message == 1 {
		index = helloInitiator
	}
	for _, f := range details {
		switch f.tag {
		case index:
			t.other = uint32(f.number)
		case helloCert:
			if shown, err = parseCertificate(f.bytes); err != nil {
				return err
			}
		}
	}
	if shown == nil {
		return errors.New("the other party shows no certificate")
	}
	t.peer = shown
	return shown.verify(authority, peer.Static, time.Now())
}

// asked sends a packet each half second, and returns the first that passes the filter. That nobody is there
// (ECONNREFUSED) may be so for a moment.
func asked(conn net.Conn, packet []byte, until time.Time, filter func([]byte) bool) ([]byte, error) {
	room := make([]byte, 9001)
	for time.Now().Before(until) {
		next := time.Now().Add(500 * time.Millisecond)
		_, err := conn.Write(packet)
		for conn.SetReadDeadline(next); err == nil; {
			var n int
			if n, err = conn.Read(room); err == nil && n >= headerLen && filter(room[:n]) {
				return room[:n], nil
			}
		}
		if !errors.Is(err, os.ErrDeadlineExceeded) && !errors.Is(err, syscall.ECONNREFUSED) {
			return nil, err
		}
		time.Sleep(time.Until(next))
	}
	return nil, errSilent
}

var (
	errSilent   = errors.New("no answer: nobody is there, or the node refuses this party's certificate")
	errRepeated = errors.New("the packet came before, or is too old")
)

// seal makes a packet. No counter is used twice, also by several goroutines: that is the CipherState's nonce.
func (t *tunnel) seal(kind, subtype byte, text []byte) ([]byte, error) {
	packet := header(kind, subtype, t.other, 0)
	return t.send.EncryptNext(packet, text, func(nonce uint64) []byte {
		binary.BigEndian.PutUint64(packet[8:], nonce)
		return packet
	})
}

// open returns the text of a packet, and changes nothing unless all of it, header included, is
// the other party's, and new.
func (t *tunnel) open(packet []byte) ([]byte, error) {
	if len(packet) < headerLen || binary.BigEndian.Uint32(packet[4:]) != t.own {
		return nil, errors.New("not a packet for this tunnel")
	}
	counter := binary.BigEndian.Uint64(packet[8:])
	if !t.window.isNew(counter) {
		return nil, errRepeated
	}
	text, err := t.receive.DecryptAt(counter, nil, packet[:headerLen], packet[headerLen:])
	if err == nil {
		t.window.note(counter)
	}
	return text, err
}

// ping sends a test request, which has no text, and waits for the reply.
func (t *tunnel) ping(conn net.Conn, until time.Time) error {
	request, err := t.seal(typeTest, testRequest, nil)
	if err != nil {
		return err
	}
	_, err = asked(conn, request, until, func(packet []byte) bool {
		_, err := t.open(packet)
		return err == nil && packet[0]&15 == typeTest && packet[1] == testReply
	})
	if err != nil {
		return fmt.Errorf("test request: %w", err)
	}
	return nil
}

// window remembers which of the last 64 counters below next have come.
type window struct{ next, seen uint64 }

func (w *window) isNew(counter uint64) bool {
	return counter >= w.next || w.next-1-counter < 64 && w.seen>>(w.next-1-counter)&1 == 0
}

func (w *window) note(counter uint64) {
	if counter >= w.next {
		w.seen = w.seen<<(counter+1-w.next) | 1
		w.next = counter + 1
		return
	}
	w.seen |= 1 << (w.next - 1 - counter)
}
