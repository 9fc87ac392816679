package noise

import (
	"errors"
	"fmt"
	"net"
	"os"
	"sync"
	"sync/atomic"
	"time"
)

const (
	resendAfter      = 250 * time.Millisecond // after which what isn't answered is sent again
	restartAfter     = time.Second            // after which an initiator begins another handshake
	aloneFor         = 5 * time.Second        // how long one that has read the last message holds to that handshake
	mostTried        = 8                      // handshakes of an initiator at once
	mostBegun        = 256                    // handshakes of a responder at once that aren't established
	packetLimit      = 10 * time.Second       // of a handshake, if the Config doesn't say
	maxPacketPayload = 65507 - packetOverhead // a datagram of UDP over IPv4 has at most 65507 bytes
	packetQueue      = 256                    // payloads that wait for Read
	packetQueueBytes = 1 << 18                // how many bytes they have
)

// PacketConfig has the settings of sessions over datagrams; its zero values are the defaults of docs/UDP.md.
type PacketConfig struct {
	// Config is what this party starts from. A handshake has 10 seconds, if its HandshakeTimeout is 0.
	Config *Config
	// Window is how late a datagram may come: after others whose nonces are less than 64, 256 or 1024 greater. 0 is 64.
	Window int
	// MaxSessions is how many sessions a listener has; the longest silent gives way. 0 is 1024.
	MaxSessions int
	// Idle is after which silence a session is over: 0 is 180 seconds; less than 0 is never.
	Idle time.Duration
	// CookiesFrom is from how many handshakes on that aren't established a listener asks for a cookie: 0 is 16; less
	// than 0 is always.
	CookiesFrom int
}

var (
	// ErrLost is returned by a PacketSession that is over: nothing has come for so long, it was replaced, gave way to
	// others, or the socket has failed. It is no io.EOF: nothing tells that the other party has ended.
	ErrLost = errors.New("noise: the session is lost")
	// ErrEmptyPayload is returned by Write of no bytes: an empty payload is the protocol's own.
	ErrEmptyPayload = errors.New("noise: an empty payload can't be sent")

	errZeroSession  = errors.New("noise: neither DialPacket nor AcceptSession has made this PacketSession")
	errZeroListener = errors.New("noise: ListenPacket hasn't made this PacketListener")

	errNoAnswers = errors.New("in a one-way pattern nobody could say that the first datagram came")
	errCookie    = errors.New("noise: the responder has asked for a cookie, and hasn't answered the message with it")
)

// packetError is an ErrLost, with its reason.
type packetError struct {
	text  string
	cause error
}

func (e *packetError) Error() string        { return ErrLost.Error() + ": " + e.text }
func (e *packetError) Is(target error) bool { return target == ErrLost }
func (e *packetError) Unwrap() error        { return withoutEOF(e.cause) }

// checked returns the settings with their defaults.
func (p PacketConfig) checked(initiator bool) (PacketConfig, error) {
	if p.Config == nil {
		return p, &ConfigError{"", errNil}
	}
	if err := p.Config.Check(initiator); err != nil {
		return p, err
	}
	if patternOf(p.Config.pattern()).isOneWay {
		return p, &ConfigError{"Pattern", errNoAnswers}
	}
	if p.Window == 0 {
		p.Window = 64
	}
	if p.Window != 64 && p.Window != 256 && p.Window != 1024 {
		return p, ErrWindow
	}
	if p.MaxSessions <= 0 {
		p.MaxSessions = 1024
	}
	if p.Idle == 0 {
		p.Idle = 180 * time.Second
	}
	switch {
	case p.CookiesFrom == 0:
		p.CookiesFrom = 16
	case p.CookiesFrom < 0:
		p.CookiesFrom = 0
	}
	return p, nil
}

// limit returns how long a handshake may take; 0 is no limit.
func (p *PacketConfig) limit() time.Duration {
	switch limit := p.Config.HandshakeTimeout; {
	case limit == 0:
		return packetLimit
	case limit < 0:
		return 0
	default:
		return limit
	}
}

// PacketSession is a session over datagrams with one other party, a net.Conn. Any goroutine may call it.
//
// Each Write sends its bytes in one datagram, 33 bytes longer. It may be lost, or come out of order; the other party
// reads it at most once. Each Read returns one such payload.
type PacketSession struct {
	conn    net.PacketConn
	forget  func(*PacketSession) // by whom it was made
	first   []byte               // message 0 of its handshake
	queue   chan []byte
	queued  atomic.Int64  // the bytes in it
	over    chan struct{} // closed once nothing more comes
	read    deadline
	write   deadline
	mutex   sync.Mutex
	channel *packetChannel
	addr    net.Addr // of the newest datagram that has opened
	heard   time.Time
	err     error // why it is over
}

func newPacketSession(
	conn net.PacketConn, channel *packetChannel, addr net.Addr, forget func(*PacketSession),
) *PacketSession {
	return &PacketSession{
		conn: conn, forget: forget, first: channel.first, queue: make(chan []byte, packetQueue),
		over: make(chan struct{}), read: newDeadline(), write: newDeadline(), channel: channel, addr: addr,
		heard: time.Now(),
	}
}

// receive takes a transport datagram with the index of this session.
func (s *PacketSession) receive(datagram []byte, from net.Addr) {
	s.mutex.Lock()
	if s.err != nil {
		s.mutex.Unlock()
		return
	}
	payload, isOpen, hasMoved := s.channel.open(datagram)
	if isOpen {
		s.heard = time.Now()
	}
	if hasMoved {
		s.addr = from
	}
	out, to := s.channel.toSend(), s.addr
	s.mutex.Unlock()
	for _, datagram := range out {
		s.conn.WriteTo(datagram, to)
	}
	s.deliver(payload)
}

// deliver passes a payload to Read. Where nobody reads it is lost, as a datagram may be.
func (s *PacketSession) deliver(payload []byte) {
	size := int64(len(payload))
	if size == 0 {
		return
	}
	if s.queued.Add(size) <= packetQueueBytes {
		select {
		case s.queue <- payload:
			return
		default:
		}
	}
	s.queued.Add(-size)
}

// taken copies a payload of the queue.
func (s *PacketSession) taken(b, payload []byte) (int, error) {
	s.queued.Add(-int64(len(payload)))
	return copy(b, payload), nil
}

// Read reads the next payload. What is longer than b is lost, as with UDP; where b is empty, nothing is read. At the
// end it returns ErrLost, or net.ErrClosed after Close.
func (s *PacketSession) Read(b []byte) (int, error) {
	switch {
	case s.over == nil:
		return 0, errZeroSession
	case s.read.isPast():
		return 0, os.ErrDeadlineExceeded
	case len(b) == 0:
		return 0, nil
	}
	select {
	case payload := <-s.queue:
		return s.taken(b, payload)
	default:
	}
	select {
	case payload := <-s.queue:
		return s.taken(b, payload)
	case <-s.read.wait():
		return 0, os.ErrDeadlineExceeded
	case <-s.over:
	}
	select {
	case payload := <-s.queue: // it came before the end
		return s.taken(b, payload)
	default:
		s.mutex.Lock()
		defer s.mutex.Unlock()
		return 0, s.err
	}
}

// Write sends a payload of 1 to 65474 bytes in one datagram. One of more than 1199 may not pass everywhere.
func (s *PacketSession) Write(b []byte) (int, error) {
	switch {
	case s.over == nil:
		return 0, errZeroSession
	case len(b) == 0:
		return 0, ErrEmptyPayload
	case len(b) > maxPacketPayload:
		return 0, ErrTooLong
	case s.write.isPast():
		return 0, os.ErrDeadlineExceeded
	}
	s.mutex.Lock()
	if s.err != nil {
		defer s.mutex.Unlock()
		return 0, s.err
	}
	datagram, err := s.channel.seal(b)
	to := s.addr
	s.mutex.Unlock()
	if err != nil {
		return 0, err
	}
	if _, err := s.conn.WriteTo(datagram, to); err != nil {
		return 0, err
	}
	return len(b), nil
}

// Close overwrites the keys. Nothing tells the other party: send it a payload of your own that does.
func (s *PacketSession) Close() error {
	if s.over == nil {
		return errZeroSession
	}
	s.end(net.ErrClosed)
	s.forget(s)
	return nil
}

// end ends the session for a reason.
func (s *PacketSession) end(why error) {
	s.mutex.Lock()
	defer s.mutex.Unlock()
	if s.err == nil {
		s.err = why
		s.channel.close()
		close(s.over)
	}
}

// isSilent reports whether nothing has come for so long; if so, the session is over.
func (s *PacketSession) isSilent(idle time.Duration) bool {
	s.mutex.Lock()
	isSilent := time.Since(s.heard) >= idle
	s.mutex.Unlock()
	if isSilent {
		s.end(&packetError{fmt.Sprintf("nothing has come for %v", idle), os.ErrDeadlineExceeded})
	}
	return isSilent
}

// silentSince returns when the last datagram has opened.
func (s *PacketSession) silentSince() time.Time {
	s.mutex.Lock()
	defer s.mutex.Unlock()
	return s.heard
}

// ConnectionState returns what the handshake has agreed on.
func (s *PacketSession) ConnectionState() ConnectionState {
	if s.over == nil {
		return ConnectionState{}
	}
	return s.channel.state.copied()
}

// LocalAddr returns that of the socket.
func (s *PacketSession) LocalAddr() net.Addr {
	if s.over == nil {
		return nil
	}
	return s.conn.LocalAddr()
}

// RemoteAddr returns the other party's address: that of the newest datagram that has opened.
func (s *PacketSession) RemoteAddr() net.Addr {
	s.mutex.Lock()
	defer s.mutex.Unlock()
	return s.addr
}

// SetDeadline sets both deadlines.
func (s *PacketSession) SetDeadline(t time.Time) error {
	if err := s.SetReadDeadline(t); err != nil {
		return err
	}
	return s.SetWriteDeadline(t)
}

// SetReadDeadline sets the time after which Read returns os.ErrDeadlineExceeded; nothing is lost by it.
func (s *PacketSession) SetReadDeadline(t time.Time) error {
	if s.over == nil {
		return errZeroSession
	}
	s.read.set(t)
	return nil
}

// SetWriteDeadline sets the time after which Write returns os.ErrDeadlineExceeded. A Write that has begun doesn't wait.
func (s *PacketSession) SetWriteDeadline(t time.Time) error {
	if s.over == nil {
		return errZeroSession
	}
	s.write.set(t)
	return nil
}

// deadline is a time, and a channel that is closed then.
type deadline struct {
	mutex *sync.Mutex
	at    *deadlineAt
}

type deadlineAt struct {
	timer *time.Timer
	past  chan struct{}
}

func newDeadline() deadline {
	return deadline{new(sync.Mutex), &deadlineAt{past: make(chan struct{})}}
}

// set sets the time; zero is never.
func (d deadline) set(t time.Time) {
	d.mutex.Lock()
	defer d.mutex.Unlock()
	if d.at.timer != nil && !d.at.timer.Stop() {
		<-d.at.past // it is being closed
	}
	d.at.timer = nil
	isPast := isClosed(d.at.past)
	switch left := time.Until(t); {
	case t.IsZero() || left > 0:
		if isPast {
			d.at.past = make(chan struct{})
		}
		if past := d.at.past; !t.IsZero() {
			d.at.timer = time.AfterFunc(left, func() { close(past) })
		}
	case !isPast:
		close(d.at.past)
	}
}

// wait returns a channel that is closed at the time.
func (d deadline) wait() <-chan struct{} {
	d.mutex.Lock()
	defer d.mutex.Unlock()
	return d.at.past
}

func (d deadline) isPast() bool { return isClosed(d.wait()) }

func isClosed(c <-chan struct{}) bool {
	select {
	case <-c:
		return true
	default:
		return false
	}
}
