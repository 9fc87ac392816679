package noise

import (
	"bytes"
	"context"
	"errors"
	"io"
	"net"
	"os"
	"sync"
	"sync/atomic"
	"syscall"
	"time"

	"example.org/yulimosar/noise/internal/library"
)

// Conn is a secure channel over another connection. One goroutine may read while another writes. The first Read or
// Write runs the handshake, or Handshake does.
//
// After a refused message, or once the connection below was lost, nothing more is written, and the end of this party's
// stream isn't sent: Close returns ErrNoEnd then.
type Conn struct {
	conn        net.Conn
	config      *Config
	isFirst     bool          // the initiator
	isOneWay    bool          // only the initiator can write
	isMute      bool          // the other party can't write: the initiator of a one-way pattern
	limit       time.Duration // for the handshake; 0 is none
	closed      atomic.Bool
	closing     chan struct{} // closed by Close
	closedBelow sync.Once
	closeErr    error
	broken      atomic.Pointer[error] // why nothing more may be written: a refused message, or a lost connection

	handshaking   chan struct{} // holds an element while a goroutine runs the handshake, or wipes
	handshakeDone atomic.Bool
	handshakeErr  error
	handshake     *HandshakeState // nil until it is needed, and after its end
	mustEnd       time.Time       // when the handshake has to be done; zero: not begun, or no limit

	stateMutex sync.Mutex
	state      ConnectionState
	cancel     context.CancelFunc // of the handshake that runs

	in       sync.Mutex
	receiver streamReceiverMemory
	came     received
	rest     []byte // decrypted, and not read yet
	inErr    error
	isStuck  atomic.Bool // the last Read has failed, and nothing has shown since that the caller goes on
	hasEnd   atomic.Bool // the end of the other party's stream has come

	out           sync.Mutex
	sender        streamSenderMemory
	pending       []byte // sealed, and not sent yet
	pendingRoom   *room
	owed          []byte // payload that is sealed, and that no Write has counted
	outErr        error
	belowErr      error // of the connection below, as it came
	isUnfinished  bool  // the last Write has failed, or is running
	isEnded       bool  // the end is sent
	writeDeadline atomic.Pointer[time.Time]
}

// ConnectionState is what a handshake has agreed on.
type ConnectionState struct {
	HandshakeComplete bool         // all messages of the handshake have passed
	ProtocolName      string       // for example Noise_XX_25519_ChaChaPoly_SHA256
	Initiator         bool         // this party wrote the first message
	HandshakeHash     [KeyLen]byte // the same at both parties: to bind other data to the channel (the framework's 11.2)
	PeerStatic        *PublicKey   // the other party's static key; nil if the handshake has none
	// Payloads are those of the messages that this party has read, Payloads[0] that of message 1; nil at its own.
	Payloads [][]byte
}

var errZeroConn = errors.New("noise: neither Client nor Server nor Dial nor Accept has made this Conn")

// Client returns the initiator's side of a channel over conn, and writes nothing yet. A *ConfigError says what
// is wrong with the Config.
func Client(conn net.Conn, config *Config) (*Conn, error) {
	if err := config.Check(true); err != nil {
		return nil, err
	}
	return newConn(conn, config, true, 0), nil
}

// Server returns the responder's side of a channel over conn, and writes nothing yet. A *ConfigError says what
// is wrong with the Config.
func Server(conn net.Conn, config *Config) (*Conn, error) {
	if err := config.Check(false); err != nil {
		return nil, err
	}
	return newConn(conn, config, false, 0), nil
}

// newConn returns a Conn with a Config that was checked; limit is for a handshake if the Config has none.
func newConn(conn net.Conn, config *Config, initiator bool, limit time.Duration) *Conn {
	if config.HandshakeTimeout != 0 {
		limit = config.HandshakeTimeout
	}
	isOneWay := patternOf(config.pattern()).isOneWay
	return &Conn{
		conn: conn, config: config, isFirst: initiator, limit: limit, isOneWay: isOneWay, isMute: initiator && isOneWay,
		closing: make(chan struct{}), handshaking: make(chan struct{}, 1),
		state: ConnectionState{ProtocolName: config.protocolName(), Initiator: initiator},
	}
}

// ConnectionState returns what the handshake has agreed on so far, in memory of the caller's own. It doesn't wait for a
// handshake that is running.
func (c *Conn) ConnectionState() ConnectionState {
	c.stateMutex.Lock()
	defer c.stateMutex.Unlock()
	return c.state.copied()
}

// copied returns a copy in memory of its own.
func (s ConnectionState) copied() ConnectionState {
	payloads := s.Payloads
	if s.PeerStatic != nil {
		key := *s.PeerStatic
		s.PeerStatic = &key
	}
	s.Payloads = make([][]byte, len(payloads))
	for i, payload := range payloads {
		s.Payloads[i] = append([]byte(nil), payload...)
		if payload != nil && s.Payloads[i] == nil {
			s.Payloads[i] = []byte{}
		}
	}
	return s
}

// Read reads what the other party has written. It returns io.EOF once that party has sent the end of its stream.
//
// A refused message (ErrTag, ErrShort) and a lost connection (ErrCut) end the channel: the connection below is closed,
// and nothing more can be read or written. A deadline that passes doesn't: a later Read continues with what has
// arrived. After an error other than io.EOF, Close is Abort, until a later Read succeeds or the deadline is set anew: a
// request of which only a part has come isn't answered by an end.
func (c *Conn) Read(b []byte) (int, error) {
	if err := c.Handshake(); err != nil {
		return 0, err
	}
	n, err := c.read(b)
	if err != net.ErrClosed { // a Read that meets Close says nothing of those before
		c.isStuck.Store(err != nil && err != io.EOF && !c.isMute)
	}
	return n, err
}

func (c *Conn) read(b []byte) (int, error) {
	c.in.Lock()
	defer c.in.Unlock()
	for !c.closed.Load() && len(c.rest) == 0 {
		if c.inErr != nil {
			return 0, c.inErr
		}
		if len(b) == 0 {
			return 0, nil
		}
		if err := c.open(); err != nil {
			return 0, err
		}
	}
	if c.closed.Load() {
		return 0, net.ErrClosed
	}
	n := copy(b, c.rest)
	if c.rest = c.rest[n:]; len(c.rest) == 0 {
		c.rest = nil
		c.came.settle()
	}
	return n, nil
}

// open decrypts the next payload, or finds the end, in what has come, or receives more. It returns only what a later
// Read may not meet again: a deadline.
func (c *Conn) open() error {
	if c.isMute {
		c.inErr = ErrOneWay
		return nil
	}
	result, left := &c.receiver.result, c.came.left()
	switch code := library.StreamRead(&c.receiver.opaque, place(left), uint(len(left)), result); code {
	case codeMore:
		return c.receive(int(result.Wanted))
	case 0:
		c.rest = left[result.From : result.From+result.Len]
		c.came.start += int(result.Used)
	case codeEnd:
		c.came.start += int(result.Used)
		c.came.settle()
		c.inErr = io.EOF
		c.hasEnd.Store(true)
	default:
		c.inErr = c.breakOff(Code(code))
	}
	return nil
}

// receive receives more bytes of the stream.
func (c *Conn) receive(wanted int) error {
	err := c.came.from(c.conn, wanted)
	switch {
	case err == nil:
	case c.closed.Load():
		c.inErr = net.ErrClosed
	case isDeadline(err):
		return err
	case err != io.EOF:
		c.inErr = c.breakOff(&lostError{err})
	case library.StreamIsCut(&c.receiver.opaque, uint(len(c.came.left()))) == 0:
		c.inErr = io.EOF
	default:
		c.inErr = c.breakOff(ErrCut)
	}
	return nil
}

// breakOff closes the connection below, so that nothing more is written, and returns why.
func (c *Conn) breakOff(err error) error {
	c.broken.Store(&err)
	c.came.drop()
	c.closeBelow()
	return err
}

func (c *Conn) closeBelow() error {
	c.closedBelow.Do(func() { c.closeErr = c.conn.Close() })
	return c.closeErr
}

// Write writes b, in messages of at most 65519 bytes, and returns how many of its bytes it has sent.
//
// After a deadline that has passed, continue with b[n:]: what was sealed of it is then counted, and not sealed
// again. A Write of other bytes writes them after what was sealed, which can't be taken back. After another error
// nothing more can be written.
func (c *Conn) Write(b []byte) (int, error) {
	if err := c.Handshake(); err != nil {
		return 0, err
	}
	c.out.Lock()
	defer c.out.Unlock()
	if c.closed.Load() { // a Write after Close says nothing of those before
		return 0, net.ErrClosed
	}
	c.isUnfinished = true
	for written := 0; ; {
		if err := c.mayWrite(); err != nil {
			return written, err
		}
		written += c.countOwed(b[written:])
		if written < len(b) || len(b) == 0 {
			n, err := c.seal(b[written:])
			written += n
			if err != nil {
				return written, err
			}
		}
		if written == len(b) {
			c.isUnfinished = len(c.owed) > 0
			return written, nil
		}
	}
}

// countOwed returns how many first bytes of a payload an earlier Write has sealed and not counted. All of them are sent
// by now; where the payload is another one, they are no longer owed.
func (c *Conn) countOwed(payload []byte) int {
	n := len(c.owed)
	if n > len(payload) {
		n = len(payload)
	}
	kept := n
	if !bytes.Equal(payload[:n], c.owed[:n]) {
		n, kept = 0, len(c.owed)
	}
	wipe(c.owed[:kept])
	if c.owed = c.owed[kept:]; len(c.owed) == 0 {
		c.owed = nil
	}
	return n
}

// mayWrite sends what is sealed and not sent yet, and says whether more may be sealed.
func (c *Conn) mayWrite() error {
	broken, deadline := c.broken.Load(), c.writeDeadline.Load()
	switch {
	case c.closed.Load():
		return net.ErrClosed
	case broken != nil:
		return *broken
	case c.outErr != nil:
		return c.outErr
	case deadline != nil && !time.Now().Before(*deadline):
		return os.ErrDeadlineExceeded
	}
	return c.flush()
}

var errEnded = errors.New("noise: a Write after CloseWrite")

// seal seals the first bytes of a payload, sends them, and returns how many it has sent.
func (c *Conn) seal(payload []byte) (int, error) {
	room, result := roomFor(len(payload)+streamOverhead), &c.sender.result
	reads(payload)
	code := library.StreamWrite(
		&c.sender.opaque,
		place(payload), uint(len(payload)),
		place(room.bytes), uint(len(room.bytes)),
		result,
	)
	if code != 0 {
		room.free(0)
		if code == codeClosed {
			return 0, errEnded
		}
		return 0, Code(code)
	}
	used := int(result.Used)
	err := c.send(room, int(result.Len))
	if err != nil {
		c.owed = append([]byte(nil), payload[:used]...)
		return 0, err
	}
	return used, nil
}

// send sends the first bytes of a room.
func (c *Conn) send(room *room, count int) error {
	c.pending, c.pendingRoom = room.bytes[:count], room
	return c.flush()
}

// flush sends what is sealed and not sent yet.
func (c *Conn) flush() error {
	for len(c.pending) > 0 {
		n, err := c.conn.Write(c.pending)
		c.pending = c.pending[n:]
		if err != nil {
			return c.failed(err)
		}
	}
	if c.pendingRoom != nil {
		c.pendingRoom.free(0)
	}
	c.pending, c.pendingRoom = nil, nil
	return nil
}

// failed returns why nothing more was sent, after an error of the connection below.
func (c *Conn) failed(err error) error {
	c.belowErr = err
	if broken := c.broken.Load(); broken != nil {
		err = *broken
	} else if c.closed.Load() {
		err = net.ErrClosed
	} else if errors.Is(err, io.EOF) { // that of the other party's stream alone is io.EOF
		err = &lostError{err}
	}
	if !isDeadline(c.belowErr) {
		c.outErr = err
	}
	return err
}

// CloseWrite runs the handshake, if that wasn't done, and sends the end of this party's stream: the other party's Read
// returns io.EOF. What that party writes can still be read. After a Write that has failed at a deadline, and has sealed
// bytes that it hasn't counted, it returns ErrUnfinished, and sends no end, until a Write has succeeded.
func (c *Conn) CloseWrite() error {
	if err := c.Handshake(); err != nil {
		return err
	}
	c.out.Lock()
	defer c.out.Unlock()
	if err := c.mayWrite(); err != nil {
		return err
	}
	if len(c.owed) > 0 {
		return ErrUnfinished
	}
	return c.sendEnd()
}

// sendEnd sends the end, unless that was done.
func (c *Conn) sendEnd() error {
	room, result := newRoom(0), &c.sender.result
	code := library.StreamEnd(&c.sender.opaque, place(room.bytes), uint(len(room.bytes)), result)
	if code != 0 {
		room.free(0)
		if code == codeClosed {
			return nil
		}
		return Code(code)
	}
	c.isUnfinished = false
	err := c.send(room, int(result.Len))
	c.isEnded = err == nil
	return err
}

// LocalAddr returns that of the connection below.
func (c *Conn) LocalAddr() net.Addr {
	if c.conn == nil {
		return nil
	}
	return c.conn.LocalAddr()
}

// RemoteAddr returns that of the connection below.
func (c *Conn) RemoteAddr() net.Addr {
	if c.conn == nil {
		return nil
	}
	return c.conn.RemoteAddr()
}

// SetDeadline sets both deadlines.
func (c *Conn) SetDeadline(t time.Time) error {
	if c.conn == nil {
		return errZeroConn
	}
	err := c.conn.SetDeadline(t)
	c.isStuck.Store(false)
	c.keepWriteDeadline(t)
	return err
}

// SetReadDeadline sets the deadline of Read, also for messages of the handshake that a Read or a Write waits for. After
// one that has passed the channel is still usable, also if it has passed in the handshake.
func (c *Conn) SetReadDeadline(t time.Time) error {
	if c.conn == nil {
		return errZeroConn
	}
	err := c.conn.SetReadDeadline(t)
	c.isStuck.Store(false)
	return err
}

// SetWriteDeadline sets the deadline of Write, also for messages of the handshake that a Read or a Write sends: it
// doesn't limit how long a Write waits for the other party's messages of the handshake, as SetReadDeadline and
// Config.HandshakeTimeout do. After one that has passed the channel is still usable.
func (c *Conn) SetWriteDeadline(t time.Time) error {
	if c.conn == nil {
		return errZeroConn
	}
	err := c.conn.SetWriteDeadline(t)
	c.keepWriteDeadline(t)
	return err
}

func (c *Conn) keepWriteDeadline(t time.Time) {
	if t.IsZero() {
		c.writeDeadline.Store(nil)
		return
	}
	c.writeDeadline.Store(&t)
}

// NetConn returns the connection below. To read from it or write to it breaks the channel.
func (c *Conn) NetConn() net.Conn { return c.conn }

// isDeadline reports whether an error of the connection below says that a deadline has passed, after which the
// connection is still usable.
func isDeadline(err error) bool {
	var t net.Error
	return errors.As(err, &t) && t.Timeout() && !errors.Is(err, syscall.ETIMEDOUT)
}
