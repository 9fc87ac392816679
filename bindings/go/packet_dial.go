package noise

import (
	"context"
	"errors"
	"net"
	"sync"
	"time"
)

// DialPacket makes a session with a responder over datagrams, on a network as "udp", as docs/UDP.md says. A
// *ConfigError says what is wrong with the Config; ErrHandshakeTimeout, that no right answer has come in 10 seconds, or
// those of Config.HandshakeTimeout.
func DialPacket(network, address string, config *Config) (*PacketSession, error) {
	return PacketConfig{Config: config}.Dial(context.Background(), network, address)
}

// Dial is DialPacket with these settings; the handshake ends with the context.
func (p PacketConfig) Dial(ctx context.Context, network, address string) (*PacketSession, error) {
	if _, err := p.checked(true); err != nil {
		return nil, err
	}
	to, err := net.ResolveUDPAddr(network, address)
	if err != nil {
		return nil, err
	}
	if to.IP == nil || to.IP.Equal(net.IPv4zero) {
		to.IP = net.IPv4(127, 0, 0, 1) // this system, as net.Dial has it: its answers come from there
	} else if to.IP.IsUnspecified() {
		to.IP = net.IPv6loopback
	}
	if network = "udp6"; to.IP.To4() != nil {
		network = "udp4"
	}
	conn, err := net.ListenPacket(network, ":0")
	if err != nil {
		return nil, err
	}
	return p.Client(ctx, conn, to)
}

// Client makes a session with the responder at an address over a socket, which it reads, and closes with the session or
// at an error.
func (p PacketConfig) Client(ctx context.Context, conn net.PacketConn, to net.Addr) (*PacketSession, error) {
	p, err := p.checked(true)
	if err != nil {
		conn.Close()
		return nil, err
	}
	limited, cancel := ctx, context.CancelFunc(func() {})
	if limit := p.limit(); limit > 0 {
		limited, cancel = context.WithTimeout(ctx, limit)
	}
	defer cancel()
	c := &packetClient{conn: conn, to: to, settings: p, context: limited, made: make(chan struct{})}
	s, err := c.run()
	if err != nil {
		conn.Close()
		if ctx.Err() == nil && limited.Err() != nil {
			err = c.tooSlow()
		}
		return nil, err
	}
	return s, nil
}

// packetClient is an initiator's handshakes and, at last, its session.
type packetClient struct {
	conn     net.PacketConn
	to       net.Addr
	settings PacketConfig
	context  context.Context // of the handshake
	made     chan struct{}   // closed once there is a session, or the socket has failed
	mutex    sync.Mutex
	tried    []*packetChannel
	since    time.Time // when the last handshake was begun
	session  *PacketSession
	err      error // of the socket
	fault    error // why a message was refused
	isOver   bool
	wantsIt  bool // whether the responder wants a cookie
	answered bool // whether any message was accepted
}

// run runs handshakes until one is established.
func (c *packetClient) run() (*PacketSession, error) {
	defer c.over()
	if err := c.try(); err != nil {
		return nil, err
	}
	go c.readAll()
	again := time.NewTicker(resendAfter)
	defer again.Stop()
	for {
		select {
		case <-c.context.Done():
			return nil, c.context.Err()
		case <-c.made:
			c.mutex.Lock()
			defer c.mutex.Unlock()
			return c.session, c.err
		case <-again.C:
			if err := c.repeat(); err != nil {
				return nil, err
			}
		}
	}
}

// over ends what has no session.
func (c *packetClient) over() {
	c.mutex.Lock()
	defer c.mutex.Unlock()
	c.isOver = true
	for _, channel := range c.tried {
		channel.close()
	}
	c.tried = nil
}

// try begins a handshake, beside those that aren't answered.
func (c *packetClient) try() error {
	channel, err := newPacketChannel(c.context, c.settings.Config, true, c.settings.Window, c.to)
	if err != nil {
		return err
	}
	c.mutex.Lock()
	defer c.mutex.Unlock()
	if c.isOver || c.session != nil {
		channel.close()
		return nil
	}
	if len(c.tried) >= mostTried {
		c.tried[0].close()
		c.tried = c.tried[1:]
	}
	c.tried, c.since = append(c.tried, channel), time.Now()
	c.flush(channel)
	return nil
}

// holds reports whether the last message of a handshake was read: only that one is left then.
func (c *packetClient) holds() bool {
	return len(c.tried) == 1 && c.tried[0].isDone && !c.tried[0].writesLast()
}

// holdTo closes the others: this one's empty datagram may replace a session of theirs at the responder.
func (c *packetClient) holdTo(channel *packetChannel) {
	for _, other := range c.tried {
		if other != channel {
			other.close()
		}
	}
	c.tried, c.since = []*packetChannel{channel}, time.Now()
}

// repeat sends again what isn't answered; of what nobody has answered at all, the newest alone.
func (c *packetClient) repeat() error {
	c.mutex.Lock()
	isDue := time.Since(c.since) >= restartAfter
	if c.holds() {
		if isDue = time.Since(c.since) >= aloneFor; isDue {
			c.tried[0].close()
			c.tried = nil
		}
	}
	for i, channel := range c.tried {
		if channel.accepted > 0 || i == len(c.tried)-1 && !isDue {
			channel.repeat()
			c.flush(channel)
		}
	}
	c.mutex.Unlock()
	if isDue { // the responder may have forgotten the others
		return c.try()
	}
	return nil
}

func (c *packetClient) flush(channel *packetChannel) {
	for _, datagram := range channel.toSend() {
		c.conn.WriteTo(datagram, c.to)
	}
}

// readAll takes datagrams of the responder until the socket is closed.
func (c *packetClient) readAll() {
	room := make([]byte, 65536)
	for faults := 0; ; {
		n, from, err := c.conn.ReadFrom(room)
		switch {
		case err == nil:
			if faults = 0; isSameAddr(from, c.to) {
				c.take(append([]byte(nil), room[:n]...))
			}
		case errors.Is(err, net.ErrClosed) || faults >= 100:
			c.fail(err)
			return
		default: // of one datagram, as of a port where nobody listens yet
			faults++
			time.Sleep(time.Millisecond)
		}
	}
}

func isSameAddr(one, other net.Addr) bool {
	a, errOne := addrPort(one)
	b, errOther := addrPort(other)
	if errOne != nil || errOther != nil {
		return one.String() == other.String()
	}
	return a == b
}

// fail ends the session, or the handshake, with the socket.
func (c *packetClient) fail(err error) {
	c.mutex.Lock()
	defer c.mutex.Unlock()
	if c.session != nil {
		c.session.end(&packetError{"the socket: " + err.Error(), err})
	} else if c.err == nil {
		c.err = err
		close(c.made)
	}
}

func (c *packetClient) take(datagram []byte) {
	c.mutex.Lock()
	session := c.session
	if session == nil {
		defer c.mutex.Unlock()
		c.shake(datagram)
		return
	}
	c.mutex.Unlock()
	if kindOf(datagram, 0) == kindTransport {
		session.receive(datagram, c.to)
	}
}

// shake passes a datagram to the handshakes.
func (c *packetClient) shake(datagram []byte) {
	isTransport := kindOf(datagram, len(c.settings.pattern().messages)) == kindTransport
	for _, channel := range c.tried {
		if isTransport {
			if payload, isOpen, _ := channel.open(datagram); isOpen {
				c.connect(channel, payload)
				return
			}
			continue
		}
		wasDone := channel.isDone
		channel.take(c.context, datagram)
		if channel.fault != nil {
			c.fault = channel.fault
		}
		c.wantsIt, c.answered = c.wantsIt || channel.cookie != nil, c.answered || channel.accepted > 0
		c.flush(channel)
		if !wasDone && channel.isDone && !channel.writesLast() {
			c.holdTo(channel)
			return
		}
	}
}

// connect makes the session of a handshake whose keys have opened a datagram. The others are closed.
func (c *packetClient) connect(channel *packetChannel, payload []byte) {
	c.flush(channel)
	for _, other := range c.tried {
		if other != channel {
			other.close()
		}
	}
	c.tried = nil
	c.session = newPacketSession(c.conn, channel, c.to, func(*PacketSession) { c.conn.Close() })
	c.session.deliver(payload)
	close(c.made)
	if c.settings.Idle > 0 {
		go c.session.watch(c.settings.Idle)
	}
}

// watch ends the session when it is silent.
func (s *PacketSession) watch(idle time.Duration) {
	every := time.NewTicker(watchEvery(idle))
	defer every.Stop()
	for {
		select {
		case <-s.over:
			return
		case <-every.C:
			if s.isSilent(idle) {
				s.forget(s)
				return
			}
		}
	}
}

// tooSlow returns the error of a handshake that took too long, with what is known of why.
func (c *packetClient) tooSlow() error {
	c.mutex.Lock()
	defer c.mutex.Unlock()
	switch {
	case c.fault != nil:
		return &slowError{c.fault}
	case c.wantsIt && !c.answered:
		return &slowError{errCookie}
	}
	return ErrHandshakeTimeout
}

// slowError is ErrHandshakeTimeout with a reason.
type slowError struct{ cause error }

func (e *slowError) Error() string { return ErrHandshakeTimeout.Error() + ": " + withoutName(e.cause) }
func (e *slowError) Is(target error) bool {
	return target == ErrHandshakeTimeout || errors.Is(ErrHandshakeTimeout, target)
}
func (e *slowError) Unwrap() error   { return withoutEOF(e.cause) }
func (e *slowError) Timeout() bool   { return true }
func (e *slowError) Temporary() bool { return false }

func (p *PacketConfig) pattern() *pattern { return patternOf(p.Config.pattern()) }
