package noise

import (
	"container/list"
	"context"
	"errors"
	"net"
	"sync"
	"time"
)

// PacketListener accepts sessions over the datagrams of one socket, as the responder. It is a net.Listener.
type PacketListener struct {
	conn     net.PacketConn
	settings PacketConfig
	pattern  *pattern
	context  context.Context // ends when the listener is closed
	cancel   context.CancelFunc
	accepted chan *PacketSession
	mutex    sync.Mutex
	begun    map[begunKey]*begunPackets
	order    *list.List // of *begunPackets, the oldest first
	at       map[string]map[*begunPackets]bool
	done     map[packetIndex]*begunPackets
	sessions map[packetIndex]*PacketSession
	firsts   map[string]*PacketSession // by message 0
	cookies  cookies
	rate     hostRate
	start    time.Time
	told     time.Time // when ErrorLog got its last line of a refusal
	hasTold  bool      // whether it has a line on answers that need a cookie
	err      error     // why it is closed
}

type begunKey struct{ addr, first string }

// begunPackets is a handshake of a responder that isn't established.
type begunPackets struct {
	key        begunKey
	addr       net.Addr
	host       string
	element    *list.Element
	cancel     context.CancelFunc
	in         chan arrival
	isDone     bool // all messages have passed; guarded by the listener's mutex, as index is
	index      packetIndex
	came, sent int
	isShown    bool // the address has shown that it gets what is sent to it
}

// arrival is a datagram that came.
type arrival struct {
	datagram []byte
	from     net.Addr
	came     int // the bytes that count for message 0
}

// ListenPacket listens for datagrams on a network as "udp", and accepts sessions as the responder, as docs/UDP.md says.
// A *ConfigError says what is wrong with the Config.
func ListenPacket(network, address string, config *Config) (*PacketListener, error) {
	return PacketConfig{Config: config}.Listen(network, address)
}

// Listen is ListenPacket with these settings.
func (p PacketConfig) Listen(network, address string) (*PacketListener, error) {
	if _, err := p.checked(false); err != nil {
		return nil, err
	}
	conn, err := net.ListenPacket(network, address)
	if err != nil {
		return nil, err
	}
	return p.Listener(conn)
}

// Listener accepts sessions over a socket, which it reads and at last closes.
func (p PacketConfig) Listener(conn net.PacketConn) (*PacketListener, error) {
	p, err := p.checked(false)
	if err != nil {
		return nil, err
	}
	l := &PacketListener{
		conn: conn, settings: p, pattern: patternOf(p.Config.pattern()),
		accepted: make(chan *PacketSession, p.MaxSessions), begun: map[begunKey]*begunPackets{}, order: list.New(),
		at: map[string]map[*begunPackets]bool{}, done: map[packetIndex]*begunPackets{},
		sessions: map[packetIndex]*PacketSession{}, firsts: map[string]*PacketSession{},
		cookies: cookies{draw: drawSecret}, start: time.Now(),
	}
	l.context, l.cancel = context.WithCancel(context.Background())
	go l.readAll()
	if p.Idle > 0 {
		go l.watch()
	}
	return l, nil
}

// Accept returns the next *PacketSession: one whose other party has shown that it has the keys.
func (l *PacketListener) Accept() (net.Conn, error) {
	s, err := l.AcceptSession()
	if err != nil {
		return nil, err
	}
	return s, nil
}

// AcceptSession is Accept with the session's type.
func (l *PacketListener) AcceptSession() (*PacketSession, error) {
	if l.conn == nil {
		return nil, errZeroListener
	}
	select {
	case s := <-l.accepted:
		return s, nil
	case <-l.context.Done():
		l.mutex.Lock()
		defer l.mutex.Unlock()
		return nil, l.err
	}
}

// Addr returns the address of the socket.
func (l *PacketListener) Addr() net.Addr {
	if l.conn == nil {
		return nil
	}
	return l.conn.LocalAddr()
}

// Close closes the socket, and with it all sessions.
func (l *PacketListener) Close() error {
	if l.conn == nil {
		return errZeroListener
	}
	if !l.end(net.ErrClosed) {
		return net.ErrClosed
	}
	return l.conn.Close()
}

// end ends the listener and its sessions, and reports whether they weren't ended before.
func (l *PacketListener) end(why error) bool {
	l.mutex.Lock()
	defer l.mutex.Unlock()
	if l.err != nil {
		return false
	}
	l.err = why
	l.cancel()
	for _, s := range l.sessions {
		s.end(why)
	}
	l.sessions, l.firsts = map[packetIndex]*PacketSession{}, map[string]*PacketSession{}
	return true
}

// readAll takes datagrams until the socket is closed. An error of one datagram, as of a port where nobody listens,
// isn't one of the socket.
func (l *PacketListener) readAll() {
	room := make([]byte, 65536)
	for faults := 0; ; {
		n, from, err := l.conn.ReadFrom(room)
		switch {
		case err == nil:
			faults = 0
			l.take(append([]byte(nil), room[:n]...), from)
		case errors.Is(err, net.ErrClosed) || faults >= 100:
			l.end(&packetError{"the socket: " + err.Error(), err})
			return
		default:
			faults++
			time.Sleep(time.Millisecond)
		}
	}
}

func (l *PacketListener) take(datagram []byte, from net.Addr) {
	switch kind := kindOf(datagram, len(l.pattern.messages)); {
	case kind == kindTransport:
		l.takeTransport(datagram, from)
	case kind == kindWithCookie:
		l.takeFirst(datagram[1+cookieLen:], datagram[1:1+cookieLen], from)
	case kind == kindMessage && datagram[0] == 0:
		l.takeFirst(datagram[1:], nil, from)
	case kind == kindMessage:
		l.mutex.Lock()
		for b := range l.at[from.String()] {
			b.offer(arrival{datagram, from, 0})
		}
		l.mutex.Unlock()
	}
}

// offer passes a datagram to a handshake that has time for it. The listener's mutex is held.
func (b *begunPackets) offer(a arrival) {
	select {
	case b.in <- a:
	default:
	}
}

// takeTransport passes a transport datagram to the session of its index, wherever it comes from.
func (l *PacketListener) takeTransport(datagram []byte, from net.Addr) {
	var index packetIndex
	copy(index[:], datagram[1:])
	l.mutex.Lock()
	s, b := l.sessions[index], l.done[index]
	if s == nil && b != nil {
		b.offer(arrival{datagram, from, 0})
	}
	l.mutex.Unlock()
	if s != nil {
		s.receive(datagram, from)
	}
}

// takeFirst takes message 0: the same again, or one that begins a handshake.
func (l *PacketListener) takeFirst(message, cookie []byte, from net.Addr) {
	if reply := l.replyTo(message, cookie, from); reply != nil {
		l.conn.WriteTo(reply, from)
	}
}

// replyTo returns the cookie reply to message 0, if that is what it gets.
func (l *PacketListener) replyTo(message, cookie []byte, from net.Addr) []byte {
	came := 1 + len(cookie) + len(message)
	key := begunKey{from.String(), string(message)}
	l.mutex.Lock()
	defer l.mutex.Unlock()
	if b := l.begun[key]; b != nil {
		b.offer(arrival{append([]byte{0}, message...), from, came})
		return nil
	}
	if l.err != nil || l.firsts[key.first] != nil || !l.isFitting(message) {
		return nil
	}
	now := time.Now()
	isShown := cookie != nil && l.cookies.accept(cookie, from, message, now)
	answer := l.answerLen()
	switch decideFirst(len(l.begun), l.settings.CookiesFrom, isShown, came, answer) {
	case answerMessage:
		if !isShown || l.rate.allow(hostOf(from), now.Sub(l.start)) {
			l.begin(key, message, from, came, isShown)
		}
	case answerCookie:
		l.tell(from, came, answer)
		if made := l.cookies.make(from, message, now); made != nil {
			return cookieReply(message, made)
		}
	}
	return nil
}

// isFitting reports whether a first message has a length that can be right.
func (l *PacketListener) isFitting(message []byte) bool {
	least := l.pattern.messages[0].least
	most := least + 4096
	if l.settings.Config.MaxHandshakeMessage > 0 {
		most = l.settings.Config.MaxHandshakeMessage
	}
	return least <= len(message) && len(message) <= most
}

// answerLen returns the length of the datagram with the second message; the greatest, where PayloadFor will say.
func (l *PacketListener) answerLen() int {
	config, length := l.settings.Config, 1+l.pattern.messages[1].least
	switch {
	case config.PayloadFor != nil:
		return maxPacketPayload
	case len(config.Payloads) > 1:
		return length + len(config.Payloads[1])
	}
	return length
}

// tell writes a line, once, where the first message needs a cookie because the answer is long.
func (l *PacketListener) tell(from net.Addr, came, answer int) {
	config := l.settings.Config
	if !l.hasTold && config.ErrorLog != nil && !maySend(came, 0, answer, false) {
		l.hasTold = true
		config.ErrorLog.Printf("noise: handshake with %v: it needs a cookie, as others will, since the first message "+
			"has %d bytes, and the answer may have more than %d times as many", from, came, mostTimes)
	}
}

// begin begins a handshake, which has a goroutine of its own: so nobody waits for a VerifyPeer of another.
func (l *PacketListener) begin(key begunKey, message []byte, from net.Addr, came int, isShown bool) {
	if len(l.begun) >= mostBegun {
		l.drop(l.givingWay())
	}
	b := &begunPackets{
		key: key, addr: from, host: hostOf(from), in: make(chan arrival, 8), came: came, isShown: isShown,
	}
	ctx := l.limited(b)
	l.begun[key], b.element = b, l.order.PushBack(b)
	if l.at[key.addr] == nil {
		l.at[key.addr] = map[*begunPackets]bool{}
	}
	l.at[key.addr][b] = true
	go l.shake(ctx, b, append([]byte{0}, message...))
}

// limited returns a context with the time that a handshake has. The mutex is held.
func (l *PacketListener) limited(b *begunPackets) (ctx context.Context) {
	if limit := l.settings.limit(); limit > 0 {
		ctx, b.cancel = context.WithTimeout(l.context, limit)
	} else {
		ctx, b.cancel = context.WithCancel(l.context)
	}
	return ctx
}

func (l *PacketListener) givingWay() *begunPackets {
	var all []halfDone
	var listed []*begunPackets
	for e := l.order.Front(); e != nil; e = e.Next() {
		b := e.Value.(*begunPackets)
		all, listed = append(all, halfDone{b.host, b.isDone}), append(listed, b)
	}
	return listed[givesWay(all)]
}

// drop forgets a handshake, and ends its goroutine. The mutex is held.
func (l *PacketListener) drop(b *begunPackets) {
	b.cancel()
	if l.begun[b.key] != b {
		return
	}
	delete(l.begun, b.key)
	l.order.Remove(b.element)
	if delete(l.at[b.key.addr], b); len(l.at[b.key.addr]) == 0 {
		delete(l.at, b.key.addr)
	}
	if b.isDone && l.done[b.index] == b {
		delete(l.done, b.index)
	}
}

// shake runs a handshake until it is established, given up or forgotten.
func (l *PacketListener) shake(ctx context.Context, b *begunPackets, first []byte) {
	channel, err := newPacketChannel(ctx, l.settings.Config, false, l.settings.Window, b.addr)
	if err == nil {
		if channel.take(ctx, first); channel.accepted == 0 {
			err = channel.fault
		}
	}
	if err != nil || channel == nil || channel.accepted == 0 {
		l.report(b.addr, err)
	} else if l.run(ctx, b, channel) {
		return
	}
	l.mutex.Lock()
	l.drop(b)
	l.mutex.Unlock()
	if channel != nil {
		channel.close()
	}
}

// run passes messages, and reports whether a session has come of the handshake.
func (l *PacketListener) run(ctx context.Context, b *begunPackets, channel *packetChannel) bool {
	again := time.NewTicker(resendAfter)
	defer again.Stop()
	for isNoted := false; ; {
		if channel.isDone && !isNoted {
			if ctx, isNoted = l.note(b, channel.index); !isNoted {
				return false
			}
		}
		b.flush(l.conn, channel)
		select {
		case <-ctx.Done():
			l.report(b.addr, channel.fault)
			return false
		case <-again.C:
			channel.repeat()
		case a := <-b.in:
			if a.datagram[0] == transportByte {
				if payload, isOpen, _ := channel.open(a.datagram); isOpen {
					return l.connect(b, channel, a.from, payload)
				}
				continue
			}
			b.came += a.came
			accepted := channel.accepted
			if channel.take(ctx, a.datagram); channel.accepted > accepted {
				b.isShown = true // it was made of what was sent to the address
			}
		}
	}
}

// flush sends what may be sent to the address.
func (b *begunPackets) flush(conn net.PacketConn, channel *packetChannel) {
	for _, datagram := range channel.toSend() {
		if maySend(b.came, b.sent, len(datagram), b.isShown) {
			b.sent += len(datagram)
			conn.WriteTo(datagram, b.addr)
		}
	}
}

// note notes the index of a handshake whose messages have all passed, and reports whether no other has it. Its time
// begins anew, since the other party may know of the session now.
func (l *PacketListener) note(b *begunPackets, index packetIndex) (ctx context.Context, isNoted bool) {
	l.mutex.Lock()
	defer l.mutex.Unlock()
	if l.begun[b.key] != b || l.sessions[index] != nil || l.done[index] != nil {
		return nil, false
	}
	b.isDone, b.index, l.done[index] = true, index, b
	b.cancel()
	return l.limited(b), true
}

// connect makes a session of a handshake whose keys have opened a datagram, and reports whether it did.
func (l *PacketListener) connect(b *begunPackets, channel *packetChannel, from net.Addr, payload []byte) bool {
	out := channel.toSend()
	s := newPacketSession(l.conn, channel, from, l.forget)
	l.mutex.Lock()
	if l.err != nil || l.begun[b.key] != b {
		l.mutex.Unlock()
		return false
	}
	l.drop(b)
	for other := range l.at[b.key.addr] {
		l.drop(other)
	}
	l.makeRoom(s, b.key.addr)
	l.sessions[channel.index], l.firsts[b.key.first] = s, s
	l.mutex.Unlock()
	for _, datagram := range out {
		l.conn.WriteTo(datagram, from)
	}
	s.deliver(payload)
	select {
	case l.accepted <- s:
	default:
		s.end(&packetError{"nobody has accepted it", nil})
		l.forget(s)
	}
	for {
		select {
		case a := <-b.in:
			if a.datagram[0] == transportByte {
				s.receive(a.datagram, a.from)
			}
		default:
			return true
		}
	}
}

// makeRoom ends the sessions that a new one replaces: of the same address and static key, or the longest silent. The
// address is that of the handshake, since anybody can send the first transport datagram in the name of another.
func (l *PacketListener) makeRoom(s *PacketSession, addr string) {
	var silent *PacketSession
	for _, other := range l.sessions {
		if other.RemoteAddr().String() == addr && isSameKey(s, other) {
			l.forgetHeld(other)
			other.end(&packetError{"a new session of its address and key has replaced it", nil})
		} else if silent == nil || other.silentSince().Before(silent.silentSince()) {
			silent = other
		}
	}
	if silent != nil && len(l.sessions) >= l.settings.MaxSessions {
		l.forgetHeld(silent)
		silent.end(&packetError{"it gave way to another, as the longest silent", nil})
	}
}

// isSameKey reports whether both have the same static key, or neither has one.
func isSameKey(one, other *PacketSession) bool {
	a, b := one.channel.state.PeerStatic, other.channel.state.PeerStatic
	return a == nil && b == nil || a != nil && b != nil && *a == *b
}

func (l *PacketListener) forget(s *PacketSession) {
	l.mutex.Lock()
	defer l.mutex.Unlock()
	l.forgetHeld(s)
}

func (l *PacketListener) forgetHeld(s *PacketSession) {
	if l.sessions[s.channel.index] == s {
		delete(l.sessions, s.channel.index)
		delete(l.firsts, string(s.first))
	}
}

// watch ends sessions that are silent.
func (l *PacketListener) watch() {
	every := time.NewTicker(watchEvery(l.settings.Idle))
	defer every.Stop()
	for {
		select {
		case <-l.context.Done():
			return
		case <-every.C:
		}
		l.mutex.Lock()
		for _, s := range l.sessions {
			if s.isSilent(l.settings.Idle) {
				l.forgetHeld(s)
			}
		}
		l.mutex.Unlock()
	}
}

func watchEvery(idle time.Duration) time.Duration {
	if idle/4 > resendAfter {
		return idle / 4
	}
	return resendAfter
}

// report writes a line of ErrorLog, at most one in a second, where VerifyPeer, PSKFor or the like has refused a
// message: that a stranger's message isn't right needs none.
func (l *PacketListener) report(from net.Addr, err error) {
	var refused *HandshakeError
	if err == nil || l.settings.Config.ErrorLog == nil || errors.As(err, &refused) && isCode(refused.Err) {
		return
	}
	l.mutex.Lock()
	isDue := time.Since(l.told) > time.Second
	if isDue {
		l.told = time.Now()
	}
	l.mutex.Unlock()
	if isDue {
		l.settings.Config.ErrorLog.Printf("noise: handshake with %v: %s", from, withoutName(err))
	}
}

func isCode(err error) bool {
	_, is := err.(Code)
	return is || errors.Is(err, ErrLowOrder)
}
