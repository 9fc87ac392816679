package noise

import (
	"net"
	"sync/atomic"
	"time"
)

const (
	endTime   = 5 * time.Second        // how long Close waits until the end is sent, and for a Write that runs before
	turnTime  = time.Second            // how long it waits for a Read that ends at no deadline
	drainTime = time.Millisecond       // how long it waits for bytes that nobody has read
	drainMore = 10 * time.Millisecond  // the same, once some have come
	drainMost = 100 * time.Millisecond // how long it takes them, or so many times:
	drainRead = 64                     // on a busy machine a few take longer
)

var longAgo = time.Unix(1, 0)

// Close sends the end of the stream, for which it waits at most 5 seconds, closes the connection below, and overwrites
// the keys. It ends a Write or a CloseWrite that waits for the other party, and waits as long for one that is just
// returning.
// It sends no end, and returns ErrNoEnd, if the last Write has failed or was ended, if the last Read has failed, or
// after what Conn says; the other party's Read returns ErrCut then. After a CloseWrite that has succeeded, where there
// was no handshake, and where the other party has ended its stream and closed, it returns only what closing the
// connection below returns. If the stream isn't whole for another reason, call Abort.
//
// Bytes that have come and that nobody has read are taken first, until nothing comes for 10 milliseconds, and for a
// second at most beside the time in which other programs have the processor: a system resets a TCP connection that is
// closed before them, and what was written last is lost then. It also resets one over which more comes later, of which
// Close can't know: where the other party may still be writing, read to io.EOF before Close.
func (c *Conn) Close() error {
	if c.conn == nil {
		return errZeroConn
	}
	if c.closed.Swap(true) {
		return net.ErrClosed
	}
	err := c.end()
	if err == nil {
		c.drain()
	}
	if closing := c.shut(); err == nil {
		err = closing
	}
	return err
}

// closesAfter closes the connection below after a time, for connections whose deadlines end no call, unless its result
// is called before. That reports whether it was in time. The time has ten parts, and each begins when this process
// runs: it doesn't pass while other programs have the processor.
func (c *Conn) closesAfter(limit time.Duration) (stop func() bool) {
	var isOver atomic.Bool
	stopped := make(chan struct{})
	go func() {
		for part := 0; part < 10; part++ {
			timer := time.NewTimer(limit / 10)
			select {
			case <-timer.C:
			case <-stopped:
				timer.Stop()
				return
			}
		}
		if isOver.CompareAndSwap(false, true) {
			c.closeBelow()
		}
	}()
	return func() bool {
		isFirst := isOver.CompareAndSwap(false, true)
		if isFirst {
			close(stopped)
		}
		return isFirst
	}
}

// end sends the end of the stream for Close.
func (c *Conn) end() error {
	if !c.handshakeDone.Load() {
		return nil
	}
	if !c.out.TryLock() { // a Write or a CloseWrite is running, or has sent all and is returning
		c.conn.SetWriteDeadline(longAgo)
		stop := c.closesAfter(endTime)
		c.out.Lock()
		stop()
	}
	defer c.out.Unlock()
	broken := c.broken.Load()
	switch {
	case c.isEnded || !c.isFirst && c.isOneWay:
		return nil
	case broken != nil:
		return &noEndError{*broken}
	case c.outErr != nil:
		return &noEndError{c.outErr}
	case c.isUnfinished || c.isStuck.Load():
		return ErrNoEnd
	}
	c.conn.SetWriteDeadline(time.Now().Add(endTime))
	stop := c.closesAfter(endTime)
	err := c.flush()
	if err == nil {
		err = c.sendEnd()
	}
	isInTime := stop()
	if err == nil || c.hasEnd.Load() && isInTime && !isDeadline(c.belowErr) {
		return nil // or the other party has ended its stream and closed, so nobody is there to read this end
	}
	return &noEndError{err}
}

// drain takes what has come and nobody has read.
func (c *Conn) drain() {
	if !c.handshakeDone.Load() || c.isMute || c.hasEnd.Load() {
		return
	}
	if c.conn.SetReadDeadline(longAgo) != nil { // this ends a Read that is running
		return
	}
	room := newRoom(len(roomSizes) - 1)
	defer room.free(0)
	stop := c.closesAfter(turnTime) // where no deadline ends a Read
	defer stop()
	c.in.Lock()
	defer c.in.Unlock()
	if _, err := c.conn.Read(room.bytes); isDeadline(err) {
		stop() // one does, so nothing is closed while this process waits for the processor
	}
	wait, begun := drainTime, time.Now()
	for reads, tries := 0, 0; tries < 10 && (reads < drainRead || time.Since(begun) < drainMost); reads++ {
		until := time.Now().Add(wait)
		c.conn.SetReadDeadline(until)
		isEarly := time.Now().Before(until) // a Read that begins after its deadline doesn't look at what has come
		n, err := c.conn.Read(room.bytes)
		switch {
		case n > 0: // more may be on its way
			wait = drainMore
		case !isDeadline(err) || isEarly && time.Now().Before(until.Add(drainTime)):
			return
		default: // other programs had the processor: what is there isn't known yet
			tries++
		}
	}
}

// Abort closes the connection below, and overwrites the keys. It sends no end, so the other
// party's Read returns ErrCut.
func (c *Conn) Abort() error {
	if c.conn == nil {
		return errZeroConn
	}
	if c.closed.Swap(true) {
		return net.ErrClosed
	}
	return c.shut()
}

// shut is what Close and Abort have in common. It doesn't wait for a handshake that is running.
func (c *Conn) shut() error {
	close(c.closing)
	c.stateMutex.Lock()
	if c.cancel != nil {
		c.cancel()
	}
	c.stateMutex.Unlock()
	err := c.closeBelow() // ends each Read and Write that is running
	c.wipe()
	return err
}

// wipe overwrites the keys, unless a goroutine runs the handshake: at its end that goroutine does it.
func (c *Conn) wipe() {
	select {
	case c.handshaking <- struct{}{}:
		defer func() { <-c.handshaking }()
	default:
		return
	}
	if c.handshake != nil {
		c.handshake.Close()
		c.handshake = nil
	}
	if !c.handshakeDone.Load() && c.handshakeErr == nil {
		c.handshakeErr = net.ErrClosed
	}
	c.out.Lock()
	defer c.out.Unlock()
	c.in.Lock()
	defer c.in.Unlock()
	c.sender.wipe()
	c.receiver.wipe()
	c.came.drop()
	wipe(c.owed)
	c.rest, c.inErr = nil, net.ErrClosed
	c.pending, c.pendingRoom, c.owed, c.outErr = nil, nil, nil, net.ErrClosed
}
