package noise

import (
	"context"
	"errors"
	"io"
	"net"
	"time"

	"example.org/yulimosar/noise/internal/library"
)

// Handshake runs the handshake, if that wasn't done.
func (c *Conn) Handshake() error { return c.HandshakeContext(context.Background()) }

// HandshakeContext runs the handshake, if that wasn't done, or waits for another goroutine that runs it. If the context
// ends first, it closes the connection, and returns the context's error.
//
// A deadline of the connection that passes ends this call alone: a later one continues. After any other error the
// connection below is closed, and each later call returns that error.
func (c *Conn) HandshakeContext(ctx context.Context) error {
	switch {
	case c.handshakeDone.Load():
		return nil
	case c.conn == nil:
		return errZeroConn
	}
	if err := c.takeTurn(ctx); err != nil {
		return err
	}
	defer c.endTurn()
	if c.handshakeDone.Load() || c.handshakeErr != nil {
		return c.handshakeErr
	}
	err, isFinal := c.runUnder(ctx)
	switch {
	case err == nil:
		c.handshake = nil
		c.handshakeDone.Store(true)
		c.stateMutex.Lock()
		c.state.HandshakeComplete = true
		c.stateMutex.Unlock()
	case isFinal:
		c.fail(err)
	}
	return err
}

// takeTurn waits until no other goroutine runs the handshake.
func (c *Conn) takeTurn(ctx context.Context) error {
	if c.closed.Load() {
		return net.ErrClosed
	}
	err := ctx.Err()
	if err == nil {
		select {
		case c.handshaking <- struct{}{}:
			return nil
		case <-c.closing:
			return net.ErrClosed
		case <-ctx.Done():
			err = ctx.Err()
		}
	}
	c.closeBelow()
	return err
}

func (c *Conn) endTurn() {
	<-c.handshaking
	if c.closed.Load() {
		c.wipe()
	}
}

// fail ends the handshake, and tells ErrorLog.
func (c *Conn) fail(err error) {
	c.handshakeErr = err
	if c.handshake != nil {
		c.handshake.Close()
		c.handshake = nil
	}
	c.came.drop()
	c.closeBelow()
	if c.config.ErrorLog != nil && err != net.ErrClosed {
		c.config.ErrorLog.Printf("noise: handshake with %v: %s", c.conn.RemoteAddr(), withoutName(err))
	}
}

// runUnder runs the handshake under a context that ends with ctx, at the time limit, and at Close. It also says
// whether an error is final.
func (c *Conn) runUnder(ctx context.Context) (err error, isFinal bool) {
	inner, cancel := context.WithCancel(ctx)
	defer cancel()
	inner, stopTimer := c.limited(inner)
	c.cancelAtClose(cancel)
	stop := c.closeAtEndOf(ctx)
	if !c.closed.Load() {
		err = c.run(inner)
	}
	hasEnded, isSlow := stop(), !stopTimer()
	c.cancelAtClose(nil)
	switch {
	case c.closed.Load():
		return net.ErrClosed, true
	case hasEnded || err != nil && ctx.Err() != nil && errors.Is(err, ctx.Err()): // perhaps from a function of Config
		return ctx.Err(), true
	case isSlow:
		return ErrHandshakeTimeout, true
	}
	mayContinue := isDeadline(err) && (c.handshake == nil || c.handshake.ended == nil)
	return err, !mayContinue
}

// limited ends a context at the time limit, and closes the connection below then, until its second result is called.
// That reports whether it was in time.
func (c *Conn) limited(ctx context.Context) (context.Context, func() bool) {
	if c.limit <= 0 {
		return ctx, func() bool { return true }
	}
	if c.mustEnd.IsZero() {
		c.mustEnd = time.Now().Add(c.limit)
	}
	ctx, cancel := context.WithDeadline(ctx, c.mustEnd)
	timer := time.AfterFunc(time.Until(c.mustEnd), func() { c.closeBelow() })
	return ctx, func() bool {
		isLate := errors.Is(ctx.Err(), context.DeadlineExceeded)
		cancel()
		return timer.Stop() && !isLate
	}
}

func (c *Conn) cancelAtClose(cancel context.CancelFunc) {
	c.stateMutex.Lock()
	defer c.stateMutex.Unlock()
	c.cancel = cancel
}

// closeAtEndOf closes the connection below when the context ends, until its result is called. That reports
// whether it has closed it.
func (c *Conn) closeAtEndOf(ctx context.Context) func() bool {
	if ctx.Done() == nil {
		return func() bool { return false }
	}
	stop, stopped := make(chan struct{}), make(chan bool, 1)
	go func() {
		select {
		case <-ctx.Done():
			c.closeBelow()
			stopped <- true
		case <-stop:
			stopped <- false
		}
	}()
	return func() bool { close(stop); return <-stopped }
}

// run passes the messages that are due.
func (c *Conn) run(ctx context.Context) error {
	for {
		if err := c.flush(); err != nil {
			return err
		}
		h := c.handshake
		switch {
		case h != nil && h.ended != nil:
			return h.ended
		case h != nil && h.Done():
			return c.finish()
		}
		pass := c.readMessage
		if h == nil && c.isFirst || h != nil && h.WritesNext() {
			pass = c.writeMessage
		}
		if err := pass(ctx); err != nil {
			return err
		}
	}
}

// begin draws the ephemeral key, if that wasn't done.
func (c *Conn) begin() (*HandshakeState, error) {
	if c.handshake == nil {
		h, err := ofConn(c.config, c.isFirst, c.conn)
		if err != nil {
			return nil, err
		}
		c.handshake = h
	}
	return c.handshake, nil
}

func (c *Conn) writeMessage(ctx context.Context) error {
	h, err := c.begin()
	if err != nil {
		return err
	}
	payload, err := c.payload(ctx, h)
	if err != nil {
		return h.end("", err)
	}
	frame, err := h.WriteMessageContext(ctx, make([]byte, 2, 256), payload)
	if err != nil {
		return err
	}
	var result library.StreamResult
	if code := library.FrameMessage(place(frame), uint(len(frame)), uint(len(frame)-2), &result); code != 0 {
		return h.end("", Code(code))
	}
	c.pending = frame[:result.Len]
	c.keepPayload(nil)
	return nil
}

// payload returns that of the message that is due.
func (c *Conn) payload(ctx context.Context, h *HandshakeState) ([]byte, error) {
	index := h.MessageIndex()
	if c.config.PayloadFor == nil {
		if index < len(c.config.Payloads) {
			return c.config.Payloads[index], nil
		}
		return nil, nil
	}
	peer := Peer{Message: index, Addr: c.conn.RemoteAddr()}
	peer.Static, _ = h.PeerStatic()
	if index > 0 {
		peer.Payload = c.ConnectionState().Payloads[index-1]
	}
	return c.config.PayloadFor(ctx, peer)
}

func (c *Conn) readMessage(ctx context.Context) error {
	message, used, err := c.receiveMessage()
	if err != nil {
		return err
	}
	h, err := c.begin()
	if err != nil {
		return err
	}
	payload, err := h.ReadMessageContext(ctx, []byte{}, message)
	if err != nil {
		return err
	}
	c.came.start += used
	c.came.settle()
	c.keepPayload(payload)
	return nil
}

// receiveMessage returns the next message of the handshake, and how many bytes its frame has.
func (c *Conn) receiveMessage() (message []byte, used int, err error) {
	var result library.StreamResult
	index, most := c.mostOfMessage()
	for {
		left := c.came.left()
		code := library.FrameFind(place(left), uint(len(left)), &result)
		if code == 0 && int(result.Len) <= most {
			return left[result.From : result.From+result.Len], int(result.Used), nil
		}
		count := int(result.Len)
		if code != 0 {
			count = len(left) + int(result.Wanted) - 2
		}
		if code == 0 || len(left) >= 2 && count > most {
			return nil, 0, &HandshakeError{Message: index + 1, Err: &tooLong{count, most}}
		}
		err := c.came.from(c.conn, int(result.Wanted))
		switch {
		case err == io.EOF:
			return nil, 0, &HandshakeError{Message: index + 1, Err: ErrCut}
		case err != nil && !isDeadline(err):
			return nil, 0, &HandshakeError{Message: index + 1, Err: &lostError{err}}
		case err != nil:
			return nil, 0, err
		}
	}
}

// mostOfMessage returns the index of the message that is due, and how long it may be.
func (c *Conn) mostOfMessage() (index, most int) {
	if c.handshake != nil {
		index = c.handshake.MessageIndex()
	}
	if c.config.MaxHandshakeMessage > 0 {
		return index, c.config.MaxHandshakeMessage
	}
	return index, patternOf(c.config.pattern()).messages[index].least + 4096
}

// keepPayload notes a message in the state.
func (c *Conn) keepPayload(payload []byte) {
	c.stateMutex.Lock()
	defer c.stateMutex.Unlock()
	c.state.Payloads = append(c.state.Payloads, payload)
}

// finish makes the two directions of the stream.
func (c *Conn) finish() error {
	h := c.handshake
	hash := h.HandshakeHash()
	key, isKnown := h.PeerStatic()
	if err := h.splitStream(&c.sender, &c.receiver); err != nil {
		return err
	}
	c.came.first = 1
	c.stateMutex.Lock()
	defer c.stateMutex.Unlock()
	if c.state.HandshakeHash = hash; isKnown {
		c.state.PeerStatic = &key
	}
	return nil
}
