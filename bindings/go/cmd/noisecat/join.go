package main

import (
	"errors"
	"fmt"
	"io"
	"net"
	"os"
	"strings"
	"sync/atomic"
	"time"

	"example.org/yulimosar/noise"
)

// join joins standard input and output, or what -forward and -exec name, to a channel, or to several.
func join(o *options) error {
	config, err := o.config()
	if err != nil {
		return err
	}
	if o.progress != nil {
		defer o.progress.show()()
	}
	if o.connect != "" {
		o.warn()
		if o.local != "" {
			return o.near(config)
		}
		c, below, err := o.reach(config)
		if err != nil {
			return err
		}
		return o.carry(c, below, func() (*local, error) { return o.open(c) })
	}
	l, err := net.Listen("tcp", o.listen)
	if err != nil {
		return err
	}
	o.tell(l, o.listen)
	o.warn()
	return o.serve(l, config)
}

// tell says where a listener is, if that isn't known.
func (o *options) tell(l net.Listener, asked string) {
	if o.verbose || strings.HasSuffix(asked, ":0") {
		fmt.Fprintln(os.Stderr, "listening on", l.Addr()) // the first line
	}
}

// reach connects, and runs the handshake.
func (o *options) reach(config *noise.Config) (*noise.Conn, *counted, error) {
	tcp, err := net.DialTimeout("tcp", o.connect, o.timeout)
	if err != nil {
		return nil, nil, err
	}
	below := &counted{TCPConn: tcp.(*net.TCPConn), isShown: o.verbose}
	c, err := noise.Client(below, config)
	if err == nil {
		err = c.Handshake()
	}
	if err != nil {
		below.Close()
	}
	return c, below, err
}

var errIdle = errors.New("nothing has come or gone for the time that -idle names")

// carry joins a channel to a target, and moves what there is to send and what comes until both parties have sent all.
// Where the other party is noisecat too, each says that it has written out all, and only that is no fault. After a
// fault it resets the connection, so that the other party gets an error too.
func (o *options) carry(c *noise.Conn, below *counted, open func() (*local, error)) error {
	if o.verbose {
		s := c.ConnectionState()
		fmt.Fprintf(os.Stderr, "%s\nhandshake hash: %x\n", s.ProtocolName, s.HandshakeHash)
		if s.PeerStatic != nil {
			fmt.Fprintf(os.Stderr, "peer's key: %v\n", *s.PeerStatic)
		}
	}
	target, err := open()
	if err == nil {
		if o.progress != nil {
			target = o.progress.over(target)
		}
		err = o.move(c, below, target)
		if closing := target.close(err == nil); err == nil {
			err = closing
		}
	}
	if err != nil {
		below.SetLinger(0)
		c.Abort()
		return err
	}
	c.Close() // the end was sent before
	return nil
}

// move moves both directions.
func (o *options) move(c *noise.Conn, below *counted, target *local) error {
	send, receive := plainSend, plainReceive
	hasRecords := isNoisecat(c)
	if hasRecords {
		r := newRecords(c)
		send = func(_ *noise.Conn, from io.Reader) error {
			_, err := io.CopyBuffer(struct{ io.Writer }{r}, struct{ io.Reader }{from}, make([]byte, recordMost))
			if err == nil {
				err = r.sign(allSent)
			}
			return err
		}
		receive = func(_ *noise.Conn, target *local) error { return r.receive(target, target.done) }
	}
	done := make(chan error, 3)
	go func() { done <- send(c, target) }()
	go func() { done <- receive(c, target) }()
	stop := o.watch(below, func() { done <- errIdle })
	defer stop()
	err := <-done
	if err == nil {
		err = <-done
	}
	switch {
	case err != nil:
		return err
	case !hasRecords:
		return part(below)
	}
	if c.CloseWrite() == nil { // both parties know that all is written out: what comes of the rest changes nothing
		c.SetReadDeadline(time.Now().Add(5 * time.Second))
		c.Read(make([]byte, 1))
	}
	return nil
}

// watch calls a function once nothing has come or gone for the time of -idle, until its result is called.
func (o *options) watch(below *counted, idle func()) (stop func()) {
	if o.idle <= 0 {
		return func() {}
	}
	ended := make(chan struct{})
	go func() {
		for last := int64(-1); ; {
			select {
			case <-ended:
				return
			case <-time.After(o.idle):
			}
			count := below.came.Load() + below.went.Load()
			if count == last {
				idle()
				return
			}
			last = count
		}
	}()
	return func() { close(ended) }
}

// plainSend sends the input, and ends the stream.
func plainSend(c *noise.Conn, from io.Reader) error {
	room := make([]byte, noise.MaxMessage-noise.TagLen)
	_, err := io.CopyBuffer(struct{ io.Writer }{c}, struct{ io.Reader }{from}, room)
	if err == nil {
		err = c.CloseWrite()
	}
	if errors.Is(err, noise.ErrOneWay) {
		return nil
	}
	return err
}

// plainReceive writes what comes to standard output.
func plainReceive(c *noise.Conn, target *local) error {
	_, err := io.CopyBuffer(struct{ io.Writer }{target}, struct{ io.Reader }{c}, make([]byte, noise.MaxMessage))
	if errors.Is(err, noise.ErrOneWay) {
		return nil
	}
	if err != nil {
		return err
	}
	return target.done()
}

var errNotParted = errors.New("the other party may not have got all")

// part ends the connection to a program that isn't noisecat, and waits until the other party does: after a
// fault that party resets it.
func part(below *counted) error {
	err := below.CloseWrite()
	if err == nil {
		below.SetReadDeadline(time.Now().Add(30 * time.Second))
		_, err = io.Copy(io.Discard, below.TCPConn)
	}
	if err != nil {
		return fmt.Errorf("%w: %v", errNotParted, err)
	}
	return nil
}

// counted counts the bytes that go over a connection, and shows how many.
type counted struct {
	*net.TCPConn
	isShown    bool
	came, went atomic.Int64
}

func (c *counted) Read(b []byte) (int, error) {
	n, err := c.TCPConn.Read(b)
	c.came.Add(int64(n))
	c.show("<-", n)
	return n, err
}

func (c *counted) Write(b []byte) (int, error) {
	n, err := c.TCPConn.Write(b)
	c.went.Add(int64(n))
	c.show("->", n)
	return n, err
}

func (c *counted) show(arrow string, count int) {
	if c.isShown && count > 0 {
		fmt.Fprintf(os.Stderr, "%s %d bytes\n", arrow, count)
	}
}
