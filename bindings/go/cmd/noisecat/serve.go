package main

import (
	"context"
	"fmt"
	"net"
	"os"
	"sync"

	"example.org/yulimosar/noise"
)

// atOnce is how many handshakes run at once. One more ends the oldest: of those from which nothing
// has come, if there is one.
const atOnce = 64

// coming is a connection whose handshake runs.
type coming struct {
	*counted
	end    context.CancelFunc
	isLost bool // it had to give way
}

// met is a connection whose handshake has succeeded.
type met struct {
	c     *noise.Conn
	below *counted
	err   error // of the listener
}

// serve carries the first connection whose handshake succeeds; with -keep one after another, or all at once if each has
// a target of its own, and it returns at an error of the listener.
func (o *options) serve(l net.Listener, config *noise.Config) error {
	ctx, stop := context.WithCancel(context.Background())
	defer stop()
	defer l.Close()
	ready := make(chan met)
	go o.accept(ctx, l, config, ready)
	for {
		next := <-ready
		if next.err != nil {
			return next.err
		}
		if !o.keep {
			stop()
			l.Close()
			return o.carry(next.c, next.below, func() (*local, error) { return o.open(next.c) })
		}
		if o.forward != "" || o.exec != "" {
			go o.carryOne(next)
			continue
		}
		o.carryOne(next)
	}
}

// carryOne carries a connection of several, and says what went wrong.
func (o *options) carryOne(next met) {
	if err := o.carry(next.c, next.below, func() (*local, error) { return o.open(next.c) }); err != nil {
		fmt.Fprintf(os.Stderr, "noisecat: %v: %s\n", next.below.RemoteAddr(), sentence(err))
	}
}

// accept runs the handshakes of those who come, until the context ends.
func (o *options) accept(ctx context.Context, l net.Listener, config *noise.Config, ready chan<- met) {
	var mutex sync.Mutex
	var all []*coming // the oldest first
	for {
		below, err := l.Accept()
		if err != nil && mayPass(err) { // too many files are open, as by strangers who say nothing
			mutex.Lock()
			if len(all) > 0 {
				all = withoutOne(all)
			}
			mutex.Unlock()
		}
		if err != nil && acceptAgain(err) {
			continue
		}
		if err != nil {
			select {
			case ready <- met{err: err}:
			case <-ctx.Done():
			}
			return
		}
		inner, end := context.WithCancel(ctx)
		one := &coming{counted: &counted{TCPConn: below.(*net.TCPConn), isShown: o.verbose}, end: end}
		mutex.Lock()
		if len(all) >= atOnce {
			all = withoutOne(all)
		}
		all = append(all, one)
		mutex.Unlock()
		go func() {
			c, err := o.shake(inner, one, config)
			mutex.Lock()
			for i := range all {
				if all[i] == one {
					all = append(all[:i], all[i+1:]...)
					break
				}
			}
			isLost := one.isLost
			mutex.Unlock()
			switch {
			case err == nil:
				select {
				case ready <- met{c: c, below: one.counted}:
				case <-ctx.Done():
					c.Abort()
				}
			case isLost:
				fmt.Fprintf(os.Stderr, "noisecat: %v: it gave way to newer connections\n", one.RemoteAddr())
			case ctx.Err() == nil:
				fmt.Fprintf(os.Stderr, "noisecat: %v: %s\n", one.RemoteAddr(), sentence(err))
			}
			end()
		}()
	}
}

// withoutOne ends the oldest handshake of those in which nothing has come, or else the oldest, and returns the others.
func withoutOne(all []*coming) []*coming {
	oldest := 0
	for i, one := range all {
		if one.came.Load() == 0 {
			oldest = i
			break
		}
	}
	all[oldest].isLost = true
	all[oldest].end()
	return append(all[:oldest], all[oldest+1:]...)
}

// shake runs a handshake.
func (o *options) shake(ctx context.Context, one *coming, config *noise.Config) (*noise.Conn, error) {
	c, err := noise.Server(one.counted, config)
	if err == nil {
		err = c.HandshakeContext(ctx)
	}
	if err != nil {
		one.Close()
	}
	return c, err
}
