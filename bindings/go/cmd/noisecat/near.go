package main

import (
	"fmt"
	"net"
	"os"
	"time"

	"example.org/yulimosar/noise"
)

// acceptAgain waits after an error of a listener that may pass, and reports whether it may.
func acceptAgain(err error) bool {
	if !mayPass(err) {
		return false
	}
	time.Sleep(50 * time.Millisecond)
	return true
}

// near accepts plain connections at this side, and joins each to a channel of its own. It returns at an error of the
// listener.
func (o *options) near(config *noise.Config) error {
	l, err := net.Listen("tcp", o.local)
	if err != nil {
		return err
	}
	defer l.Close()
	o.tell(l, o.local)
	for {
		conn, err := l.Accept()
		if err == nil {
			go o.carryNear(conn.(*net.TCPConn), config)
		} else if !acceptAgain(err) {
			return err
		}
	}
}

// carryNear carries a plain connection of several, and says what went wrong.
func (o *options) carryNear(conn *net.TCPConn, config *noise.Config) {
	target := ofTCP(conn)
	c, below, err := o.reach(config)
	if err == nil {
		err = o.carry(c, below, func() (*local, error) { return target, nil })
	} else {
		target.close(false)
	}
	if err != nil {
		fmt.Fprintf(os.Stderr, "noisecat: %v: %s\n", conn.RemoteAddr(), sentence(err))
	}
}
