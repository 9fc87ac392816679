package main

import (
	"errors"
	"io"
	"math"
	"net"
	"os"
	"strings"
	"time"

	"example.org/yulimosar/noise"
)

// local is what a channel is joined to: what is read is sent, and what comes is written.
type local struct {
	io.Reader
	io.Writer
	done  func() error // all that came is written: nothing more comes
	close func(isWhole bool) error
}

// open returns what the channel with a peer is joined to.
func (o *options) open(peer *noise.Conn) (*local, error) {
	switch {
	case o.forward != "":
		return forwarded(o.forward, o.timeout)
	case o.exec != "":
		return executed(o.exec, peer)
	}
	done := os.Stdout.Close
	if o.keep { // more connections come
		done = func() error { return nil }
	}
	return &local{o.input(), output{}, done, func(bool) error { return nil }}, nil
}

// forwarded joins to a new TCP connection, which after a fault is reset.
func forwarded(address string, timeout time.Duration) (*local, error) {
	conn, err := net.DialTimeout("tcp", address, timeout)
	if err != nil {
		return nil, err
	}
	return ofTCP(conn.(*net.TCPConn)), nil
}

// ofTCP joins to a TCP connection.
func ofTCP(tcp *net.TCPConn) *local {
	return &local{tcp, tcp, tcp.CloseWrite, func(isWhole bool) error {
		if !isWhole {
			tcp.SetLinger(0)
		}
		return tcp.Close()
	}}
}

// setInput sets what is read for a connection: with -keep all that is left of a file, for each anew,
// or nothing of a terminal.
func (o *options) setInput(in *os.File) error {
	if o.forward != "" || o.exec != "" || o.local != "" {
		return nil
	}
	info, err := in.Stat()
	switch {
	case !o.keep:
		o.input = func() io.Reader { return in }
		return nil
	case err != nil || info.Mode()&os.ModeCharDevice != 0: // it is closed, a terminal, or /dev/null
		o.input = func() io.Reader { return strings.NewReader("") }
		return nil
	case !info.Mode().IsRegular():
		return wrong{errors.New("-keep: standard input can be sent to one connection alone: " +
			"redirect it from a file, or from /dev/null")}
	}
	start, err := in.Seek(0, io.SeekCurrent)
	o.input = func() io.Reader { return io.NewSectionReader(in, start, math.MaxInt64-start) }
	return err
}

// outputError is an error of standard output.
type outputError struct{ error }

type output struct{}

func (output) Write(b []byte) (int, error) {
	n, err := os.Stdout.Write(b)
	if err != nil {
		err = &outputError{err}
	}
	return n, err
}
