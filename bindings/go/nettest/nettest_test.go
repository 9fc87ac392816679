// Package nettest runs golang.org/x/net/nettest.TestConn, with which Go's own connections are tested, on
// channels. No case is left out.
package nettest

import (
	"net"
	"testing"

	"example.org/yulimosar/noise"
	"golang.org/x/net/nettest"
)

// TestTCP has the handshake done before each case, as a case with a deadline for reading alone wants to write at once.
func TestTCP(t *testing.T) { nettest.TestConn(t, overTCP) }

// TestPipe is the same over net.Pipe, whose writes wait for the other party's reads.
func TestPipe(t *testing.T) {
	nettest.TestConn(t, func() (net.Conn, net.Conn, func(), error) {
		a, b := net.Pipe()
		return joined(a, b)
	})
}

func overTCP() (net.Conn, net.Conn, func(), error) {
	listener, err := net.Listen("tcp", "127.0.0.1:0")
	if err != nil {
		return nil, nil, nil, err
	}
	defer listener.Close()
	a, err := net.Dial("tcp", listener.Addr().String())
	if err != nil {
		return nil, nil, nil, err
	}
	b, err := listener.Accept()
	if err != nil {
		return nil, nil, nil, err
	}
	return joined(a, b)
}

// joined are the two parties of a channel, after the handshake.
func joined(a, b net.Conn) (net.Conn, net.Conn, func(), error) {
	config := &noise.Config{Pattern: "NN", InsecureAcceptAnyKey: true}
	client, err := noise.Client(a, config)
	if err != nil {
		return nil, nil, nil, err
	}
	server, err := noise.Server(b, config)
	if err != nil {
		return nil, nil, nil, err
	}
	done := make(chan error, 1)
	go func() { done <- server.Handshake() }()
	if err := client.Handshake(); err != nil {
		return nil, nil, nil, err
	}
	stop := func() {
		go client.Close() // it sends the end, which over a pipe waits for the other party
		server.Close()
	}
	return client, server, stop, <-done
}
