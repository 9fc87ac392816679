package main

import (
	"net"

	"example.org/flynnpeer"
)

func openFlynn(conn net.Conn, w words) (channel, error) {
	own, err := flynnpeer.KeyPair(w.own)
	must(err)
	config, err := flynnpeer.Config(w.pattern, w.initiator, own, w.peer, w.psk)
	must(err)
	return flynnpeer.Open(conn, config, "")
}
