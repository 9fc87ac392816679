// Nebula is a client of a Nebula node: it shakes hands, verifies the node's certificate, and exchanges a
// test request and its reply.
//
//	nebula -ca ca.crt -cert me.crt -key me.key 127.0.0.1:4242
package main

import (
	"flag"
	"fmt"
	"log"
	"net"
	"time"
)

func main() {
	ca := flag.String("ca", "ca.crt", "the authority's certificate")
	cert := flag.String("cert", "me.crt", "this party's certificate")
	key := flag.String("key", "me.key", "this party's key")
	flag.Parse()
	if flag.NArg() != 1 {
		log.Fatal("usage: nebula -ca FILE -cert FILE -key FILE ADDRESS")
	}
	if err := run(*ca, *cert, *key, flag.Arg(0)); err != nil {
		log.Fatal("nebula: ", err)
	}
}

func load(ca, cert, key string) (p *party, err error) {
	p = new(party)
	if p.authority, err = loadCertificate(ca); err != nil {
		return nil, err
	}
	if p.own, err = loadCertificate(cert); err != nil {
		return nil, err
	}
	p.key, err = loadKey(key)
	return p, err
}

func run(ca, cert, key, address string) error {
	p, err := load(ca, cert, key)
	if err != nil {
		return err
	}
	conn, err := net.Dial("udp", address)
	if err != nil {
		return err
	}
	defer conn.Close()
	until := time.Now().Add(5 * time.Second)
	t, err := p.connect(conn, until)
	if err != nil {
		return err
	}
	fmt.Printf("nebula: a tunnel with %s\n", t.peer.name)
	if err := t.ping(conn, until); err != nil {
		return err
	}
	fmt.Println("nebula: the reply to a test request came")
	return nil
}
