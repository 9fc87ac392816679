package main

import (
	"crypto/sha256"
	"encoding/hex"
	"errors"
	"fmt"
	"io"
	"net"
	"os"
	"strconv"
	"strings"
	"time"
)

// words are those of peer.py.
type words struct {
	pattern           string
	secret, peer, psk []byte
	address, order    string
	listens           bool
	size, count       int
}

const usage = "usage: peer noise|flynn PATTERN OWN_SECRET PEER_KEY PSK ADDRESS ORDER SIZE COUNT"

func parse(args []string) words {
	if len(args) != 8 {
		fail(errors.New(usage))
	}
	w := words{
		pattern: args[0],
		secret:  unhex(args[1]),
		peer:    unhex(args[2]),
		order:   args[5],
		listens: strings.HasPrefix(args[4], "@"),
	}
	if args[3] != "-" {
		w.psk = unhex(args[3])
	}
	w.address = strings.TrimPrefix(args[4], "@")
	var err error
	w.size, err = strconv.Atoi(args[6])
	fail(err)
	w.count, err = strconv.Atoi(args[7])
	fail(err)
	return w
}

func unhex(digits string) []byte {
	b, err := hex.DecodeString(digits)
	fail(err)
	return b
}

func fail(err error) {
	if err != nil {
		fmt.Fprintln(os.Stderr, err)
		os.Exit(1)
	}
}

// stream is an end of a channel: each direction has an end of its own.
type stream interface {
	io.Reader
	io.Writer
	CloseWrite() error
	Close() error
}

// report is what a party says of a connection.
type report struct {
	count                  int64
	sum                    []byte
	otherEnded, hasEnded   bool
	sendError, failedError error
}

func (r report) String() string {
	told := "-"
	if r.failedError != nil {
		told = "refused"
	} else if r.sendError != nil {
		told = "send"
	}
	number := map[bool]int{true: 1}
	return fmt.Sprintf("%d %x %d %d %s", r.count, r.sum, number[r.otherEnded], number[r.hasEnded], told)
}

// each serves or makes the connections, one after another.
func each(w words, open func(net.Conn) (stream, error)) {
	next := func() (net.Conn, error) { return net.Dial("tcp", w.address) }
	if w.listens {
		l, err := net.Listen("tcp", w.address)
		fail(err)
		fmt.Println(l.Addr())
		next = l.Accept
	}
	for i := 0; i < w.count; i++ {
		conn, err := next()
		fail(err)
		fail(conn.SetDeadline(time.Now().Add(2 * time.Minute)))
		r := report{sum: sha256.New().Sum(nil)}
		s, err := open(conn)
		if r.failedError = err; err == nil {
			r = run(w, s)
		}
		conn.Close()
		fmt.Println(r)
	}
}

// run sends, and receives until the end.
func run(w words, s stream) report {
	var r report
	over, sent := make(chan bool, 1), make(chan bool)
	go func() {
		r.hasEnded, r.sendError = send(w, s, over)
		close(sent)
	}()
	hash := sha256.New()
	if w.order != "closes" {
		r.count, r.failedError = io.Copy(hash, s)
		r.otherEnded = r.failedError == nil
		over <- r.otherEnded
		if r.failedError != nil {
			s.Close()
		}
	}
	<-sent
	r.sum = hash.Sum(nil)
	s.Close()
	return r
}

// send writes all, and ends the stream when that is due. It says whether it has ended it.
func send(w words, s stream, over <-chan bool) (bool, error) {
	all := make([]byte, w.size)
	for i := range all {
		all[i] = byte(i % 251)
	}
	for size := 1; len(all) > 0; all = all[size:] {
		if size *= 3; size > 65519 {
			size = 65519
		}
		if size > len(all) {
			size = len(all)
		}
		if _, err := s.Write(all[:size]); err != nil {
			return false, err
		}
	}
	if w.order == "waits" && !<-over {
		return false, nil
	}
	return true, s.CloseWrite()
}
