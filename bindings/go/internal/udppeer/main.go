// Udppeer is a party over UDP for checks/udp/run.py, with the words of bindings/python/tests/udp_peer.py:
//
//	udppeer serve PATTERN ADDRESS PORT BUSY PAYLOAD
//	udppeer ask PATTERN ADDRESS PORT COUNT SECONDS
package main

import (
	"bufio"
	"bytes"
	"context"
	"errors"
	"fmt"
	"net"
	"os"
	"strconv"
	"strings"
	"sync"
	"time"

	"example.org/yulimosar/noise"
)

func main() {
	words := os.Args[1:]
	if len(words) != 6 || words[0] != "serve" && words[0] != "ask" {
		fmt.Fprintln(os.Stderr, "usage: udppeer serve|ask PATTERN ADDRESS PORT BUSY|COUNT PAYLOAD|SECONDS")
		os.Exit(2)
	}
	address := net.JoinHostPort(words[2], words[3])
	first, err := strconv.Atoi(words[4])
	must(err)
	second, err := strconv.ParseFloat(words[5], 64)
	must(err)
	if words[0] == "serve" {
		serve(words[1], address, first, int(second))
	} else {
		ask(words[1], address, first, time.Duration(second*float64(time.Second)))
	}
}

func must(err error) {
	if err != nil {
		fmt.Fprintln(os.Stderr, err)
		os.Exit(1)
	}
}

// configOf returns what a party starts from. By the pattern's name: before psks, the initiator's letter and the
// responder's.
func configOf(pattern string, isInitiator bool) *noise.Config {
	config := &noise.Config{Pattern: pattern, Prologue: []byte("udp"), InsecureAcceptAnyKey: true}
	keys := [2]*noise.KeyPair{keyPair(1), keyPair(2)}
	own, other := 1, 0
	if isInitiator {
		own, other = 0, 1
	}
	if pattern[own] != 'N' {
		config.Static = keys[own]
	}
	if pattern[other] != 'N' {
		key := keys[other].Public()
		config.PeerStatic, config.InsecureAcceptAnyKey = &key, false
	}
	if strings.Contains(pattern, "psk") {
		config.PSKs = []noise.PSK{{}}
		for i := range config.PSKs[0] {
			config.PSKs[0][i] = 3
		}
	}
	return config
}

func keyPair(of byte) *noise.KeyPair {
	var secret noise.Secret
	for i := range secret {
		secret[i] = of
	}
	key, err := noise.NewKeyPair(secret)
	must(err)
	return key
}

func serve(pattern, address string, busy, payload int) {
	config := configOf(pattern, false)
	if payload > 0 {
		config.Payloads = [][]byte{nil, make([]byte, payload)}
	}
	if busy == 0 {
		busy = -1
	}
	l, err := noise.PacketConfig{Config: config, CookiesFrom: busy}.Listen("udp", address)
	must(err)
	fmt.Printf("ready %d\n", l.Addr().(*net.UDPAddr).Port)
	go func() {
		for {
			s, err := l.AcceptSession()
			if err != nil {
				return
			}
			go echo(s)
		}
	}()
	for lines := bufio.NewScanner(os.Stdin); lines.Scan(); {
	}
	l.Close()
}

// echo sends back what comes.
func echo(s *noise.PacketSession) {
	host, _, _ := net.SplitHostPort(s.RemoteAddr().String())
	fmt.Printf("connected %s\n", host)
	for room := make([]byte, 65535); ; {
		n, err := s.Read(room)
		if err != nil {
			fmt.Printf("lost %s\n", host)
			return
		}
		s.Write(room[:n])
	}
}

func ask(pattern, address string, count int, limit time.Duration) {
	config := configOf(pattern, true)
	config.HandshakeTimeout = limit
	sessions, group := make([]*noise.PacketSession, count), sync.WaitGroup{}
	for i := range sessions {
		group.Add(1)
		go func(i int) {
			defer group.Done()
			s, err := noise.PacketConfig{Config: config}.Dial(context.Background(), "udp", address)
			if err == nil && !getsBack(s, fmt.Sprintf("text %d", i), limit) {
				err = errors.New("nothing comes back")
			}
			if err != nil {
				fmt.Printf("client %d: %v\n", i, err)
				return
			}
			sessions[i] = s
		}(i)
	}
	group.Wait()
	got := 0
	for _, s := range sessions {
		if s != nil {
			got++
		}
	}
	fmt.Printf("%d of %d\n", got, count)
	for lines := bufio.NewScanner(os.Stdin); lines.Scan(); {
		if getsBack(sessions[0], lines.Text(), 10*time.Second) {
			fmt.Printf("again %s\n", lines.Text())
		} else {
			fmt.Println("silence")
		}
	}
}

// getsBack sends a text until it comes back.
func getsBack(s *noise.PacketSession, text string, limit time.Duration) bool {
	room := make([]byte, 65535)
	for until := time.Now().Add(limit); time.Now().Before(until); {
		if _, err := s.Write([]byte(text)); err != nil {
			return false
		}
		s.SetReadDeadline(time.Now().Add(500 * time.Millisecond))
		for {
			n, err := s.Read(room)
			if err != nil {
				break
			}
			if bytes.Equal(room[:n], []byte(text)) {
				return true
			}
		}
	}
	return false
}
