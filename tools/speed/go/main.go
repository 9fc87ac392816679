// The package for Go, and flynn/noise: also with a key agreement that costs nothing, for the C library, which has none.
// Standard input is that of c/server.h.
package main

import (
	"bufio"
	"crypto/rand"
	"fmt"
	"io"
	"os"
	"runtime"
	"syscall"
	"unsafe"

	"example.org/yulimosar/noise"
	flynn "github.com/flynn/noise"
)

// An operation is prepared, runs some times, is finished, and closed, what isn't measured any more.
type operation struct {
	prepare, run  func(size int)
	finish, close func()
}

var (
	buffer   = make([]byte, 70000)
	out      = make([]byte, 0, 70000)
	sender   *noise.Sender
	receiver *noise.Receiver
	keyPair  *noise.KeyPair
	encrypts *flynn.CipherState
	decrypts *flynn.CipherState
)

func must(err error) {
	if err != nil {
		panic(err)
	}
}

// now is the processor time of the process, with that of the collector's threads.
func now() int64 {
	var t syscall.Timespec
	syscall.RawSyscall(syscall.SYS_CLOCK_GETTIME, 2, uintptr(unsafe.Pointer(&t)), 0)
	return t.Nano()
}

func shake(pattern string) {
	config := &noise.Config{Pattern: pattern, InsecureAcceptAnyKey: true}
	if pattern == "XX" {
		config.Static = keyPair
	}
	client, err := noise.NewHandshakeState(config, true)
	must(err)
	server, err := noise.NewHandshakeState(config, false)
	must(err)
	for writer, reader := client, server; !client.Done() || !server.Done(); writer, reader = reader, writer {
		message, err := writer.WriteMessage(out[:0], nil)
		must(err)
		_, err = reader.ReadMessage(nil, message)
		must(err)
	}
	sender, _, err = client.Split()
	must(err)
	_, receiver, err = server.Split()
	must(err)
}

// free is a key agreement that costs nothing.
type free struct{}

func (free) GenerateKeypair(io.Reader) (flynn.DHKey, error) {
	return flynn.DHKey{Private: make([]byte, 32), Public: append([]byte{1, 2, 3}, make([]byte, 29)...)}, nil
}
func (free) DH(_, _ []byte) ([]byte, error) { return append([]byte{9, 8, 7}, make([]byte, 29)...), nil }
func (free) DHLen() int                     { return 32 }
func (free) DHName() string                 { return "25519" }

func suite(dh flynn.DHFunc) flynn.CipherSuite {
	return flynn.NewCipherSuite(dh, flynn.CipherChaChaPoly, flynn.HashSHA256)
}

func shakeFlynn(pattern flynn.HandshakePattern, dh flynn.DHFunc) {
	config := flynn.Config{CipherSuite: suite(dh), Pattern: pattern, Initiator: true}
	if pattern.Name == "XX" {
		var err error
		config.StaticKeypair, err = dh.GenerateKeypair(rand.Reader)
		must(err)
	}
	client, err := flynn.NewHandshakeState(config)
	must(err)
	config.Initiator = false
	server, err := flynn.NewHandshakeState(config)
	must(err)
	for writer, reader := client, server; ; writer, reader = reader, writer {
		message, sends, receives, err := writer.WriteMessage(nil, nil)
		must(err)
		_, theirs, others, err := reader.ReadMessage(nil, message)
		must(err)
		if sends != nil {
			encrypts, decrypts = sends, theirs
			if writer == server {
				encrypts, decrypts = others, receives
			}
			return
		}
	}
}

// call is an operation that needs no finishing.
func call(prepare, run func(size int)) operation {
	return operation{prepare, run, func() {}, func() {}}
}

var operations = map[string]operation{
	"transport": call(func(int) { shake("NN") }, func(size int) {
		message, err := sender.Seal(buffer[:0], buffer[:size])
		must(err)
		_, err = receiver.Open(message[:0], message)
		must(err)
	}),
	"flynn.seal": call(func(int) { shakeFlynn(flynn.HandshakeNN, free{}) }, func(size int) {
		_, err := encrypts.Encrypt(buffer[:0], nil, buffer[:size])
		must(err)
	}),
	"flynn.transport": call(func(int) { shakeFlynn(flynn.HandshakeNN, free{}) }, func(size int) {
		message, err := encrypts.Encrypt(buffer[:0], nil, buffer[:size])
		must(err)
		_, err = decrypts.Decrypt(message[:0], nil, message)
		must(err)
	}),
	"XX":            call(nothing, func(int) { shake("XX") }),
	"flynn.NN.free": call(nothing, func(int) { shakeFlynn(flynn.HandshakeNN, free{}) }),
	"flynn.XX.free": call(nothing, func(int) { shakeFlynn(flynn.HandshakeXX, free{}) }),
	"flynn.XX":      call(nothing, func(int) { shakeFlynn(flynn.HandshakeXX, flynn.DH25519) }),
}

func nothing(int) {}

func main() {
	runtime.GOMAXPROCS(1)
	var err error
	keyPair, err = noise.GenerateKeyPair()
	must(err)
	for name, it := range channels() {
		operations[name] = it
	}
	for lines := bufio.NewScanner(os.Stdin); lines.Scan(); {
		if lines.Text() == "list" {
			for name := range operations {
				fmt.Print(name, " ")
			}
			fmt.Println()
			continue
		}
		var name string
		var size, count int
		_, err := fmt.Sscan(lines.Text(), &name, &size, &count)
		must(err)
		it := operations[name]
		it.prepare(size)
		runtime.GC()
		begun := now()
		for i := 0; i < count; i++ {
			it.run(size)
		}
		it.finish()
		fmt.Println(now() - begun)
		it.close()
	}
}
