// The responder: it takes connections on 127.0.0.1, port 4042, says which client it is, and sends its text back. It
// keeps its key in the file server.key.
package main

import (
	"context"
	"errors"
	"fmt"
	"io"
	"io/fs"
	"log"
	"os"
	"time"

	"example.org/yulimosar/noise"
)

func main() {
	key, err := keptKey("server.key")
	if err != nil {
		log.Fatal(err)
	}
	public := fmt.Sprintf("%x\n", key.Public())
	// The client gets it by a way that nobody else can write to.
	if err := os.WriteFile("server.public", []byte(public), 0o644); err != nil {
		log.Fatal(err)
	}
	listener, err := noise.Listen("tcp", "127.0.0.1:4042", &noise.Config{
		Pattern: "XX", Prologue: []byte("example channel 1"), Static: key, Interval: 1000, ErrorLog: log.Default(),
		VerifyPeer: func(_ context.Context, peer noise.Peer) error {
			fmt.Printf("server: a client with the key %v\n", peer.Static)
			return nil // a server that lets in only some looks the key up here
		},
	})
	if err != nil {
		log.Fatal(err)
	}
	for {
		conn, err := listener.Accept()
		if err != nil {
			log.Fatal(err)
		}
		go serve(conn.(*noise.Conn))
	}
}

// keptKey returns the key of a file, which it makes at the first start.
func keptKey(file string) (*noise.KeyPair, error) {
	key, err := noise.LoadKeyPair(file)
	if !errors.Is(err, fs.ErrNotExist) {
		return key, err
	}
	if key, err = noise.GenerateKeyPair(); err != nil {
		return nil, err
	}
	secret := key.Secret()
	return key, os.WriteFile(file, []byte(fmt.Sprintf("%x\n", secret[:])), 0o600)
}

// serve sends back what it reads. If not all came, the client gets no end of the stream either.
func serve(conn *noise.Conn) {
	conn.SetDeadline(time.Now().Add(time.Minute))
	if _, err := io.Copy(conn, conn); err != nil {
		log.Printf("%v: %v", conn.RemoteAddr(), err)
		conn.Abort()
		return
	}
	conn.Close()
}
