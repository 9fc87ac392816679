// Hello is an HTTP service for one client, whose key it knows, and that client.
package main

import (
	"context"
	"fmt"
	"io"
	"log"
	"net"
	"net/http"
	"os"
	"time"

	"example.org/yulimosar/noise"
)

func main() {
	if len(os.Args) != 4 {
		log.Fatal("usage: hello serve KEY_FILE CLIENT | hello get KEY_FILE SERVER")
	}
	key, err := noise.LoadKeyPair(os.Args[2]) // noisecat keygen -o KEY_FILE has made it
	must(err)
	other, err := noise.ParsePublicKey(os.Args[3])
	must(err)
	config := &noise.Config{Pattern: "XX", Prologue: []byte("hello 1"), Static: key, PeerStatic: &other}
	if os.Args[1] == "serve" {
		serve(config)
	}
	get(config)
}

func serve(config *noise.Config) {
	config.ErrorLog = log.Default()                                // a line for each handshake that fails
	listener, err := noise.Listen("tcp", "127.0.0.1:9000", config) // a handshake may take 10 seconds
	must(err)
	server := http.Server{ReadTimeout: 20 * time.Second} // the handshake and a request together
	server.ConnContext = func(ctx context.Context, conn net.Conn) context.Context {
		return context.WithValue(ctx, config, conn)
	}
	server.Handler = http.HandlerFunc(func(w http.ResponseWriter, r *http.Request) {
		conn := r.Context().Value(config).(*noise.Conn)
		fmt.Fprintf(w, "hello, %x\n", *conn.ConnectionState().PeerStatic)
	})
	must(server.Serve(listener))
}

func get(config *noise.Config) {
	dialer := noise.Dialer{Config: config}
	client := http.Client{Timeout: 10 * time.Second, Transport: &http.Transport{DialContext: dialer.DialContext}}
	answer, err := client.Get("http://127.0.0.1:9000")
	must(err)
	_, err = io.Copy(os.Stdout, answer.Body) // an answer that was cut is an error
	must(err)
}

func must(err error) {
	if err != nil {
		log.Fatal(err)
	}
}
