// The initiator: client TEXT. It connects to 127.0.0.1, port 4042, and sends the text, which the server sends back.
package main

import (
	"fmt"
	"io"
	"log"
	"net"
	"os"
	"time"

	"example.org/yulimosar/noise"
)

func main() {
	if len(os.Args) != 2 {
		log.Fatal("usage: client TEXT")
	}
	key, err := noise.GenerateKeyPair()
	if err != nil {
		log.Fatal(err)
	}
	digits, err := os.ReadFile("server.public")
	if err != nil {
		log.Fatal(err)
	}
	expected, err := noise.ParsePublicKey(string(digits))
	if err != nil {
		log.Fatal(err)
	}
	dialer := noise.Dialer{
		NetDialer: &net.Dialer{Timeout: 10 * time.Second}, // for the connection and the handshake together
		Config: &noise.Config{
			Pattern:    "XX",
			Prologue:   []byte("example channel 1"),
			Static:     key,
			Interval:   1000,
			PeerStatic: &expected,
		},
	}
	conn, err := dialer.Dial("tcp", "127.0.0.1:4042")
	if err != nil {
		log.Fatal(err)
	}
	answer, err := ask(conn.(*noise.Conn), os.Args[1])
	if err != nil {
		log.Fatal(err)
	}
	fmt.Printf("client: the server says: %s\n", answer)
}

// ask sends all of a text, and returns all of the answer.
func ask(conn *noise.Conn, text string) ([]byte, error) {
	defer conn.Close()
	conn.SetDeadline(time.Now().Add(10 * time.Second))
	if _, err := io.WriteString(conn, text); err != nil {
		return nil, err
	}
	if err := conn.CloseWrite(); err != nil {
		return nil, err
	}
	return io.ReadAll(conn)
}
