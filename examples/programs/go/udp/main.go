// Udp is an echo over UDP: udp serve [PORT], and then udp ping [PORT]. The handshake is NNpsk0, so both have a file
// `secret` of 32 bytes; examples/programs/python/udp.py is the same.
package main

import (
	"errors"
	"fmt"
	"log"
	"net"
	"os"
	"time"

	"example.org/yulimosar/noise"
)

func main() {
	log.SetFlags(0)
	log.SetPrefix("udp: ")
	port := "4045"
	if len(os.Args) > 2 {
		port = os.Args[2]
	}
	address := net.JoinHostPort("127.0.0.1", port)
	switch {
	case len(os.Args) > 1 && os.Args[1] == "serve":
		must(serve(address))
	case len(os.Args) > 1 && os.Args[1] == "ping":
		must(ping(address))
	default:
		log.Fatal("usage: udp serve [PORT] | udp ping [PORT]")
	}
}

func must(err error) {
	if err != nil {
		log.Fatal(err)
	}
}

// config is what both parties start from.
func config() (*noise.Config, error) {
	secret, err := os.ReadFile("secret")
	if err != nil {
		return nil, err
	}
	var psk noise.PSK
	if copy(psk[:], secret) != len(secret) || len(secret) != len(psk) {
		return nil, errors.New("the file secret doesn't have 32 bytes")
	}
	return &noise.Config{Pattern: "NNpsk0", Prologue: []byte("udp 3"), PSKs: []noise.PSK{psk}}, nil
}

// serve sends back what each client sends.
func serve(address string) error {
	config, err := config()
	if err != nil {
		return err
	}
	listener, err := noise.ListenPacket("udp", address, config)
	if err != nil {
		return err
	}
	for {
		client, err := listener.Accept()
		if err != nil {
			return err
		}
		log.Print("a client at ", client.RemoteAddr())
		go echo(client)
	}
}

func echo(client net.Conn) {
	defer client.Close()
	for room := make([]byte, 1500); ; {
		n, err := client.Read(room)
		if err != nil {
			log.Print(err)
			return
		}
		client.Write(room[:n])
	}
}

// ping shakes hands, and sends three texts.
func ping(address string) error {
	config, err := config()
	if err != nil {
		return err
	}
	server, err := noise.DialPacket("udp", address, config)
	if err != nil {
		return err
	}
	defer server.Close()
	for number, text := range []string{"one", "two", "three"} {
		answer, err := ask(server, byte(number), text)
		if err != nil {
			return err
		}
		fmt.Println("udp: the server says:", answer)
	}
	return nil
}

// ask returns the answer to a text. It asks again, since either may be lost; its number tells it from an answer to an
// earlier text that comes late.
func ask(server net.Conn, number byte, text string) (string, error) {
	room := make([]byte, 1500)
	for i := 0; i < 20; i++ {
		if _, err := server.Write(append([]byte{number}, text...)); err != nil {
			return "", err
		}
		for server.SetReadDeadline(time.Now().Add(time.Second)); ; {
			n, err := server.Read(room)
			if errors.Is(err, os.ErrDeadlineExceeded) {
				break
			} else if err != nil {
				return "", err
			}
			if room[0] == number {
				return string(room[1:n]), nil
			}
		}
	}
	return "", errors.New("the server doesn't answer")
}
