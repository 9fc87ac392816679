package noise_test

import (
	"context"
	"encoding/binary"
	"errors"
	"fmt"
	"io"
	"log"
	"net"
	"os"
	"strings"
	"testing/iotest"
	"time"

	"example.org/yulimosar/noise"
)

// must ends an example at an error.
func must(err error) {
	if err != nil {
		log.Fatal(err)
	}
}

// A server that accepts one client's key, and a client that knows the server's.
func Example() {
	serverKey, err := noise.GenerateKeyPair()
	must(err)
	clientKey, err := noise.GenerateKeyPair()
	must(err)
	serverPublic, known := serverKey.Public(), map[noise.PublicKey]bool{clientKey.Public(): true}

	listener, err := noise.Listen("tcp", "127.0.0.1:0", &noise.Config{
		Pattern: "IK", Prologue: []byte("chat 1"), Static: serverKey, ErrorLog: log.Default(),
		VerifyPeer: func(_ context.Context, peer noise.Peer) error {
			if !known[peer.Static] {
				return errors.New("not on the list")
			}
			return nil
		},
	})
	must(err)
	defer listener.Close()
	go func() {
		for {
			conn, err := listener.Accept()
			if err != nil {
				return
			}
			go func() {
				defer conn.Close() // it ends the stream, so that the client knows that it has all
				if _, err := io.Copy(conn, conn); err != nil {
					conn.(*noise.Conn).Abort() // not all came: no end
				}
			}()
		}
	}()

	conn, err := noise.Dial("tcp", listener.Addr().String(), &noise.Config{
		Pattern: "IK", Prologue: []byte("chat 1"), Static: clientKey, PeerStatic: &serverPublic,
	})
	must(err)
	defer conn.Close()
	fmt.Fprint(conn, "hello")
	must(conn.CloseWrite())
	answer, err := io.ReadAll(conn) // an answer that was cut is an error
	fmt.Println(string(answer), err)
	// Output: hello <nil>
}

// Both parties over any net.Conn, here a pipe, with a psk that both parties have.
func ExampleClient() {
	here, there := net.Pipe()
	config := &noise.Config{Pattern: "NNpsk0", PSKs: []noise.PSK{{7, 7, 7}}}
	go func() {
		conn, err := noise.Server(there, config)
		must(err)
		io.WriteString(conn, "hello")
		conn.Close()
	}()
	conn, err := noise.Client(here, config)
	must(err)
	text, err := io.ReadAll(conn)
	state := conn.ConnectionState()
	fmt.Println(string(text), err, state.HandshakeComplete, state.ProtocolName)
	// Output: hello <nil> true Noise_NNpsk0_25519_ChaChaPoly_SHA256
}

// A stream whose source fails isn't whole, and the other party gets to know it.
func ExampleConn_Abort() {
	here, there := net.Pipe()
	config := &noise.Config{Pattern: "NN", InsecureAcceptAnyKey: true}
	go func() {
		conn, err := noise.Server(there, config)
		must(err)
		defer conn.Close() // after Abort it does nothing
		// As a disk that fails.
		source := io.MultiReader(strings.NewReader("a part"), iotest.ErrReader(io.ErrNoProgress))
		if _, err := io.Copy(conn, source); err != nil {
			conn.Abort()
		}
	}()
	conn, err := noise.Client(here, config)
	must(err)
	text, err := io.ReadAll(conn)
	fmt.Println(string(text), errors.Is(err, noise.ErrCut))
	// Output: a part true
}

// A dialer with a deadline for the connection and the handshake together.
func ExampleDialer() {
	listener, err := net.Listen("tcp", "127.0.0.1:0") // it accepts nothing, so the handshake doesn't end
	must(err)
	defer listener.Close()
	ctx, cancel := context.WithTimeout(context.Background(), 50*time.Millisecond)
	defer cancel()
	dialer := noise.Dialer{Config: &noise.Config{Pattern: "NN", InsecureAcceptAnyKey: true}}
	_, err = dialer.DialContext(ctx, "tcp", listener.Addr().String())
	fmt.Println(errors.Is(err, context.DeadlineExceeded))
	// Output: true
}

// A server over UDP that sends back what comes: each client is a net.Conn.
func ExampleListenPacket() {
	config := &noise.Config{Pattern: "NNpsk0", Prologue: []byte("udp 1"), PSKs: []noise.PSK{{1, 2, 3}}}
	serve := func(client net.Conn) {
		io.Copy(client, client) // each payload comes back as one datagram
	}
	listen := func() error {
		listener, err := noise.ListenPacket("udp", ":4045", config)
		if err != nil {
			return err
		}
		for {
			client, err := listener.Accept()
			if err != nil {
				return err
			}
			go serve(client)
		}
	}
	_ = listen
}

// A client over UDP, which asks again until the answer has come.
func ExampleDialPacket() {
	config := &noise.Config{Pattern: "NNpsk0", Prologue: []byte("udp 1"), PSKs: []noise.PSK{{1, 2, 3}}}
	listener, err := noise.ListenPacket("udp", "127.0.0.1:0", config)
	must(err)
	defer listener.Close()
	go func() {
		client, err := listener.Accept()
		must(err)
		io.Copy(client, client)
	}()

	server, err := noise.DialPacket("udp", listener.Addr().String(), config)
	must(err)
	defer server.Close()
	answer := make([]byte, 1500)
	for { // either may be lost
		_, err := server.Write([]byte("hello"))
		must(err)
		server.SetReadDeadline(time.Now().Add(time.Second))
		n, err := server.Read(answer)
		if errors.Is(err, os.ErrDeadlineExceeded) {
			continue
		}
		must(err)
		fmt.Printf("%s\n", answer[:n])
		break
	}
	// Output: hello
}

// What is wrong with a Config is found before a byte is sent.
func ExampleConfig_Check() {
	fmt.Println((&noise.Config{Pattern: "IK"}).Check(true))
	key, err := noise.GenerateKeyPair()
	must(err)
	err = (&noise.Config{Static: key}).Check(false)
	var fault *noise.ConfigError
	fmt.Println(errors.As(err, &fault), fault.Field, errors.Is(err, noise.ErrUnauthenticated))
	// Output:
	// noise: Config.PeerStatic: the pattern needs the other party's static key beforehand
	// true VerifyPeer true
}

// Each client has a psk of its own: the server looks it up by the client's static key, which it learns from message 3.
func ExampleConfig_pSKFor() {
	serverKey, err := noise.GenerateKeyPair()
	must(err)
	clientKey, err := noise.GenerateKeyPair()
	must(err)
	clientPublic := clientKey.Public()
	psks := map[noise.PublicKey]noise.PSK{clientPublic: {7, 7, 7}}
	here, there := net.Pipe()
	go func() {
		conn, err := noise.Server(there, &noise.Config{
			Pattern: "XXpsk3", Static: serverKey,
			PSKFor: func(_ context.Context, peer noise.PublicKey) ([]noise.PSK, error) {
				psk, ok := psks[peer]
				if !ok {
					return nil, errors.New("not on the list")
				}
				return []noise.PSK{psk}, nil // one for each psk token
			},
		})
		must(err)
		io.WriteString(conn, "hello")
		conn.Close()
	}()
	conn, err := noise.Client(here, &noise.Config{
		Pattern: "XXpsk3",
		Static:  clientKey,
		PSKs:    []noise.PSK{psks[clientPublic]},
	})
	must(err)
	text, err := io.ReadAll(conn)
	fmt.Println(string(text), err)
	// Output: hello <nil>
}

// The same message by message: the call that needs the psk says so, and is made again.
func ExampleHandshakeState_SetPSK() {
	serverKey, err := noise.GenerateKeyPair()
	must(err)
	clientKey, err := noise.GenerateKeyPair()
	must(err)
	serverPublic, clientPublic := serverKey.Public(), clientKey.Public()
	psks := map[noise.PublicKey]noise.PSK{clientPublic: {7, 7, 7}}
	client, err := noise.NewHandshakeState(&noise.Config{
		Pattern: "IKpsk1", Static: clientKey, PeerStatic: &serverPublic, PSKs: []noise.PSK{psks[clientPublic]},
	}, true)
	must(err)
	server, err := noise.NewHandshakeState(&noise.Config{Pattern: "IKpsk1", Static: serverKey}, false)
	must(err)
	message, err := client.WriteMessage(nil, []byte("hello"))
	must(err)
	payload, err := server.ReadMessage(nil, message)
	var wanted *noise.WantedPSKError
	if errors.As(err, &wanted) {
		must(server.SetPSK(psks[*wanted.PeerStatic]))
		payload, err = server.ReadMessage(nil, message)
	}
	fmt.Println(string(payload), err)
	// Output: hello <nil>
}

// Message by message, for a program that moves the messages itself.
func ExampleHandshakeState() {
	key, err := noise.GenerateKeyPair()
	must(err)
	public := key.Public()
	client, err := noise.NewHandshakeState(&noise.Config{Pattern: "NK", PeerStatic: &public}, true)
	must(err)
	server, err := noise.NewHandshakeState(&noise.Config{Pattern: "NK", Static: key, InsecureAcceptAnyKey: true}, false)
	must(err)
	first, err := client.WriteMessage(nil, nil)
	must(err)
	_, err = server.ReadMessage(nil, first)
	must(err)
	second, err := server.WriteMessage(nil, []byte("welcome"))
	must(err)
	payload, err := client.ReadMessage(nil, second)
	fmt.Println(string(payload), err, client.HandshakeHash() == server.HandshakeHash())

	sender, _, err := client.Split()
	must(err)
	_, receiver, err := server.Split()
	must(err)
	message, err := sender.Seal(nil, []byte("hello"))
	must(err)
	message[0] ^= 1
	_, err = receiver.Open(nil, message)
	fmt.Println(errors.Is(err, noise.ErrTag))
	message[0] ^= 1
	payload, err = receiver.Open(message[:0], message) // in place
	fmt.Println(string(payload), err)
	// Output:
	// welcome <nil> true
	// true
	// hello <nil>
}

// A refused message of a handshake: where, and why.
func ExampleHandshakeError() {
	config := &noise.Config{Pattern: "NN", InsecureAcceptAnyKey: true}
	server, err := noise.NewHandshakeState(config, false)
	must(err)
	_, err = server.ReadMessage(nil, make([]byte, 31))
	var fault *noise.HandshakeError
	fmt.Println(errors.As(err, &fault), fault.Message, fault.Token, errors.Is(err, noise.ErrShort))
	fmt.Println(err)
	_, err = server.ReadMessage(nil, make([]byte, 32))
	fmt.Println(errors.Is(err, noise.ErrEnded))
	// Output:
	// true 1 e true
	// noise: message 1, token e: the message is too short
	// true
}

// Datagrams over UDP. The messages of the handshake went another way.
func ExampleHandshakeState_Datagrams() {
	config := &noise.Config{Pattern: "NN", InsecureAcceptAnyKey: true}
	a, err := noise.NewHandshakeState(config, true)
	must(err)
	b, err := noise.NewHandshakeState(config, false)
	must(err)
	first, err := a.WriteMessage(nil, nil)
	must(err)
	_, err = b.ReadMessage(nil, first)
	must(err)
	second, err := b.WriteMessage(nil, nil)
	must(err)
	_, err = a.ReadMessage(nil, second)
	must(err)
	sending, _, err := a.Datagrams(64)
	must(err)
	_, receiving, err := b.Datagrams(64)
	must(err)

	server, err := net.ListenPacket("udp", "127.0.0.1:0")
	must(err)
	defer server.Close()
	client, err := net.ListenPacket("udp", "127.0.0.1:0")
	must(err)
	defer client.Close()
	datagram, err := sending.Seal(nil, []byte("a position"))
	must(err)
	_, err = client.WriteTo(datagram, server.LocalAddr())
	must(err)
	room := make([]byte, noise.MaxDatagram)
	n, _, err := server.ReadFrom(room)
	must(err)
	payload, err := receiving.Open(nil, room[:n])
	fmt.Println(string(payload), err)
	_, err = receiving.Open(nil, room[:n])
	fmt.Println(errors.Is(err, noise.ErrRepeated))
	// Output:
	// a position <nil>
	// true
}

// Packets of a protocol's own: the header is associated data, and its counter is the nonce. The receiver keeps a
// window of counters itself.
func ExampleCipherState() {
	config := &noise.Config{Pattern: "NN", InsecureAcceptAnyKey: true}
	a, err := noise.NewHandshakeState(config, true)
	must(err)
	b, err := noise.NewHandshakeState(config, false)
	must(err)
	first, err := a.WriteMessage(nil, nil)
	must(err)
	_, err = b.ReadMessage(nil, first)
	must(err)
	second, err := b.WriteMessage(nil, nil)
	must(err)
	_, err = a.ReadMessage(nil, second)
	must(err)
	send, _, err := a.CipherStates()
	must(err)
	_, receive, err := b.CipherStates()
	must(err)

	must(send.SetNonce(7))
	packet := make([]byte, 8, 100)
	packet, err = send.EncryptNext(packet, []byte("a packet"), func(nonce uint64) []byte {
		binary.BigEndian.PutUint64(packet, nonce)
		return packet
	})
	must(err)

	header, message := packet[:8], packet[8:]
	text, err := receive.DecryptAt(binary.BigEndian.Uint64(header), nil, header, message)
	fmt.Println(string(text), err)
	_, err = receive.DecryptAt(8, nil, header, message)
	fmt.Println(errors.Is(err, noise.ErrTag))
	// Output:
	// a packet <nil>
	// true
}

// A key in a device, which answers with results of X25519 alone.
func ExampleDH() {
	inDevice, err := noise.GenerateKeyPair()
	must(err)
	var key noise.DH = device{inDevice}
	other, err := noise.GenerateKeyPair()
	must(err)
	one, err := key.Agree(context.Background(), other.Public())
	must(err)
	two, err := other.Agree(context.Background(), key.Public())
	fmt.Println(one == two, err)
	// Output: true <nil>
}

type device struct{ *noise.KeyPair }

// A key pair is stored as its secret key.
func ExampleNewKeyPair() {
	key, err := noise.GenerateKeyPair()
	must(err)
	again, err := noise.NewKeyPair(key.Secret())
	must(err)
	fmt.Println(again.Public() == key.Public())
	key.Wipe()
	// Output: true
}
