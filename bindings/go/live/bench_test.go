package live

import (
	"crypto/rand"
	"fmt"
	"testing"

	"example.org/yulimosar/noise"
	"example.org/yulimosar/noise/live/cloop"
	flynn "github.com/flynn/noise"
)

// BenchmarkConnect passes the handshake XX at both parties, with all of X25519, and makes what seals and opens.
func BenchmarkConnect(b *testing.B) {
	b.Run("ours", func(b *testing.B) {
		client, server := ours(b, "XX")
		b.ReportAllocs()
		for i := 0; i < b.N; i++ {
			connectOurs(b, client, server)
		}
	})
	b.Run("flynn", func(b *testing.B) {
		client, err := suite.GenerateKeypair(rand.Reader)
		must(b, err)
		server, err := suite.GenerateKeypair(rand.Reader)
		must(b, err)
		b.ReportAllocs()
		for i := 0; i < b.N; i++ {
			connectFlynn(b, client, server)
		}
	})
}

func ours(b testing.TB, pattern string) (client, server *noise.Config) {
	one, err := noise.GenerateKeyPair()
	must(b, err)
	two, err := noise.GenerateKeyPair()
	must(b, err)
	return &noise.Config{Pattern: pattern, Static: one, InsecureAcceptAnyKey: true},
		&noise.Config{Pattern: pattern, Static: two, InsecureAcceptAnyKey: true}
}

func connectOurs(b testing.TB, client, server *noise.Config) (*noise.Sender, *noise.Receiver) {
	writer, err := noise.NewHandshakeState(client, true)
	must(b, err)
	reader, err := noise.NewHandshakeState(server, false)
	must(b, err)
	first, second := writer, reader
	for !first.Done() || !second.Done() {
		message, err := writer.WriteMessage(nil, nil)
		must(b, err)
		_, err = reader.ReadMessage(nil, message)
		must(b, err)
		writer, reader = reader, writer
	}
	sender, _, err := first.Split()
	must(b, err)
	_, receiver, err := second.Split()
	must(b, err)
	return sender, receiver
}

func connectFlynn(b testing.TB, client, server flynn.DHKey) (sealing, opening *flynn.CipherState) {
	config := flynn.Config{CipherSuite: suite, Pattern: flynn.HandshakeXX, Initiator: true, StaticKeypair: client}
	writer, err := flynn.NewHandshakeState(config)
	must(b, err)
	config.Initiator, config.StaticKeypair = false, server
	reader, err := flynn.NewHandshakeState(config)
	must(b, err)
	for i := 0; i < 3; i++ {
		var message []byte
		message, sealing, _, err = writer.WriteMessage(nil, nil)
		must(b, err)
		_, opening, _, err = reader.ReadMessage(nil, message)
		must(b, err)
		writer, reader = reader, writer
	}
	return sealing, opening
}

// BenchmarkMessage seals a message and opens it: by this package, by a loop in C over the same
// library, and by flynn/noise.
func BenchmarkMessage(b *testing.B) {
	for _, size := range []int{64, 1024, 16384} {
		payload, room := make([]byte, size), make([]byte, 0, size+noise.TagLen)
		b.Run(fmt.Sprintf("%d/ours", size), func(b *testing.B) {
			client, server := ours(b, "NN")
			sender, receiver := connectOurs(b, client, server)
			b.SetBytes(int64(size))
			b.ReportAllocs()
			b.ResetTimer()
			for i := 0; i < b.N; i++ {
				message, err := sender.Seal(room, payload)
				if err == nil {
					_, err = receiver.Open(message[:0], message)
				}
				if err != nil {
					b.Fatal(err)
				}
			}
		})
		b.Run(fmt.Sprintf("%d/c", size), func(b *testing.B) {
			if !cloop.Start() {
				b.Fatal("the handshake failed")
			}
			b.SetBytes(int64(size))
			b.ResetTimer()
			if !cloop.Run(b.N, size) {
				b.Fatal("a message was refused")
			}
		})
		b.Run(fmt.Sprintf("%d/flynn", size), func(b *testing.B) {
			key, err := suite.GenerateKeypair(rand.Reader)
			must(b, err)
			sealing, opening := connectFlynn(b, key, key)
			b.SetBytes(int64(size))
			b.ResetTimer()
			for i := 0; i < b.N; i++ {
				message, err := sealing.Encrypt(room, nil, payload)
				if err == nil {
					_, err = opening.Decrypt(message[:0], nil, message)
				}
				if err != nil {
					b.Fatal(err)
				}
			}
		})
	}
}
