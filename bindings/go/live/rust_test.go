package live

import (
	"bufio"
	"bytes"
	"encoding/hex"
	"fmt"
	"io"
	"net"
	"os"
	"os/exec"
	"strings"
	"testing"
	"time"

	"example.org/yulimosar/noise"
)

// TestRust runs the package against the example `echo` of the crate in bindings/rust, whose path NOISE_RUST_ECHO has.
func TestRust(t *testing.T) {
	program := os.Getenv("NOISE_RUST_ECHO")
	if program == "" {
		t.Skip("NOISE_RUST_ECHO isn't set")
	}
	for _, pattern := range patterns {
		for place := -1; place <= len(pattern.Messages); place++ {
			name := pattern.Name
			if place >= 0 {
				name = fmt.Sprintf("%spsk%d", name, place)
			}
			for _, initiator := range []bool{true, false} {
				t.Run(fmt.Sprintf("%s/%v", name, initiator), func(t *testing.T) {
					withRust(t, program, name, place >= 0, initiator, len(pattern.Messages) == 1)
				})
			}
		}
	}
}

func withRust(t *testing.T, program, name string, psk, initiator, oneWay bool) {
	own, err := noise.GenerateKeyPair()
	must(t, err)
	other, err := noise.GenerateKeyPair()
	must(t, err)
	config := &noise.Config{Pattern: name, Prologue: []byte("live"), Static: own, InsecureAcceptAnyKey: true}
	letters, _, _ := strings.Cut(name, "psk")
	if at := strings.LastIndex(letters, "K"); initiator && (oneWay || at == len(letters)-1) ||
		!initiator && letters[0] == 'K' {
		key := other.Public()
		config.PeerStatic = &key
	}
	digits := "-"
	if psk {
		digits = strings.Repeat("07", 32)
		config.PSKs = []noise.PSK{pskOf(7)}
	}
	words := []string{name, hexOf(other), fmt.Sprintf("%x", own.Public()), digits}
	if initiator {
		toRust(t, exec.Command(program, append(words, "@127.0.0.1:0")...), config, oneWay)
	} else {
		fromRust(t, program, words, config, oneWay)
	}
}

// TestRustPSKOfEachPeer is pskOfEachPeer with the same example.
func TestRustPSKOfEachPeer(t *testing.T) {
	program := os.Getenv("NOISE_RUST_ECHO")
	if program == "" {
		t.Skip("NOISE_RUST_ECHO isn't set")
	}
	pskOfEachPeer(t, program)
}

// hexOf is the secret key of a pair, which doesn't print itself, and hexOfPSK the psk of a client.
func hexOf(pair *noise.KeyPair) string {
	secret := pair.Secret()
	return hex.EncodeToString(secret[:])
}

func hexOfPSK(client int) string {
	psk := pskOfClient(client)
	return hex.EncodeToString(psk[:])
}

// pskOfEachPeer passes the patterns in which a server may choose the psk by the client's key, with the server in either
// language, and two clients that have a psk each.
func pskOfEachPeer(t *testing.T, program string) {
	keys := newKeys(t, 3)
	server, public := keys[2], keys[2].Public()
	table := fmt.Sprintf("%x=%s,%x=%s", keys[0].Public(), hexOfPSK(0), keys[1].Public(), hexOfPSK(1))
	for _, name := range choosing {
		for i, client := range keys[:2] {
			config := &noise.Config{
				Pattern:  name,
				Prologue: []byte("live"),
				Static:   client,
				PSKs:     []noise.PSK{pskOfClient(i)},
			}
			if strings.HasPrefix(name, "IK") {
				config.PeerStatic = &public
			}
			words := []string{name, hexOf(server), fmt.Sprintf("%x", client.Public()), table, "@127.0.0.1:0"}
			t.Run(fmt.Sprintf("%s/%d/true", name, i), func(t *testing.T) {
				toRust(t, exec.Command(program, words...), config, false)
			})
			words = []string{name, hexOf(client), fmt.Sprintf("%x", public), hexOfPSK(i)}
			t.Run(fmt.Sprintf("%s/%d/false", name, i), func(t *testing.T) {
				fromRust(t, program, words, chooser(server, name, keys[:2]), false)
			})
		}
	}
}

// toRust sends 128 KiB, and wants them back.
func toRust(t *testing.T, cmd *exec.Cmd, config *noise.Config, oneWay bool) {
	cmd.Stderr = os.Stderr
	said, err := cmd.StdoutPipe()
	must(t, err)
	must(t, cmd.Start())
	address, err := bufio.NewReader(said).ReadString('\n')
	must(t, err)
	c, err := noise.Dial("tcp", strings.TrimSpace(address), config)
	must(t, err)
	defer c.Close()
	c.SetDeadline(time.Now().Add(20 * time.Second))
	sent := bytes.Repeat([]byte("0123456789abcdef"), 1<<13)
	_, err = c.Write(sent)
	must(t, err)
	must(t, c.CloseWrite())
	if !oneWay {
		got, err := io.ReadAll(c)
		must(t, err)
		if !bytes.Equal(got, sent) {
			t.Error("other bytes came back")
		}
	}
	must(t, cmd.Wait())
}

// fromRust sends back what comes.
func fromRust(t *testing.T, program string, words []string, config *noise.Config, oneWay bool) {
	l, err := net.Listen("tcp", "127.0.0.1:0")
	must(t, err)
	defer l.Close()
	cmd := exec.Command(program, append(words, l.Addr().String())...)
	cmd.Stderr = os.Stderr
	must(t, cmd.Start())
	conn, err := noise.NewListener(l, config).Accept()
	must(t, err)
	defer conn.Close()
	conn.SetDeadline(time.Now().Add(20 * time.Second))
	if oneWay {
		n, err := io.Copy(io.Discard, conn)
		must(t, err)
		if n != 1<<17 {
			t.Error(n)
		}
	} else {
		_, err = io.Copy(struct{ io.Writer }{conn}, struct{ io.Reader }{conn})
		must(t, err)
		must(t, conn.(*noise.Conn).CloseWrite())
	}
	must(t, cmd.Wait())
}
