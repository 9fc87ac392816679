// Package flynn runs the JavaScript module against github.com/flynn/noise over TCP on 127.0.0.1. NOISE_JS_ECHO has the
// path of a program that runs checks/web/echo.mjs.
package flynn

import (
	"bufio"
	"bytes"
	"crypto/rand"
	"fmt"
	"io"
	"net"
	"os"
	"os/exec"
	"strings"
	"testing"
	"time"

	"example.org/flynnpeer"
)

func TestJavaScript(t *testing.T) {
	program := os.Getenv("NOISE_JS_ECHO")
	if program == "" {
		t.Skip("NOISE_JS_ECHO isn't set")
	}
	for i, pattern := range flynnpeer.Patterns {
		// Each role once: one of the two runs has a psk token, whose place is another one for the next pattern.
		for _, initiator := range []bool{true, false} {
			initiator, name, oneWay := initiator, pattern.Name, len(pattern.Messages) == 1
			if initiator == (i%2 == 0) {
				name = fmt.Sprintf("%spsk%d", name, i/2%(len(pattern.Messages)+1))
			}
			t.Run(fmt.Sprintf("%s/%v", name, initiator), func(t *testing.T) {
				t.Parallel()
				live(t, program, name, initiator, oneWay)
			})
		}
	}
}

func live(t *testing.T, program, name string, initiator, oneWay bool) {
	own, err := flynnpeer.Suite.GenerateKeypair(rand.Reader)
	must(t, err)
	other, err := flynnpeer.Suite.GenerateKeypair(rand.Reader)
	must(t, err)
	config, err := flynnpeer.Config(name, initiator, own, other.Public, bytes.Repeat([]byte{7}, 32))
	must(t, err)
	secret := "-"
	if strings.Contains(name, "psk") {
		secret = strings.Repeat("07", 32)
	}
	words := []string{name, fmt.Sprintf("%x", other.Private), fmt.Sprintf("%x", own.Public), secret}
	conn, wait := meet(t, program, words, initiator)
	c, err := flynnpeer.Open(conn, config, "")
	must(t, err)
	sent := bytes.Repeat([]byte("0123456789abcdef"), 1<<13)
	if initiator {
		must(t, c.WriteAll(sent))
		must(t, c.CloseWrite())
	}
	if !initiator || !oneWay {
		got, err := io.ReadAll(c)
		must(t, err)
		if len(got) != len(sent) || initiator && !bytes.Equal(got, sent) {
			t.Error("other bytes came")
		}
		if !initiator && !oneWay {
			must(t, c.WriteAll(got))
			must(t, c.CloseWrite())
		}
	}
	must(t, wait())
}

// meet starts the program at the other end of a connection.
func meet(t *testing.T, program string, words []string, initiator bool) (net.Conn, func() error) {
	var cmd *exec.Cmd
	var conn net.Conn
	if initiator {
		cmd = exec.Command(program, append(words, "@127.0.0.1:0")...)
		cmd.Stderr = os.Stderr
		said, err := cmd.StdoutPipe()
		must(t, err)
		must(t, cmd.Start())
		address, err := bufio.NewReader(said).ReadString('\n')
		must(t, err)
		conn, err = net.Dial("tcp", strings.TrimSpace(address))
		must(t, err)
	} else {
		l, err := net.Listen("tcp", "127.0.0.1:0")
		must(t, err)
		defer l.Close()
		cmd = exec.Command(program, append(words, l.Addr().String())...)
		cmd.Stderr = os.Stderr
		must(t, cmd.Start())
		conn, err = l.Accept()
		must(t, err)
	}
	conn.SetDeadline(time.Now().Add(2 * time.Minute))
	t.Cleanup(func() { conn.Close() })
	return conn, cmd.Wait
}

func must(t *testing.T, err error) {
	t.Helper()
	if err != nil {
		t.Fatal(err)
	}
}
