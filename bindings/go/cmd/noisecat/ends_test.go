package main

import (
	"bufio"
	"bytes"
	"io"
	"net"
	"os"
	"os/exec"
	"strings"
	"testing"
	"time"
)

// proxied returns the address of a proxy as most are: whatever ends one of its connections, it
// closes the other by a FIN.
func proxied(t *testing.T, to string) string {
	t.Helper()
	l, err := net.Listen("tcp", "127.0.0.1:0")
	if err != nil {
		t.Fatal(err)
	}
	t.Cleanup(func() { l.Close() })
	go func() {
		for {
			one, err := l.Accept()
			if err != nil {
				return
			}
			other, err := net.Dial("tcp", to)
			if err != nil {
				one.Close()
				continue
			}
			for _, ends := range [][2]net.Conn{{one, other}, {other, one}} {
				from, to := ends[0].(*net.TCPConn), ends[1].(*net.TCPConn)
				go func() {
					io.Copy(to, from)
					to.CloseWrite()
				}()
			}
		}
	}()
	return l.Addr().String()
}

// TestStatusThroughAProxy has a party whose disk is full behind a proxy, which sends a FIN where that
// party resets the connection.
func TestStatusThroughAProxy(t *testing.T) {
	cat, server, own, to := pair(t)
	full, err := os.OpenFile("/dev/full", os.O_WRONLY, 0)
	if err != nil {
		t.Skip(err)
	}
	defer full.Close()
	for i := 0; i < 5; i++ {
		var ends [2]side
		ends[0].out, ends[1].in = full, strings.NewReader("hello")
		l := listen(t, cat("-key", "s", "-allow", own), &ends[0])
		client(to(server)(proxied(t, l.address)), &ends[1])
		l.wait()
		refused(t, &ends[0], "no space left on device")
		refused(t, &ends[1], "")
	}
	var ends [2]side
	var came bytes.Buffer
	ends[0].out, ends[1].in = &came, strings.NewReader("hello")
	l := listen(t, cat("-key", "s", "-allow", own), &ends[0])
	client(to(server)(proxied(t, l.address)), &ends[1])
	l.wait()
	if ends[0].status != 0 || ends[1].status != 0 || came.String() != "hello" {
		t.Errorf("status %d and %d, %q: %s", ends[0].status, ends[1].status, came.String(), ends[1].said.String())
	}
}

// TestOneWayPattern sends by N, in which nobody can answer.
func TestOneWayPattern(t *testing.T) {
	cat, server, _, _ := pair(t)
	var ends [2]side
	var came bytes.Buffer
	ends[0].out, ends[1].in = &came, strings.NewReader("hello")
	run2(t, cat("-pattern", "N", "-key", "s", "-insecure-any"), func(address string) *exec.Cmd {
		return cat("-pattern", "N", "-connect", address, "-peer", server)
	}, &ends)
	if ends[0].status != 0 || ends[1].status != 0 || came.String() != "hello" {
		t.Errorf("status %d and %d, %q: %s", ends[0].status, ends[1].status, came.String(), ends[1].said.String())
	}
}

// silentClient is one that is allowed, and sends nothing.
func silentClient(t *testing.T, cmd *exec.Cmd) {
	t.Helper()
	cmd.Args = append(cmd.Args, "-v")
	in, err := cmd.StdinPipe()
	if err != nil {
		t.Fatal(err)
	}
	said, err := cmd.StderrPipe()
	if err != nil {
		t.Fatal(err)
	}
	if err := cmd.Start(); err != nil {
		t.Fatal(err)
	}
	t.Cleanup(func() { in.Close(); cmd.Process.Kill(); cmd.Wait() })
	for lines := bufio.NewScanner(said); lines.Scan(); {
		if strings.HasPrefix(lines.Text(), "peer's key: ") {
			go io.Copy(io.Discard, said)
			return
		}
	}
	t.Error("the silent client isn't accepted")
}

// TestSilentClient has one that is allowed and silent before another: with one after another until the time of -idle,
// and with all at once not at all.
func TestSilentClient(t *testing.T) {
	echo, err := net.Listen("tcp", "127.0.0.1:0")
	if err != nil {
		t.Fatal(err)
	}
	defer echo.Close()
	go func() {
		for {
			conn, err := echo.Accept()
			if err != nil {
				return
			}
			go func() {
				io.Copy(conn, conn)
				conn.(*net.TCPConn).CloseWrite()
			}()
		}
	}()
	for _, it := range []struct {
		words []string
		back  string
	}{
		{[]string{"-idle", "3s"}, ""},
		{[]string{"-forward", echo.Addr().String()}, "hello"},
		{[]string{"-exec", "cat"}, "hello"},
		{[]string{"-exec", "sed s/h/H/"}, "Hello"},
	} {
		cat, server, own, to := pair(t)
		var ends [2]side
		l := listen(t, cat(append([]string{"-key", "s", "-allow", own, "-keep"}, it.words...)...), &ends[0])
		silentClient(t, to(server)(l.address))
		for i := 0; i < 2; i++ {
			var end side
			var back strings.Builder
			end.in, end.out = strings.NewReader("hello"), &back
			start := time.Now()
			client(to(server)(l.address), &end)
			if end.status != 0 || back.String() != it.back || time.Since(start) > 25*time.Second {
				t.Errorf("%v: status %d, %q: %s", it.words, end.status, back.String(), end.said.String())
			}
		}
	}
}

// TestFaultsOfTargets has targets that aren't there, and a command that fails.
func TestFaultsOfTargets(t *testing.T) {
	for _, it := range [][3]string{
		{"-forward", "127.0.0.1:1", "connection refused"},
		{"-exec", "cat; exit 3", "-exec: exit status 3"},
	} {
		cat, server, own, to := pair(t)
		var ends [2]side
		ends[1].in = strings.NewReader("hello")
		run2(t, cat("-key", "s", "-allow", own, it[0], it[1]), to(server), &ends)
		refused(t, &ends[0], it[2])
		refused(t, &ends[1], "")
	}
}
