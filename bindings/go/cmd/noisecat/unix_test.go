//go:build unix

package main

import (
	"bytes"
	"fmt"
	"io"
	"net"
	"os"
	"os/exec"
	"path/filepath"
	"regexp"
	"strconv"
	"strings"
	"syscall"
	"testing"
	"time"
)

// settles waits until what a function says is empty.
func settles(t *testing.T, left func() string) {
	t.Helper()
	for i := 0; i < 600; i++ {
		if left() == "" {
			return
		}
		time.Sleep(50 * time.Millisecond)
	}
	t.Error(left())
}

// children returns the processes of which this one is the parent, with their states, and those of a group.
func children(t *testing.T, parent int, groups []string) string {
	t.Helper()
	out, err := exec.Command("ps", "-eo", "ppid,pgid,pid,stat,args").Output()
	if err != nil {
		t.Skip(err)
	}
	var found []string
	for _, line := range strings.Split(string(out), "\n") {
		words := strings.Fields(line)
		isIn := len(words) > 1 && words[0] == strconv.Itoa(parent)
		for _, group := range groups {
			isIn = isIn || len(words) > 1 && words[1] == group
		}
		if isIn {
			found = append(found, line)
		}
	}
	return strings.Join(found, "\n")
}

// TestCutCommands cuts channels whose commands have started others and wait: none of them stays, and none is a zombie.
func TestCutCommands(t *testing.T) {
	cat, server, own, to := pair(t)
	room := t.TempDir()
	command := "echo $$ >>" + room + "/pids; sleep 300 | sleep 300"
	l := listen(t, cat("-key", "s", "-allow", own, "-keep", "-exec", command), new(side))
	for i := 0; i < 5; i++ {
		cut(t, to(server)(l.address))
	}
	groups := func() []string {
		text, _ := os.ReadFile(filepath.Join(room, "pids"))
		return strings.Fields(string(text))
	}
	settles(t, func() string { return children(t, l.cmd.Process.Pid, groups()) })
	// A signal ends the commands too.
	before := len(groups()) // some are killed before they have written their line
	silentClient(t, to(server)(l.address))
	for i := 0; len(groups()) == before && i < 600; i++ {
		time.Sleep(50 * time.Millisecond)
	}
	if len(groups()) == before || children(t, l.cmd.Process.Pid, nil) == "" {
		t.Fatal("the command doesn't run")
	}
	l.cmd.Process.Signal(syscall.SIGTERM)
	l.wait()
	settles(t, func() string { return children(t, -1, groups()) })
}

// TestCommandThatReadsNothing has commands that answer without reading their input, or all of it.
func TestCommandThatReadsNothing(t *testing.T) {
	cat, server, own, to := pair(t)
	for command, want := range map[string]string{
		"echo hello":                            "hello\n",
		"head -c 5; echo; exec <&-; echo hello": "01234\nhello\n",
		"exec <&-; sleep 0.3; seq 100000":       "",
	} {
		l := listen(t, cat("-key", "s", "-allow", own, "-keep", "-exec", command), new(side))
		var came bytes.Buffer
		end := side{in: strings.NewReader(strings.Repeat("0123456789", 100_000)), out: &came}
		client(to(server)(l.address), &end)
		if end.status != 0 || want != "" && came.String() != want || want == "" && came.Len() != 588895 {
			t.Errorf("%s: status %d, %d bytes: %s", command, end.status, came.Len(), end.said.String())
		}
	}
	l := listen(t, cat("-key", "s", "-allow", own, "-exec", "exit 3"), new(side))
	end := side{in: strings.NewReader("x")}
	client(to(server)(l.address), &end)
	refused(t, &end, "")
	l.wait()
	refused(t, l.end, "exit status 3")
}

// TestEnvironmentOfCommands prints what a command knows of the other party.
func TestEnvironmentOfCommands(t *testing.T) {
	cat, server, own, to := pair(t)
	const command = `echo "$NOISECAT_PEER_KEY $NOISECAT_PEER_ADDRESS"`
	for _, it := range []struct {
		own, other []string
		want       string
	}{
		{[]string{"-allow", own}, nil, "^" + own + ` 127\.0\.0\.1:\d+\n$`},
		{[]string{"-pattern", "NK", "-insecure-any"}, []string{"-pattern", "NK"}, `^ 127\.0\.0\.1:\d+\n$`},
	} {
		words := append([]string{"-key", "s", "-exec", command}, it.own...)
		serve := cat(words...)
		serve.Env = append(os.Environ(), "NOISECAT_PEER_KEY=forged", "NOISECAT_PEER_ADDRESS=forged")
		l := listen(t, serve, new(side))
		var came bytes.Buffer
		end := side{in: strings.NewReader(""), out: &came}
		cmd := to(server)(l.address)
		cmd.Args = append(cmd.Args, it.other...)
		client(cmd, &end)
		l.wait()
		if end.status != 0 || !regexp.MustCompile(it.want).MatchString(came.String()) {
			t.Errorf("status %d, %q: %s", end.status, came.String(), end.said.String())
		}
	}
}

// TestTooManyFiles has strangers take all the files that a server may open: the oldest gives way, and once they are
// away a client is served.
func TestTooManyFiles(t *testing.T) {
	cat, server, own, to := pair(t)
	serve := cat("-key", "s", "-allow", own, "-keep", "-exec", "cat")
	words := append([]string{"-c", `ulimit -n 24; exec "$0" "$@"`, serve.Path}, serve.Args[1:]...)
	limited := exec.Command("/bin/sh", words...)
	limited.Dir = serve.Dir
	l := listen(t, limited, new(side))
	defer l.cmd.Process.Kill()
	var strangers []net.Conn
	for i := 0; i < 60; i++ {
		conn, err := net.DialTimeout("tcp", l.address, time.Second)
		if err != nil {
			break
		}
		strangers = append(strangers, conn)
	}
	l.says(t, "it gave way to newer connections")
	for _, conn := range strangers {
		conn.Close()
	}
	var came bytes.Buffer
	var end side
	for i := 0; i < 20; i++ { // each has the whole input: one that fails may have read it
		came.Reset()
		end = side{in: strings.NewReader("x"), out: &came}
		if client(to(server)(l.address), &end); end.status == 0 {
			break
		}
		time.Sleep(100 * time.Millisecond)
	}
	if end.status != 0 || came.String() != "x" {
		t.Errorf("status %d, %q: %s", end.status, came.String(), end.said.String())
	}
}

// TestLocal has a listener at the client's side, and plain programs on both sides.
func TestLocal(t *testing.T) {
	cat, server, own, to := pair(t)
	l := listen(t, cat("-key", "s", "-allow", own, "-keep", "-exec", "cat"), new(side))
	near := to(server)(l.address)
	near.Args = append(near.Args, "-local", "127.0.0.1:0")
	said, err := near.StderrPipe()
	if err != nil {
		t.Fatal(err)
	}
	if err := near.Start(); err != nil {
		t.Fatal(err)
	}
	t.Cleanup(func() { near.Process.Kill(); near.Wait() })
	var address string
	if _, err := fmt.Fscanf(said, "listening on %s\n", &address); err != nil {
		t.Fatal(err)
	}
	go io.Copy(io.Discard, said)
	var all []*net.TCPConn
	for i := 0; i < 3; i++ { // at once
		conn, err := net.Dial("tcp", address)
		if err != nil {
			t.Fatal(err)
		}
		defer conn.Close()
		all = append(all, conn.(*net.TCPConn))
	}
	for i, conn := range all {
		sent := strings.Repeat(fmt.Sprint(i), 300_000)
		go func(conn *net.TCPConn) { io.WriteString(conn, sent); conn.CloseWrite() }(conn)
		got, err := io.ReadAll(conn)
		if err != nil || string(got) != sent {
			t.Errorf("%d: %d bytes, %v", i, len(got), err)
		}
	}
	l.cmd.Process.Kill()
	l.cmd.Wait()
	conn, err := net.Dial("tcp", address)
	if err != nil {
		return // it was reset at once
	}
	defer conn.Close()
	if got, err := io.ReadAll(conn); err == nil { // reset, since an end would say that it is whole
		t.Errorf("%q and an end, though nobody is there", got)
	}
}

// TestProgress has a line that says how much was sent and received.
func TestProgress(t *testing.T) {
	cat, server, own, to := pair(t)
	l := listen(t, cat("-key", "s", "-allow", own, "-exec", "cat"), new(side))
	cmd := to(server)(l.address)
	cmd.Args = append(cmd.Args, "-progress")
	end := side{in: strings.NewReader(strings.Repeat("x", 3_000_000))}
	client(cmd, &end)
	l.wait()
	if !regexp.MustCompile(`3\.0 MB sent, 3\.0 MB received, .*B/s, 0:0\d:\d\d\s*\n$`).MatchString(end.said.String()) {
		t.Errorf("status %d: %q", end.status, end.said.String())
	}
}
