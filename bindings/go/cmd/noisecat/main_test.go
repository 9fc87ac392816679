package main

import (
	"bufio"
	"bytes"
	"crypto/sha256"
	"encoding/binary"
	"hash"
	"io"
	"math/rand"
	"net"
	"os"
	"os/exec"
	"path/filepath"
	"regexp"
	"strconv"
	"strings"
	"testing"
	"time"
)

var program string // the command, built once

func TestMain(m *testing.M) {
	os.Exit(func() int {
		room, err := os.MkdirTemp("", "noisecat")
		if err != nil {
			panic(err)
		}
		defer os.RemoveAll(room)
		program = filepath.Join(room, "noisecat")
		if out, err := exec.Command("go", "build", "-o", program, ".").CombinedOutput(); err != nil {
			os.Stderr.Write(out)
			return 1
		}
		return m.Run()
	}())
}

// built returns a folder, and what makes a call of the command there.
func built(t *testing.T) (string, func(...string) *exec.Cmd) {
	t.Helper()
	room := t.TempDir()
	return room, func(words ...string) *exec.Cmd {
		cmd := exec.Command(program, words...)
		cmd.Dir = room
		return cmd
	}
}

// keyFile makes a key, and returns its public key.
func keyFile(t *testing.T, name string, cat func(...string) *exec.Cmd) string {
	t.Helper()
	public, err := cat("keygen", "-o", name).Output()
	if err != nil {
		t.Fatal(err)
	}
	return strings.TrimSpace(string(public))
}

// side is one process: its standard input, where its output goes, what it has written to
// standard error, and its status.
type side struct {
	in     io.Reader
	out    io.Writer
	said   bytes.Buffer
	status int
}

// listener is a running server at a free port.
type listener struct {
	cmd     *exec.Cmd
	address string
	end     *side
	lines   chan string   // what it says on standard error
	gone    chan struct{} // closed once standard error is
}

// listen starts a server, and waits for its address.
func listen(t *testing.T, server *exec.Cmd, end *side) *listener {
	t.Helper()
	server.Args = append(server.Args, "-listen", "127.0.0.1:0")
	server.Stdin, server.Stdout = end.in, end.out
	said, err := server.StderrPipe()
	if err != nil {
		t.Fatal(err)
	}
	if err := server.Start(); err != nil {
		t.Fatal(err)
	}
	t.Cleanup(func() { server.Process.Kill() })
	lines := bufio.NewReader(said)
	line, _ := lines.ReadString('\n')
	address := strings.TrimSpace(strings.TrimPrefix(line, "listening on "))
	l := &listener{server, address, end, make(chan string, 1000), make(chan struct{})}
	go func() {
		defer close(l.gone)
		for {
			line, err := lines.ReadString('\n')
			if end.said.WriteString(line); err != nil {
				return
			}
			l.lines <- line
		}
	}()
	return l
}

// wait waits for the end of the server.
func (l *listener) wait() {
	<-l.gone
	l.cmd.Wait()
	l.end.status = l.cmd.ProcessState.ExitCode()
}

// says waits for a line with these words.
func (l *listener) says(t *testing.T, words string) {
	t.Helper()
	for {
		select {
		case line := <-l.lines:
			if strings.Contains(line, words) {
				return
			}
			t.Errorf("the listener says %q, not %q", line, words)
		case <-time.After(30 * time.Second):
			t.Fatalf("the listener doesn't say %q", words)
		}
	}
}

// client runs a client.
func client(cmd *exec.Cmd, end *side) {
	cmd.Stdin, cmd.Stdout, cmd.Stderr = end.in, end.out, &end.said
	cmd.Run()
	end.status = cmd.ProcessState.ExitCode()
}

// run2 runs a server at a free port, and then a client for that address.
func run2(t *testing.T, server *exec.Cmd, connect func(address string) *exec.Cmd, ends *[2]side) {
	t.Helper()
	l := listen(t, server, &ends[0])
	client(connect(l.address), &ends[1])
	l.wait()
}

// pair returns the command, the public keys of the files s and c in its folder, and a client that
// expects this key of the server.
func pair(t *testing.T) (
	cat func(...string) *exec.Cmd,
	server, client string,
	to func(peer string) func(string) *exec.Cmd,
) {
	t.Helper()
	_, cat = built(t)
	server, client = keyFile(t, "s", cat), keyFile(t, "c", cat)
	to = func(peer string) func(string) *exec.Cmd {
		return func(address string) *exec.Cmd { return cat("-connect", address, "-key", "c", "-peer", peer) }
	}
	return cat, server, client, to
}

// hashed draws bytes from a seed; its sum is that of what was read.
func hashed(seed, count int64) (io.Reader, hash.Hash) {
	sum := sha256.New()
	return io.TeeReader(io.LimitReader(rand.New(rand.NewSource(seed)), count), sum), sum
}

// TestFile sends NOISECAT_MB megabytes each way at once.
func TestFile(t *testing.T) {
	count := int64(64) << 20
	if text := os.Getenv("NOISECAT_MB"); text != "" {
		megabytes, err := strconv.ParseInt(text, 10, 32)
		if err != nil {
			t.Fatal(err)
		}
		count = megabytes << 20
	}
	cat, server, client, to := pair(t)
	var ends [2]side
	var sent, came [2]hash.Hash
	for i := range ends {
		ends[i].in, sent[i] = hashed(int64(i), count)
		came[i] = sha256.New()
		ends[i].out = came[i]
	}
	start := time.Now()
	run2(t, cat("-key", "s", "-allow", client), to(server), &ends)
	for i := range ends {
		if ends[i].status != 0 || ends[i].said.Len() != 0 {
			t.Errorf("status %d: %s", ends[i].status, ends[i].said.String())
		}
		if !bytes.Equal(sent[i].Sum(nil), came[1-i].Sum(nil)) {
			t.Error("another digest")
		}
	}
	took := time.Since(start)
	t.Logf("%d MB each way at once in %.1f s: %.0f MB/s",
		count>>20, took.Seconds(), float64(2*count>>20)/took.Seconds())
}

// refused looks for status 1, and a sentence with these words.
func refused(t *testing.T, end *side, words string) {
	t.Helper()
	said := end.said.String()
	if end.status != 1 || !strings.HasPrefix(said, "noisecat: ") || !strings.Contains(said, words) ||
		strings.Count(said, "\n") != 1 {
		t.Errorf("status %d, without the words %q: %s", end.status, words, said)
	}
}

func TestVerbose(t *testing.T) {
	cat, server, client, to := pair(t)
	var ends [2]side
	run2(t, cat("-key", "s", "-allow", client, "-v"), to(server), &ends)
	if said := ends[0].said.String(); !strings.Contains(said, "handshake hash: ") ||
		!strings.Contains(said, "peer's key: "+client) {
		t.Error("-v doesn't show the hash and the key")
	}
	if lines := regexp.MustCompile(`(?m)^(->|<-).*$`).FindAllString(ends[0].said.String(), -1); len(lines) < 4 {
		t.Error("-v doesn't show what goes over the connection")
	} else if line := regexp.MustCompile(`(?m)^(->|<-) \d+ bytes.+$`).FindString(ends[0].said.String()); line != "" {
		t.Errorf("-v shows %q", line)
	}
}

// TestListenerGoesOn has clients that are refused, refuse, differ, are silent and send what is no handshake, and
// then one that is accepted.
func TestListenerGoesOn(t *testing.T) {
	cat, server, own, to := pair(t)
	other := keyFile(t, "other", cat)
	var ends [2]side
	ends[1].in = strings.NewReader("hello")
	came := new(strings.Builder)
	ends[0].out = came
	l := listen(t, cat("-key", "s", "-allow", own, "-timeout", "5s"), &ends[0])
	quiet, err := net.Dial("tcp", l.address)
	if err != nil {
		t.Fatal(err)
	}
	defer quiet.Close()
	l.says(t, quiet.LocalAddr().String()+": the handshake took too long")
	noisy, err := net.Dial("tcp", l.address)
	if err != nil {
		t.Fatal(err)
	}
	defer noisy.Close()
	io.WriteString(noisy, "GET / HTTP/1.0\r\n\r\n")
	l.says(t, noisy.LocalAddr().String()+": message 1: it has 18245 bytes, and Config allows")
	for _, it := range []struct{ key, peer, more, client, server string }{
		{"other", server, "", "", "message 3, token s: the other party's key isn't allowed: " + other},
		{
			"c", own, "",
			"message 2, token s: the other party has another static key",
			"message 3: the connection was cut",
		},
		{
			"c", server, "-prologue=other",
			"message 2, token s: a tag is wrong: " +
				"the message was changed, or the parties differ in the pattern or the prologue",
			"message 3: ",
		},
		{
			"c", server, "-pattern=IK",
			"message 2, payload: a tag is wrong: the message was changed, or the parties differ in the pattern",
			"message 3: ",
		},
	} {
		var refusing side
		words := []string{"-connect", l.address, "-key", it.key, "-peer", it.peer}
		if it.more != "" {
			words = append(words, it.more)
		}
		client(cat(words...), &refusing)
		refused(t, &refusing, it.client)
		l.says(t, ": "+it.server)
	}
	client(to(server)(l.address), &ends[1])
	l.wait()
	if ends[0].status != 0 || ends[1].status != 0 || came.String() != "hello" {
		t.Errorf("status %d and %d, %q: %s", ends[0].status, ends[1].status, came, ends[1].said.String())
	}
}

// TestSilentStrangers lets more of them connect than there are handshakes at once.
func TestSilentStrangers(t *testing.T) {
	cat, server, own, to := pair(t)
	var ends [2]side
	l := listen(t, cat("-key", "s", "-allow", own), &ends[0])
	for i := 0; i < 70; i++ {
		quiet, err := net.Dial("tcp", l.address)
		if err != nil {
			t.Fatal(err)
		}
		defer quiet.Close()
	}
	start := time.Now()
	client(to(server)(l.address), &ends[1])
	l.wait()
	if ends[0].status != 0 || ends[1].status != 0 || time.Since(start) > 25*time.Second { // a handshake may take 30
		t.Errorf("status %d and %d: %s", ends[0].status, ends[1].status, ends[1].said.String())
	}
}

// fileFrom opens a file with this text, and reads its first bytes.
func fileFrom(t *testing.T, text string, first int) *os.File {
	t.Helper()
	name := filepath.Join(t.TempDir(), "input")
	if err := os.WriteFile(name, []byte(text), 0o600); err != nil {
		t.Fatal(err)
	}
	file, err := os.Open(name)
	if err != nil {
		t.Fatal(err)
	}
	t.Cleanup(func() { file.Close() })
	if _, err := io.ReadFull(file, make([]byte, first)); err != nil {
		t.Fatal(err)
	}
	return file
}

// TestKeep has one client after another, of which one is cut off: each other gets the file from where it
// was, and of no file nothing.
func TestKeep(t *testing.T) {
	t.Run("file", func(t *testing.T) { testKeep(t, fileFrom(t, "head\nto each\n", 5), "to each\n") })
	t.Run("none", func(t *testing.T) { testKeep(t, nil, "") })
}

func testKeep(t *testing.T, in io.Reader, want string) {
	cat, server, own, to := pair(t)
	var listening side
	listening.in = in
	read, written, err := os.Pipe()
	if err != nil {
		t.Fatal(err)
	}
	defer read.Close()
	listening.out = written
	l := listen(t, cat("-key", "s", "-allow", own, "-keep"), &listening)
	written.Close()
	out := bufio.NewReader(read)
	for _, text := range []string{"one\n", "two\n", "three\n"} {
		var end side
		var came strings.Builder
		end.in, end.out = strings.NewReader(text), &came
		client(to(server)(l.address), &end)
		if got, _ := out.ReadString('\n'); got != text || end.status != 0 || came.String() != want {
			t.Errorf("%q in the place of %q, back %q, status %d: %s",
				got, text, came.String(), end.status, end.said.String())
		}
		if text == "two\n" {
			cut(t, to(server)(l.address))
			l.says(t, "the connection was cut")
		}
	}
}

// TestKeepOnce has inputs of which only one connection could get what comes.
func TestKeepOnce(t *testing.T) {
	cat, _, own, _ := pair(t)
	folder, err := os.Open(".")
	if err != nil {
		t.Fatal(err)
	}
	defer folder.Close()
	for _, in := range []io.Reader{strings.NewReader("once"), folder} {
		end := side{in: in}
		client(cat("-listen", "127.0.0.1:0", "-key", "s", "-allow", own, "-keep"), &end)
		want := "noisecat: -keep: standard input can be sent to one connection alone: " +
			"redirect it from a file, or from /dev/null\n"
		if end.status != 2 || end.said.String() != want {
			t.Errorf("status %d: %s", end.status, end.said.String())
		}
	}
}

// cut runs a client whose input doesn't end, and kills it once its handshake is done.
func cut(t *testing.T, cmd *exec.Cmd) {
	t.Helper()
	in, err := cmd.StdinPipe()
	if err != nil {
		t.Fatal(err)
	}
	defer in.Close()
	cmd.Args = append(cmd.Args, "-v")
	said, err := cmd.StderrPipe()
	if err != nil {
		t.Fatal(err)
	}
	if err := cmd.Start(); err != nil {
		t.Fatal(err)
	}
	for lines := bufio.NewScanner(said); lines.Scan(); {
		if strings.HasPrefix(lines.Text(), "peer's key: ") {
			break
		}
	}
	cmd.Process.Kill()
	cmd.Wait()
}

// TestFilter has a program behind the listener that answers once it has read all.
func TestFilter(t *testing.T) {
	cat, server, own, to := pair(t)
	in, answers, err := os.Pipe()
	if err != nil {
		t.Fatal(err)
	}
	questions, out, err := os.Pipe()
	if err != nil {
		t.Fatal(err)
	}
	var ends [2]side
	ends[0].in, ends[0].out = in, out
	l := listen(t, cat("-key", "s", "-allow", own), &ends[0])
	in.Close()
	out.Close()
	go func() {
		defer answers.Close()
		all, _ := io.ReadAll(questions)
		answers.Write(bytes.ToUpper(all))
	}()
	var came strings.Builder
	ends[1].in, ends[1].out = strings.NewReader("a question"), &came
	client(to(server)(l.address), &ends[1])
	l.wait()
	if ends[0].status != 0 || ends[1].status != 0 || came.String() != "A QUESTION" {
		t.Errorf("status %d and %d, %q: %s", ends[0].status, ends[1].status, came.String(), ends[1].said.String())
	}
}

// TestPSKs gives the two parties one file with a psk, and then two files with different ones.
func TestPSKs(t *testing.T) {
	_, cat := built(t)
	keyFile(t, "one", cat)
	keyFile(t, "other", cat)
	var ends [2]side
	came := new(strings.Builder)
	ends[0].out, ends[1].in = came, strings.NewReader("hello")
	l := listen(t, cat("-pattern", "NNpsk2", "-psk", "one"), &ends[0])
	to := func(psk string) *exec.Cmd { return cat("-connect", l.address, "-pattern", "NNpsk2", "-psk", psk) }
	var refusing side
	client(to("other"), &refusing)
	refused(t, &refusing, "message 2, payload: a tag is wrong: "+
		"the message was changed, or the parties differ in the pattern, the prologue or a psk")
	l.says(t, "the connection was cut")
	l.wait() // its handshake has ended well: it wrote the last message
	if ends[0].status != 1 || came.Len() != 0 {
		t.Errorf("status %d, %q", ends[0].status, came)
	}
	l = listen(t, cat("-pattern", "NNpsk2", "-psk", "one"), &ends[0])
	client(to("one"), &ends[1])
	l.wait()
	if ends[0].status != 0 || ends[1].status != 0 || came.String() != "hello" {
		t.Error(ends[0].said.String(), ends[1].said.String())
	}
}

// TestOptions looks for faults that are found before anything is sent: status 2 after wrong words, 1 for a file.
func TestOptions(t *testing.T) {
	room, cat := built(t)
	keyFile(t, "k", cat)
	if err := os.WriteFile(filepath.Join(room, "short"), []byte("12\n"), 0o600); err != nil {
		t.Fatal(err)
	}
	for words, args := range map[string]string{
		"2 -peer: a key has 64 hexadecimal digits":  "-connect 127.0.0.1:1 -key k -peer 12",
		"2 -allow: a key has 64 hexadecimal digits": "-listen 127.0.0.1:0 -key k -allow k",
		"1 a key has 64 hexadecimal digits: short":  "-connect 127.0.0.1:1 -pattern NNpsk0 -psk short",
		"1 a key has 64 hexadecimal digits:  short": "-connect 127.0.0.1:1 -key short -insecure-any",
		"1 open none: no such file":                 "-listen 127.0.0.1:0 -pattern NNpsk0 -psk none",
		"2 -psk: the number of psks isn't":          "-listen 127.0.0.1:0 -pattern NNpsk0 -psk k,k",
		"2 -psk: the number of psks isn't the number of psk tokens": "-listen 127.0.0.1:0 " +
			"-pattern NNpsk0 -insecure-any",
		"2 -key: the pattern needs a static key of this party":        "-listen 127.0.0.1:0 -insecure-any",
		"2 -peer: the pattern needs the other party's":                "-connect 127.0.0.1:1 -pattern NK -insecure-any",
		"2 nothing says who may be the other party: name it by -peer": "-listen 127.0.0.1:0 -key k",
		"2 -pattern: not the name": "-listen 127.0.0.1:0 " +
			"-key k -pattern XXpsk7 -insecure-any",
		"2 flag provided but not defined: -what":            "-listen 127.0.0.1:0 -what",
		"2 invalid value":                                   "-listen 127.0.0.1:0 -interval x",
		"2 one word too many: word":                         "-listen 127.0.0.1:0 -key k -insecure-any word",
		"2 name either -listen or -connect":                 "-key k",
		"2 name either -listen or -connect: noisecat -h":    "-listen 127.0.0.1:0 -connect 127.0.0.1:1",
		"2 -keep is for -listen":                            "-connect 127.0.0.1:1 -keep -insecure-any",
		"2 -local is for -connect":                          "-listen 127.0.0.1:0 -local :0 -insecure-any",
		"2 -local is for -connect, without -forward":        "-connect :1 -local :0 -exec cat -insecure-any",
		"2 one word too many: now":                          "keygen now",
		"2 one word too many:  now":                         "pubkey now",
		"2 flag provided but not defined: -x":               "keygen -x",
		"1 standard input: a key has 64 hexadecimal digits": "pubkey",
		"1 open k: file exists":                             "keygen -o k",
	} {
		words, want := strings.ReplaceAll(words[2:], ":  ", ": "), int(words[0]-'0')
		var end side
		client(cat(strings.Fields(args)...), &end)
		said := end.said.String()
		if end.status != want || !strings.HasPrefix(said, "noisecat: ") || !strings.Contains(said, words) ||
			strings.Count(said, "\n") != 1 {
			t.Errorf("%s: status %d, want %d and %q: %s", args, end.status, want, words, said)
		}
	}
}

// TestKeys makes keys, looks at their files, and prints their public keys.
func TestKeys(t *testing.T) {
	room, cat := built(t)
	public := keyFile(t, "k", cat)
	name := filepath.Join(room, "k")
	info, err := os.Stat(name)
	if err != nil {
		t.Fatal(err)
	}
	if info.Mode() != 0o600 {
		t.Errorf("mode %v", info.Mode())
	}
	first, err := os.ReadFile(name)
	if err != nil {
		t.Fatal(err)
	}
	cat("keygen", "-o", "k").Run()
	if again, err := os.ReadFile(name); err != nil || !bytes.Equal(again, first) {
		t.Error("a key was overwritten")
	}
	cmd := cat("pubkey")
	cmd.Stdin = bytes.NewReader(first)
	if got, err := cmd.Output(); err != nil || string(got) != public+"\n" {
		t.Errorf("%q, %v, want %s", got, err, public)
	}
	secret := "77076d0a7318a57d3c16c17251b26645df4c2f87ebc0992ab177fba51db92c2a" // Alice's of RFC 7748, 6.1
	for digits, want := range map[string]string{
		secret[:16] + " " + secret[16:]: "",
		secret + "\n":                   "8520f0098930a754748b7ddcb43ef75a0dbf3a0d26381af4eba4a98eaa9b4e6a\n",
	} {
		cmd = cat("pubkey")
		cmd.Stdin = strings.NewReader(digits)
		if got, err := cmd.Output(); string(got) != want || (err == nil) != (want != "") {
			t.Errorf("%q, %v, want %q", got, err, want)
		}
	}
	for _, words := range []string{"keygen -h", "keygen -help", "-h", "-version"} {
		got, err := cat(strings.Fields(words)...).Output()
		if err != nil || words == "-version" != (string(got) == "noisecat 1.0.0\n") ||
			words != "-version" && !strings.HasPrefix(string(got), "usage: noisecat") {
			t.Errorf("%s: %v, %q", words, err, got)
		}
	}
	got, _ := cat("-h").Output()
	for _, word := range strings.Fields("keygen pubkey -o -listen -connect -key -allow -peer -psk -pattern " +
		"-prologue -interval -insecure-any -keep -timeout -v -version") {
		if !bytes.Contains(got, []byte(word)) {
			t.Errorf("the usage lacks %s", word)
		}
	}
	if names, err := os.ReadDir(room); err != nil || len(names) != 1 {
		t.Errorf("%v, %v", names, err)
	}
}

// TestKeyThatOthersCanRead looks for a warning.
func TestKeyThatOthersCanRead(t *testing.T) {
	cat, server, own, to := pair(t)
	var ends [2]side
	for name, mode := range map[string]os.FileMode{"s": 0o640, "c": 0o604} {
		if err := os.Chmod(filepath.Join(cat().Dir, name), mode); err != nil {
			t.Fatal(err)
		}
	}
	run2(t, cat("-key", "s", "-allow", own), to(server), &ends)
	for i, want := range []string{
		"warning: others can read s (mode 0640): chmod 600 s\n",
		"warning: others can read c (mode 0604): chmod 600 c\n",
	} {
		if said := ends[i].said.String(); !strings.Contains(said, want) {
			t.Errorf("%q, want %q", said, want)
		}
	}
}

// TestFaults changes and cuts what a client sends to a server, which has sent the end of its own stream or not,
// and looks at both statuses.
func TestFaults(t *testing.T) {
	cat, server, client, to := pair(t)
	for _, it := range []struct {
		words  string
		change func(io.Writer, io.Reader)
	}{
		{"was changed", flip},
		{"cut before the other party had sent all", cutWithin},
		{"cut before the other party had sent all", cutBetween},
		{"cut before the other party had sent all", cutAtEnd},
	} {
		for _, isOpen := range []bool{false, true} {
			middle, err := net.Listen("tcp", "127.0.0.1:0")
			if err != nil {
				t.Fatal(err)
			}
			defer middle.Close()
			var ends [2]side
			ends[1].in, _ = hashed(1, length)
			came := new(bytes.Buffer)
			ends[0].out = came
			if isOpen {
				in, more, err := os.Pipe()
				if err != nil {
					t.Fatal(err)
				}
				defer in.Close()
				defer more.Close()
				ends[0].in = in
			}
			run2(t, cat("-key", "s", "-allow", client), func(address string) *exec.Cmd {
				go pass(middle, address, it.change)
				return to(server)(middle.Addr().String())
			}, &ends)
			refused(t, &ends[0], it.words)
			refused(t, &ends[1], "")
			sent, _ := hashed(1, int64(came.Len()))
			if want, _ := io.ReadAll(sent); came.Len() == 0 || !bytes.Equal(came.Bytes(), want) {
				t.Error("other bytes came than were sent")
			}
		}
	}
}

// TestOwnFaults has one party whose disk is full, one behind which nobody reads, and one whose input can't be read.
func TestOwnFaults(t *testing.T) {
	cat, server, client, to := pair(t)
	full, err := os.OpenFile("/dev/full", os.O_WRONLY, 0)
	if err != nil {
		t.Skip(err)
	}
	defer full.Close()
	folder, err := os.Open(".")
	if err != nil {
		t.Fatal(err)
	}
	defer folder.Close()
	read, unread, err := os.Pipe()
	if err != nil {
		t.Fatal(err)
	}
	read.Close()
	defer unread.Close()
	for _, it := range []struct {
		side  side
		words string
	}{
		{side{out: full}, "no space left on device"},
		{side{out: unread}, "stdout: broken pipe"},
		{side{in: folder}, "is a directory"},
	} {
		for end := 0; end < 2; end++ {
			var ends [2]side
			ends[end].in, ends[end].out = it.side.in, it.side.out
			if it.side.out != nil {
				ends[1-end].in = strings.NewReader("hello")
			}
			run2(t, cat("-key", "s", "-allow", client), to(server), &ends)
			refused(t, &ends[end], it.words)
			refused(t, &ends[1-end], "")
		}
	}
}

const length = 1 << 20

func flip(to io.Writer, from io.Reader) {
	io.CopyN(to, from, 100000)
	b := make([]byte, 1)
	io.ReadFull(from, b)
	to.Write([]byte{b[0] ^ 4})
	io.Copy(to, from)
}

func cutWithin(to io.Writer, from io.Reader) { io.CopyN(to, from, 100000) }

func cutBetween(to io.Writer, from io.Reader) { passFrames(to, from, 5) }

// cutAtEnd leaves out the end alone: messages 1 and 3 of XX and 17 frames are before it.
func cutAtEnd(to io.Writer, from io.Reader) { passFrames(to, from, 2+(length+65518)/65519) }

func passFrames(to io.Writer, from io.Reader, count int) {
	var length [2]byte
	for i := 0; i < count; i++ {
		io.ReadFull(from, length[:])
		to.Write(length[:])
		io.CopyN(to, from, int64(binary.BigEndian.Uint16(length[:])))
	}
}

// pass accepts one connection, and carries what it reads to the server, changed, and back what the server
// writes. A reset goes through.
func pass(middle net.Listener, at string, change func(io.Writer, io.Reader)) {
	from, err := middle.Accept()
	if err != nil {
		return
	}
	to, err := net.Dial("tcp", at)
	if err != nil {
		return
	}
	go func() {
		change(to, from)
		to.(*net.TCPConn).CloseWrite() // closed with something unread it would be reset
	}()
	if _, err := io.Copy(from, to); err != nil {
		from.(*net.TCPConn).SetLinger(0)
	}
	to.Close()
	from.Close()
}
