package noise

import (
	"bytes"
	"context"
	"errors"
	"fmt"
	"io"
	"log"
	"net"
	"net/http"
	"os"
	"runtime"
	"strings"
	"syscall"
	"testing"
	"time"
)

// soon fails unless a call returns within seconds, and returns its error.
func soon(t *testing.T, what string, call func() error) error {
	t.Helper()
	select {
	case err := <-goes(call):
		return err
	case <-time.After(20 * time.Second):
		t.Fatalf("%s hangs", what)
		return nil
	}
}

// silent listens, and accepts nothing.
func silent(t *testing.T) string {
	l, err := net.Listen("tcp", "127.0.0.1:0")
	must(t, err)
	t.Cleanup(func() { l.Close() })
	return l.Addr().String()
}

func TestDialerLimitsTheHandshake(t *testing.T) {
	client, _ := configs(t, "XX")
	for _, inner := range []*net.Dialer{
		{Timeout: 50 * time.Millisecond},
		{Deadline: time.Now().Add(50 * time.Millisecond)},
	} {
		err := soon(t, "Dial", func() error {
			_, err := (&Dialer{NetDialer: inner, Config: client}).Dial("tcp", silent(t))
			return err
		})
		var timeout net.Error
		if !errors.As(err, &timeout) || !timeout.Timeout() {
			t.Error(err)
		}
	}
}

func TestContextWhileAnotherHandshakes(t *testing.T) {
	client, _ := configs(t, "XX")
	c, _ := connected(t, client, client)
	first := goes(c.Handshake)
	for len(c.handshaking) == 0 {
		time.Sleep(time.Millisecond)
	}
	ctx, cancel := context.WithTimeout(context.Background(), 20*time.Millisecond)
	defer cancel()
	wants(t, soon(t, "HandshakeContext", func() error { return c.HandshakeContext(ctx) }), context.DeadlineExceeded)
	wants(t, soon(t, "Handshake", func() error { return <-first }), ErrCut)
}

// lastWrite ends a context in the last Write of a handshake, which then says that all went well.
type lastWrite struct {
	net.Conn
	count  int
	end    func()
	closed chan bool
}

func (l *lastWrite) Write(b []byte) (int, error) {
	if l.count--; l.count == 0 {
		l.end()
		<-l.closed
		return len(b), nil
	}
	return l.Conn.Write(b)
}

func (l *lastWrite) Close() error { close(l.closed); return l.Conn.Close() }

func TestContextEndsInTheLastWrite(t *testing.T) {
	client, server := configs(t, "XX")
	a, b := tcp(t)
	ctx, cancel := context.WithCancel(context.Background())
	c, err := Client(&lastWrite{a, 2, cancel, make(chan bool)}, client)
	must(t, err)
	s, err := Server(b, server)
	must(t, err)
	go s.Handshake()
	wants(t, soon(t, "HandshakeContext", func() error { return c.HandshakeContext(ctx) }), context.Canceled)
	wants(t, c.Handshake(), context.Canceled)
	_, err = c.Write([]byte("x"))
	wants(t, err, context.Canceled)
	if c.ConnectionState().HandshakeComplete {
		t.Error("the handshake is complete")
	}
}

// TestDeadlineInTheHandshake lets deadlines pass in Read before each message of the other party.
func TestDeadlineInTheHandshake(t *testing.T) {
	client, server := configs(t, "XX")
	c, s := connected(t, client, server)
	one := make([]byte, 1)
	short := func(c *Conn) {
		c.SetReadDeadline(time.Now().Add(5 * time.Millisecond))
		for i := 0; i < 3; i++ {
			_, err := c.Read(one)
			wants(t, err, os.ErrDeadlineExceeded)
		}
		c.SetReadDeadline(time.Time{})
	}
	short(s)
	short(c) // it has written message 1
	short(s) // and message 2 is written
	came := goes(func() error { _, err := c.Write([]byte("hello")); return err })
	room := make([]byte, 5)
	_, err := io.ReadFull(s, room)
	must(t, err, <-came)
	if string(room) != "hello" {
		t.Errorf("%q", room)
	}
}

// dripping writes byte by byte.
type dripping struct{ net.Conn }

func (d *dripping) Write(b []byte) (int, error) {
	for i := range b {
		time.Sleep(200 * time.Microsecond)
		if n, err := d.Conn.Write(b[i : i+1]); err != nil {
			return i + n, err
		}
	}
	return len(b), nil
}

// TestDeadlinesInEachMessage lets deadlines of Read pass within the messages of a handshake, and of a stream.
func TestDeadlinesInEachMessage(t *testing.T) {
	client, server := configs(t, "XX")
	a, b := tcp(t)
	c, err := Client(&dripping{a}, client)
	must(t, err)
	s, err := Server(&dripping{b}, server)
	must(t, err)
	came := goes(func() error { _, err := c.Write([]byte("hello")); return err })
	passed, room := 0, make([]byte, 5)
	for n := 0; n < len(room); {
		s.SetReadDeadline(time.Now().Add(time.Millisecond))
		m, err := s.Read(room[n:])
		if n += m; err != nil {
			wants(t, err, os.ErrDeadlineExceeded)
			passed++
		}
	}
	must(t, <-came)
	if string(room) != "hello" || passed < 10 {
		t.Errorf("%q after %d deadlines", room, passed)
	}
}

// TestWriteDeadline fills a connection until a deadline passes, in the handshake and after it. A Write counts what
// it has sent; a later one continues there, and what was sealed isn't sealed again. Close sends no end unless a
// later Write has gone well.
func TestWriteDeadline(t *testing.T) {
	for _, goesOn := range []bool{false, true} {
		client, server := configs(t, "NN")
		a, b := net.Pipe()
		c, err := Client(a, client)
		must(t, err)
		s, err := Server(b, server)
		must(t, err)
		c.SetWriteDeadline(time.Now().Add(5 * time.Millisecond))
		_, err = c.Write([]byte("in the handshake"))
		wants(t, err, os.ErrDeadlineExceeded)
		c.SetWriteDeadline(time.Time{})
		errC, errS := both(c, s)
		must(t, errC, errS)
		sent := bytes.Repeat([]byte("0123456789"), 20000)
		for wait := 20 * time.Millisecond; c.owed == nil; wait *= 4 { // a slow machine seals nothing until the deadline
			c.SetWriteDeadline(time.Now().Add(wait))
			n, err := c.Write(sent)
			wants(t, err, os.ErrDeadlineExceeded)
			if n != 0 {
				t.Errorf("%d bytes are counted, and none was read", n)
			}
		}
		c.SetWriteDeadline(time.Time{})
		failed := goes(func() error {
			if !goesOn {
				wants(t, c.Close(), ErrNoEnd)
				return nil
			}
			_, err := c.Write(sent)
			must(t, c.Close())
			return err
		})
		got, err := readAll(s)
		must(t, <-failed)
		if goesOn && (err != io.EOF || !bytes.Equal(got, sent)) ||
			!goesOn && (!errors.Is(err, ErrCut) || len(got) > 0) {
			t.Errorf("%v: %d bytes, %v", goesOn, len(got), err)
		}
	}
}

// asking are Configs whose server calls a function in its handshake.
func asking(t *testing.T, call func(ctx context.Context) error) map[string][2]*Config {
	all := map[string][2]*Config{}
	for name, pattern := range map[string]string{
		"VerifyPeer": "XX", "a key known before": "KK", "PSKFor": "XXpsk3", "DH": "IK",
	} {
		client, server := configs(t, pattern)
		switch name {
		case "PSKFor":
			psks := server.PSKs
			server.PSKs, server.PSKFor = nil, func(ctx context.Context, _ PublicKey) ([]PSK, error) {
				return psks, call(ctx)
			}
		case "DH":
			server.Static = &calling{server.Static, call}
		default:
			server.VerifyPeer = func(ctx context.Context, _ Peer) error { return call(ctx) }
		}
		all[name] = [2]*Config{client, server}
	}
	return all
}

// calling is a key that calls a function first.
type calling struct {
	DH
	call func(context.Context) error
}

func (c *calling) Agree(ctx context.Context, remote PublicKey) (answer Secret, err error) {
	if err := c.call(ctx); err != nil {
		return answer, err
	}
	return c.DH.Agree(ctx, remote)
}

// TestCloseInACall closes the connection from inside a function that the handshake calls, and looks at its state.
func TestCloseInACall(t *testing.T) {
	var s *Conn
	for name, both := range asking(t, func(context.Context) error {
		if s.ConnectionState().HandshakeComplete {
			t.Error("the handshake is complete")
		}
		return s.Close()
	}) {
		var c *Conn
		c, s = connected(t, both[0], both[1])
		go c.Handshake()
		wants(t, soon(t, name, s.Handshake), net.ErrClosed)
		if s.handshake != nil {
			t.Errorf("%s: the handshake isn't wiped", name)
		}
	}
}

// TestCloseWhileACallRuns closes the connection, and ends a context, while such a function waits for its context: that
// ends, and nobody waits for the function.
func TestCloseWhileACallRuns(t *testing.T) {
	began, left, goOn := make(chan bool), make(chan error, 1), make(chan bool)
	for name, both := range asking(t, func(ctx context.Context) error {
		began <- true
		<-ctx.Done()
		left <- ctx.Err()
		<-goOn
		return nil
	}) {
		c, s := connected(t, both[0], both[1])
		go c.Handshake()
		first := goes(s.Handshake)
		<-began
		other := goes(func() error { _, err := s.Read(make([]byte, 1)); return err })
		soon(t, name+": ConnectionState", func() error { s.ConnectionState(); return nil })
		must(t, soon(t, name+": Close", s.Close))
		wants(t, soon(t, name+": its context", func() error { return <-left }), context.Canceled)
		wants(t, soon(t, name+": Read", func() error { return <-other }), net.ErrClosed)
		goOn <- true
		wants(t, soon(t, name+": Handshake", func() error { return <-first }), net.ErrClosed)
	}
}

// TestTimeoutOfACall has such a function fail with a timeout of its own, which ends the handshake
// as any other error does.
func TestTimeoutOfACall(t *testing.T) {
	for name, both := range asking(t, func(context.Context) error { return os.ErrDeadlineExceeded }) {
		c, s := connected(t, both[0], both[1])
		go c.Handshake()
		for i := 0; i < 2; i++ {
			err := soon(t, name, s.Handshake)
			var fault *HandshakeError
			if !errors.As(err, &fault) || !errors.Is(err, os.ErrDeadlineExceeded) {
				t.Errorf("%s: %v", name, err)
			}
		}
		if _, err := s.conn.Write([]byte{0}); !errors.Is(err, net.ErrClosed) {
			t.Errorf("%s: the connection below is open: %v", name, err)
		}
	}
}

// TestPanicOfVerifyPeer recovers, and goes on: the other party isn't accepted.
func TestPanicOfVerifyPeer(t *testing.T) {
	for _, pattern := range []string{"XX", "KK"} {
		client, server := configs(t, pattern)
		server.VerifyPeer = func(context.Context, Peer) error { panic("no database") }
		c, s := connected(t, client, server)
		go c.Handshake()
		func() {
			defer func() {
				if recover() == nil {
					t.Error("no panic")
				}
			}()
			s.Handshake()
		}()
		_, err := s.Read(make([]byte, 1))
		wants(t, err, ErrEnded)
	}
}

// TestContextOfAMessage ends the context of a message.
func TestContextOfAMessage(t *testing.T) {
	client, server := configs(t, "IK")
	a, err := NewHandshakeState(client, true)
	must(t, err)
	b, err := NewHandshakeState(server, false)
	must(t, err)
	ctx, cancel := context.WithCancel(context.Background())
	message, err := a.WriteMessageContext(ctx, nil, nil)
	must(t, err)
	cancel()
	_, err = b.ReadMessageContext(ctx, nil, message)
	wants(t, err, context.Canceled)
	_, err = b.ReadMessage(nil, message)
	wants(t, err, ErrEnded)
}

// TestListenerGoesOn serves HTTP while VerifyPeer fails for one client, another is silent, and a third
// sends what is no handshake.
func TestListenerGoesOn(t *testing.T) {
	for _, pattern := range []string{"KK", "IK"} {
		pattern := pattern
		t.Run(pattern, func(t *testing.T) { t.Parallel(); testListenerGoesOn(t, pattern) })
	}
}

func testListenerGoesOn(t *testing.T, pattern string) {
	client, server := configs(t, pattern)
	said, away := make(chan string, 10), errors.New("database away")
	fails := true
	server.ErrorLog = log.New(lines(said), "", 0)
	server.HandshakeTimeout = 5 * time.Second
	server.VerifyPeer = func(context.Context, Peer) error {
		if fails {
			return away
		}
		return nil
	}
	l, served := serveHello(t, server)
	dialed := func() net.Conn {
		conn, err := net.Dial("tcp", l.Addr().String())
		must(t, err)
		return conn
	}
	stranger := dialed()
	stranger.Write([]byte("GET / HTTP/1.0\r\n\r\n"))
	expect(t, said, stranger, "message 1: it has 18245 bytes, and Config allows 4")
	expect(t, said, dialed(), withoutName(ErrHandshakeTimeout))
	refused := dialed()
	c, err := Client(refused, client)
	must(t, err)
	wants(t, soon(t, "Handshake", c.Handshake), ErrCut)
	expect(t, said, refused, away.Error())
	fails = false
	web := http.Client{Transport: &http.Transport{
		DialContext:       (&Dialer{Config: client}).DialContext,
		DisableKeepAlives: true,
	}}
	answer, err := web.Get("http://" + l.Addr().String())
	must(t, err)
	text, err := io.ReadAll(answer.Body)
	must(t, err)
	if string(text) != "hello" || len(served) > 0 {
		t.Errorf("%q", text)
	}
	l.Close()
	wants(t, <-served, net.ErrClosed)
}

// serveHello serves HTTP on a listener, and returns where the error of its end comes.
func serveHello(t *testing.T, config *Config) (l net.Listener, served chan error) {
	t.Helper()
	l, err := Listen("tcp", "127.0.0.1:0", config)
	must(t, err)
	return l, goes(func() error {
		return http.Serve(l, http.HandlerFunc(func(w http.ResponseWriter, _ *http.Request) {
			io.WriteString(w, "hello")
		}))
	})
}

// lines is a writer that passes on each line.
type lines chan string

func (l lines) Write(b []byte) (int, error) { l <- string(b); return len(b), nil }

// expect waits for a line that names the client's address.
func expect(t *testing.T, said chan string, from net.Conn, why string) {
	t.Helper()
	select {
	case line := <-said:
		if !strings.HasPrefix(line, fmt.Sprintf("noise: handshake with %v: ", from.LocalAddr())) ||
			!strings.Contains(line, why) {
			t.Errorf("%q, want %q", line, why)
		}
	case <-time.After(20 * time.Second):
		t.Fatalf("no line that says %q", why)
	}
}

func TestAcceptDrawsAndAsksNothing(t *testing.T) {
	client, server := configs(t, "KK")
	server.VerifyPeer = func(context.Context, Peer) error { t.Error("VerifyPeer was called"); return nil }
	l, err := Listen("tcp", "127.0.0.1:0", server)
	must(t, err)
	defer l.Close()
	a, err := net.Dial("tcp", l.Addr().String())
	must(t, err)
	defer a.Close()
	_, err = Client(a, client)
	must(t, err)
	conn, err := l.Accept()
	must(t, err)
	s := conn.(*Conn)
	if s.limit != 10*time.Second {
		t.Error("no limit of 10 seconds")
	}
	s.SetReadDeadline(time.Now().Add(5 * time.Millisecond))
	wants(t, s.Handshake(), os.ErrDeadlineExceeded)
	if s.handshake != nil {
		t.Error("an ephemeral key was drawn before a message has come")
	}
	must(t, s.Close())
	_, err = NewListener(l, &Config{}).Accept()
	var fault *ConfigError
	if !errors.As(err, &fault) {
		t.Error(err)
	}
}

func TestNothingAfterClose(t *testing.T) {
	for _, isShaken := range []bool{false, true} {
		client, server := configs(t, "XX")
		c, s := connected(t, client, server)
		if isShaken {
			errC, errS := both(c, s)
			must(t, errC, errS)
			n, err := c.Read(nil)
			m, err2 := c.Write(nil)
			must(t, err, err2)
			if n+m != 0 {
				t.Error(n, m)
			}
		}
		must(t, c.Close())
		_, err := c.Read(nil)
		wants(t, err, net.ErrClosed)
		_, err = c.Write(nil)
		wants(t, err, net.ErrClosed)
	}
}

// TestReset loses the connection with an error of the system.
func TestReset(t *testing.T) {
	client, server := configs(t, "XX")
	c, s := connected(t, client, server)
	errC, errS := both(c, s)
	must(t, errC, errS)
	must(t, c.conn.(*net.TCPConn).SetLinger(0), c.conn.Close())
	for i := 0; i < 2; i++ {
		_, err := s.Read(make([]byte, 1))
		wants(t, err, ErrCut)
		if runtime.GOOS != "windows" { // where it is WSAECONNRESET
			wants(t, err, syscall.ECONNRESET)
		}
	}
	_, err := s.Write([]byte("x"))
	wants(t, err, ErrCut)
	wants(t, s.Close(), ErrNoEnd)
}

func TestAbort(t *testing.T) {
	client, server := configs(t, "XX")
	c, s := connected(t, client, server)
	errC, errS := both(c, s)
	must(t, errC, errS)
	_, err := c.Write([]byte("a part"))
	must(t, err, c.Abort())
	wants(t, c.Close(), net.ErrClosed)
	got, err := readAll(s)
	wants(t, err, ErrCut)
	if string(got) != "a part" {
		t.Errorf("%q", got)
	}
	_, err = s.Write([]byte("x"))
	wants(t, err, ErrCut)
}
