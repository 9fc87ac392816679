package noise

import (
	"bytes"
	"context"
	"errors"
	"fmt"
	"io"
	"net"
	"net/http"
	"os"
	"testing"
	"time"
)

// shaken are two parties over a pipe without room, whose handshake is done.
func shaken(t *testing.T) (*Conn, *Conn) {
	t.Helper()
	client, server := configs(t, "NN")
	a, b := net.Pipe()
	c, err := Client(a, client)
	must(t, err)
	s, err := Server(b, server)
	must(t, err)
	errC, errS := both(c, s)
	must(t, errC, errS)
	t.Cleanup(func() { c.Abort(); s.Abort() })
	return c, s
}

// TestCloseSaysThatThereIsNoEnd closes towards a peer that doesn't read, after a Write that has failed, while one runs,
// and after a refused message.
func TestCloseSaysThatThereIsNoEnd(t *testing.T) {
	past := time.Now().Add(-time.Second)
	for what, prepare := range map[string]func(c, s *Conn){
		"nobody reads": func(c, _ *Conn) {},
		"a failed Write": func(c, _ *Conn) {
			c.SetWriteDeadline(past)
			c.Write([]byte("x"))
			c.SetWriteDeadline(time.Time{})
		},
		"a lost connection": func(c, _ *Conn) {
			c.conn.Close()
			c.Write([]byte("x"))
		},
		"a Write that runs": func(c, _ *Conn) {
			go c.Write([]byte("x"))
			for c.out.TryLock() {
				c.out.Unlock()
				time.Sleep(time.Millisecond)
			}
		},
		"a refused message": func(c, s *Conn) {
			go s.conn.Write([]byte{0, 3, 1, 2, 3})
			_, err := c.Read(make([]byte, 1))
			wants(t, err, ErrShort)
		},
	} {
		c, s := shaken(t)
		prepare(c, s)
		if err := soon(t, what, c.Close); !errors.Is(err, ErrNoEnd) {
			t.Errorf("%s: %v", what, err)
		}
	}
	c, s := shaken(t)
	came := goes(func() error { _, err := s.Read(make([]byte, 1)); return err })
	must(t, c.CloseWrite())
	wants(t, <-came, io.EOF)
	must(t, c.Close())
	client, server := configs(t, "N")
	c, s = connected(t, client, server)
	errC, errS := both(c, s)
	must(t, errC, errS)
	must(t, s.Close(), c.Close()) // the responder of a one-way pattern has no stream to end
}

// TestNoEndAfterAFailedRead has a server that gives up on half a request, and closes: the client's
// answer isn't an empty one.
func TestNoEndAfterAFailedRead(t *testing.T) {
	for _, it := range []struct {
		what  string
		after func(s *Conn) error
		want  error // of the client's Read
	}{
		{"Close", (*Conn).Close, ErrCut},
		{"CloseWrite", func(s *Conn) error { must(t, s.CloseWrite()); return s.Close() }, io.EOF},
		{"a new deadline", func(s *Conn) error { s.SetReadDeadline(time.Time{}); return s.Close() }, io.EOF},
	} {
		client, server := configs(t, "NN")
		c, s := connected(t, client, server)
		errC, errS := both(c, s)
		must(t, errC, errS)
		_, err := c.Write([]byte("GET "))
		must(t, err)
		room := make([]byte, 100)
		_, err = s.Read(room)
		must(t, err)
		s.SetReadDeadline(time.Now().Add(5 * time.Millisecond))
		_, err = s.Read(room)
		wants(t, err, os.ErrDeadlineExceeded)
		if err := it.after(s); errors.Is(err, ErrNoEnd) != (it.want == ErrCut) {
			t.Errorf("%s: %v", it.what, err)
		}
		if _, err := c.Read(room); !errors.Is(err, it.want) {
			t.Errorf("%s: %v", it.what, err)
		}
	}
}

// TestAnswerThatCloseEnds has a server of net/http whose answer has no length: the end of the stream is its end. That
// server lets a Read time out at the end of each request, and sets the deadline anew.
func TestAnswerThatCloseEnds(t *testing.T) {
	client, server := configs(t, "NN")
	l, err := Listen("tcp", "127.0.0.1:0", server)
	must(t, err)
	defer l.Close()
	go http.Serve(l, http.HandlerFunc(func(w http.ResponseWriter, _ *http.Request) {
		time.Sleep(10 * time.Millisecond) // so that the server's Read waits
		for i := 0; i < 3; i++ {
			io.WriteString(w, "a part")
			w.(http.Flusher).Flush()
		}
	}))
	c, err := Dial("tcp", l.Addr().String(), client)
	must(t, err)
	defer c.Close()
	io.WriteString(c, "GET / HTTP/1.0\r\n\r\n")
	got, err := io.ReadAll(c)
	must(t, err)
	if !bytes.HasSuffix(got, []byte("\r\n\r\na parta parta part")) {
		t.Errorf("%q", got)
	}
}

// TestRetriedWrite writes with deadlines that pass, over a pipe that is read slowly, as such a loop is usually written,
// and waits for the answer.
func TestRetriedWrite(t *testing.T) {
	c, s := shaken(t)
	sent := bytes.Repeat([]byte("0123456789"), 40000)
	got := make([]byte, len(sent))
	answered := goes(func() error {
		for n := 0; n < len(got); time.Sleep(5 * time.Millisecond) {
			m, err := s.Read(got[n:])
			if n += m; err != nil {
				return err
			}
		}
		_, err := s.Write([]byte("all"))
		return err
	})
	passed := 0
	for left := sent; len(left) > 0; {
		c.SetWriteDeadline(time.Now().Add(time.Millisecond))
		n, err := c.Write(left[:1+(len(left)-1)%70000]) // also less than what is owed, at times
		if left = left[n:]; err != nil {
			wants(t, err, os.ErrDeadlineExceeded)
			passed++
		}
	}
	must(t, soon(t, "the answer", func() error { _, err := c.Read(make([]byte, 3)); return err }))
	must(t, <-answered)
	if !bytes.Equal(got, sent) || passed < 2 {
		t.Errorf("%d deadlines", passed)
	}
}

// TestOtherBytes doesn't continue a Write whose deadline has passed: what was sealed comes all the same, and
// the other bytes after it.
func TestOtherBytes(t *testing.T) {
	c, s := shaken(t)
	for len(c.owed) == 0 {
		c.SetWriteDeadline(time.Now().Add(20 * time.Millisecond))
		n, err := c.Write([]byte("a first text"))
		wants(t, err, os.ErrDeadlineExceeded)
		if n != 0 {
			t.Fatal(n)
		}
	}
	c.SetWriteDeadline(time.Time{})
	got := make(chan []byte, 1)
	go func() { all, _ := io.ReadAll(s); got <- all }()
	wants(t, c.CloseWrite(), ErrUnfinished)
	n, err := c.Write([]byte("another text"))
	must(t, err)
	must(t, c.Close())
	if all := <-got; string(all) != "a first textanother text" || n != 12 {
		t.Errorf("%q %d", all, n)
	}
}

// ending is a connection whose calls fail by io.EOF, as those of a closed channel of ssh do.
type ending struct {
	net.Conn
	reads, writes bool
}

func (e *ending) Read(b []byte) (int, error) {
	if e.reads {
		return 0, fmt.Errorf("channel: %w", io.EOF)
	}
	return e.Conn.Read(b)
}

func (e *ending) Write(b []byte) (int, error) {
	if e.writes {
		return 0, io.EOF
	}
	return e.Conn.Write(b)
}

// TestOnlyAnEndIsEOF has functions of a Config that return io.EOF, and connections that do.
func TestOnlyAnEndIsEOF(t *testing.T) {
	isNoEnd := func(what string, err, want error) {
		t.Helper()
		if err == nil || errors.Is(err, io.EOF) || !errors.Is(err, want) {
			t.Errorf("%s: %v", what, err)
		}
	}
	far := fmt.Errorf("database: %w", io.EOF)
	for what, both := range asking(t, func(context.Context) error { return far }) {
		c, s := connected(t, both[0], both[1])
		go c.Handshake()
		_, err := s.Read(make([]byte, 1))
		isNoEnd(what, err, far)
	}
	client, server := configs(t, "XX")
	client.PayloadFor = func(context.Context, Peer) ([]byte, error) { return nil, far }
	c, _ := connected(t, client, server)
	isNoEnd("PayloadFor", c.Handshake(), far)
	client.PayloadFor = nil

	c, _ = connected(t, client, server)
	c.conn = &ending{c.conn, false, true}
	_, err := c.Read(make([]byte, 1))
	isNoEnd("a handshake's Write", err, ErrCut)
	c, s := connected(t, client, server)
	errC, errS := both(c, s)
	must(t, errC, errS)
	c.conn = &ending{c.conn, true, true}
	_, err = c.Write([]byte("x"))
	isNoEnd("Write", err, ErrCut)
	_, err = c.Read(make([]byte, 1))
	isNoEnd("Read", err, ErrCut)
	isNoEnd("Close", c.Close(), ErrNoEnd)
	_, err = s.Read(make([]byte, 1))
	isNoEnd("a cut", err, io.ErrUnexpectedEOF)
	wants(t, ErrCut, io.ErrUnexpectedEOF)
}

// TestFarDeadline has one that int64 can't count in nanoseconds.
func TestFarDeadline(t *testing.T) {
	client, server := configs(t, "NN")
	c, s := connected(t, client, server)
	errC, errS := both(c, s)
	must(t, errC, errS)
	for _, year := range []int{2263, 2300, 9999} {
		c.SetWriteDeadline(time.Date(year, 1, 1, 0, 0, 0, 0, time.UTC))
		_, err := c.Write([]byte("x"))
		must(t, err)
		_, err = s.Read(make([]byte, 1))
		must(t, err)
	}
}

// TestStateIsTheCallers changes what ConnectionState returns.
func TestStateIsTheCallers(t *testing.T) {
	client, server := configs(t, "XX")
	client.Payloads = [][]byte{[]byte("one")}
	c, s := connected(t, client, server)
	errC, errS := both(c, s)
	must(t, errC, errS)
	state := s.ConnectionState()
	state.PeerStatic[0] ^= 1
	state.Payloads[0][0] ^= 1
	again := s.ConnectionState()
	if *again.PeerStatic != client.Static.Public() || string(again.Payloads[0]) != "one" {
		t.Error("a caller has changed the state")
	}
}

// TestErrorsOfAHandshakeThatIsOver names why it is over.
func TestErrorsOfAHandshakeThatIsOver(t *testing.T) {
	client, _ := configs(t, "XX")
	h, err := NewHandshakeState(client, true)
	must(t, err)
	must(t, h.Close())
	_, err = h.WriteMessage(nil, nil)
	wants(t, err, ErrEnded)
	wants(t, err, ErrClosed)
	if err.Error() != "noise: the handshake was closed" {
		t.Error(err)
	}
	h, _ = finished(t, "XX")
	_, _, err = h.Split()
	must(t, err)
	_, _, err = h.Split()
	wants(t, err, ErrEnded)
	if errors.Is(err, ErrClosed) || err.Error() != "noise: the handshake is used up: its keys were handed on" {
		t.Error(err)
	}
}
