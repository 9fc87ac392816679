package noise

import (
	"bytes"
	"errors"
	"fmt"
	"io"
	"net"
	"os"
	"runtime"
	"strconv"
	"sync/atomic"
	"testing"
	"time"
)

// conversations is how many TestWholeConversations runs in each way: NOISE_CLOSES, or some.
func conversations(t *testing.T) int {
	count, err := strconv.Atoi(os.Getenv("NOISE_CLOSES"))
	if err != nil {
		return 100
	}
	return count
}

// late is a connection whose Write returns a while after what it writes has come to the other party.
type late struct{ net.Conn }

func (l *late) Write(b []byte) (int, error) {
	n, err := l.Conn.Write(b)
	time.Sleep(time.Millisecond)
	return n, err
}

// A conversation is what a client does in two goroutines, and what a server does; write may run while talk does.
var conversationsOf = map[string]struct {
	write func(c *Conn) error
	talk  func(c *Conn) error
	serve func(s *Conn) error
}{
	"an answer to all": {
		func(c *Conn) error {
			if _, err := io.WriteString(c, "question"); err != nil {
				return err
			}
			return c.CloseWrite()
		},
		func(c *Conn) error { _, err := io.ReadAll(c); return err },
		func(s *Conn) error {
			if _, err := io.ReadAll(s); err != nil {
				return err
			}
			_, err := io.WriteString(s, "answer")
			return err
		},
	},
	"an answer to a part": {
		func(c *Conn) error { _, err := io.WriteString(c, "question"); return err },
		func(c *Conn) error { _, err := io.ReadFull(c, make([]byte, 6)); return err },
		func(s *Conn) error {
			if _, err := io.ReadFull(s, make([]byte, 8)); err != nil {
				return err
			}
			if _, err := io.WriteString(s, "answer"); err != nil {
				return err
			}
			_, err := io.ReadAll(s)
			return err
		},
	},
}

// TestWholeConversations closes as soon as the answer has come, while the Write or the CloseWrite of another goroutine
// may still be returning: the end is sent, and Close says so.
func TestWholeConversations(t *testing.T) {
	for name, it := range conversationsOf {
		for _, isLate := range []bool{false, true} {
			it, isLate := it, isLate
			t.Run(fmt.Sprint(name, isLate), func(t *testing.T) {
				t.Parallel()
				client, server := configs(t, "NN")
				denied, lost := 0, 0
				for i := 0; i < conversations(t); i++ {
					a, b := tcp(t)
					if isLate {
						a = &late{a}
					}
					c, s := newConn(a, client, true, 0), newConn(b, server, false, 0)
					errC, errS := both(c, s)
					must(t, errC, errS)
					served := goes(func() error { defer s.Close(); return it.serve(s) })
					wrote := goes(func() error { return it.write(c) })
					must(t, it.talk(c))
					if err := c.Close(); err != nil {
						denied++
					}
					if err := <-served; err != nil {
						lost++
					}
					must(t, <-wrote)
				}
				if denied+lost > 0 {
					t.Errorf("%d Closes denied the end, and %d were lost", denied, lost)
				}
			})
		}
	}
}

// TestReadersAtClose has a goroutine that reads whatever comes, and one that writes, while another closes: a call that
// meets the Close says nothing against the end.
func TestReadersAtClose(t *testing.T) {
	client, server := configs(t, "NN")
	denied, count := 0, conversations(t)/5
	for i := 0; i < count; i++ {
		a, b := tcp(t)
		c, s := newConn(&late{a}, client, true, 0), newConn(b, server, false, 0)
		errC, errS := both(c, s)
		must(t, errC, errS)
		calls := func(call func() error) chan error {
			return goes(func() (err error) {
				for err == nil {
					err = call()
				}
				return err
			})
		}
		came := make(chan bool, 1000)
		served := calls(func() error { _, err := s.Read(make([]byte, 1)); came <- true; return err })
		calls(func() error { _, err := s.Write([]byte("tick")); return err })
		read := calls(func() error { _, err := c.Read(make([]byte, 1)); return err })
		wrote := goes(func() error { _, err := c.Write([]byte("x")); return err })
		<-came
		if c.Close() != nil {
			denied++
		}
		wants(t, <-read, net.ErrClosed)
		must(t, <-wrote)
		if <-served != io.EOF {
			denied++
		}
		s.Abort()
	}
	if denied > 0 {
		t.Errorf("%d of %d", denied, count)
	}
}

// resetting is a side of a connection in memory that closes as TCP does: with something unread, it takes away what the
// other party hasn't read. Its deadlines are as Go's: a Read that begins after one looks at nothing. On a busy machine
// so many first ones have passed by then, and a Read that takes something takes so long.
type resetting struct {
	*memoryEnd
	late  int
	takes time.Duration
	until time.Time
}

func (r *resetting) unread() int {
	r.in.mutex.Lock()
	defer r.in.mutex.Unlock()
	return r.in.bytes.Len()
}

func (r *resetting) SetReadDeadline(until time.Time) error {
	if r.until = until; r.late > 0 && until.After(time.Now()) {
		for r.late--; !time.Now().After(until); { // a Sleep would take longer
			runtime.Gosched()
		}
	}
	return nil
}

// Read reads at most 10,000 bytes.
func (r *resetting) Read(b []byte) (int, error) {
	if len(b) > 10_000 {
		b = b[:10_000]
	}
	if r.until.IsZero() {
		return r.memoryEnd.Read(b)
	}
	if time.Now().Before(r.until) && r.unread() > 0 {
		time.Sleep(r.takes)
		return r.memoryEnd.Read(b)
	}
	time.Sleep(time.Until(r.until))
	return 0, os.ErrDeadlineExceeded
}

func (r *resetting) Close() error {
	if r.unread() > 0 {
		r.out.mutex.Lock()
		r.out.bytes.Reset()
		r.out.mutex.Unlock()
	}
	return r.memoryEnd.Close()
}

// TestUnreadAtClose answers a request of which a part has come and isn't read, and closes, also on a busy machine: the
// client reads the whole answer, and its end.
func TestUnreadAtClose(t *testing.T) {
	client, server := configs(t, "NN")
	answer := bytes.Repeat([]byte("0123456789"), 30_000)
	for _, it := range []resetting{{}, {late: 1}, {late: 3}, {takes: 150 * time.Millisecond}} {
		a, b := memoryPipe()
		below := &resetting{memoryEnd: b, late: it.late, takes: it.takes}
		c, s := newConn(a, client, true, 0), newConn(below, server, false, 0)
		errC, errS := both(c, s)
		must(t, errC, errS)
		_, err := c.Write(make([]byte, 1000))
		must(t, err)
		_, err = s.Read(make([]byte, 10))
		must(t, err)
		_, err = c.Write(make([]byte, 100_000)) // which nobody reads
		must(t, err)
		_, err = s.Write(answer)
		must(t, err, s.Close())
		if got, err := readAll(c); err != io.EOF || !bytes.Equal(got, answer) {
			t.Errorf("%d late, %v: %d bytes of %d came, and then %v", it.late, it.takes, len(got), len(answer), err)
		}
		c.Abort()
	}
}

// stubborn is a connection whose deadlines end nothing: its Read and its Write wait for each other, or for Close.
type stubborn struct {
	net.Conn
	isSlow atomic.Bool // from then on Write waits for Close
	closed chan struct{}
	fault  error // of SetDeadline
}

func (s *stubborn) Write(b []byte) (int, error) {
	if s.isSlow.Load() {
		<-s.closed
		return 0, net.ErrClosed
	}
	return s.Conn.Write(b)
}

func (s *stubborn) Close() error { close(s.closed); return s.Conn.Close() }

func (s *stubborn) SetDeadline(time.Time) error      { return s.fault }
func (s *stubborn) SetReadDeadline(time.Time) error  { return s.fault }
func (s *stubborn) SetWriteDeadline(time.Time) error { return s.fault }

// running waits until a process has run for so long, in tenths of a second: each begins when this process runs, so that
// the time in which other programs have the processor isn't counted.
func running(tenths int) {
	for i := 0; i < tenths; i++ {
		time.Sleep(100 * time.Millisecond)
	}
}

// TestCloseWithoutDeadlines closes connections whose deadlines end no call: while a Write waits, while Close itself
// does, and where nothing does.
func TestCloseWithoutDeadlines(t *testing.T) {
	for name, it := range map[string]struct {
		isSlow, writes bool
		want           error
	}{
		"a Write that waits": {true, true, ErrNoEnd},
		"an end that waits":  {true, false, ErrNoEnd},
		"nothing that waits": {false, false, nil},
	} {
		for _, fault := range []error{nil, errors.New("no deadlines")} {
			it, fault := it, fault
			t.Run(fmt.Sprint(name, fault), func(t *testing.T) {
				t.Parallel()
				client, server := configs(t, "NN")
				a, b := memoryPipe()
				below := &stubborn{Conn: a, closed: make(chan struct{}), fault: fault}
				c, s := newConn(below, client, true, 0), newConn(b, server, false, 0)
				errC, errS := both(c, s)
				must(t, errC, errS)
				below.isSlow.Store(it.isSlow)
				wrote := make(chan error, 1)
				if it.writes {
					wrote = goes(func() error { _, err := c.Write([]byte("x")); return err })
					for c.out.TryLock() {
						c.out.Unlock()
						time.Sleep(time.Millisecond)
					}
				}
				passed := goes(func() error { running(40); return nil }) // turnTime has 10, and endTime 50
				if err := soon(t, "Close", c.Close); !errors.Is(err, it.want) {
					t.Error(err)
				}
				if !it.isSlow && len(passed) > 0 {
					t.Error("Close took more than 4 seconds")
				}
				if it.writes {
					wants(t, <-wrote, net.ErrClosed)
				}
			})
		}
	}
}

// TestInterruptedWrite closes while a Write waits for the other party: it returns, and neither says that all was sent.
func TestInterruptedWrite(t *testing.T) {
	c, s := shaken(t)
	wrote := make(chan error, 1)
	sent := 0
	go func() {
		n, err := c.Write(make([]byte, 1_000_000))
		sent = n
		wrote <- err
	}()
	got := make([]byte, 100)
	_, err := io.ReadFull(s, got)
	must(t, err)
	wants(t, soon(t, "Close", c.Close), ErrNoEnd)
	wants(t, <-wrote, net.ErrClosed)
	if sent > 2*65519 {
		t.Errorf("%d bytes are counted, and no more than 131038 can be sent", sent)
	}
	rest, err := readAll(s)
	wants(t, err, ErrCut)
	if len(got)+len(rest) < sent {
		t.Errorf("%d bytes came, and %d are counted", len(got)+len(rest), sent)
	}
}

// TestInterruptedEnd closes while a CloseWrite waits for the other party, which then reads: Close sends what is left.
func TestInterruptedEnd(t *testing.T) {
	c, s := shaken(t)
	ended := goes(c.CloseWrite)
	for c.out.TryLock() {
		c.out.Unlock()
		time.Sleep(time.Millisecond)
	}
	closed := goes(c.Close)
	if err := <-ended; err != nil {
		wants(t, err, net.ErrClosed)
	}
	_, err := s.Read(make([]byte, 1))
	if err != io.EOF {
		t.Error(err)
	}
	must(t, soon(t, "Close", func() error { return <-closed }))
}

// hooked is a connection of which a Write, once it is held, returns after Close has begun to wait for it, and has
// called a function.
type hooked struct {
	net.Conn
	isHeld atomic.Bool
	waits  func()
	goOn   chan bool
}

func (w *hooked) Write(b []byte) (int, error) {
	n, err := w.Conn.Write(b)
	if w.isHeld.Swap(false) {
		<-w.goOn
		time.Sleep(1500 * time.Millisecond) // as where other programs have the processor
	}
	return n, err
}

func (w *hooked) SetWriteDeadline(at time.Time) error {
	if at.Equal(longAgo) {
		w.waits()
		close(w.goOn)
	}
	return w.Conn.SetWriteDeadline(at)
}

// TestWriteAfterClose has a Write that begins when Close has begun, and that has its turn before it: it fails, and the
// stream was whole without it.
func TestWriteAfterClose(t *testing.T) {
	client, server := configs(t, "NN")
	a, b := tcp(t)
	var c *Conn
	second := make(chan error, 1)
	below := &hooked{Conn: a, goOn: make(chan bool), waits: func() {
		go func() { _, err := c.Write([]byte("late")); second <- err }()
		time.Sleep(30 * time.Millisecond) // it waits for its turn
	}}
	c = newConn(below, client, true, 0)
	s := newConn(b, server, false, 0)
	errC, errS := both(c, s)
	must(t, errC, errS)
	below.isHeld.Store(true)
	first := goes(func() error { _, err := c.Write([]byte("x")); return err })
	_, err := s.Read(make([]byte, 1))
	must(t, err, c.Close(), <-first)
	wants(t, <-second, net.ErrClosed)
	_, err = s.Read(make([]byte, 1))
	wants(t, err, io.EOF)
}
