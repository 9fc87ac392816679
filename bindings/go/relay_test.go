package noise

import (
	"bytes"
	"errors"
	"fmt"
	"io"
	"math/rand"
	"net"
	"os"
	"strings"
	"sync"
	"testing"
	"time"
)

// What a relay does at one byte of one direction.
var relayFaults = []string{"flip", "cut", "repeat", "drop"}

var relayTexts = [2][]string{
	{"a first text", "b", "the last of the client"},
	{"1", "what the server has to say", "and good bye"},
}

// relayed is one session through a relay. `direction` is 0 for what the client sends.
type relayed struct {
	fault         string
	direction, at int
	bit           uint
	waits         int    // the party that ends its stream only after the other's has ended; -1: neither
	tail          []byte // what came in that direction from the fault's place on
}

// isAfterTheEnd says whether the fault is a byte more after all that came: a last byte, or one of several
// equal ones, is repeated.
func (it *relayed) isAfterTheEnd() bool {
	return it.fault == "repeat" && bytes.Count(it.tail, it.tail[:1]) == len(it.tail)
}

// report is what one party has read and written.
type report struct {
	got                     []byte
	isShaken                bool  // its handshake was done
	err                     error // of Read: io.EOF at an end
	ended                   bool  // it has written all of its texts, and calls CloseWrite or Close with nothing wrong
	afterRead, afterClosing error // of Write after Read has failed
}

// TestRelay runs two parties through a relay that flips, cuts, repeats or drops each byte of each direction, once,
// with both parties closing in each order and by defer, and compares what each party reports with the theorem on
// streams: what was read is the first of what was written; an end is reported only if the other party has ended its
// stream and all of it was read; else an error is, and after it nothing can be written, and no end is sent. With
// -short it is each sixteenth byte.
func TestRelay(t *testing.T) {
	sessions, free := 0, make(chan bool, 32)
	var running sync.WaitGroup
	for waits := -1; waits < 2; waits++ {
		client, server := configs(t, []string{"XX", "NN", "NN"}[waits+1])
		client.Interval, server.Interval = 2, 2
		sent := passRelay(t, client, server, &relayed{waits: waits, direction: -1})
		for direction := range sent {
			for i := 0; i < sent[direction]*len(relayFaults); i++ {
				at := i / len(relayFaults)
				if testing.Short() && at%16 != 0 {
					continue
				}
				it := &relayed{relayFaults[i%len(relayFaults)], direction, at, uint(at) % 8, waits, nil}
				sessions++
				running.Add(1)
				free <- true
				go func() {
					defer running.Done()
					passRelay(t, client, server, it)
					<-free
				}()
			}
		}
	}
	running.Wait()
	t.Logf("%d damaged sessions", sessions)
}

// passRelay runs one session, and returns how many bytes each party has sent.
func passRelay(t *testing.T, client, server *Config, it *relayed) (sent [2]int) {
	a, left := memoryPipe()
	right, b := memoryPipe()
	relays := [2]chan int{goRelay(it, 0, left, right), goRelay(it, 1, right, left)}
	reports := [2]chan report{goEnd(it, newConn(a, client, true, 0), 0), goEnd(it, newConn(b, server, false, 0), 1)}
	if it.direction >= 0 { // where both parties wait, the connections are lost
		defer time.AfterFunc(50*time.Millisecond, func() {
			for _, end := range []*memoryEnd{a, left, right, b} {
				end.CloseWrite()
			}
		}).Stop()
	}
	var came [2]report
	for i := range reports {
		select {
		case came[i] = <-reports[i]:
		case <-time.After(30 * time.Second):
			t.Errorf("%+v: party %d hangs", *it, i)
			return sent
		}
	}
	for i := range relays {
		sent[i] = <-relays[i]
	}
	for i := range came {
		if fault := it.judge(i, &came[i], &came[1-i]); fault != "" {
			t.Errorf("%+v: party %d: %s: got %q, %v", *it, i, fault, came[i].got, came[i].err)
		}
	}
	return sent
}

// judge says what of a report of party i the theorem doesn't allow; other is the other party's.
func (it *relayed) judge(i int, own, other *report) string {
	written := strings.Join(relayTexts[1-i], "")
	switch {
	case !strings.HasPrefix(written, string(own.got)):
		return "what was read isn't the first of what was written"
	case own.err == nil:
		return "neither an end nor an error"
	case own.err == io.EOF && (!other.ended || string(own.got) != written):
		return "an end, and not all of it came"
	case own.err == io.EOF && it.direction == 1-i && !it.isAfterTheEnd():
		return "an end of what was damaged"
	case own.err != io.EOF && it.direction < 0:
		return "an error without a fault"
	case own.err != io.EOF && own.isShaken && it.direction == i && !errors.Is(own.err, ErrCut):
		return "another error than ErrCut, and what it reads isn't damaged"
	case own.err != io.EOF && own.afterRead == nil:
		return "a Write after a refused message"
	case !errors.Is(own.afterClosing, net.ErrClosed):
		return fmt.Sprintf("after Close: %v", own.afterClosing)
	}
	return ""
}

func goEnd(it *relayed, c *Conn, i int) chan report {
	ends := make(chan report, 1)
	go func() { ends <- end(it, c, i) }()
	return ends
}

// end is one party, as a program would be written: it writes its texts and reads what comes at
// once, and closes by defer.
func end(it *relayed, c *Conn, i int) (r report) {
	defer func() {
		r.afterClosing = func() error { _, err := c.Write([]byte("late")); return err }()
	}()
	defer c.Close()
	wrote := make(chan bool, 1)
	go func() {
		for _, text := range relayTexts[i] {
			if _, err := io.WriteString(c, text); err != nil {
				wrote <- false
				return
			}
		}
		wrote <- true
	}()
	if it.waits != i {
		r.ended = <-wrote && c.CloseWrite() == nil
	}
	room := make([]byte, 7)
	for r.err == nil {
		var n int
		n, r.err = c.Read(room)
		r.got = append(r.got, room[:n]...)
	}
	if it.waits == i {
		r.ended = <-wrote && r.err == io.EOF // by defer
	}
	r.isShaken = c.ConnectionState().HandshakeComplete
	if r.err != io.EOF {
		_, r.afterRead = c.Write([]byte("more"))
	}
	return r
}

func goRelay(it *relayed, direction int, from, to *memoryEnd) chan int {
	done := make(chan int, 1)
	go func() { done <- it.relay(direction, from, to) }()
	return done
}

// relay passes on what one party sends, in pieces, and the end of its connection. It returns how many bytes came.
func (it *relayed) relay(direction int, from, to *memoryEnd) (count int) {
	dice := rand.New(rand.NewSource(int64(it.at)))
	room, isCut := make([]byte, 100), false
	for {
		n, err := from.Read(room[:1+dice.Intn(70)])
		var out []byte
		for _, b := range room[:n] {
			here := it.direction == direction && count == it.at
			if it.direction == direction && count >= it.at {
				it.tail = append(it.tail, b)
			}
			count++
			switch {
			case here && it.fault == "cut":
				isCut = true
			case here && it.fault == "drop":
			case here && it.fault == "flip":
				out = append(out, b^1<<it.bit)
			case here && it.fault == "repeat":
				out = append(out, b, b)
			default:
				out = append(out, b)
			}
			if isCut {
				break
			}
		}
		to.Write(out)
		if err != nil || isCut {
			to.CloseWrite()
			io.Copy(io.Discard, from)
			return count
		}
	}
}

// queue is one direction of a connection in memory. Writes don't wait.
type queue struct {
	mutex           sync.Mutex
	news            sync.Cond
	bytes           bytes.Buffer
	isEnded, isShut bool // by the writer, by the reader
}

func newQueue() *queue {
	q := new(queue)
	q.news.L = &q.mutex
	return q
}

func (q *queue) end(ended, shut bool) {
	q.mutex.Lock()
	defer q.mutex.Unlock()
	q.isEnded, q.isShut = q.isEnded || ended, q.isShut || shut
	q.news.Broadcast()
}

// memoryEnd is a side of a connection in memory.
type memoryEnd struct {
	net.Conn
	in, out *queue
}

func memoryPipe() (*memoryEnd, *memoryEnd) {
	one, two := newQueue(), newQueue()
	return &memoryEnd{nil, one, two}, &memoryEnd{nil, two, one}
}

func (e *memoryEnd) Read(b []byte) (int, error) {
	e.in.mutex.Lock()
	defer e.in.mutex.Unlock()
	for e.in.bytes.Len() == 0 && !e.in.isEnded && !e.in.isShut {
		e.in.news.Wait()
	}
	if e.in.isShut {
		return 0, net.ErrClosed
	}
	return e.in.bytes.Read(b)
}

func (e *memoryEnd) Write(b []byte) (int, error) {
	e.out.mutex.Lock()
	defer e.out.mutex.Unlock()
	if e.out.isEnded {
		return 0, net.ErrClosed
	}
	e.out.news.Broadcast()
	return e.out.bytes.Write(b)
}

func (e *memoryEnd) CloseWrite() { e.out.end(true, false) }

func (e *memoryEnd) Close() error {
	e.out.end(true, false)
	e.in.end(false, true)
	return nil
}

func (e *memoryEnd) SetReadDeadline(time.Time) error  { return os.ErrNoDeadline }
func (e *memoryEnd) SetWriteDeadline(time.Time) error { return nil }
