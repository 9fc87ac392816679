//go:build unix

package noise

import (
	"bytes"
	"encoding/binary"
	"errors"
	"fmt"
	"io"
	"math/rand"
	"net"
	"os"
	"runtime"
	"strconv"
	"sync"
	"syscall"
	"testing"
	"time"
)

// What the relay between the two parties of a channel does to one direction.
const (
	noFault   = iota
	flipped   // a bit of a frame's message
	stretched // a bit of a frame's length
	lost
	repeated
	exchanged   // with the next frame
	cutWithin   // the connection ends in a frame
	cutBetween  // it ends between two frames
	unsaid      // it ends where the end would have been said
	inHandshake // a bit of a message of the handshake
	faults
)

// wanted has the errors that the reader may get.
var wanted = [faults][]error{
	noFault:     {io.EOF},
	flipped:     {ErrTag},
	stretched:   {ErrTag, ErrShort, ErrCut},
	lost:        {ErrTag},
	repeated:    {ErrTag},
	exchanged:   {ErrTag},
	cutWithin:   {ErrCut},
	cutBetween:  {ErrCut},
	unsaid:      {ErrCut},
	inHandshake: {ErrTag, ErrLowOrder, ErrCut},
}

const soakMessages = 100

// soaked is one channel of the soak: its fault strikes frame `at` of one direction, where the first
// after the handshake is 0.
type soaked struct {
	seed      int64
	fault, at int
	toServer  bool
	low, high [2]net.Conn // the relay's ends, and the parties': of the client, of the server
}

// TestSoak runs many channels at once over TCP, with 100 messages each way, through a relay that changes, loses,
// repeats and exchanges frames, and cuts connections. What is handed out is what was sent, up to the fault; the error
// is of the fault's kind; in the other direction the first of what was sent comes, and an end only after all of it; and
// nothing is left. NOISE_SOAK is the count of channels, NOISE_SEED where the dice begin.
func TestSoak(t *testing.T) {
	count := atMost(t, number(t, "NOISE_SOAK", 1000))
	seed := int64(number(t, "NOISE_SEED", int(time.Now().UnixNano()&0xffffffff)))
	t.Logf("NOISE_SEED=%d NOISE_SOAK=%d", seed, count)
	first, second := tcp(t) // so that what the network needs is there before it is counted
	first.Close()
	second.Close()
	goroutines, descriptors := runtime.NumGoroutine(), openDescriptors(t)
	listener, err := net.Listen("tcp", "127.0.0.1:0")
	must(t, err)
	client, server := configs(t, "XX")
	var ready, done sync.WaitGroup
	ready.Add(2 * count)
	dice := rand.New(rand.NewSource(seed))
	for i := 0; i < count; i++ {
		it := &soaked{
			seed:     seed + int64(i),
			fault:    i % faults,
			at:       dice.Intn(soakMessages),
			toServer: dice.Intn(2) == 0,
		}
		switch it.fault {
		case unsaid:
			it.at = soakMessages
		case inHandshake:
			it.at = -1
		}
		for side := range it.low {
			it.low[side], it.high[side] = joined(t, listener)
		}
		done.Add(1)
		go func() {
			defer done.Done()
			for _, fault := range it.run(client, server, &ready) {
				t.Errorf("channel %d, fault %d at %d, to the server %v: %v",
					it.seed-seed, it.fault, it.at, it.toServer, fault)
			}
		}()
	}
	done.Wait()
	listener.Close()
	end := time.Now().Add(30 * time.Second)
	for runtime.NumGoroutine() > goroutines || openDescriptors(t) > descriptors {
		if time.Now().After(end) {
			t.Fatalf("%d goroutines and %d descriptors; before %d and %d",
				runtime.NumGoroutine(), openDescriptors(t), goroutines, descriptors)
		}
		time.Sleep(10 * time.Millisecond)
	}
}

func number(t *testing.T, name string, otherwise int) int {
	text := os.Getenv(name)
	if text == "" {
		return otherwise
	}
	n, err := strconv.Atoi(text)
	must(t, err)
	return n
}

// atMost is the count of channels, or what there are descriptors for: each has four.
func atMost(t *testing.T, count int) int {
	var limit syscall.Rlimit
	must(t, syscall.Getrlimit(syscall.RLIMIT_NOFILE, &limit))
	if room := (int(limit.Cur) - 100) / 4; room < count {
		t.Logf("%d descriptors are too few for %d channels", limit.Cur, count)
		return room
	}
	return count
}

func openDescriptors(t *testing.T) int {
	entries, err := os.ReadDir("/proc/self/fd")
	if err != nil {
		t.Skip(err)
	}
	return len(entries)
}

// joined are two sides of a connection over TCP.
func joined(t *testing.T, l net.Listener) (net.Conn, net.Conn) {
	a, err := net.Dial("tcp", l.Addr().String())
	must(t, err)
	b, err := l.Accept()
	must(t, err)
	for _, conn := range []net.Conn{a, b} {
		conn.SetDeadline(time.Now().Add(5 * time.Minute))
	}
	return a, b
}

// run runs both parties and the relay, and returns what was wrong.
func (it *soaked) run(client, server *Config, ready *sync.WaitGroup) (all []error) {
	relayed := make(chan bool, 2)
	go func() { it.relay(it.low[0], it.low[1], true); relayed <- true }()
	go func() { it.relay(it.low[1], it.low[0], false); relayed <- true }()
	ends := []chan error{
		goes(func() error { return it.end(Client, client, 0, ready) }),
		goes(func() error { return it.end(Server, server, 1, ready) }),
	}
	for _, end := range ends {
		if err := <-end; err != nil {
			all = append(all, err)
		}
		<-relayed
	}
	it.low[0].Close()
	it.low[1].Close()
	return all
}

// payloads are what one party of a channel sends.
func (it *soaked) payloads(from int) [][]byte {
	dice := rand.New(rand.NewSource(it.seed*2 + int64(from)))
	all := make([][]byte, soakMessages)
	for i := range all {
		all[i] = make([]byte, 1+dice.Intn(200))
		dice.Read(all[i])
	}
	return all
}

// end is one party: it sends all, says that it is done, and compares what comes.
func (it *soaked) end(
	begin func(net.Conn, *Config) (*Conn, error),
	config *Config,
	side int,
	ready *sync.WaitGroup,
) error {
	below := it.high[side]
	defer below.Close()
	c, err := begin(below, config)
	if err == nil {
		err = c.Handshake()
	}
	ready.Done()
	if err != nil {
		return judged(err, it.fault)
	}
	defer c.Close()
	var sent chan error
	if it.fault == inHandshake {
		sent = goes(func() error { return nil })
	} else {
		ready.Wait() // until all channels are there at once
		sent = goes(func() error { return it.send(c, side) })
	}
	got, err := readAll(c)
	// What is unread when a connection is closed takes away what the other direction has on its way.
	io.Copy(io.Discard, below)
	if err := <-sent; err != nil && it.fault == noFault {
		return fmt.Errorf("writing: %w", err)
	}
	written := it.payloads(1 - side)
	if it.fault == noFault || it.toServer == (side == 1) || it.fault == inHandshake {
		written = written[:it.whole(it.fault)]
		if err := judged(err, it.fault); err != nil {
			return err
		}
	} else if err != io.EOF { // the other party has closed the connection at the fault
		if !errors.Is(err, ErrCut) || !bytes.HasPrefix(bytes.Join(written, nil), got) {
			return fmt.Errorf("in the other direction: %d bytes, %w", len(got), err)
		}
		return nil
	}
	if want := bytes.Join(written, nil); !bytes.Equal(got, want) {
		return fmt.Errorf("%d bytes were handed out in the place of %d, or others", len(got), len(want))
	}
	return nil
}

func (it *soaked) send(c *Conn, side int) error {
	for _, payload := range it.payloads(side) {
		if _, err := c.Write(payload); err != nil {
			return err
		}
	}
	if err := c.CloseWrite(); err != nil {
		return err
	}
	return c.conn.(*net.TCPConn).CloseWrite()
}

// whole is how many messages come before the fault.
func (it *soaked) whole(fault int) int {
	switch fault {
	case noFault, unsaid:
		return soakMessages
	case repeated:
		return it.at + 1
	case inHandshake:
		return 0
	}
	return it.at
}

func judged(err error, fault int) error {
	for _, want := range wanted[fault] {
		if errors.Is(err, want) {
			return nil
		}
	}
	return fmt.Errorf("got %v, want %v", err, wanted[fault])
}

// relay passes frames on, until what it reads ends, or it cuts. What comes after a cut is read, and dropped.
func (it *soaked) relay(from, to net.Conn, toServer bool) {
	defer io.Copy(io.Discard, from)
	defer to.(*net.TCPConn).CloseWrite()
	i := -1 // the responder writes one message of XX, and the initiator two
	if toServer {
		i = -2
	}
	for ; ; i++ {
		frame, err := frameOf(from)
		if err != nil {
			return
		}
		cut := false
		if toServer == it.toServer && i == it.at {
			frame, cut = it.strike(frame, from)
		}
		if _, err := to.Write(frame); err != nil || cut {
			return
		}
	}
}

func frameOf(from io.Reader) ([]byte, error) {
	frame := make([]byte, 2)
	if _, err := io.ReadFull(from, frame); err != nil {
		return nil, err
	}
	frame = append(frame, make([]byte, binary.BigEndian.Uint16(frame))...)
	_, err := io.ReadFull(from, frame[2:])
	return frame, err
}

// strike returns what goes on in place of a frame, and whether the connection is cut after it.
func (it *soaked) strike(frame []byte, from io.Reader) (instead []byte, cut bool) {
	dice := rand.New(rand.NewSource(it.seed))
	switch it.fault {
	case flipped, inHandshake:
		frame[2+dice.Intn(len(frame)-2)] ^= 1 << dice.Intn(8)
	case stretched:
		frame[dice.Intn(2)] ^= 1 << dice.Intn(8)
	case lost:
		return nil, false
	case repeated:
		return append(frame, frame...), false
	case exchanged:
		next, _ := frameOf(from)
		return append(next, frame...), false
	case cutWithin:
		return frame[:1+dice.Intn(len(frame)-1)], true
	case cutBetween, unsaid:
		return nil, true
	}
	return frame, false
}
