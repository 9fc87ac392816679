//go:build unix

package noise

import (
	"bytes"
	"io"
	"net"
	"syscall"
	"testing"
	"time"
)

// comes waits until so many bytes have come to a connection over TCP, and takes none of them.
func comes(t *testing.T, conn net.Conn, count int) {
	t.Helper()
	raw, err := conn.(*net.TCPConn).SyscallConn()
	must(t, err)
	room := make([]byte, count)
	must(t, raw.Read(func(fd uintptr) bool {
		n, _, _ := syscall.Recvfrom(int(fd), room, syscall.MSG_PEEK)
		return n >= count
	}))
}

// slow is a connection whose Read returns late, and with a part of what has come.
type slow struct{ net.Conn }

func (s *slow) Read(b []byte) (int, error) {
	if len(b) > 10_000 {
		b = b[:10_000]
	}
	n, err := s.Conn.Read(b)
	time.Sleep(1500 * time.Microsecond)
	return n, err
}

// TestUnreadAtCloseOfTCP closes over TCP with something that has come and isn't read, while the client still reads the
// answer: it gets all of it, and its end. What comes later isn't asked for: no Close could know of it.
func TestUnreadAtCloseOfTCP(t *testing.T) {
	client, server := configs(t, "NN")
	answer := bytes.Repeat([]byte("0123456789"), 100_000)
	for i := 0; i < 6; i++ {
		c, s := connected(t, client, server)
		errC, errS := both(c, s)
		must(t, errC, errS)
		_, err := c.Write(make([]byte, 1000))
		must(t, err)
		_, err = s.Read(make([]byte, 10))
		must(t, err)
		_, err = c.Write(make([]byte, 30_000)) // less than a socket has room for
		must(t, err)
		comes(t, s.conn, 30_000+streamOverhead)
		if i%2 == 1 {
			s.conn = &slow{s.conn}
		}
		served := goes(func() error {
			if _, err := s.Write(answer); err != nil {
				return err
			}
			return s.Close()
		})
		var got []byte
		for room := make([]byte, 20_000); err == nil; time.Sleep(50 * time.Microsecond) {
			var n int
			n, err = c.Read(room)
			got = append(got, room[:n]...)
		}
		if err != io.EOF || !bytes.Equal(got, answer) {
			t.Errorf("%d bytes of %d came, and then %v", len(got), len(answer), err)
		}
		must(t, <-served)
	}
}
