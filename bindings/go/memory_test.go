package noise

import (
	"bytes"
	"net"
	"runtime"
	"testing"
)

// heap returns how many bytes are in use once nothing is spare.
func heap() int {
	var stats runtime.MemStats
	for i := 0; i < 3; i++ {
		runtime.GC()
	}
	runtime.ReadMemStats(&stats)
	return int(stats.HeapAlloc)
}

const many = 200

// each says how many bytes of the heap is taken by what is made over each of many connections, beside those.
func each(t *testing.T, what string, most int, make func(a, b net.Conn) []*Conn) {
	t.Helper()
	var all []*Conn
	var below [many][2]net.Conn
	for i := range below {
		a, b := memoryPipe()
		below[i] = [2]net.Conn{a, b}
	}
	before := heap()
	for _, ends := range below {
		all = append(all, make(ends[0], ends[1])...)
	}
	used := (heap() - before) / many
	t.Logf("%s: %d bytes", what, used)
	if used > most {
		t.Errorf("%s: %d bytes of the heap, more than %d", what, used, most)
	}
	for _, c := range all {
		c.Close()
	}
	runtime.KeepAlive(below)
}

// TestStrangersMemory has strangers send the two bytes of the longest frame, or nothing: to a server, and in a stream.
func TestStrangersMemory(t *testing.T) {
	client, server := configs(t, "XX")
	for what, sent := range map[string][]byte{"a silent stranger": nil, "two bytes": {0x01, 0x00}} {
		each(t, what, 3000, func(a, b net.Conn) []*Conn {
			s := newConn(b, server, false, 0)
			a.Write(sent)
			go s.Handshake()
			return []*Conn{s}
		})
	}
	each(t, "two bytes of a frame that is refused", 2000, func(a, b net.Conn) []*Conn {
		s := newConn(b, server, false, 0)
		a.Write([]byte{0xff, 0xff})
		wants(t, s.Handshake(), ErrTooLong)
		return []*Conn{s}
	})
	each(t, "two bytes in a stream, both parties", 8000, func(a, b net.Conn) []*Conn {
		c, s := newConn(a, client, true, 0), newConn(b, server, false, 0)
		errC, errS := both(c, s)
		must(t, errC, errS)
		a.Write([]byte{0xff, 0xff})
		go s.Read(make([]byte, 1))
		return []*Conn{c, s}
	})
}

// TestIdleMemory exchanges a long message each way, and then waits in Read.
func TestIdleMemory(t *testing.T) {
	client, server := configs(t, "XX")
	long := bytes.Repeat([]byte("0123456789"), 12000)
	each(t, "two idle ends", 2*8000, func(a, b net.Conn) []*Conn {
		c, s := newConn(a, client, true, 0), newConn(b, server, false, 0)
		errC, errS := both(c, s)
		must(t, errC, errS)
		for _, ends := range [][2]*Conn{{c, s}, {s, c}} {
			_, err := ends[0].Write(long)
			must(t, err)
			got := make([]byte, len(long))
			for n := 0; n < len(got); {
				m, err := ends[1].Read(got[n:])
				must(t, err)
				n += m
			}
			if !bytes.Equal(got, long) {
				t.Fatal("other bytes came than were sent")
			}
		}
		a.(*memoryEnd).in.bytes, b.(*memoryEnd).in.bytes = bytes.Buffer{}, bytes.Buffer{}
		go c.Read(make([]byte, 1))
		go s.Read(make([]byte, 1))
		return []*Conn{c, s}
	})
}

// TestLongestHandshakeMessage has payloads at the limit, above it, and above what Config allows.
func TestLongestHandshakeMessage(t *testing.T) {
	for _, it := range []struct {
		payload, limit int
		want           error
	}{
		{4096, 0, nil},
		{4097, 0, ErrTooLong},
		{20000, 20048, nil},
		{20001, 20048, ErrTooLong},
		{MaxMessage - 48, MaxMessage, nil},
	} {
		client, server := configs(t, "NNpsk2")
		server.Payloads = [][]byte{nil, make([]byte, it.payload)} // message 2 has 48 bytes more
		client.MaxHandshakeMessage = it.limit
		c, s := connected(t, client, server)
		err, _ := both(c, s)
		if it.want == nil {
			must(t, err)
			continue
		}
		wants(t, err, it.want)
	}
	config, _ := configs(t, "XX")
	config.MaxHandshakeMessage = 95
	wants(t, config.Check(true), errTooSmall)
	config.MaxHandshakeMessage = 96
	must(t, config.Check(true))
}
