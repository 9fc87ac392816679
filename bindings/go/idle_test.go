package noise

import (
	"os"
	"runtime"
	"runtime/debug"
	"strconv"
	"strings"
	"testing"
	"time"
)

// rss returns the process's memory, in bytes.
func rss(t *testing.T) int {
	text, err := os.ReadFile("/proc/self/status")
	if err != nil {
		t.Skip(err)
	}
	_, rest, _ := strings.Cut(string(text), "VmRSS:")
	kilobytes, err := strconv.Atoi(strings.Fields(rest)[0])
	must(t, err)
	return kilobytes << 10
}

// TestIdlePairs opens NOISE_IDLE pairs, which then wait in Read: what a pair takes of the process's memory. The stacks,
// which a handshake has made grow, shrink at garbage collections.
func TestIdlePairs(t *testing.T) {
	count, err := strconv.Atoi(os.Getenv("NOISE_IDLE"))
	if err != nil {
		t.Skip("NOISE_IDLE isn't a number")
	}
	client, server := configs(t, "XX")
	before := rss(t)
	var all []*Conn
	for i := 0; i < count; i++ {
		a, b := memoryPipe()
		c, s := newConn(a, client, true, 0), newConn(b, server, false, 0)
		all = append(all, c, s)
		go s.Read(make([]byte, 1))
		go c.Read(make([]byte, 1))
	}
	for _, c := range all {
		for !c.handshakeDone.Load() {
			time.Sleep(time.Millisecond)
		}
	}
	t.Logf("%d bytes of RSS a pair", (rss(t)-before)/count)
	for i := 0; i < 5; i++ {
		debug.FreeOSMemory() // what the collector keeps for later differs from run to run
		time.Sleep(10 * time.Millisecond)
	}
	t.Logf("%d bytes of RSS a pair, after garbage collections", (rss(t)-before)/count)
	var stats runtime.MemStats
	runtime.ReadMemStats(&stats)
	t.Logf("%d bytes of stacks and %d of the heap a pair", int(stats.StackInuse)/count, int(stats.HeapAlloc)/count)
	for _, c := range all {
		c.Abort()
	}
}
