package noise

import (
	"io"
	"runtime"
	"strings"
	"testing"
	"time"
)

// ofPackage returns the stacks of the goroutines that run code of this package, but the caller's.
func ofPackage() (found []string) {
	room := make([]byte, 1<<20)
	all := strings.Split(string(room[:runtime.Stack(room, true)]), "\n\n")
	for _, stack := range all[1:] {
		if strings.Contains(stack, "yulimosar/noise.") && !strings.Contains(stack, "testing.(*T).Run(") {
			found = append(found, stack)
		}
	}
	return found
}

// TestNoGoroutineStays runs handshakes, a conversation and calls without a connection, and asks then what goroutines
// there are, as checks for leaks do.
func TestNoGoroutineStays(t *testing.T) {
	before, count := len(ofPackage()), runtime.NumGoroutine()
	client, server := configs(t, "XXpsk3")
	for i := 0; i < 3; i++ {
		a, b := memoryPipe()
		c, s := newConn(a, client, true, time.Minute), newConn(b, server, false, time.Minute)
		errC, errS := both(c, s)
		must(t, errC, errS)
		served := goes(func() error { _, err := io.Copy(s, s); must(t, s.Close()); return err })
		exchange(t, c, c)
		must(t, c.CloseWrite())
		_, err := c.Read(make([]byte, 1))
		if err != io.EOF {
			t.Error(err)
		}
		must(t, <-served, c.Close())
	}
	must(t, client.Check(true))
	finished(t, "IK")
	var left []string
	for i := 0; i < 2000; i++ {
		if left = ofPackage(); len(left) <= before && runtime.NumGoroutine() <= count {
			return
		}
		time.Sleep(10 * time.Millisecond)
	}
	t.Errorf("%d goroutines, and %d before: %s", runtime.NumGoroutine(), count, strings.Join(left, "\n\n"))
}
