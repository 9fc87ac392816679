package noise

import (
	"bytes"
	"compress/gzip"
	"io"
	"os"
	"runtime"
	"runtime/debug"
	"runtime/pprof"
	"strconv"
	"sync"
	"testing"
	"time"

	"example.org/yulimosar/noise/internal/library"
)

// TestStress runs NOISE_STRESS handshakes, and messages, in many goroutines, while a CPU profile interrupts the
// library's code a thousand times a second, the collector runs all the time and moves stacks, and profiles of all
// goroutines walk over their stacks.
func TestStress(t *testing.T) {
	count := 200
	if n, err := strconv.Atoi(os.Getenv("NOISE_STRESS")); err == nil {
		count = n
	}
	var profile bytes.Buffer
	runtime.SetCPUProfileRate(1000) // pprof says once that the rate was set, and takes it
	if err := pprof.StartCPUProfile(&profile); err != nil {
		runtime.SetCPUProfileRate(0)
		t.Skip(err) // the tests run under a profile already
	}
	defer debug.SetGCPercent(debug.SetGCPercent(1))
	done, walked := make(chan struct{}), make(chan struct{})
	go func() {
		defer close(walked)
		for {
			select {
			case <-done:
				return
			case <-time.After(5 * time.Millisecond):
				runtime.GC()
				pprof.Lookup("goroutine").WriteTo(io.Discard, 2)
			}
		}
	}()
	client, server := configs(t, "XX")
	var all sync.WaitGroup
	for i := 0; i < 8; i++ {
		all.Add(1)
		go func() {
			defer all.Done()
			for j := 0; j < count/8; j++ {
				stressed(t, client, server)
			}
		}()
	}
	all.Wait()
	close(done)
	<-walked
	pprof.StopCPUProfile()
	unpacked, err := gzip.NewReader(&profile)
	must(t, err)
	samples, err := io.ReadAll(unpacked)
	must(t, err)
	if library.OnStack && !bytes.Contains(samples, []byte("internal/library/calls_")) {
		t.Error("no sample of the profile is in the library")
	}
}

// stressed is a handshake on the stack of this goroutine, and messages each way.
func stressed(t *testing.T, client, server *Config) {
	a, err := NewHandshakeState(client, true)
	must(t, err)
	b, err := NewHandshakeState(server, false)
	must(t, err)
	for first, second := a, b; !a.Done(); first, second = second, first {
		message, err := first.WriteMessage(nil, make([]byte, 300))
		must(t, err)
		_, err = second.ReadMessage(nil, message)
		must(t, err)
	}
	sender, _, err := a.Split()
	must(t, err)
	_, receiver, err := b.Split()
	must(t, err)
	for size := 1; size < 20000; size *= 3 {
		payload := bytes.Repeat([]byte{byte(size)}, size)
		message, err := sender.Seal(nil, payload)
		must(t, err)
		opened, err := receiver.Open(nil, message)
		must(t, err)
		if !bytes.Equal(opened, payload) {
			t.Error("another payload")
		}
	}
}
