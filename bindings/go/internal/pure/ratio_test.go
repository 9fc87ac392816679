//go:build !purego && !plan9 && (amd64 || arm64)

package pure

import (
	"fmt"
	"sort"
	"testing"
	"time"

	"example.org/yulimosar/noise/internal/library"
)

// handshake runs a handshake of XX, both parties, and ends it.
func handshake(b *testing.B, w *world, call func(string, []any) uint32) {
	for side := 0; side < 2; side++ {
		w.setup = setupOf(side, 0, [4]byte{1, 1, 0, 0})
		copy(w.buf[0][:], "Noise_XX_25519_ChaChaPoly_SHA256")
		if code := call("Start", []any{&w.h[side], w.buf[0][:32], w.buf[0][:0], &w.setup}); code != 0 {
			b.Fatal("Start:", code)
		}
	}
	until := func(h int, name string, args []any) {
		code := call(name, args)
		for ; code == 20; code = call(name, args) {
			call("Answer", []any{&w.h[h], w.result.OfStatic, &w.result.Remote, &[32]byte{1}})
		}
		if code != 0 {
			b.Fatal(name, ":", code)
		}
	}
	for message := 0; message < 3; message++ {
		h := message % 2
		until(h, "Write", []any{&w.h[h], w.buf[0][:0], w.buf[1][:300], &w.result})
		until(1-h, "Read", []any{&w.h[1-h], w.buf[1][:w.result.Len], &w.result})
	}
	call("Finish", []any{&w.h[0], uint64(0), &w.send[0], &w.recv[0]})
}

// BenchmarkRatio makes the same calls of both in turns, and reports the median of this package's time in the
// assembler's.
func BenchmarkRatio(b *testing.B) {
	ratio := func(b *testing.B, works ...func()) {
		var ratios []float64
		for i := 0; i < b.N; i++ {
			var times [2]time.Duration
			for k, work := range works { // (longer turns would have more of what else the machine does)
				begun := time.Now()
				work()
				times[k] = time.Since(begun)
			}
			ratios = append(ratios, float64(times[1])/float64(times[0]))
		}
		sort.Float64s(ratios)
		b.ReportMetric(ratios[len(ratios)/2], "ratio")
	}
	w := new(world)
	b.Run("XX", func(b *testing.B) {
		ratio(b, func() { handshake(b, w, callAssembled) }, func() { handshake(b, w, callPlain) })
	})
	for _, n := range []int{64, 1024, 16384} {
		payload, out := w.buf[0][:n], w.buf[1][:n+16]
		b.Run(fmt.Sprint("Seal", n), func(b *testing.B) {
			ratio(b, func() {
				library.Seal(&w.send[0], &payload[0], uint(n), &out[0], uint(n+16), &w.result)
			}, func() { Seal(&w.send[0], payload, out, &w.result) })
		})
	}
}
