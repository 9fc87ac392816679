package live

import (
	"crypto/rand"
	"os"
	"sort"
	"strconv"
	"testing"
	"time"

	"example.org/yulimosar/noise"
	"example.org/yulimosar/noise/live/cloop"
)

// TestRatios compares what the package takes with what flynn/noise and a loop in C take, in NOISE_PAIRS pairs of runs
// that take turns: on a machine that does other work the median of their ratios means more than times do.
func TestRatios(t *testing.T) {
	pairs, err := strconv.Atoi(os.Getenv("NOISE_PAIRS"))
	if err != nil {
		t.Skip("NOISE_PAIRS isn't a number")
	}
	client, server := ours(t, "XX")
	one, err := suite.GenerateKeypair(rand.Reader)
	must(t, err)
	two, err := suite.GenerateKeypair(rand.Reader)
	must(t, err)
	ratio(t, "a handshake XX, over flynn/noise", pairs,
		func() { connectOurs(t, client, server) },
		func() { connectFlynn(t, one, two) })
	client, server = ours(t, "NN")
	sender, receiver := connectOurs(t, client, server)
	sealing, opening := connectFlynn(t, one, two)
	if !cloop.Start() {
		t.Fatal("the handshake in C failed")
	}
	for _, size := range []int{64, 1024, 16384} {
		payload, room := make([]byte, size), make([]byte, 0, size+noise.TagLen)
		count := 1 + 200000/(size+500)
		mine := func() {
			for i := 0; i < count; i++ {
				message, err := sender.Seal(room, payload)
				if err == nil {
					_, err = receiver.Open(message[:0], message)
				}
				if err != nil {
					t.Fatal(err)
				}
			}
		}
		ratio(t, strconv.Itoa(size)+" bytes, sealed and opened, over the loop in C", pairs, mine, func() {
			if !cloop.Run(count, size) {
				t.Fatal("a message was refused")
			}
		})
		ratio(t, strconv.Itoa(size)+" bytes, sealed and opened, over flynn/noise", pairs, mine, func() {
			for i := 0; i < count; i++ {
				message, err := sealing.Encrypt(room, nil, payload)
				if err == nil {
					_, err = opening.Decrypt(message[:0], nil, message)
				}
				if err != nil {
					t.Fatal(err)
				}
			}
		})
	}
}

// ratio prints the median of what one call takes over what another takes.
func ratio(t *testing.T, what string, pairs int, one, other func()) {
	timed := func(call func()) float64 {
		start := time.Now()
		call()
		return float64(time.Since(start))
	}
	all := make([]float64, pairs)
	for i := range all {
		if i%2 == 0 {
			a := timed(one)
			all[i] = a / timed(other)
		} else {
			b := timed(other)
			all[i] = timed(one) / b
		}
	}
	sort.Float64s(all)
	t.Logf("%s: %.3f (a quarter below %.3f, a quarter above %.3f)", what, all[pairs/2], all[pairs/4], all[3*pairs/4])
}
