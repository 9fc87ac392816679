package noise

import (
	"bytes"
	"compress/gzip"
	"encoding/binary"
	"io"
	"runtime"
	"runtime/pprof"
	"strings"
	"testing"
	"time"

	"example.org/yulimosar/noise/internal/library"
)

// fields calls a function for each field of a message of Protocol Buffers, as those that profiles have: with its
// number, and its value or content.
func fields(message []byte, field func(number, value uint64, content []byte)) {
	for len(message) > 0 {
		key, n := binary.Uvarint(message)
		value, m := binary.Uvarint(message[n:])
		message = message[n+m:]
		var content []byte
		if key&7 == 2 {
			content, message = message[:value], message[value:]
		}
		field(key>>3, value, content)
	}
}

// stacks returns the stack of each sample of a profile: the names of its functions, and the innermost first. How often
// a stack was seen is its number of samples.
func stacks(t *testing.T, profile io.Reader) (found [][]string, counts []uint64) {
	t.Helper()
	unzipped, err := gzip.NewReader(profile)
	must(t, err)
	whole, err := io.ReadAll(unzipped)
	must(t, err)
	var texts []string
	nameOf := map[uint64]uint64{}        // the place in texts, by the function
	functionsOf := map[uint64][]uint64{} // by the location
	fields(whole, func(number, _ uint64, content []byte) {
		switch number {
		case 4:
			addLocation(functionsOf, content)
		case 5:
			var of [3]uint64
			fields(content, func(number, value uint64, _ []byte) {
				if number < 3 {
					of[number] = value
				}
			})
			nameOf[of[1]] = of[2]
		case 6:
			texts = append(texts, string(content))
		}
	})
	fields(whole, func(number, _ uint64, content []byte) {
		if number != 2 {
			return
		}
		var of [3][]uint64
		fields(content, func(number, value uint64, packed []byte) {
			if number < 3 {
				of[number] = append(of[number], numbers(value, packed)...)
			}
		})
		var names []string
		for _, location := range of[1] {
			for _, function := range functionsOf[location] {
				names = append(names, texts[nameOf[function]])
			}
		}
		found, counts = append(found, names), append(counts, of[2][0])
	})
	return found, counts
}

// addLocation keeps which functions a location of a profile is in.
func addLocation(functionsOf map[uint64][]uint64, content []byte) {
	var id uint64
	fields(content, func(number, value uint64, content []byte) {
		switch number {
		case 1:
			id = value
		case 4:
			fields(content, func(number, value uint64, _ []byte) {
				if number == 1 {
					functionsOf[id] = append(functionsOf[id], value)
				}
			})
		}
	})
}

// numbers returns those of a field that may be repeated: one value, or several that stand in its content.
func numbers(value uint64, packed []byte) (found []uint64) {
	if packed == nil {
		return []uint64{value}
	}
	for len(packed) > 0 {
		one, n := binary.Uvarint(packed)
		found, packed = append(found, one), packed[n:]
	}
	return found
}

// sealForAWhile seals messages, which takes the processor's time in the library.
func sealForAWhile(t *testing.T) {
	x, _ := finished(t, "NN")
	sender, _, err := x.Split()
	must(t, err)
	payload, room := make([]byte, 1000), make([]byte, 0, 2000)
	for begun := time.Now(); time.Since(begun) < time.Second; {
		if _, err := sender.Seal(room, payload); err != nil {
			t.Fatal(err)
		}
	}
}

// profiled profiles calls of the library, for a second: how many samples are of it, and how many of them show who made
// the call.
func profiled(t *testing.T) (all, known uint64) {
	var profile bytes.Buffer
	if err := pprof.StartCPUProfile(&profile); err != nil {
		t.Skip(err)
	}
	sealForAWhile(t)
	pprof.StopCPUProfile()
	found, counts := stacks(t, &profile)
	for i, names := range found {
		whole := strings.Join(names, " ")
		if strings.Contains(whole, "noise_c") || strings.Contains(whole, "/internal/pure.") {
			all += counts[i]
			if strings.Contains(whole, "sealForAWhile") {
				known += counts[i]
			}
		}
	}
	return all, known
}

// TestProfile profiles calls of the library: a sample shows who made the call. On a busy machine a second has few
// samples.
func TestProfile(t *testing.T) {
	if library.OnStack && runtime.GOARCH != "amd64" {
		t.Skip("Go follows no frame of this code on this processor")
	}
	all, known := profiled(t)
	for i := 0; i < 60 && all < 20; i++ {
		more, ofKnown := profiled(t)
		all, known = all+more, known+ofKnown
	}
	t.Log(known, "of", all, "samples of the library have a caller")
	if all < 5 {
		t.Skip("this system takes too few samples")
	}
	if known*10 < all*9 {
		t.Errorf("%d of %d samples of the library have a caller", known, all)
	}
}
