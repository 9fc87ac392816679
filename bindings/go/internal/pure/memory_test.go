package pure

import (
	"bytes"
	"math/rand"
	"runtime"
	"strings"
	"sync"
	"testing"
)

// left returns how many bytes of a memory outside of its data aren't zero.
func left(m *memory) int {
	zeros := bytes.Count(m.b[:stack], []byte{0}) + bytes.Count(m.b[heap:], []byte{0})
	return len(m.b) - len(data) - zeros
}

// TestNothingIsLeft makes random calls and looks at the memory that each has used: nothing of its arguments, of its
// stack or of its result is there afterwards, the data are as they were, and the stack pointer is back.
func TestNothingIsLeft(t *testing.T) {
	if isRace {
		t.Skip("under the race detector a pool drops what it is given")
	}
	runtime.LockOSThread()
	defer runtime.UnlockOSThread()
	calls := 20000
	if testing.Short() {
		calls = 8000
	}
	w, seen, successes := new(world), 0, map[string]bool{}
	d := driver{Rand: rand.New(rand.NewSource(4)), worlds: []*world{w}} // by 4 each call succeeds in 8000
	d.do = func(name string, args func(w *world) []any) uint32 {
		code := callPlain(name, args(w))
		successes[name] = successes[name] || code == 0
		for class := range spare {
			m, ok := spare[class].Get().(*memory)
			if !ok {
				continue
			}
			if n := left(m); n != 0 {
				t.Fatalf("%s, code %d: %d bytes are left", name, code, n)
			}
			if string(m.b[stack:heap]) != data || m.globals != globalsAtFirst || m.next != uint32(heap) {
				t.Fatalf("%s, code %d: the memory isn't as it was", name, code)
			}
			seen++
			spare[class].Put(m)
		}
		return code
	}
	for made := 0; made < calls; made++ {
		d.step()
	}
	for name := range plain {
		if !successes[name] {
			t.Errorf("no call of %s has succeeded", name)
		}
	}
	if seen < calls {
		t.Errorf("only %d memories were seen", seen)
	}
}

// TestOverflow lets the stack grow over its end, which is the end of the array: the call then panics as Go does at a
// wrong index, and nobody takes its memory again.
func TestOverflow(t *testing.T) {
	w := new(world)
	name := []byte("Noise_XXpsk3_25519_ChaChaPoly_SHA256")
	w.setup = setupOf(0, 1, [4]byte{1, 1, 0, 0})
	if code := Start(&w.h[0], name, nil, &w.setup); code != 0 {
		t.Fatal(code)
	}
	forget := func() { spare[0] = sync.Pool{} } // no other call may take a memory of this test
	defer forget()
	for _, room := range []uint64{16, 64, 512, 4096} {
		said := ""
		for i := 0; i < 1000 && said == ""; i++ { // a pool may lose what is put into it
			forget()
			m := newMemory(0)
			m.g0 = base + room
			spare[0].Put(m)
			h := w.h[0]
			said = panicOf(func() { Write(&h, nil, w.buf[0][:100], &w.result) })
		}
		if !strings.Contains(said, "out of range") && !isRace {
			t.Errorf("with %d bytes of stack: %q", room, said)
		}
		if said != "" && spare[0].Get() != nil {
			t.Errorf("with %d bytes of stack: the memory may be taken again", room)
		}
	}
	forget()
	if code := Write(&w.h[0], nil, w.buf[0][:100], &w.result); code != 0 || w.result.Len != 48 {
		t.Error("after the panics:", code, w.result.Len)
	}
}

func panicOf(call func()) (said string) {
	defer func() {
		if err, ok := recover().(runtime.Error); ok {
			said = err.Error()
		}
	}()
	call()
	return ""
}
