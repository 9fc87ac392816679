// Package pure is the proved library noise_c as plain Go: tools/purego has translated the WebAssembly module
// dist/noise_c.wasm, function by function. The translation isn't proved itself.
//
// Each call has a memory of its own while it runs: its stack, the module's data, and what its arguments lead to.
// Nothing of a call is left in it afterwards.
package pure

import (
	"encoding/binary"
	"sync"
)

// heap is where in a memory the arguments of a call begin.
const heap = stack + len(data)

// memory is that of one call. An address of the module is counted from base, so one below the stack is no place of the
// array: the stack can't grow over its end.
type memory struct {
	globals
	next uint32 // where there is room for another argument
	b    []byte
}

// Spare memories: for what is short, and for the longest.
var (
	rooms = [...]int{8 << 10, 200 << 10}
	spare [len(rooms)]sync.Pool
)

// Beside its slices a call takes structs, of which those of a handshake are the largest, and less than 16 bytes between
// two arguments.
const besides = 2048 + 512

// take returns a memory for a call, with room for slices of so many bytes.
func take(room int) *memory {
	class := 0
	if room > rooms[0]-besides {
		class = 1
	}
	if m, ok := spare[class].Get().(*memory); ok {
		return m
	}
	return newMemory(class)
}

func newMemory(class int) *memory {
	m := &memory{globals: globalsAtFirst, next: uint32(heap), b: make([]byte, heap+rooms[class])}
	copy(m.b[stack:], data)
	return m
}

// free overwrites what a call has used, which is so many bytes of the stack and the arguments. After a panic nothing is
// freed, and nobody takes the memory again.
func (m *memory) free(depth uint32) {
	wipe(m.b[heap:m.next])
	wipe(m.b[stack-depth : stack])
	m.next = uint32(heap)
	class := 0
	if len(m.b) > heap+rooms[0] {
		class = 1
	}
	spare[class].Put(m)
}

func wipe(b []byte) {
	for i := range b {
		b[i] = 0
	}
}

// at returns the 16 bytes at a place.
func (m *memory) at(i uint32) *[16]byte { return (*[16]byte)(m.b[i : i+16]) }

func (m *memory) get8(i uint32) byte       { return m.b[i] }
func (m *memory) get16(i uint32) uint16    { return binary.LittleEndian.Uint16(m.b[i:]) }
func (m *memory) get32(i uint32) uint32    { return binary.LittleEndian.Uint32(m.b[i:]) }
func (m *memory) get64(i uint32) uint64    { return binary.LittleEndian.Uint64(m.b[i:]) }
func (m *memory) put8(i uint32, v byte)    { m.b[i] = v }
func (m *memory) put16(i uint32, v uint16) { binary.LittleEndian.PutUint16(m.b[i:], v) }
func (m *memory) put32(i uint32, v uint32) { binary.LittleEndian.PutUint32(m.b[i:], v) }
func (m *memory) put64(i uint32, v uint64) { binary.LittleEndian.PutUint64(m.b[i:], v) }

// The same of vectors, for functions so long that the compiler inlines nothing there.

func (m *memory) get128q(i uint32) (uint64, uint64) {
	b := m.at(i)
	return binary.LittleEndian.Uint64(b[:]), binary.LittleEndian.Uint64(b[8:])
}

func (m *memory) get128d(i uint32) (uint32, uint32, uint32, uint32) {
	b := m.at(i)
	return binary.LittleEndian.Uint32(b[:]), binary.LittleEndian.Uint32(b[4:]), binary.LittleEndian.Uint32(b[8:]),
		binary.LittleEndian.Uint32(b[12:])
}

func (m *memory) put128q(i uint32, v, w uint64) {
	b := m.at(i)
	binary.LittleEndian.PutUint64(b[:], v)
	binary.LittleEndian.PutUint64(b[8:], w)
}

func (m *memory) put128d(i uint32, v, w, x, y uint32) {
	b := m.at(i)
	binary.LittleEndian.PutUint32(b[:], v)
	binary.LittleEndian.PutUint32(b[4:], w)
	binary.LittleEndian.PutUint32(b[8:], x)
	binary.LittleEndian.PutUint32(b[12:], y)
}

// fill and copy are the module's instructions of these names, at its own addresses.

func (m *memory) fill(at, value, count uint32) {
	b := m.b[at-base : at-base+count]
	if value&0xff == 0 {
		wipe(b)
		return
	}
	for i := range b {
		b[i] = byte(value)
	}
}

func (m *memory) copy(to, from, count uint32) {
	copy(m.b[to-base:to-base+count], m.b[from-base:from-base+count])
}

// b2i is a condition as a number. (It is compiled without a branch.)
func b2i(b bool) uint32 {
	if b {
		return 1
	}
	return 0
}
