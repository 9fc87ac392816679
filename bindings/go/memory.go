package noise

import (
	"unsafe"

	"example.org/yulimosar/noise/internal/library"
)

// The opaque structs of the library. `result` is in the same struct, so that a call allocates no memory.
type (
	handshakeMemory struct {
		opaque library.Handshake
		result library.Result
	}
	senderMemory struct {
		opaque library.Sender
		result library.Result
		nonce  uint64
	}
	receiverMemory struct {
		opaque library.Receiver
		result library.Result
		nonce  uint64
	}
	streamSenderMemory struct {
		opaque library.StreamSender
		result library.StreamResult
	}
	streamReceiverMemory struct {
		opaque library.StreamReceiver
		result library.StreamResult
	}
	datagramSenderMemory struct {
		opaque library.DatagramSender
		result library.Result
		nonce  uint64
	}
	datagramReceiverMemory struct {
		opaque library.DatagramReceiver
		result library.Result
	}
	cipherMemory struct {
		opaque library.Cipher
		result library.Result
		nonce  uint64
	}
)

func init() {
	if !library.IsThis(versionMajor) { // an installed library may be another build than the header's
		panic("noise: the library noise_c isn't the one that this package was made for")
	}
}

func (m *handshakeMemory) wipe()        { wipeAt(unsafe.Pointer(m), unsafe.Sizeof(*m)) }
func (m *senderMemory) wipe()           { wipeAt(unsafe.Pointer(m), unsafe.Sizeof(*m)) }
func (m *receiverMemory) wipe()         { wipeAt(unsafe.Pointer(m), unsafe.Sizeof(*m)) }
func (m *streamSenderMemory) wipe()     { wipeAt(unsafe.Pointer(m), unsafe.Sizeof(*m)) }
func (m *streamReceiverMemory) wipe()   { wipeAt(unsafe.Pointer(m), unsafe.Sizeof(*m)) }
func (m *datagramSenderMemory) wipe()   { wipeAt(unsafe.Pointer(m), unsafe.Sizeof(*m)) }
func (m *datagramReceiverMemory) wipe() { wipeAt(unsafe.Pointer(m), unsafe.Sizeof(*m)) }
func (m *cipherMemory) wipe()           { wipeAt(unsafe.Pointer(m), unsafe.Sizeof(*m)) }

func wipeAt(at unsafe.Pointer, size uintptr) { wipe(unsafe.Slice((*byte)(at), size)) }

var nothing [1]byte

// place returns the address of a slice's bytes; for an empty slice, of a byte that nobody reads or writes: the
// library accepts no NULL.
func place(b []byte) *byte {
	if len(b) == 0 {
		return &nothing[0]
	}
	return &b[0]
}

// grown returns dst with room for n more bytes, and that room.
func grown(dst []byte, n int) (whole, room []byte) {
	if total := len(dst) + n; total <= cap(dst) {
		whole = dst[:total]
	} else {
		whole = append(dst, make([]byte, n)...)
	}
	return whole, whole[len(dst):]
}

// apart returns what was passed, or its copy in spare, if it overlaps a room that is to be written.
func apart(room, passed []byte, spare *[]byte) []byte {
	if !overlap(room, passed) {
		return passed
	}
	*spare = append((*spare)[:0], passed...)
	return *spare
}

// overlap reports whether two slices have a byte in common.
func overlap(a, b []byte) bool {
	return len(a) > 0 && len(b) > 0 &&
		uintptr(unsafe.Pointer(&a[0])) <= uintptr(unsafe.Pointer(&b[len(b)-1])) &&
		uintptr(unsafe.Pointer(&b[0])) <= uintptr(unsafe.Pointer(&a[len(a)-1]))
}
