package noise

import (
	"sync"

	"example.org/yulimosar/noise/internal/library"
)

// DatagramSender seals datagrams, which may be lost, repeated and reordered. Any goroutine may call it.
type DatagramSender struct {
	mutex  sync.Mutex
	memory datagramSenderMemory
	closed bool
	spare  []byte // a copy of a payload that is where its datagram goes
}

// DatagramReceiver opens datagrams, each at most once. Any goroutine may call it.
type DatagramReceiver struct {
	mutex  sync.Mutex
	memory datagramReceiverMemory
	closed bool
}

// Seal appends a datagram to dst: 24 bytes longer than the payload, which has at most 65519. The errors
// are those of Sender.Seal.
func (s *DatagramSender) Seal(dst, payload []byte) ([]byte, error) {
	s.mutex.Lock()
	defer s.mutex.Unlock()
	if s.closed {
		return dst, errClosed
	}
	if len(payload) > MaxMessage-TagLen {
		return dst, ErrTooLong
	}
	whole, room := grown(dst, len(payload)+DatagramOverhead)
	payload = apart(room, payload, &s.spare)
	reads(payload)
	writes(room)
	code := library.DatagramSeal(
		&s.memory.opaque,
		place(payload), uint(len(payload)),
		place(room), uint(len(room)),
		&s.memory.result,
	)
	if code != 0 {
		return dst, Code(code)
	}
	return whole, nil
}

// Nonce returns the nonce of the next datagram: how many were sealed. After Close it is 0.
func (s *DatagramSender) Nonce() uint64 {
	s.mutex.Lock()
	defer s.mutex.Unlock()
	if s.closed || library.DatagramSenderNonce(&s.memory.opaque, &s.memory.nonce) != 0 {
		return 0
	}
	return uint64(s.memory.nonce)
}

// Close overwrites the keys. Later calls return ErrClosed.
func (s *DatagramSender) Close() error {
	s.mutex.Lock()
	defer s.mutex.Unlock()
	s.closed = true
	s.memory.wipe()
	wipe(s.spare)
	return nil
}

// Open opens a datagram, and appends its payload to dst; dst may be datagram[:0]. An error changes nothing: drop the
// datagram, and wait for the next. ErrOld and ErrRepeated alone are no sign of an attack.
func (r *DatagramReceiver) Open(dst, datagram []byte) ([]byte, error) {
	r.mutex.Lock()
	defer r.mutex.Unlock()
	if r.closed {
		return dst, errClosed
	}
	if len(datagram) > MaxDatagram {
		return dst, ErrTooLong
	}
	whole, room := grown(dst, len(datagram))
	copy(room, datagram)
	writes(room)
	code := library.DatagramOpen(&r.memory.opaque, place(room), uint(len(room)), &r.memory.result)
	if code != 0 {
		return dst, Code(code)
	}
	from, count := int(r.memory.result.From), int(r.memory.result.Len)
	copy(room, room[from:from+count])
	return whole[:len(dst)+count], nil
}

// Close overwrites the keys. Later calls return ErrClosed.
func (r *DatagramReceiver) Close() error {
	r.mutex.Lock()
	defer r.mutex.Unlock()
	r.closed = true
	r.memory.wipe()
	return nil
}
