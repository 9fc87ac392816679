package noise

import (
	"sync"

	"example.org/yulimosar/noise/internal/library"
)

// Sender seals transport messages. Any goroutine may call it; messages have to arrive in the order
// in which they were sealed.
type Sender struct {
	mutex  sync.Mutex
	memory senderMemory
	closed bool
	spare  []byte // a copy of a payload that is where its message goes
}

// Receiver opens transport messages. Any goroutine may call it.
type Receiver struct {
	mutex  sync.Mutex
	memory receiverMemory
	closed bool
}

// Seal appends the next message to dst: 16 bytes longer than the payload, which has at most 65519; dst may be
// payload[:0]. It allocates no memory if dst has room, unless that room overlaps the payload in another way. At an
// error nothing changes: ErrTooLong, ErrOneWay, ErrExhausted, ErrClosed.
func (s *Sender) Seal(dst, payload []byte) ([]byte, error) {
	s.mutex.Lock()
	whole, err := s.seal(dst, payload)
	s.mutex.Unlock() // a deferred call would cost more
	return whole, err
}

func (s *Sender) seal(dst, payload []byte) ([]byte, error) {
	if s.closed {
		return dst, errClosed
	}
	if len(payload) > MaxMessage-TagLen {
		return dst, ErrTooLong
	}
	whole, room := grown(dst, len(payload)+TagLen)
	if code := s.sealInto(room, payload); code != 0 {
		return dst, Code(code)
	}
	return whole, nil
}

// sealInto seals a payload as the first bytes of room; one that is there already isn't copied.
func (s *Sender) sealInto(room, payload []byte) uint32 {
	m := &s.memory
	if len(payload) > 0 && &payload[0] == &room[0] {
		writes(room)
		return library.SealInPlace(&m.opaque, &room[0], uint(len(room)), uint(len(payload)), &m.result)
	}
	payload = apart(room, payload, &s.spare)
	reads(payload)
	writes(room)
	return library.Seal(
		&m.opaque, place(payload), uint(len(payload)), place(room), uint(len(room)), &m.result,
	)
}

// Nonce returns the nonce of the next message: how many were sealed. After Close it is 0.
func (s *Sender) Nonce() uint64 {
	s.mutex.Lock()
	defer s.mutex.Unlock()
	if s.closed || library.SenderNonce(&s.memory.opaque, &s.memory.nonce) != 0 {
		return 0
	}
	return uint64(s.memory.nonce)
}

// Close overwrites the keys. Later calls return ErrClosed.
func (s *Sender) Close() error {
	s.mutex.Lock()
	defer s.mutex.Unlock()
	s.closed = true
	s.memory.wipe()
	wipe(s.spare)
	return nil
}

// Open opens the next message, and appends its payload to dst; dst may be message[:0]. It allocates no memory if dst
// has room for the message. At an error nothing changes: ErrTag, ErrShort, ErrLength, ErrOneWay, ErrExhausted,
// ErrClosed. Over a stream close at the first ErrTag or ErrShort.
func (r *Receiver) Open(dst, message []byte) ([]byte, error) {
	r.mutex.Lock()
	whole, err := r.open(dst, message)
	r.mutex.Unlock()
	return whole, err
}

func (r *Receiver) open(dst, message []byte) ([]byte, error) {
	if r.closed {
		return dst, errClosed
	}
	if len(message) > MaxMessage {
		return dst, ErrLength
	}
	whole, room := grown(dst, len(message))
	if len(room) > 0 && &room[0] != &message[0] {
		copy(room, message)
	}
	writes(room)
	code := library.Open(&r.memory.opaque, place(room), uint(len(room)), &r.memory.result)
	if code != 0 {
		return dst, Code(code)
	}
	return whole[:len(dst)+int(r.memory.result.Len)], nil
}

// Nonce returns the nonce of the next message: how many were opened. After Close it is 0.
func (r *Receiver) Nonce() uint64 {
	r.mutex.Lock()
	defer r.mutex.Unlock()
	if r.closed || library.ReceiverNonce(&r.memory.opaque, &r.memory.nonce) != 0 {
		return 0
	}
	return uint64(r.memory.nonce)
}

// Close overwrites the keys. Later calls return ErrClosed.
func (r *Receiver) Close() error {
	r.mutex.Lock()
	defer r.mutex.Unlock()
	r.closed = true
	r.memory.wipe()
	return nil
}
