package main

import (
	"context"
	"encoding/binary"
	"errors"
	"io"
	"sync"

	"example.org/yulimosar/noise"
)

// Two parties that are both noisecat say so in their payloads of the handshake. Then what they send has records: a
// length in two bytes, the higher first, and so many bytes of the text; or two bytes 0 and one of the signs below.
const announced = "noisecat 1"

const (
	allSent    = 1 // the sender's text is complete
	allWritten = 2 // the sender has written out all of the other's text, without a fault
)

const recordMost = noise.MaxMessage - noise.TagLen - 2

var (
	errRecord     = errors.New("the other party sends what isn't a record")
	errNotWritten = errors.New("the other party hasn't said that it has written out all")
)

func announce(context.Context, noise.Peer) ([]byte, error) { return []byte(announced), nil }

// isNoisecat reports whether the other party has said that it has records. In a one-way pattern, which has one
// message, nobody can answer.
func isNoisecat(c *noise.Conn) bool {
	payloads := c.ConnectionState().Payloads
	for _, payload := range payloads {
		if len(payloads) == 1 {
			return false
		}
		if string(payload) == announced {
			return true
		}
	}
	return false
}

// records are the records of a channel.
type records struct {
	c       *noise.Conn
	mutex   sync.Mutex // for what is sent
	room    []byte
	written chan struct{} // closed once the other party has written out all
}

func newRecords(c *noise.Conn) *records {
	return &records{c: c, room: make([]byte, 2+recordMost), written: make(chan struct{})}
}

// Write sends text.
func (r *records) Write(b []byte) (int, error) {
	r.mutex.Lock()
	defer r.mutex.Unlock()
	sent := 0
	for sent < len(b) {
		n := copy(r.room[2:], b[sent:])
		binary.BigEndian.PutUint16(r.room, uint16(n))
		if _, err := r.c.Write(r.room[:2+n]); err != nil {
			return sent, err
		}
		sent += n
	}
	return sent, nil
}

func (r *records) sign(which byte) error {
	r.mutex.Lock()
	defer r.mutex.Unlock()
	_, err := r.c.Write([]byte{0, 0, which})
	return err
}

// receive writes out the text that comes, calls done at its end, and says that all is written out. It returns once the
// other party has said that too.
func (r *records) receive(out io.Writer, done func() error) error {
	head, isComplete, room := make([]byte, 3), false, make([]byte, recordMost)
	for isWritten := false; !isComplete || !isWritten; {
		if _, err := io.ReadFull(r.c, head[:2]); err != nil {
			return r.cut(err, isComplete)
		}
		if n := int(binary.BigEndian.Uint16(head)); n > 0 {
			if isComplete || n > recordMost {
				return errRecord
			}
			if _, err := io.ReadFull(r.c, room[:n]); err != nil {
				return r.cut(err, isComplete)
			}
			if _, err := out.Write(room[:n]); err != nil {
				return err
			}
			continue
		}
		if _, err := io.ReadFull(r.c, head[2:]); err != nil {
			return r.cut(err, isComplete)
		}
		switch {
		case head[2] == allSent && !isComplete:
			isComplete = true
			if err := done(); err != nil {
				return err
			}
			if err := r.sign(allWritten); err != nil {
				return err
			}
		case head[2] == allWritten && !isWritten:
			isWritten = true
			close(r.written)
		default:
			return errRecord
		}
	}
	return nil
}

// cut says what it means that no further record comes.
func (r *records) cut(err error, isComplete bool) error {
	switch {
	case isComplete:
		return errNotWritten
	case err == io.EOF || errors.Is(err, io.ErrUnexpectedEOF):
		return noise.ErrCut
	}
	return err
}
