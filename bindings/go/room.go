package noise

import (
	"io"
	"sync"
)

// The sizes of rooms, in bytes. The last has a whole frame.
var roomSizes = [...]int{256, 1 << 10, 4 << 10, 16 << 10, 65600}

const roomAtMost = 2 // the greatest class with which a connection waits

// A room is memory for bytes on their way. Connections share those that they don't need at the moment.
type room struct {
	bytes []byte
	class int // the index of its size
}

var spareRooms [len(roomSizes)]sync.Pool

func newRoom(class int) *room {
	if spare, ok := spareRooms[class].Get().(*room); ok {
		return spare
	}
	return &room{make([]byte, roomSizes[class]), class}
}

// roomFor returns a room of at least so many bytes, or of the most that there are.
func roomFor(count int) *room {
	class := 0
	for class < len(roomSizes)-1 && roomSizes[class] < count {
		class++
	}
	return newRoom(class)
}

// free gives the room back, after its first bytes, which were used, are overwritten.
func (r *room) free(used int) {
	wipe(r.bytes[:used])
	spareRooms[r.class].Put(r)
}

// received are bytes that have come over a connection and aren't used yet. Their room grows with what comes, and is
// given back once all is used.
type received struct {
	room       *room
	start, end int // room.bytes[start:end] are the bytes
	first      int // the class of the next room
}

func (r *received) left() []byte {
	if r.room == nil {
		return nil
	}
	return r.room.bytes[r.start:r.end]
}

// from receives what there is, once; at least `wanted` bytes are still to come. It fails only if no byte has come.
func (r *received) from(conn io.Reader, wanted int) error {
	r.makeRoom(wanted)
	for tries := 0; tries < 100; tries++ {
		n, err := conn.Read(r.room.bytes[r.end:])
		r.end += n
		switch {
		case n > 0:
			return nil
		case err != nil:
			return err
		}
	}
	return io.ErrNoProgress
}

func (r *received) makeRoom(wanted int) {
	if r.room == nil {
		r.room, r.start, r.end = newRoom(r.first), 0, 0
	}
	if r.start > 0 && r.end+wanted > len(r.room.bytes) {
		r.end, r.start = copy(r.room.bytes, r.left()), 0
	}
	if r.end < len(r.room.bytes) || r.room.class == len(roomSizes)-1 {
		return
	}
	larger := newRoom(r.room.class + 1)
	copy(larger.bytes, r.room.bytes)
	r.room.free(r.end)
	if r.room = larger; larger.class <= roomAtMost {
		r.first = larger.class
	}
}

// settle gives the room back if all that came is used.
func (r *received) settle() {
	if r.room != nil && r.start == r.end {
		r.drop()
	}
}

// drop gives the room back, and forgets what is in it.
func (r *received) drop() {
	if r.room != nil {
		r.room.free(len(r.room.bytes))
	}
	r.room, r.start, r.end = nil, 0, 0
}
