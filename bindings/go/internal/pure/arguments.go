package pure

import "example.org/yulimosar/noise/internal/structs"

// longest is how many bytes of a slice a call reads or writes at most: a datagram is the longest.
const longest = 65543

// held returns what a call can use of a slice.
func held(b []byte) []byte {
	if len(b) > longest {
		return b[:longest]
	}
	return b
}

func most(n, bound int) int {
	if n > bound {
		return bound
	}
	return n
}

// frameOf returns the bytes of the first frame of a buffer.
func frameOf(b []byte) []byte {
	if len(b) >= 2 {
		if n := 2 + int(b[0])<<8 + int(b[1]); n < len(b) {
			return b[:n]
		}
	}
	return b
}

// put copies bytes to the next free place, and returns it.
func (m *memory) put(b []byte) uint32 {
	at := m.leave(len(b))
	copy(m.b[at:m.next], b)
	return at
}

// leave returns the next free place, and leaves so many bytes there.
func (m *memory) leave(n int) uint32 {
	at := m.next
	m.next += uint32(n+15) &^ 15
	return at
}

func (m *memory) putNumber(v uint64) uint32 {
	at := m.leave(8)
	m.put64(at, v)
	return at
}

// The structs as C has them with pointers of 64 bits.

func (m *memory) putKey(k *structs.Key) uint32 {
	at := m.leave(33)
	m.writeKey(at, k)
	return at
}

func (m *memory) writeKey(at uint32, k *structs.Key) {
	m.b[at] = k.Present
	copy(m.b[at+1:at+33], k.Bytes[:])
}

func (m *memory) getKey(at uint32, k *structs.Key) {
	k.Present = m.b[at]
	copy(k.Bytes[:], m.b[at+1:])
}

func (m *memory) putSetup(s *structs.Setup) uint32 {
	at := m.leave(134 + 9*32)
	m.b[at] = s.Responder
	for i, k := range [...]*structs.Key{&s.E, &s.S, &s.RemoteE, &s.RemoteS} {
		m.writeKey(at+1+33*uint32(i), k)
	}
	m.b[at+133] = s.PSKCount
	for i := range s.PSKs {
		copy(m.b[at+134+32*uint32(i):], s.PSKs[i][:])
	}
	return at
}

func (m *memory) putResult(r *structs.Result) uint32 {
	at := m.leave(56)
	m.put64(at, uint64(r.From))
	m.put64(at+8, uint64(r.Len))
	m.b[at+16], m.b[at+17] = r.Token, r.OfStatic
	copy(m.b[at+18:at+50], r.Remote[:])
	m.b[at+50] = r.RemoteKnown
	return at
}

func (m *memory) getResult(at uint32, r *structs.Result) {
	r.From, r.Len = uint(m.get64(at)), uint(m.get64(at+8))
	r.Token, r.OfStatic = m.b[at+16], m.b[at+17]
	copy(r.Remote[:], m.b[at+18:])
	r.RemoteKnown = m.b[at+50]
}

func (m *memory) putStreamResult(r *structs.StreamResult) uint32 {
	at := m.leave(32)
	for i, n := range [...]uint{r.From, r.Len, r.Used, r.Wanted} {
		m.put64(at+8*uint32(i), uint64(n))
	}
	return at
}

func (m *memory) getStreamResult(at uint32, r *structs.StreamResult) {
	r.From, r.Len, r.Used, r.Wanted = uint(m.get64(at)), uint(m.get64(at+8)), uint(m.get64(at+16)), uint(m.get64(at+24))
}

func (m *memory) putStageResult(r *structs.StageResult) uint32 {
	return m.put([]byte{r.Messages, r.Passed, r.Ended, r.WritesNext})
}

func (m *memory) getStageResult(at uint32, r *structs.StageResult) {
	r.Messages, r.Passed, r.Ended, r.WritesNext = m.b[at], m.b[at+1], m.b[at+2], m.b[at+3]
}

func (m *memory) putPatternResult(r *structs.PatternResult) uint32 {
	at := m.leave(16)
	m.put64(at, uint64(r.Line))
	copy(m.b[at+8:], []byte{r.Rule, r.Message, r.Token, r.Messages})
	return at
}

func (m *memory) getPatternResult(at uint32, r *structs.PatternResult) {
	r.Line = uint(m.get64(at))
	r.Rule, r.Message, r.Token, r.Messages = m.b[at+8], m.b[at+9], m.b[at+10], m.b[at+11]
}

func (m *memory) putPatternInfo(r *structs.PatternInfo) uint32 {
	at := m.leave(95)
	copy(m.b[at:], []byte{r.Messages, r.OneWay, r.PSKs})
	for i, it := range r.Needed {
		copy(m.b[at+3+4*uint32(i):], []byte{it.E, it.S, it.RemoteE, it.RemoteS})
	}
	for i := range r.PreMessages {
		copy(m.b[at+11+2*uint32(i):], r.PreMessages[i][:])
	}
	for i := range r.Tokens {
		copy(m.b[at+15+10*uint32(i):], r.Tokens[i][:])
	}
	return at
}

func (m *memory) getPatternInfo(at uint32, r *structs.PatternInfo) {
	b := m.b[at : at+95]
	r.Messages, r.OneWay, r.PSKs = b[0], b[1], b[2]
	for i := range r.Needed {
		r.Needed[i] = structs.KeysNeeded{E: b[3+4*i], S: b[4+4*i], RemoteE: b[5+4*i], RemoteS: b[6+4*i]}
	}
	for i := range r.PreMessages {
		copy(r.PreMessages[i][:], b[11+2*i:])
	}
	for i := range r.Tokens {
		copy(r.Tokens[i][:], b[15+10*i:])
	}
}

func (m *memory) putMessageLayout(r *structs.MessageLayout) uint32 {
	at := m.leave(8 + 12*len(r.Pieces))
	m.b[at] = r.Count
	m.put32(at+4, r.Len)
	for i, it := range r.Pieces {
		at := at + 8 + 12*uint32(i)
		m.b[at], m.b[at+1] = it.Token, it.Encrypted
		m.put32(at+4, it.From)
		m.put32(at+8, it.Len)
	}
	return at
}

func (m *memory) getMessageLayout(at uint32, r *structs.MessageLayout) {
	r.Count, r.Len = m.b[at], m.get32(at+4)
	for i := range r.Pieces {
		at := at + 8 + 12*uint32(i)
		r.Pieces[i] = structs.Piece{Token: m.b[at], Encrypted: m.b[at+1], From: m.get32(at + 4), Len: m.get32(at + 8)}
	}
}
