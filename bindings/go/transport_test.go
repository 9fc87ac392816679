package noise

import (
	"bytes"
	"fmt"
	"testing"
)

// finished returns the handshakes of both parties, whose messages have passed.
func finished(t testing.TB, pattern string) (*HandshakeState, *HandshakeState) {
	t.Helper()
	client, server := configs(t, pattern)
	a, err := NewHandshakeState(client, true)
	must(t, err)
	b, err := NewHandshakeState(server, false)
	must(t, err)
	for w, r := a, b; !a.Done() || !b.Done(); w, r = r, w {
		_, err := r.WriteMessage(nil, nil)
		if !r.Done() {
			wants(t, err, ErrNotYourTurn)
		}
		message, err := w.WriteMessage(nil, []byte("payload"))
		must(t, err)
		payload, err := r.ReadMessage([]byte("a "), message)
		must(t, err)
		if string(payload) != "a payload" {
			t.Fatalf("%q", payload)
		}
	}
	return a, b
}

func TestHandshakeIsUsedUp(t *testing.T) {
	a, b := finished(t, "XX")
	_, err := a.WriteMessage(nil, nil)
	wants(t, err, ErrDone)
	_, err = b.ReadMessage(nil, nil)
	wants(t, err, ErrDone)
	s, r, err := a.Split()
	must(t, err)
	_, _, err = a.Split()
	wants(t, err, ErrEnded)
	_, _, err = a.Datagrams(64)
	wants(t, err, ErrEnded)
	_, _, err = a.CipherStates()
	wants(t, err, ErrEnded)
	must(t, s.Close(), r.Close())
	_, err = s.Seal(nil, nil)
	wants(t, err, ErrClosed)
	_, err = r.Open(nil, nil)
	wants(t, err, ErrClosed)
}

func TestSealAndOpenInPlace(t *testing.T) {
	a, b := finished(t, "XX")
	s, _, err := a.Split()
	must(t, err)
	_, r, err := b.Split()
	must(t, err)
	place := append(make([]byte, 0, 64), "in place"...)
	for i := 0; i < 3; i++ {
		message, err := s.Seal(place[:0], place)
		must(t, err)
		_, err = r.Open(nil, message[1:])
		wants(t, err, ErrTag)
		damaged := append([]byte(nil), message...)
		damaged[3] ^= 1
		changed := append([]byte(nil), damaged...)
		_, err = r.Open(damaged[:0], damaged)
		wants(t, err, ErrTag)
		if !bytes.Equal(damaged, changed) {
			t.Error("a refusal has changed the message")
		}
		place, err = r.Open(message[:0], message)
		must(t, err)
		if string(place) != "in place" || s.Nonce() != uint64(i+1) || r.Nonce() != uint64(i+1) {
			t.Fatalf("%q", place)
		}
	}
	_, err = s.Seal(nil, make([]byte, MaxMessage-TagLen+1))
	wants(t, err, ErrTooLong)
	_, err = r.Open(nil, make([]byte, MaxMessage+1))
	wants(t, err, ErrLength)
}

// TestRefusedInPlace seals over a payload where nothing may be sent: the payload stays as it was.
func TestRefusedInPlace(t *testing.T) {
	_, b := finished(t, "N")
	s, _, err := b.Split()
	must(t, err)
	place := append(make([]byte, 0, 64), "in place"...)
	_, err = s.Seal(place[:0], place)
	wants(t, err, ErrOneWay)
	if string(place) != "in place" || !bytes.Equal(place[8:64], make([]byte, 56)) {
		t.Errorf("%q", place[:64])
	}
}

func TestDatagrams(t *testing.T) {
	a, b := finished(t, "IK")
	_, _, err := a.Datagrams(65)
	wants(t, err, ErrWindow)
	s, back, err := a.Datagrams(64)
	must(t, err)
	answers, r, err := b.Datagrams(64)
	must(t, err)
	var sealed [100][]byte
	for i := range sealed {
		sealed[i], err = s.Seal(nil, []byte{byte(i)})
		must(t, err)
	}
	for _, i := range []int{0, 5, 3, 99, 40} {
		got, err := r.Open([]byte{7}, sealed[i])
		must(t, err)
		if !bytes.Equal(got, []byte{7, byte(i)}) {
			t.Error(i, got)
		}
		_, err = r.Open(nil, sealed[i])
		wants(t, err, ErrRepeated)
	}
	_, err = r.Open(nil, sealed[35])
	wants(t, err, ErrOld)
	_, err = r.Open(nil, sealed[36][:23])
	wants(t, err, ErrShort)
	sealed[36][9] ^= 1
	_, err = r.Open(nil, sealed[36])
	wants(t, err, ErrTag)
	answer, err := answers.Seal(nil, []byte("back"))
	must(t, err)
	got, err := back.Open(answer[:0], answer)
	must(t, err)
	if string(got) != "back" || s.Nonce() != 100 || answers.Nonce() != 1 {
		t.Error(got)
	}
	must(t, s.Close(), back.Close())
	_, err = s.Seal(nil, nil)
	wants(t, err, ErrClosed)
	_, err = back.Open(nil, nil)
	wants(t, err, ErrClosed)
}

func BenchmarkSeal(b *testing.B) {
	for _, size := range []int{64, 1024, 16384} {
		b.Run(fmt.Sprint(size), func(b *testing.B) {
			x, _ := finished(b, "NN")
			s, _, _ := x.Split()
			payload, room := make([]byte, size), make([]byte, 0, size+TagLen)
			b.SetBytes(int64(size))
			for i := 0; i < b.N; i++ {
				s.Seal(room, payload)
			}
		})
	}
}

// BenchmarkConn sends messages over TCP, and reads them.
func BenchmarkConn(b *testing.B) {
	for _, size := range []int{64, 1024, 16384} {
		b.Run(fmt.Sprint(size), func(b *testing.B) {
			client, server := configs(b, "NN")
			c, s := connected(b, client, server)
			errC, errS := both(c, s)
			must(b, errC, errS)
			b.SetBytes(int64(size))
			b.ResetTimer()
			go func() {
				payload := make([]byte, size)
				for i := 0; i < b.N; i++ {
					c.Write(payload)
				}
			}()
			room := make([]byte, size)
			for i := 0; i < b.N; i++ {
				if _, err := s.Read(room); err != nil {
					b.Fatal(err)
				}
			}
		})
	}
}
