package noise

import (
	"bytes"
	"math"
	"sync"
	"testing"
)

// ciphers are the CipherStates of both parties for what a sends to b.
func ciphers(t testing.TB, pattern string) (send, receive, back *CipherState) {
	t.Helper()
	a, b := finished(t, pattern)
	send, back, err := a.CipherStates()
	must(t, err)
	_, receive, err = b.CipherStates()
	must(t, err)
	return send, receive, back
}

// TestCipherStates passes packets in another order than theirs, with associated data and nonces named, and
// refuses what isn't theirs.
func TestCipherStates(t *testing.T) {
	s, r, _ := ciphers(t, "IX")
	var packets [5][]byte
	for i := range packets {
		header := []byte{0xaa, byte(i)}
		var err error
		packets[i], err = s.Encrypt(header, header, []byte("packet"))
		must(t, err)
		if len(packets[i]) != 2+6+TagLen || s.Nonce() != uint64(i+1) {
			t.Fatal(len(packets[i]), s.Nonce())
		}
	}
	for _, i := range []int{3, 0, 4, 1} {
		must(t, r.SetNonce(uint64(i)))
		packet := append([]byte(nil), packets[i]...)
		packet[1] ^= 1
		_, err := r.Decrypt(nil, packet[:2], packet[2:])
		wants(t, err, ErrTag)
		if r.Nonce() != uint64(i) {
			t.Error("a refusal has changed the nonce")
		}
		packet[1] ^= 1
		got, err := r.Decrypt([]byte("a "), packet[:2], packet[2:])
		must(t, err)
		if string(got) != "a packet" || r.Nonce() != uint64(i+1) {
			t.Errorf("%q, nonce %d", got, r.Nonce())
		}
	}
	_, err := r.Decrypt(nil, packets[3][:2], packets[3][2:]) // the nonce is 2
	wants(t, err, ErrTag)
	for i := range packets[2] {
		packets[2][i] ^= 4
		_, err := r.Decrypt(nil, packets[2][:2], packets[2][2:])
		wants(t, err, ErrTag)
		packets[2][i] ^= 4
	}
	_, err = r.Decrypt(nil, packets[2][:2], packets[2][2:])
	must(t, err)
}

// TestCipherStatesInPlace has texts, data and messages that lie over each other.
func TestCipherStatesInPlace(t *testing.T) {
	s, r, _ := ciphers(t, "NN")
	text := append(make([]byte, 0, 64), "in place"...)
	for i := 0; i < 3; i++ {
		message, err := s.Encrypt(text[:0], []byte("data"), text)
		must(t, err)
		changed := append([]byte(nil), message...)
		_, err = r.Decrypt(message[:0], []byte("date"), message)
		wants(t, err, ErrTag)
		if !bytes.Equal(message, changed) {
			t.Error("a refusal has changed the message")
		}
		text, err = r.Decrypt(message[:0], []byte("data"), message)
		must(t, err)
		if string(text) != "in place" {
			t.Fatalf("%q", text)
		}
	}
	data := append(make([]byte, 0, 64), "data"...)
	message, err := s.Encrypt(data[:0], data, []byte("a text over its data"))
	must(t, err)
	data = append(make([]byte, 0, 64), "data"...)
	text, err = r.Decrypt(data[:0], data, message)
	must(t, err)
	if string(text) != "a text over its data" {
		t.Errorf("%q", text)
	}
}

func TestCipherStatesRekey(t *testing.T) {
	s, r, _ := ciphers(t, "NN")
	must(t, s.Rekey())
	message, err := s.Encrypt(nil, nil, []byte("rekeyed"))
	must(t, err)
	_, err = r.Decrypt(nil, nil, message)
	wants(t, err, ErrTag)
	must(t, r.Rekey())
	got, err := r.Decrypt(nil, nil, message)
	must(t, err)
	if string(got) != "rekeyed" || s.Nonce() != 1 {
		t.Errorf("%q, nonce %d", got, s.Nonce())
	}
}

func TestCipherStateRefusals(t *testing.T) {
	s, r, _ := ciphers(t, "NN")
	_, err := r.Encrypt(nil, nil, nil)
	wants(t, err, ErrDirection)
	_, err = s.Decrypt(nil, nil, make([]byte, 16))
	wants(t, err, ErrDirection)
	_, err = s.Encrypt(nil, nil, make([]byte, MaxMessage-TagLen+1))
	wants(t, err, ErrTooLong)
	_, err = s.Encrypt(nil, make([]byte, 65536), nil)
	wants(t, err, ErrLength)
	_, err = r.Decrypt(nil, nil, make([]byte, MaxMessage+1))
	wants(t, err, ErrTooLong)
	_, err = r.Decrypt(nil, nil, make([]byte, 15))
	wants(t, err, ErrShort)
	must(t, s.SetNonce(math.MaxUint64-1))
	_, err = s.Encrypt(nil, nil, nil)
	must(t, err)
	_, err = s.Encrypt(nil, nil, nil)
	wants(t, err, ErrExhausted)
	if s.Nonce() != math.MaxUint64 {
		t.Error(s.Nonce())
	}
	must(t, s.Close(), r.Close())
	_, err = s.Encrypt(nil, nil, nil)
	wants(t, err, ErrClosed)
	_, err = r.Decrypt(nil, nil, nil)
	wants(t, err, ErrClosed)
	wants(t, s.SetNonce(1), ErrClosed)
	wants(t, s.Rekey(), ErrClosed)
	if s.Nonce() != 0 {
		t.Error(s.Nonce())
	}
	s, r, back := ciphers(t, "N")
	message, err := s.Encrypt(nil, nil, []byte("one way"))
	must(t, err)
	_, err = r.Decrypt(nil, nil, message)
	must(t, err)
	_, err = back.Decrypt(nil, nil, make([]byte, 16))
	wants(t, err, ErrOneWay)
	wants(t, back.Rekey(), ErrOneWay)
	h, err := NewHandshakeState(&Config{Pattern: "NN", InsecureAcceptAnyKey: true}, true)
	must(t, err)
	_, _, err = h.CipherStates()
	wants(t, err, ErrNotDone)
}

// TestCipherStateOfManyGoroutines encrypts from several goroutines at once: each nonce has been used, once.
func TestCipherStateOfManyGoroutines(t *testing.T) {
	s, r, _ := ciphers(t, "NN")
	const each = 40
	made := make(chan []byte, 4*each)
	var group sync.WaitGroup
	for i := 0; i < 4; i++ {
		group.Add(1)
		go func() {
			defer group.Done()
			for i := 0; i < each; i++ {
				message, err := s.Encrypt(nil, nil, []byte("text"))
				if err != nil {
					t.Error(err)
				}
				made <- message
			}
		}()
	}
	group.Wait()
	close(made)
	used := map[int]int{}
	for message := range made {
		for nonce := 0; nonce < 4*each; nonce++ {
			must(t, r.SetNonce(uint64(nonce)))
			if _, err := r.Decrypt(nil, nil, message); err == nil {
				used[nonce]++
			}
		}
	}
	for nonce := 0; nonce < 4*each; nonce++ {
		if used[nonce] != 1 {
			t.Errorf("nonce %d was used %d times", nonce, used[nonce])
		}
	}
}
