package noise

import (
	"bytes"
	"testing"
)

// atEachPlace calls a function for each place where a slice of 16 bytes can begin beside, before and after a dst: also
// where crypto/cipher would panic, since the two overlap inexactly.
func atEachPlace(
	t *testing.T, what string, call func(dst, slice []byte) ([]byte, error), check func(made, slice []byte),
) {
	t.Helper()
	for d := -40; d <= 120; d++ {
		var area [512]byte
		for i := range area {
			area[i] = byte(i*7 + d)
		}
		slice := area[64+d : 64+d+16]
		was := append([]byte(nil), slice...)
		made, err := call(area[62:64], slice)
		if err != nil {
			t.Fatalf("%s, %d bytes after dst: %v", what, d, err)
		}
		if &made[0] != &area[62] {
			t.Fatalf("%s, %d bytes after dst: it isn't appended in place", what, d)
		}
		check(made[2:], was)
	}
}

// TestOverlapOfDst seals and encrypts what is anywhere beside its message.
func TestOverlapOfDst(t *testing.T) {
	a, b := finished(t, "XX")
	s, _, err := a.Split()
	must(t, err)
	_, r, err := b.Split()
	must(t, err)
	opens := func(open func(message []byte) ([]byte, error)) func(made, slice []byte) {
		return func(made, slice []byte) {
			payload, err := open(append([]byte(nil), made...))
			must(t, err)
			if !bytes.Equal(payload, slice) {
				t.Fatalf("%x, and not %x", payload, slice)
			}
		}
	}
	atEachPlace(t, "Sender.Seal", s.Seal, opens(func(m []byte) ([]byte, error) { return r.Open(nil, m) }))
	a, b = finished(t, "XX")
	ds, _, err := a.Datagrams(64)
	must(t, err)
	_, dr, err := b.Datagrams(64)
	must(t, err)
	atEachPlace(t, "DatagramSender.Seal", ds.Seal, opens(func(m []byte) ([]byte, error) { return dr.Open(nil, m) }))
	send, receive, _ := ciphers(t, "XX")
	encrypt := func(dst, text []byte) ([]byte, error) { return send.Encrypt(dst, []byte("ad"), text) }
	decrypts := func(m []byte) ([]byte, error) { return receive.Decrypt(nil, []byte("ad"), m) }
	atEachPlace(t, "CipherState.Encrypt", encrypt, opens(decrypts))
	encrypt = func(dst, ad []byte) ([]byte, error) { return send.Encrypt(dst, ad, []byte("the plaintext")) }
	atEachPlace(t, "the data of CipherState.Encrypt", encrypt, func(made, ad []byte) {
		text, err := receive.Decrypt(nil, ad, made)
		must(t, err)
		if string(text) != "the plaintext" {
			t.Fatalf("%q", text)
		}
	})
}

// TestOverlapOfOpened opens and decrypts what is anywhere beside its payload.
func TestOverlapOfOpened(t *testing.T) {
	a, b := finished(t, "XX")
	s, _, err := a.Split()
	must(t, err)
	_, r, err := b.Split()
	must(t, err)
	send, receive, _ := ciphers(t, "XX")
	for d := -60; d <= 60; d++ {
		var area [256]byte
		payload := []byte{1, 2, 3, byte(d)}
		sealed, err := s.Seal(nil, payload)
		must(t, err)
		message := area[100+d : 100+d+len(sealed)]
		copy(message, sealed)
		opened, err := r.Open(area[98:100], message)
		must(t, err)
		if !bytes.Equal(opened[2:], payload) {
			t.Fatalf("Open, %d bytes after dst: %x", d, opened)
		}
		ad := []byte("sixteen bytes ad")
		sealed, err = send.Encrypt(nil, ad, payload)
		must(t, err)
		place := area[100+d : 100+d+len(ad)]
		copy(place, ad)
		opened, err = receive.Decrypt(area[98:100], place, sealed)
		must(t, err)
		if !bytes.Equal(opened[2:], payload) {
			t.Fatalf("Decrypt, data %d bytes after dst: %x", d, opened)
		}
	}
}

// TestOverlapOfHandshakeMessage writes payloads that are anywhere beside their message.
func TestOverlapOfHandshakeMessage(t *testing.T) {
	client, server := configs(t, "NN")
	for d := -20; d <= 52; d++ {
		a, err := NewHandshakeState(client, true)
		must(t, err)
		b, err := NewHandshakeState(server, false)
		must(t, err)
		var area [256]byte
		payload := area[64+d : 64+d+16]
		copy(payload, "the payload here")
		message, err := a.WriteMessage(area[64:64], payload)
		must(t, err)
		read, err := b.ReadMessage(nil, append([]byte(nil), message...))
		must(t, err)
		if string(read) != "the payload here" {
			t.Fatalf("%d bytes after dst: %q", d, read)
		}
		must(t, a.Close(), b.Close())
	}
}
