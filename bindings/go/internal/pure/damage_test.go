//go:build !purego && !plan9 && (amd64 || arm64)

package pure

import (
	"encoding/binary"
	"testing"

	"example.org/yulimosar/noise/internal/structs"
)

// damaged changes a bit of a byte of a handshake, and asks what restores it. The handshake is then as it was.
func (d *driver) damaged(i, at int) {
	good, bit, n := d.worlds[0].h[i], d.Intn(8), d.Intn(40)
	d.change(func(w *world) { w.h[i].Opaque[at] ^= 1 << bit })
	bad := d.worlds[0].h[i]
	d.ask(i, n)
	switch d.Intn(4) {
	case 0:
		d.do("Write", func(w *world) []any { return []any{&w.h[i], w.buf[0][:n], w.buf[1][:], &w.result} })
	case 1:
		d.do("Read", func(w *world) []any { return []any{&w.h[i], w.buf[2][:n], &w.result} })
	case 2:
		d.do("SetPsk", func(w *world) []any { return []any{&w.h[i], &w.setup.PSKs[0]} })
	default:
		d.do("FinishCiphers", func(w *world) []any { return []any{&w.h[i], &w.c1[0], &w.c2[0]} })
	}
	d.change(func(w *world) { w.h[i] = bad })
	d.do("Hash", func(w *world) []any { return []any{&w.h[i], &w.answer} })
	d.change(func(w *world) { w.h[i] = good })
}

// TestDamageCompared changes bytes of the handshakes of XX, after each message.
func TestDamageCompared(t *testing.T) {
	outcomes, step := map[string]int{}, 3
	d := comparing(t, 3, outcomes)
	if testing.Short() {
		step = 11
	}
	for k, text := range []string{fundamentals[11]} {
		if !d.begin(text, 2*k) {
			t.Fatalf("%q doesn't start", text)
		}
		for message := 0; ; message++ {
			for i := 0; i < 2; i++ {
				for at := d.Intn(step); at < len(structs.Handshake{}.Opaque); at += step {
					d.damaged(i, at)
				}
			}
			if !d.exchange(message) {
				break
			}
		}
	}
	t.Logf("%d calls, %d outcomes", d.made, len(outcomes))
}

// nonceOfSender is where a noise_datagram_sender has its nonce.
const nonceOfSender = 0x28

// TestWindowsCompared opens datagrams whose nonces are near a window's ends, or far from it, in windows of each size.
func TestWindowsCompared(t *testing.T) {
	outcomes, datagrams := map[string]int{}, 3000
	d := comparing(t, 4, outcomes)
	if testing.Short() {
		datagrams = 300
	}
	for _, window := range []uint32{64, 256, 1024} {
		if !d.begin(fundamentals[3], 0) || !d.exchange(0) || !d.exchange(1) {
			t.Fatal("no handshake")
		}
		d.do("FinishDatagrams", func(w *world) []any { return []any{&w.h[0], window, &w.ds[0], &w.dr[1]} })
		d.do("FinishDatagrams", func(w *world) []any { return []any{&w.h[1], window, &w.ds[1], &w.dr[0]} })
		size, highest := int64(window), int64(0)
		for k := 0; k < datagrams; k++ {
			ahead := []int64{1, 2, 64, size / 2, size, 2 * size}[d.Intn(6)] + int64(d.Intn(9)) - 4
			nonce := highest + ahead*int64(1-2*d.Intn(2))
			if nonce < 0 {
				nonce = int64(d.Intn(3))
			}
			d.change(func(w *world) {
				binary.LittleEndian.PutUint64(w.ds[0].Opaque[nonceOfSender:], uint64(nonce))
			})
			seal := func(w *world) []any { return []any{&w.ds[0], w.buf[0][:3], w.buf[2][:27], &w.result} }
			d.do("DatagramSeal", seal)
			open := func(w *world) []any { return []any{&w.dr[0], w.buf[2][:27], &w.result} }
			if d.do("DatagramOpen", open) == 0 && nonce > highest {
				highest = nonce
			}
		}
	}
	t.Logf("%d calls, %d outcomes", d.made, len(outcomes))
	if outcomes["DatagramOpen 0"] < datagrams {
		t.Errorf("%d datagrams are opened", outcomes["DatagramOpen 0"])
	}
}
