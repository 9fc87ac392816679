//go:build !purego && !plan9 && (amd64 || arm64)

package pure

import (
	"fmt"
	"strings"
	"testing"
)

// fundamentals are the texts of the fundamental patterns (Noise, 7.4 and 7.5), and last one of eight messages.
var fundamentals = []string{
	"N:\n  <- s\n  ...\n  -> e, es\n",
	"K:\n  -> s\n  <- s\n  ...\n  -> e, es, ss\n",
	"X:\n  <- s\n  ...\n  -> e, es, s, ss\n",
	"NN:\n  -> e\n  <- e, ee\n",
	"NK:\n  <- s\n  ...\n  -> e, es\n  <- e, ee\n",
	"NX:\n  -> e\n  <- e, ee, s, es\n",
	"KN:\n  -> s\n  ...\n  -> e\n  <- e, ee, se\n",
	"KK:\n  -> s\n  <- s\n  ...\n  -> e, es, ss\n  <- e, ee, se\n",
	"KX:\n  -> s\n  ...\n  -> e\n  <- e, ee, se, s, es\n",
	"XN:\n  -> e\n  <- e, ee\n  -> s, se\n",
	"XK:\n  <- s\n  ...\n  -> e, es\n  <- e, ee\n  -> s, se\n",
	"XX:\n  -> e\n  <- e, ee, s, es\n  -> s, se\n",
	"IN:\n  -> e, s\n  <- e, ee, se\n",
	"IK:\n  <- s\n  ...\n  -> e, es, s, ss\n  <- e, ee, se\n",
	"IX:\n  -> e, s\n  <- e, ee, se, s, es\n",
	"EIGHT8:\n  -> e\n  <- e\n  -> ee\n  <- s\n  -> s\n  <- se\n  -> es\n  <- ss\n",
}

// withPsks is the text of a pattern with psk tokens at the places whose bits are set (Noise, 9.4), its section of a
// name, and how many places there are; no text if the pattern has fewer messages than a place says.
func withPsks(text string, places int) (psked, section string, count int) {
	front, messages := "", text[strings.Index(text, "\n")+1:]
	if end := strings.Index(messages, "  ...\n"); end >= 0 {
		front, messages = messages[:end+6], messages[end+6:]
	}
	lines := strings.SplitAfter(messages, "\n")
	lines = lines[:len(lines)-1]
	section = text[:strings.Index(text, ":")]
	for place := 0; places>>place != 0; place++ {
		if places>>place&1 == 0 {
			continue
		}
		switch {
		case place > len(lines):
			return "", "", 0
		case place == 0:
			lines[0] = lines[0][:5] + "psk, " + lines[0][5:]
		default:
			lines[place-1] = strings.TrimSuffix(lines[place-1], "\n") + ", psk\n"
		}
		section += fmt.Sprint([]string{"", "+"}[b2i(count > 0)], "psk", place)
		count++
	}
	return section + ":\n" + front + strings.Join(lines, ""), section, count
}

// put puts a text to the front of a buffer, and returns its length.
func (d *driver) put(text string) int {
	d.change(func(w *world) { copy(w.buf[0][:], text) })
	return len(text)
}

// read reads the text or the name of a pattern in each way.
func (d *driver) read(text string) uint32 {
	n := d.put(text)
	code := d.do("CheckPattern", func(w *world) []any { return []any{w.buf[0][:n], &w.pattern} })
	d.do("Pattern", func(w *world) []any { return []any{w.buf[0][:n], &w.info, &w.pattern} })
	for message := byte(0); message < 10; message++ {
		length := d.length()
		d.do("Layout", func(w *world) []any { return []any{w.buf[0][:n], message, uint(length), &w.layout} })
	}
	return code
}

// begin starts both parties of a handshake, with so many psks. It tries each set of keys, and ends with one that is
// enough; false if none is.
func (d *driver) begin(text string, psks int) bool {
	prologue := d.Intn(100)
	for side := 0; side < 2; side++ {
		n, good := d.put(text), 0
		start := func(keys int) uint32 {
			present := [4]byte{byte(keys >> 3 & 1), byte(keys >> 2 & 1), byte(keys >> 1 & 1), byte(keys & 1)}
			d.change(func(w *world) { w.setup = setupOf(side, psks, present) })
			return d.do("Start", func(w *world) []any {
				return []any{&w.h[side], w.buf[0][:n], w.buf[1][:prologue], &w.setup}
			})
		}
		for keys := 0; keys < 16; keys++ {
			if start(keys) == 0 {
				good = keys
			}
		}
		if start(good) != 0 {
			return false
		}
	}
	return true
}

// exchange writes and reads a message of a handshake; false if it has no such message.
func (d *driver) exchange(message int) bool {
	i, n := message&1, d.Intn(40)
	if d.asked(i, "Write", func(w *world) []any { return []any{&w.h[i], w.buf[0][:n], w.buf[1][:], &w.result} }) != 0 {
		return false
	}
	n = int(d.worlds[0].result.Len)
	return d.asked(i^1, "Read", func(w *world) []any { return []any{&w.h[i^1], w.buf[1][:n], &w.result} }) == 0
}

// whole runs a handshake to its end, and then encrypts something. It returns how many messages there were.
func (d *driver) whole(text string, psks int) (messages int) {
	if !d.begin(text, psks) {
		return 0
	}
	for ; d.exchange(messages); messages++ {
		d.ask(0, d.Intn(40))
		d.ask(1, d.Intn(40))
	}
	d.finish(0)
	d.transport(0, 10, 26)
	d.streams(0, 10, 28)
	d.datagrams(0, 10, 34)
	d.ciphers(0, 10, 26)
	return messages
}

// randomText is the text of a pattern that may be valid.
func (d *driver) randomText() string {
	text, tokens := fmt.Sprintf("R%d:\n", d.Intn(1000)), []string{"ee", "es", "se", "ss"}
	for _, arrow := range []string{"->", "<-"} {
		if k := d.Intn(6); k < 3 {
			text += "  " + arrow + " " + []string{"e", "s", "e, s"}[k] + "\n"
		}
	}
	if strings.Contains(text, "  ") {
		text += "  ...\n"
	}
	left := [2][]string{{"e", "s"}, {"e", "s"}}
	for message := 0; message < 1+d.Intn(5); message++ {
		var line []string
		own := &left[message&1]
		for k := 1 + d.Intn(4); k > 0; k-- {
			if len(*own) > 0 && d.Intn(3) > 0 {
				line, *own = append(line, (*own)[0]), (*own)[1:]
			} else if len(tokens) > 0 {
				at := d.Intn(len(tokens))
				line = append(line, tokens[at])
				tokens = append(tokens[:at:at], tokens[at+1:]...)
			}
		}
		if len(line) > 0 {
			text += "  " + []string{"->", "<-"}[message&1] + " " + strings.Join(line, ", ") + "\n"
		}
	}
	return text
}

// psked is a pattern with psk tokens.
type psked struct {
	text, name string
	psks       int
}

// allPsked are the fundamental patterns with psk tokens at each set of places, and the last with some of 512.
func allPsked() (all []psked) {
	for k, plain := range fundamentals {
		for places := 0; places < 1<<9; places++ {
			text, section, psks := withPsks(plain, places)
			if text == "" || k == len(fundamentals)-1 && places%37 > 1 && places&(places+1) != 0 {
				continue
			}
			all = append(all, psked{text, "Noise_" + section + "_25519_ChaChaPoly_SHA256", psks})
		}
	}
	return all
}

// TestPatternsCompared reads patterns with psk tokens at all sets of places, runs the handshakes of their texts and
// names, and reads the texts with each byte changed. Then it does the same with random texts.
func TestPatternsCompared(t *testing.T) {
	outcomes := map[string]int{}
	d := comparing(t, 2, outcomes)
	patterns, messages, step := allPsked(), 0, 2
	if testing.Short() {
		step = 9
	}
	for i := 0; i < len(patterns); i += step {
		it := patterns[i]
		if a, b := d.read(it.text), d.read(it.name); a != 0 {
			t.Fatalf("%q: codes %d and %d", it.text, a, b)
		}
		messages += d.whole(it.text, it.psks) + d.whole(it.name, it.psks) + d.whole(it.text, d.Intn(it.psks+1))
		for at := range it.text {
			wrong := []byte(it.text)
			wrong[at] ^= 1 << d.Intn(8)
			n := d.put(string(wrong))
			d.do("CheckPattern", func(w *world) []any { return []any{w.buf[0][:n], &w.pattern} })
		}
	}
	valid := 0
	for i := 0; i < 2000/step; i++ {
		if text := d.randomText(); d.read(text) == 0 {
			messages += d.whole(text, 0)
			valid++
		}
	}
	given := len(patterns) / step
	t.Logf("%d patterns and %d random ones, %d messages, %d outcomes", given, valid, messages, len(outcomes))
}
