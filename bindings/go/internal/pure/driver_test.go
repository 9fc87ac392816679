package pure

import (
	"math/rand"
	"reflect"

	"example.org/yulimosar/noise/internal/structs"
)

// world is all that the calls of a driver read and write. One that equals another before a call has to do so after it.
type world struct {
	h          [4]structs.Handshake
	send       [4]structs.Sender
	recv       [4]structs.Receiver
	streamSend [4]structs.StreamSender
	streamRecv [4]structs.StreamReceiver
	ds         [4]structs.DatagramSender
	dr         [4]structs.DatagramReceiver
	c1, c2     [4]structs.Cipher
	buf        [3][70016]byte
	setup      structs.Setup
	result     structs.Result
	stream     structs.StreamResult
	stage      structs.StageResult
	pattern    structs.PatternResult
	info       structs.PatternInfo
	layout     structs.MessageLayout
	nonce      uint64
	length     uint
	key        structs.Key
	answer     [32]byte
}

// plain has the calls of this package.
var plain = map[string]any{
	"Start": Start, "Answer": Answer, "SetPsk": SetPsk, "UnsetPsk": UnsetPsk, "Write": Write, "Read": Read,
	"TryRead": TryRead, "MessageLen": MessageLen, "Hash": Hash, "RemoteStatic": RemoteStatic, "Stage": Stage,
	"CheckPattern": CheckPattern, "Pattern": Pattern, "Layout": Layout, "FrameMessage": FrameMessage,
	"FrameFind": FrameFind, "FinishStream": FinishStream, "StreamWrite": StreamWrite, "StreamEnd": StreamEnd,
	"StreamRead": StreamRead, "StreamIsCut": StreamIsCut, "Finish": Finish, "Seal": Seal, "SealInPlace": SealInPlace,
	"Open": Open, "SenderNonce": SenderNonce, "ReceiverNonce": ReceiverNonce, "FinishDatagrams": FinishDatagrams,
	"DatagramSeal": DatagramSeal, "DatagramSealInPlace": DatagramSealInPlace, "DatagramOpen": DatagramOpen,
	"DatagramSenderNonce": DatagramSenderNonce, "FinishCiphers": FinishCiphers, "CipherEncrypt": CipherEncrypt,
	"CipherDecrypt": CipherDecrypt, "CipherRekey": CipherRekey, "CipherNonce": CipherNonce,
	"CipherSetNonce": CipherSetNonce,
}

// callPlain makes a call of this package.
func callPlain(name string, args []any) uint32 {
	values := make([]reflect.Value, len(args))
	for i, it := range args {
		values[i] = reflect.ValueOf(it)
	}
	return uint32(reflect.ValueOf(plain[name]).Call(values)[0].Uint())
}

// driver makes random calls, the same in each world.
type driver struct {
	*rand.Rand
	worlds []*world
	do     func(name string, args func(w *world) []any) uint32
	last   int   // the length of the last message
	made   int64 // how many calls there were, as a comparison counts them
}

var (
	patternNames = []string{
		"N", "K", "X", "NN", "NK", "NX", "KN", "KK", "KX", "XN", "XK", "XX", "IN", "IK", "IX", "NK1", "X1K1", "I1X1",
		"XXpsk3", "NNpsk0", "IKpsk2", "Kpsk0", "XXpsk0+psk1", "KKpsk2", "IKpsk0+psk1",
	}
	patternTexts = []string{
		"NK1:\n  <- s\n  ...\n  -> e\n  <- e, ee, es\n", "XA1:\n  -> e\n  <- e, ee, s, es\n  -> s, se\n",
		"Q:\n  -> e\n  <- e, ee, ee\n", "XA1psk3:\n  -> e\n  <- e, ee, s, es\n  -> s, se, psk\n", "NN:\n  -> e\n",
		"Z:\n  -> e, psk\n", "L:\n  <- e, s\n  ...\n  -> psk, e, ee, es, s, se, ss, psk\n  <- e, ee, se\n",
		"KX1psk0:\n  -> s\n  ...\n  -> psk, e\n  <- e, ee, se, s\n  -> es\n",
	}
	lengths = []int{
		0, 0, 1, 2, 15, 16, 17, 18, 31, 32, 47, 48, 63, 64, 65, 100, 255, 256, 257, 1000, 1024, 4096, 16384, 65503,
		65519, 65520, 65535, 65536, 65537, 65543, 65544, 70000,
	}
)

func (d *driver) length() int {
	if d.Intn(4) == 0 {
		return d.Intn(600)
	}
	return lengths[d.Intn(len(lengths))]
}

// change changes something in each world alike.
func (d *driver) change(f func(w *world)) {
	for _, w := range d.worlds {
		f(w)
	}
}

// fill puts random bytes to the front of a buffer.
func (d *driver) fill(k, n int) {
	var random [600]byte
	if n > len(random) {
		n = len(random)
	}
	d.Read(random[:n])
	d.change(func(w *world) { copy(w.buf[k][:], random[:n]) })
}

// flip changes a bit of what was sent, now and then.
func (d *driver) flip(k int) {
	if d.Intn(6) == 0 {
		at, bit := d.Intn(d.last+1), d.Intn(8)
		d.change(func(w *world) { w.buf[k][at] ^= 1 << bit })
	}
}

// damage changes a bit of some struct, as nobody may.
func (d *driver) damage(i int) {
	at, bit := d.Intn(1472), d.Intn(8)
	if d.Intn(400) == 0 {
		d.change(func(w *world) { w.h[i].Opaque[at] ^= 1 << bit })
	}
	if d.Intn(300) == 0 {
		d.change(func(w *world) {
			w.send[i].Opaque[at%56] ^= 1 << bit
			w.recv[i].Opaque[at%56] ^= 1 << bit
			w.c1[i].Opaque[at%48] ^= 1 << bit
		})
	}
}

// step makes some calls.
func (d *driver) step() {
	i, n, m := d.Intn(4), d.length(), d.length()
	if d.Intn(3) > 0 {
		if m = n + []int{16, 18, 24, 600}[d.Intn(4)]; m > 70000 {
			m = 70000
		}
	}
	d.damage(i)
	switch d.Intn(28) {
	case 0:
		d.start()
	case 1, 2, 3, 4, 5, 6:
		d.message(i, n)
	case 7:
		d.wrong(i, n, m)
	case 8:
		d.ask(i, n)
	case 9, 10, 11:
		d.patterns(n)
	case 12, 13:
		d.finish(i)
	case 14, 15, 16:
		d.transport(i, n, m)
	case 17, 18, 19, 20:
		d.streams(i, n, m)
	case 21, 22:
		d.datagrams(i, n, m)
	case 23, 24, 25:
		d.ciphers(i, n, m)
	default:
		d.nonces(i)
	}
}

// start starts a handshake of two parties, with the keys that it asks for.
func (d *driver) start() {
	name := "Noise_" + patternNames[d.Intn(len(patternNames))] + "_25519_ChaChaPoly_SHA256"
	if d.Intn(4) == 0 {
		name = patternTexts[d.Intn(len(patternTexts))]
	}
	if d.Intn(20) == 0 {
		b := []byte(name)
		b[d.Intn(len(b))] ^= 1 << d.Intn(8)
		name = string(b)
	}
	prologue, psks, pair := d.length(), d.Intn(3), d.Intn(2)*2
	if d.Intn(30) == 0 {
		psks = 10
	}
	for side := 0; side < 2; side++ {
		present := [4]byte{1, 1, 0, 0}
		for try := 0; try < 17; try++ {
			d.change(func(w *world) {
				w.setup = setupOf(side, psks, present)
				copy(w.buf[0][:], name)
			})
			code := d.do("Start", func(w *world) []any {
				return []any{&w.h[pair+side], w.buf[0][:len(name)], w.buf[1][:prologue], &w.setup}
			})
			if code == 0 || code < 4 || code == 24 {
				break
			}
			if code == 8 {
				psks = d.Intn(3)
			}
			present[2], present[3] = byte(d.Intn(2)), byte(d.Intn(2))
		}
	}
}

func setupOf(side, psks int, present [4]byte) (s structs.Setup) {
	s.Responder, s.PSKCount = byte(side), byte(psks)
	for k, it := range []*structs.Key{&s.E, &s.S, &s.RemoteE, &s.RemoteS} {
		it.Present = present[k]
		for i := range it.Bytes {
			it.Bytes[i] = byte(i*7 + k*33 + side*13)
		}
	}
	for i := range s.PSKs {
		for k := range s.PSKs[i] {
			s.PSKs[i][k] = byte(32*i + k)
		}
	}
	return s
}

// message writes the next message of a handshake and reads it, with the results and psks that it asks for.
func (d *driver) message(i, n int) {
	n %= 2000
	d.fill(0, n)
	read := []string{"Read", "Read", "TryRead"}[d.Intn(3)]
	if d.asked(i, "Write", func(w *world) []any { return []any{&w.h[i], w.buf[0][:n], w.buf[1][:], &w.result} }) != 0 {
		return
	}
	d.last = int(d.worlds[0].result.Len)
	d.flip(1)
	d.asked(i^1, read, func(w *world) []any { return []any{&w.h[i^1], w.buf[1][:d.last], &w.result} })
}

// asked makes a call that may ask for X25519 of two keys, or for a psk.
func (d *driver) asked(i int, name string, args func(w *world) []any) (code uint32) {
	for tries := 0; tries < 14; tries++ {
		switch code = d.do(name, args); code {
		case 20:
			d.change(func(w *world) { w.answer = [32]byte{9, 9, 25} })
			d.do("Answer", func(w *world) []any {
				return []any{&w.h[i], w.result.OfStatic, &w.result.Remote, &w.answer}
			})
		case 40:
			d.do("SetPsk", func(w *world) []any { return []any{&w.h[i], &w.setup.PSKs[0]} })
		default:
			return code
		}
	}
	return code
}

// wrong writes and reads in any order, and with any lengths.
func (d *driver) wrong(i, n, m int) {
	d.fill(0, n)
	d.do("Write", func(w *world) []any { return []any{&w.h[i], w.buf[0][:n], w.buf[1][:m], &w.result} })
	name := []string{"Read", "TryRead"}[d.Intn(2)]
	d.do(name, func(w *world) []any { return []any{&w.h[i], w.buf[1][:n], &w.result} })
}

// ask asks how a handshake stands.
func (d *driver) ask(i, n int) {
	d.do("MessageLen", func(w *world) []any { return []any{&w.h[i], uint(n), &w.length} })
	d.do("Hash", func(w *world) []any { return []any{&w.h[i], &w.answer} })
	d.do("RemoteStatic", func(w *world) []any { return []any{&w.h[i], &w.key} })
	d.do("Stage", func(w *world) []any { return []any{&w.h[i], &w.stage} })
	if d.Intn(9) == 0 {
		d.do("UnsetPsk", func(w *world) []any { return []any{&w.h[i]} })
	}
}

// patterns reads names and texts of patterns.
func (d *driver) patterns(n int) {
	text := patternTexts[d.Intn(len(patternTexts))]
	if d.Intn(3) == 0 {
		text = "Noise_" + patternNames[d.Intn(len(patternNames))] + "_25519_ChaChaPoly_SHA256"
	}
	b := []byte(text)
	for d.Intn(3) == 0 {
		b[d.Intn(len(b))] = " \n,-><eesspk.:1"[d.Intn(15)]
	}
	size, message := len(b), byte(d.Intn(5))
	if d.Intn(20) == 0 {
		size = n
	}
	d.change(func(w *world) { copy(w.buf[0][:], b) })
	d.do("CheckPattern", func(w *world) []any { return []any{w.buf[0][:size], &w.pattern} })
	d.do("Pattern", func(w *world) []any { return []any{w.buf[0][:size], &w.info, &w.pattern} })
	d.do("Layout", func(w *world) []any { return []any{w.buf[0][:size], message, uint(n), &w.layout} })
}

// finish ends a handshake at both parties.
func (d *driver) finish(i int) {
	pair, interval, window := i&^1, uint64(d.Intn(4)), []uint32{64, 256, 1024, 65}[d.Intn(4)]
	what := d.Intn(4)
	for k := 0; k < 2; k++ {
		a, b := pair+k, pair+1-k
		switch what {
		case 0:
			d.do("Finish", func(w *world) []any { return []any{&w.h[a], interval, &w.send[a], &w.recv[b]} })
		case 1:
			d.do("FinishStream", func(w *world) []any {
				return []any{&w.h[a], interval, &w.streamSend[a], &w.streamRecv[b]}
			})
		case 2:
			d.do("FinishDatagrams", func(w *world) []any { return []any{&w.h[a], window, &w.ds[a], &w.dr[b]} })
		case 3:
			d.do("FinishCiphers", func(w *world) []any { return []any{&w.h[a], &w.c1[a], &w.c2[b]} })
		}
	}
}

// transport seals a message and opens it.
func (d *driver) transport(i, n, m int) {
	d.fill(0, n)
	code := uint32(1)
	if d.Intn(3) == 0 {
		code = d.do("SealInPlace", func(w *world) []any { return []any{&w.send[i], w.buf[1][:m], uint(n), &w.result} })
	} else {
		code = d.do("Seal", func(w *world) []any { return []any{&w.send[i], w.buf[0][:n], w.buf[1][:m], &w.result} })
	}
	if code == 0 {
		d.last = n + 16
	}
	d.flip(1)
	d.do("Open", func(w *world) []any { return []any{&w.recv[i], w.buf[1][:d.last], &w.result} })
}

// streams writes a frame and reads it, and sometimes the end.
func (d *driver) streams(i, n, m int) {
	d.fill(0, n)
	code := d.do("StreamWrite", func(w *world) []any {
		return []any{&w.streamSend[i], w.buf[0][:n], w.buf[1][:m], &w.stream}
	})
	if code == 0 {
		d.last = int(d.worlds[0].stream.Len)
	}
	if d.Intn(20) == 0 {
		if d.do("StreamEnd", func(w *world) []any { return []any{&w.streamSend[i], w.buf[1][:m], &w.stream} }) == 0 {
			d.last, n = int(d.worlds[0].stream.Len), 0
		}
	}
	d.flip(1)
	room := []int{d.last, m, 70000}[d.Intn(3)]
	d.do("StreamRead", func(w *world) []any { return []any{&w.streamRecv[i], w.buf[1][:room], &w.stream} })
	d.do("StreamIsCut", func(w *world) []any { return []any{&w.streamRecv[i], uint(n)} })
	d.do("FrameMessage", func(w *world) []any { return []any{w.buf[1][:m], uint(n), &w.stream} })
	d.do("FrameFind", func(w *world) []any { return []any{w.buf[1][:m], &w.stream} })
}

// datagrams seals a datagram and opens it.
func (d *driver) datagrams(i, n, m int) {
	d.fill(0, n)
	if d.Intn(2) == 0 {
		d.do("DatagramSeal", func(w *world) []any { return []any{&w.ds[i], w.buf[0][:n], w.buf[2][:m], &w.result} })
	} else {
		d.do("DatagramSealInPlace", func(w *world) []any { return []any{&w.ds[i], w.buf[2][:m], uint(n), &w.result} })
	}
	if d.last = n + 24; d.last > 70015 {
		d.last = 70015
	}
	d.flip(2)
	for k := d.Intn(3); k < 3; k++ { // mostly once more
		d.do("DatagramOpen", func(w *world) []any { return []any{&w.dr[i], w.buf[2][:d.last], &w.result} })
	}
	d.do("DatagramSenderNonce", func(w *world) []any { return []any{&w.ds[i], &w.nonce} })
}

// ciphers encrypts with associated data, and decrypts.
func (d *driver) ciphers(i, n, m int) {
	ad := d.length()
	d.fill(2, n)
	d.do("CipherEncrypt", func(w *world) []any {
		return []any{&w.c1[i], w.buf[0][:ad], w.buf[2][:m], uint(n), &w.result}
	})
	d.last = n
	d.flip(2)
	d.do("CipherDecrypt", func(w *world) []any { return []any{&w.c2[i], w.buf[0][:ad], w.buf[2][:n+16], &w.result} })
}

// nonces asks for nonces and sets them, and rekeys.
func (d *driver) nonces(i int) {
	nonce := uint64(d.Intn(5) - 2)
	d.do("CipherNonce", func(w *world) []any { return []any{&w.c1[i], &w.nonce} })
	if d.Intn(4) == 0 {
		d.do("CipherSetNonce", func(w *world) []any { return []any{&w.c1[i], nonce} })
		d.do("CipherSetNonce", func(w *world) []any { return []any{&w.c2[i], nonce} })
		d.do("CipherRekey", func(w *world) []any { return []any{&w.c1[i]} })
		d.do("CipherRekey", func(w *world) []any { return []any{&w.c2[i]} })
	}
	d.do("SenderNonce", func(w *world) []any { return []any{&w.send[i], &w.nonce} })
	d.do("ReceiverNonce", func(w *world) []any { return []any{&w.recv[i], &w.nonce} })
}
