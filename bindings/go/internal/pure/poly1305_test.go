package pure

import (
	"encoding/binary"
	"math/big"
	"math/bits"
	"math/rand"
	"testing"

	"example.org/yulimosar/noise/internal/structs"
)

// ChaCha20 and Poly1305 by the formulas of RFC 8439, one with a loop for each round, one with numbers of any size.

// chachaBlock is the block of a key and a counter, for the nonce 0 (RFC 8439, 2.3).
func chachaBlock(key *[32]byte, counter uint32) (block [64]byte) {
	var first, s [16]uint32
	copy(first[:], []uint32{0x61707865, 0x3320646e, 0x79622d32, 0x6b206574})
	for i := 0; i < 8; i++ {
		first[4+i] = binary.LittleEndian.Uint32(key[4*i:])
	}
	first[12] = counter
	s = first
	quarter := func(a, b, c, d int) {
		for _, it := range [][4]int{{a, b, d, 16}, {c, d, b, 12}, {a, b, d, 8}, {c, d, b, 7}} {
			s[it[0]] += s[it[1]]
			s[it[2]] = bits.RotateLeft32(s[it[2]]^s[it[0]], it[3])
		}
	}
	for round := 0; round < 10; round++ {
		for i := 0; i < 4; i++ {
			quarter(i, 4+i, 8+i, 12+i)
		}
		for i := 0; i < 4; i++ {
			quarter(i, 4+(i+1)%4, 8+(i+2)%4, 12+(i+3)%4)
		}
	}
	for i := range s {
		binary.LittleEndian.PutUint32(block[4*i:], s[i]+first[i])
	}
	return block
}

var (
	two128 = new(big.Int).Lsh(big.NewInt(1), 128)
	prime  = new(big.Int).Sub(new(big.Int).Lsh(big.NewInt(1), 130), big.NewInt(5))
)

// littleEndian is the number that bytes are.
func littleEndian(b []byte) *big.Int {
	turned := make([]byte, len(b))
	for i, it := range b {
		turned[len(b)-1-i] = it
	}
	return new(big.Int).SetBytes(turned)
}

// bytes16 is a number below 2^128 as 16 bytes.
func bytes16(n *big.Int) (b [16]byte) {
	var turned [16]byte
	n.FillBytes(turned[:])
	for i, it := range turned {
		b[15-i] = it
	}
	return b
}

// polyKey is r and s of a ChaCha20 key for the nonce 0 (RFC 8439, 2.5 and 2.6).
func polyKey(key *[32]byte) (r, s *big.Int) {
	block := chachaBlock(key, 0)
	for _, i := range []int{3, 7, 11, 15} {
		block[i] &= 15
	}
	for _, i := range []int{4, 8, 12} {
		block[i] &= 252
	}
	return littleEndian(block[:16]), littleEndian(block[16:32])
}

// added is the accumulator after one more block of 16 bytes.
func added(h, r *big.Int, block []byte) *big.Int {
	sum := new(big.Int).Add(h, littleEndian(block))
	sum.Add(sum, two128)
	return sum.Mul(sum, r).Mod(sum, prime)
}

// before is the block after which the accumulator, before it is multiplied, is a number; false if no block does that.
func before(h, target *big.Int) (block [16]byte, found bool) {
	n := new(big.Int).Sub(target, h)
	n.Sub(n, two128).Mod(n, prime)
	if n.Cmp(two128) >= 0 {
		return block, false
	}
	return bytes16(n), true
}

// lengthsOf is the last block that is authenticated: the lengths of the associated data, which is empty, and the text.
func lengthsOf(n int) []byte {
	var b [16]byte
	binary.LittleEndian.PutUint64(b[8:], uint64(n))
	return b[:]
}

// targets are numbers below the prime at which carries go far: of few or many bits, in words of 26, 32, 44 and 64 bits.
func targets(s *big.Int) (made []*big.Int) {
	add := func(n *big.Int) { made = append(made, new(big.Int).Mod(n, prime)) }
	for k := int64(-6); k < 7; k++ {
		add(big.NewInt(k))
		for _, bit := range []uint{26, 32, 44, 52, 64, 78, 88, 96, 104, 127, 128, 129} {
			add(new(big.Int).Add(new(big.Int).Lsh(big.NewInt(1), bit), big.NewInt(k)))
			add(new(big.Int).Sub(new(big.Int).Lsh(big.NewInt(k), bit), big.NewInt(1)))
		}
		add(new(big.Int).Add(new(big.Int).Sub(two128, s), big.NewInt(k))) // the tag is then about 0
	}
	return made
}

// cipherOf is the cipher state of a key, at the nonce 0.
func cipherOf(t *testing.T, key *[32]byte) (c structs.Cipher) {
	var w world
	w.setup = setupOf(0, 0, [4]byte{1, 0, 0, 0})
	name := []byte("Noise_N_25519_ChaChaPoly_SHA256")
	w.setup.RemoteS.Present = 1
	if code := Start(&w.h[0], name, nil, &w.setup); code != 0 {
		t.Fatal("Start:", code)
	}
	for code := uint32(20); code != 0; {
		if code = Write(&w.h[0], nil, w.buf[0][:], &w.result); code == 20 {
			Answer(&w.h[0], w.result.OfStatic, &w.result.Remote, &[32]byte{1})
		}
	}
	var other structs.Cipher
	if code := FinishCiphers(&w.h[0], &c, &other); code != 0 {
		t.Fatal("FinishCiphers:", code)
	}
	copy(c.Opaque[5:37], key[:])
	return c
}

// TestCarries seals texts whose Poly1305 comes to the numbers at which carries go far: before the last block is
// multiplied, after it, and after the block before that.
func TestCarries(t *testing.T) {
	random, tried := rand.New(rand.NewSource(1)), 0
	keys := 8
	if testing.Short() {
		keys = 2
	}
	for k := 0; k < keys; k++ {
		var key [32]byte
		random.Read(key[:])
		r, s := polyKey(&key)
		if r.Sign() == 0 {
			continue
		}
		first := cipherOf(t, &key)
		inverse := new(big.Int).ModInverse(r, prime)
		for _, target := range targets(s) {
			for _, blocks := range []int{1, 2, 3, 4, 5, 8, 9, 16, 17, 32, 33, 64} {
				text := make([]byte, 16*blocks)
				for at := 0; at < 3; at++ {
					random.Read(text)
					if aim(text, r, inverse, target, at) {
						sealed(t, first, &key, text, r, s)
						tried++
					}
				}
			}
		}
	}
	t.Logf("%d texts", tried)
	if tried < 900*keys {
		t.Errorf("only %d texts", tried)
	}
}

// aim changes the last block of a text so that the accumulator is the target before that block is multiplied (0), after
// it (1), or after the lengths (2); false if no block does that.
func aim(text []byte, r, inverse, target *big.Int, at int) bool {
	wanted := new(big.Int).Set(target)
	if at == 2 { // before the lengths are added
		wanted.Mul(wanted, inverse)
		wanted.Sub(wanted, littleEndian(lengthsOf(len(text)))).Sub(wanted, two128)
	}
	if at > 0 {
		wanted.Mul(wanted, inverse)
	}
	wanted.Mod(wanted, prime)
	h := new(big.Int)
	for i := 0; i+16 < len(text); i += 16 {
		h = added(h, r, text[i:i+16])
	}
	block, found := before(h, wanted)
	copy(text[len(text)-16:], block[:])
	return found
}

// sealed compares what CipherEncrypt makes with what the formulas make. The text is the encrypted one.
func sealed(t *testing.T, c structs.Cipher, key *[32]byte, text []byte, r, s *big.Int) {
	t.Helper()
	buffer, h := make([]byte, len(text)+16), new(big.Int)
	for i := 0; i < len(text); i += 64 {
		stream := chachaBlock(key, uint32(1+i/64))
		for k := 0; k < 64 && i+k < len(text); k++ {
			buffer[i+k] = text[i+k] ^ stream[k]
		}
	}
	for i := 0; i < len(text); i += 16 {
		h = added(h, r, text[i:i+16])
	}
	h = added(h, r, lengthsOf(len(text)))
	tag := bytes16(h.Add(h, s).Mod(h, two128))
	var result structs.Result
	code := CipherEncrypt(&c, nil, buffer, uint(len(text)), &result)
	if code != 0 || string(buffer) != string(text)+string(tag[:]) {
		t.Fatalf("code %d, key %x, text %x: tag %x, want %x", code, *key, text, buffer[len(text):], tag)
	}
}
