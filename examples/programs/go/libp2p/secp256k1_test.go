package libp2p

import (
	"crypto/sha256"
	"encoding/asn1"
	"encoding/hex"
	"errors"
	"math/big"
	"testing"

	"example.org/yulimosar/noise"
)

// signedByOpenSSL are keys, and signatures of OpenSSL by them of the static key 010203 and zeros: `openssl dgst -sha256
// -sign`. The first key is that of libp2p's specification of peer ids; the last two have the secret numbers 1 and -1.
var signedByOpenSSL = []struct{ key, signature string }{
	{
		"037777e994e452c21604f91de093ce415f5432f701dd8cd1a7a6fea0e630bfca99",
		"3044022005662d7dcd8e5e91dacfb85b667809af924608f59c57516629891e382252f1bd" +
			"0220517899c6c6e239d001901746729e5d112f8429c9e62fe102416ddc660e6a871c",
	},
	{
		"02152f8ec1a54839dda21b46d1348923056a5dba0df4037a98c9ba361040354672",
		"304502203bc3f48bb1e423c2639d8e9170e3ea0510159124a570f793f219a3fd8476d498" +
			"022100b2c9ff56c670e389f7ad2096e497a68501cdac5070d4c0fca9ff7762a4fe9af8",
	},
	{
		"0279be667ef9dcbbac55a06295ce870b07029bfcdb2dce28d959f2815b16f81798",
		"304402207479443f383d6e188b10b3cf95e8c2efaa63a071240d99fa19ed610456ab9b1e" +
			"02206c3dc23d8ef72cb59eb6c7a5cc99332bcc757eb5904461b5be69a5810b90f09e",
	},
	{
		"0379be667ef9dcbbac55a06295ce870b07029bfcdb2dce28d959f2815b16f81798",
		"3045022100b108c595035f2059242fe85bc2f8acc42ec2411a17a1e739e6bccd8f4694089402" +
			"201481b1cfdba4262454ce6ef6d92436bbcdf7aec30de85785a071fd07b5f3ecbf",
	},
}

func unhex(t *testing.T, digits string) []byte {
	t.Helper()
	b, err := hex.DecodeString(digits)
	must(t, err)
	return b
}

// TestSecp256k1 reads payloads whose identity is of secp256k1: with bits of the signature changed, of another key,
// and with another static key.
func TestSecp256k1(t *testing.T) {
	static := noise.PublicKey{1, 2, 3}
	var whole []byte
	for i, it := range signedByOpenSSL {
		key, signature := unhex(t, it.key), unhex(t, it.signature)
		inner := append([]byte{0x08, 2}, lengthy(0x12, key)...)
		of := func(signature []byte) []byte {
			return append(lengthy(0x0a, inner), lengthy(0x12, signature)...)
		}
		whole = of(signature)
		public, err := identityOf(whole, static)
		if err != nil || !public.(Secp256k1).Equal(Secp256k1(*(*[33]byte)(key))) {
			t.Error(i, err)
		}
		if _, err := identityOf(whole, noise.PublicKey{1, 2, 4}); !errors.Is(err, errIdentity) {
			t.Error(i, err)
		}
		for bit := 0; bit < 8*len(signature); bit += 29 {
			signature[bit/8] ^= 1 << (bit % 8)
			if _, err := identityOf(of(signature), static); !errors.Is(err, errIdentity) {
				t.Errorf("%d, bit %d: %v", i, bit, err)
			}
			signature[bit/8] ^= 1 << (bit % 8)
		}
		other := unhex(t, signedByOpenSSL[(i+1)%len(signedByOpenSSL)].signature)
		for _, wrong := range [][]byte{nil, other, append(signature, 0), signature[:len(signature)-1]} {
			if _, err := identityOf(of(wrong), static); !errors.Is(err, errIdentity) {
				t.Error(i, err)
			}
		}
	}
}

// TestWrongSecp256k1 has keys that are no points, and numbers that no signature may have.
func TestWrongSecp256k1(t *testing.T) {
	key := Secp256k1(*(*[33]byte)(unhex(t, signedByOpenSSL[0].key)))
	static := noise.PublicKey{1, 2, 3}
	hash := sha256.Sum256(append([]byte(signedPrefix), static[:]...))
	var it struct{ R, S *big.Int }
	_, err := asn1.Unmarshal(unhex(t, signedByOpenSSL[0].signature), &it)
	must(t, err)
	number := func(r, s *big.Int) []byte {
		b, err := asn1.Marshal(struct{ R, S *big.Int }{r, s})
		must(t, err)
		return b
	}
	if !key.verify(hash[:], number(it.R, it.S)) {
		t.Fatal("the right signature is refused")
	}
	plus := func(a *big.Int) *big.Int { return new(big.Int).Add(a, order) }
	zero := new(big.Int)
	for i, wrong := range [][]byte{
		number(zero, it.S), number(it.R, zero), number(order, it.S), number(it.R, order), number(zero, zero),
		number(plus(it.R), it.S), number(it.R, plus(it.S)), number(new(big.Int).Neg(it.R), it.S),
		number(it.S, it.R), {}, {0x30, 0}, {0x30, 0x80},
	} {
		if key.verify(hash[:], wrong) {
			t.Error(i)
		}
	}
	for name, wrong := range map[string]string{
		"another sign":        "02" + signedByOpenSSL[0].key[2:],
		"another form":        "04" + signedByOpenSSL[0].key[2:],
		"no point":            "020000000000000000000000000000000000000000000000000000000000000005",
		"more than the prime": "02fffffffffffffffffffffffffffffffffffffffffffffffffffffffefffffc30",
	} {
		if Secp256k1(*(*[33]byte)(unhex(t, wrong))).verify(hash[:], number(it.R, it.S)) {
			t.Error(name)
		}
	}
	for _, size := range []int{0, 32, 34, 65} {
		if _, err := decoded(typeSecp256k1, make([]byte, size)); !errors.Is(err, errPayload) {
			t.Error(size, err)
		}
	}
}

func BenchmarkSecp256k1(b *testing.B) {
	key, _ := hex.DecodeString(signedByOpenSSL[1].key)
	signature, _ := hex.DecodeString(signedByOpenSSL[1].signature)
	for i := 0; i < b.N; i++ {
		Secp256k1(*(*[33]byte)(key)).verify(make([]byte, 32), signature)
	}
}
