package libp2p

import (
	"crypto"
	"encoding/asn1"
	"math/big"
)

// Secp256k1 is a public key of secp256k1, in Bitcoin's compressed form. Go's standard library doesn't have this curve:
// here is what verifies a signature, and no more. It handles public values alone, in no constant time, and takes some
// 10 milliseconds.
type Secp256k1 [33]byte

// Equal reports whether another key is this one.
func (k Secp256k1) Equal(other crypto.PublicKey) bool { return k == other }

// The curve y² = x³ + 7 modulo prime, and the base point, which has an order.
var (
	prime = fromHex("fffffffffffffffffffffffffffffffffffffffffffffffffffffffefffffc2f")
	order = fromHex("fffffffffffffffffffffffffffffffebaaedce6af48a03bbfd25e8cd0364141")
	base  = point{
		fromHex("79be667ef9dcbbac55a06295ce870b07029bfcdb2dce28d959f2815b16f81798"),
		fromHex("483ada7726a3c4655da4fbfc0e1108a8fd17b448a68554199c47d08ffb10d4b8"),
	}
)

func fromHex(digits string) *big.Int {
	number, _ := new(big.Int).SetString(digits, 16)
	return number
}

// point is one of the curve, or the neutral one, which has no x.
type point struct{ x, y *big.Int }

// point returns the point that a key is, if it is one.
func (k Secp256k1) point() (p point, ok bool) {
	p.x = new(big.Int).SetBytes(k[1:])
	if k[0]&^1 != 2 || p.x.Cmp(prime) >= 0 {
		return p, false
	}
	square := new(big.Int).Exp(p.x, big.NewInt(3), prime)
	square.Add(square, big.NewInt(7))
	if p.y = new(big.Int).ModSqrt(square, prime); p.y == nil {
		return p, false
	}
	if p.y.Bit(0) != uint(k[0]&1) {
		p.y.Sub(prime, p.y)
	}
	return p, true
}

// plus adds two points.
func (p point) plus(q point) point {
	if p.x == nil {
		return q
	}
	if q.x == nil {
		return p
	}
	rise, run := new(big.Int).Sub(q.y, p.y), new(big.Int).Sub(q.x, p.x)
	if run.Sign() == 0 {
		if rise.Sign() != 0 {
			return point{}
		}
		rise.Mul(p.x, p.x).Mul(rise, big.NewInt(3)) // that of the tangent; no point has the y 0
		run.Lsh(p.y, 1)
	}
	run.Mod(run, prime)
	slope := rise.Mul(rise, run.ModInverse(run, prime))
	x := new(big.Int).Mul(slope, slope)
	x.Sub(x, p.x).Sub(x, q.x).Mod(x, prime)
	y := new(big.Int).Sub(p.x, x)
	y.Mul(y, slope).Sub(y, p.y).Mod(y, prime)
	return point{x, y}
}

// verify reports whether a signature, in ASN.1, is that of a hash of 32 bytes.
func (k Secp256k1) verify(hash, signature []byte) bool {
	var it struct{ R, S *big.Int }
	rest, err := asn1.Unmarshal(signature, &it)
	own, ok := k.point()
	if err != nil || len(rest) > 0 || !ok || !isBelowOrder(it.R) || !isBelowOrder(it.S) {
		return false
	}
	inverse := new(big.Int).ModInverse(it.S, order)
	u := new(big.Int).SetBytes(hash)
	u.Mul(u, inverse).Mod(u, order)
	v := inverse.Mul(inverse, it.R).Mod(inverse, order)
	both, sum := base.plus(own), point{}
	for i := 255; i >= 0; i-- {
		sum = sum.plus(sum)
		switch u.Bit(i) | v.Bit(i)<<1 {
		case 1:
			sum = sum.plus(base)
		case 2:
			sum = sum.plus(own)
		case 3:
			sum = sum.plus(both)
		}
	}
	return sum.x != nil && sum.x.Mod(sum.x, order).Cmp(it.R) == 0
}

func isBelowOrder(number *big.Int) bool { return number.Sign() > 0 && number.Cmp(order) < 0 }
