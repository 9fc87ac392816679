// Package ecdh is what the package noise uses of crypto/ecdh, which Go has since 1.20: with it checks/bindings/run
// compiles that source by an older Go.
package ecdh

import (
	"errors"

	"golang.org/x/crypto/curve25519"
)

// Curve has the keys of X25519.
type Curve struct{}

// PrivateKey is a secret key.
type PrivateKey struct{ secret, public []byte }

// PublicKey is a public key.
type PublicKey struct{ bytes []byte }

var errLength = errors.New("crypto/ecdh: a key has 32 bytes")

// X25519 returns the curve.
func X25519() Curve { return Curve{} }

// NewPrivateKey returns a secret key.
func (Curve) NewPrivateKey(key []byte) (*PrivateKey, error) {
	if len(key) != 32 {
		return nil, errLength
	}
	public, err := curve25519.X25519(key, curve25519.Basepoint)
	return &PrivateKey{append([]byte(nil), key...), public}, err
}

// NewPublicKey returns a public key.
func (Curve) NewPublicKey(key []byte) (*PublicKey, error) {
	if len(key) != 32 {
		return nil, errLength
	}
	return &PublicKey{append([]byte(nil), key...)}, nil
}

// PublicKey returns the public key.
func (k *PrivateKey) PublicKey() *PublicKey { return &PublicKey{k.public} }

// Bytes returns a copy of the secret key.
func (k *PrivateKey) Bytes() []byte { return append([]byte(nil), k.secret...) }

// Bytes returns a copy of the public key.
func (k *PublicKey) Bytes() []byte { return append([]byte(nil), k.bytes...) }

// ECDH returns X25519; an error if that is zeros.
func (k *PrivateKey) ECDH(remote *PublicKey) ([]byte, error) {
	return curve25519.X25519(k.secret, remote.bytes)
}
