//go:build !go1.20

// Package curve has X25519 for Go 1.19, whose standard library has it in crypto/tls alone. Go 1.20 has crypto/ecdh, and
// doesn't compile this file.
package curve

import (
	_ "crypto/tls" // it has the function linked
	_ "unsafe"     // for go:linkname
)

// X25519 returns X25519 of a secret key and a public key; an error if that is zeros.
//
//go:linkname X25519 vendor/golang.org/x/crypto/curve25519.X25519
func X25519(scalar, point []byte) ([]byte, error)
