package libp2p

import (
	"crypto"
	"crypto/ecdsa"
	"crypto/ed25519"
	"crypto/rand"
	"crypto/rsa"
	"crypto/sha256"
	"crypto/x509"
	"errors"

	"example.org/yulimosar/noise"
)

const signedPrefix = "noise-libp2p-static-key:"

// The fields of the payload and of a key, and the types of a key.
const (
	payloadKey, payloadSignature = 1, 2
	keyType, keyData             = 1, 2

	typeRSA, typeEd25519, typeSecp256k1, typeECDSA = 0, 1, 2, 3
)

// The sizes of RSA's keys, in bits: a longer one would take much time.
const leastRSA, mostRSA = 2048, 8192

var (
	errPayload  = errors.New("not a payload of libp2p's")
	errIdentity = errors.New("the identity hasn't signed the static key")
	errKind     = errors.New("an identity of another kind than Ed25519, ECDSA, secp256k1 and RSA of 2048 to 8192 bits")
)

// payload returns the payload of a party: its identity, and the signature of its static key.
func payload(identity crypto.Signer, static noise.PublicKey) ([]byte, error) {
	kind, data, err := encoded(identity.Public())
	if err != nil {
		return nil, err
	}
	signed, hash := append([]byte(signedPrefix), static[:]...), crypto.Hash(0)
	if kind != typeEd25519 {
		sum := sha256.Sum256(signed)
		signed, hash = sum[:], crypto.SHA256
	}
	signature, err := identity.Sign(rand.Reader, signed, hash)
	if err != nil {
		return nil, err
	}
	key := append([]byte{keyType << 3, kind}, field(keyData, data)...)
	return append(field(payloadKey, key), field(payloadSignature, signature)...), nil
}

// encoded returns the type and the bytes of a public key.
func encoded(public crypto.PublicKey) (kind byte, data []byte, err error) {
	switch key := public.(type) {
	case ed25519.PublicKey:
		return typeEd25519, key, nil
	case Secp256k1:
		return typeSecp256k1, key[:], nil
	case *ecdsa.PublicKey:
		data, err = x509.MarshalPKIXPublicKey(key)
		return typeECDSA, data, err
	case *rsa.PublicKey:
		if bits := key.N.BitLen(); bits < leastRSA || bits > mostRSA {
			return 0, nil, errKind
		}
		data, err = x509.MarshalPKIXPublicKey(key)
		return typeRSA, data, err
	}
	return 0, nil, errKind
}

// identityOf returns the identity of a party, if it has signed the static key.
func identityOf(payload []byte, static noise.PublicKey) (crypto.PublicKey, error) {
	_, outer, err := fields(payload)
	if err != nil {
		return nil, err
	}
	kind, inner, err := fields(outer[payloadKey])
	if err != nil {
		return nil, err
	}
	number, isThere := kind[keyType]
	data, hasData := inner[keyData]
	if !isThere || !hasData {
		return nil, errPayload
	}
	public, err := decoded(number, data)
	if err != nil {
		return nil, err
	}
	if !verified(public, append([]byte(signedPrefix), static[:]...), outer[payloadSignature]) {
		return nil, errIdentity
	}
	return public, nil
}

// decoded returns the public key that a type and bytes are.
func decoded(kind uint64, data []byte) (crypto.PublicKey, error) {
	if kind == typeEd25519 {
		if len(data) != ed25519.PublicKeySize {
			return nil, errPayload
		}
		return append(ed25519.PublicKey(nil), data...), nil
	}
	if kind == typeSecp256k1 {
		var key Secp256k1
		if len(data) != len(key) {
			return nil, errPayload
		}
		copy(key[:], data)
		return key, nil
	}
	if kind != typeRSA && kind != typeECDSA {
		return nil, errKind
	}
	public, err := x509.ParsePKIXPublicKey(data)
	if err != nil {
		return nil, errPayload
	}
	if is, _, err := encoded(public); err != nil || uint64(is) != kind {
		return nil, errKind
	}
	return public, nil
}

// verified reports whether an identity has signed these bytes.
func verified(public crypto.PublicKey, signed, signature []byte) bool {
	sum := sha256.Sum256(signed)
	switch key := public.(type) {
	case ed25519.PublicKey:
		return ed25519.Verify(key, signed, signature)
	case Secp256k1:
		return key.verify(sum[:], signature)
	case *ecdsa.PublicKey:
		return ecdsa.VerifyASN1(key, sum[:], signature)
	case *rsa.PublicKey:
		return rsa.VerifyPKCS1v15(key, crypto.SHA256, sum[:], signature) == nil
	}
	return false
}
