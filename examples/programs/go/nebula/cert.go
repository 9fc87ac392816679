package main

import (
	"bytes"
	"crypto/ed25519"
	"crypto/sha256"
	"encoding/binary"
	"encoding/pem"
	"errors"
	"fmt"
	"os"
	"time"

	"example.org/yulimosar/noise"
)

// field is a field of a protocol buffer: a number, or bytes.
type field struct {
	tag    uint64
	number uint64
	bytes  []byte
	raw    []byte // as it is encoded
}

var errBuffer = errors.New("not a protocol buffer of Nebula's")

// fields reads a protocol buffer that has numbers and bytes alone.
func fields(b []byte) (all []field, err error) {
	for len(b) > 0 {
		key, n := binary.Uvarint(b)
		value, m := binary.Uvarint(b[max(n, 0):])
		if n <= 0 || m <= 0 {
			return nil, errBuffer
		}
		f, end := field{tag: key >> 3, number: value}, n+m
		switch {
		case key&7 == 2 && value <= uint64(len(b)-end):
			f.bytes = b[end : end+int(value)]
			end += int(value)
		case key&7 != 0:
			return nil, errBuffer
		}
		f.raw = b[:end]
		all, b = append(all, f), b[end:]
	}
	return all, nil
}

func max(a, b int) int {
	if a > b {
		return a
	}
	return b
}

// number and text append a field.
func number(b []byte, tag byte, value uint64) []byte {
	return binary.AppendUvarint(append(b, tag<<3), value)
}

func text(b []byte, tag byte, value []byte) []byte {
	return append(binary.AppendUvarint(append(b, tag<<3|2), uint64(len(value))), value...)
}

// The fields of a certificate, of its details, and of a handshake's payload.
const (
	certDetails, certSignature                                                             = 1, 2
	detailsName, detailsNotBefore, detailsNotAfter, detailsKey, detailsIsCA, detailsIssuer = 1, 5, 6, 7, 8, 9
	payloadDetails                                                                         = 1
	helloCert, helloInitiator, helloResponder, helloTime                                   = 1, 2, 3, 5
)

// certificate is one of Nebula's.
type certificate struct {
	details             []field
	signature           []byte
	name                string
	key                 []byte
	issuer              []byte
	notBefore, notAfter time.Time
	isCA                bool
}

func parseCertificate(b []byte) (*certificate, error) {
	outer, err := fields(b)
	if err != nil {
		return nil, err
	}
	c := new(certificate)
	for _, f := range outer {
		switch f.tag {
		case certDetails:
			if c.details, err = fields(f.bytes); err != nil {
				return nil, err
			}
		case certSignature:
			c.signature = f.bytes
		}
	}
	for _, f := range c.details {
		switch f.tag {
		case detailsName:
			c.name = string(f.bytes)
		case detailsNotBefore:
			c.notBefore = time.Unix(int64(f.number), 0)
		case detailsNotAfter:
			c.notAfter = time.Unix(int64(f.number), 0)
		case detailsKey:
			c.key = f.bytes
		case detailsIsCA:
			c.isCA = f.number != 0
		case detailsIssuer:
			c.issuer = f.bytes
		}
	}
	return c, nil
}

// withKey returns the encoded details with this public key, or without one: in a handshake a certificate travels
// without it, as the message has it.
func (c *certificate) withKey(key []byte) (b []byte) {
	isDue := key != nil
	for _, f := range c.details {
		if isDue && f.tag > detailsKey {
			b, isDue = text(b, detailsKey, key), false
		}
		if f.tag != detailsKey {
			b = append(b, f.raw...)
		}
	}
	if isDue {
		b = text(b, detailsKey, key)
	}
	return b
}

// encoded returns the certificate with this public key, or without one.
func (c *certificate) encoded(key []byte) []byte {
	return text(text(nil, certDetails, c.withKey(key)), certSignature, c.signature)
}

// verify says why this authority's certificate doesn't vouch for a party with this static key.
func (c *certificate) verify(authority *certificate, key noise.PublicKey, now time.Time) error {
	fingerprint := sha256.Sum256(authority.encoded(authority.key))
	switch {
	case !authority.isCA || len(authority.key) != ed25519.PublicKeySize:
		return errors.New("the authority's certificate isn't one of an authority")
	case c.isCA:
		return errors.New("the certificate is one of an authority")
	case len(c.key) != 0 && !bytes.Equal(c.key, key[:]):
		return errors.New("the certificate is for another key")
	case !bytes.Equal(c.issuer, fingerprint[:]):
		return errors.New("the certificate is by another authority")
	case now.Before(c.notBefore) || now.After(c.notAfter) ||
		now.Before(authority.notBefore) || now.After(authority.notAfter):
		return errors.New("the certificate has expired, or isn't valid yet")
	case !ed25519.Verify(authority.key, c.withKey(key[:]), c.signature):
		return errors.New("the certificate's signature is wrong")
	}
	return nil
}

// pemOf returns the bytes of a file in PEM.
func pemOf(file, kind string) ([]byte, error) {
	all, err := os.ReadFile(file)
	if err != nil {
		return nil, err
	}
	block, _ := pem.Decode(all)
	if block == nil || block.Type != kind {
		return nil, fmt.Errorf("%s: not a %s", file, kind)
	}
	return block.Bytes, nil
}

func loadCertificate(file string) (*certificate, error) {
	b, err := pemOf(file, "NEBULA CERTIFICATE")
	if err != nil {
		return nil, err
	}
	return parseCertificate(b)
}

func loadKey(file string) (*noise.KeyPair, error) {
	b, err := pemOf(file, "NEBULA X25519 PRIVATE KEY")
	if err != nil {
		return nil, err
	}
	var secret noise.Secret
	if copy(secret[:], b) != len(secret) || len(b) != len(secret) {
		return nil, fmt.Errorf("%s: not 32 bytes", file)
	}
	return noise.NewKeyPair(secret)
}
