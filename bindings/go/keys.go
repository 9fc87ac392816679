package noise

import (
	"context"
	"crypto/rand"
	"encoding/hex"
	"errors"
	"fmt"
	"io"
	"os"
	"strings"
)

// PublicKey is a public key of X25519. It prints, and encodes itself as text, as 64 hexadecimal digits.
type PublicKey [KeyLen]byte

// Secret is a secret key of X25519, or a result of it. It doesn't print or encode its bytes: secret[:] has them.
type Secret [KeyLen]byte

// PSK is a pre-shared key. It doesn't print or encode its bytes: psk[:] has them.
type PSK [KeyLen]byte

// ParsePublicKey reads 64 hexadecimal digits, with or without white space around them.
func ParsePublicKey(digits string) (key PublicKey, err error) { return key, parse(key[:], digits) }

// ParseSecret reads 64 hexadecimal digits, with or without white space around them.
func ParseSecret(digits string) (secret Secret, err error) { return secret, parse(secret[:], digits) }

// ParsePSK reads 64 hexadecimal digits, with or without white space around them.
func ParsePSK(digits string) (psk PSK, err error) { return psk, parse(psk[:], digits) }

var errDigits = errors.New("noise: a key has 64 hexadecimal digits")

func parse(to []byte, digits string) error {
	made, err := hex.DecodeString(strings.TrimSpace(digits))
	defer wipe(made)
	if err != nil || len(made) != len(to) {
		return errDigits
	}
	copy(to, made)
	return nil
}

// String returns the hexadecimal digits.
func (k PublicKey) String() string { return hex.EncodeToString(k[:]) }

// MarshalText returns the hexadecimal digits.
func (k PublicKey) MarshalText() ([]byte, error) { return []byte(k.String()), nil }

// UnmarshalText reads what MarshalText returns.
func (k *PublicKey) UnmarshalText(text []byte) error {
	key, err := ParsePublicKey(string(text))
	if err == nil {
		*k = key
	}
	return err
}

// Format prints the hexadecimal digits, for any verb of the package fmt.
func (k PublicKey) Format(to fmt.State, verb rune) {
	text := k.String()
	switch {
	case verb == 'X':
		text = strings.ToUpper(text)
	case verb == 'q' || verb == 'v' && to.Flag('#'):
		text = `"` + text + `"`
	}
	io.WriteString(to, text)
}

const hidden = "(secret)"

var errSecret = errors.New("noise: a secret key or psk isn't encoded with what has it: key[:] has its bytes")

// String returns no byte of the key.
func (Secret) String() string { return hidden }

// Format prints no byte of the key, for any verb of the package fmt.
func (Secret) Format(to fmt.State, _ rune) { io.WriteString(to, hidden) }

// MarshalText returns an error: encoding/json and the like don't encode what has a secret key.
func (Secret) MarshalText() ([]byte, error) { return nil, errSecret }

// MarshalBinary returns an error: encoding/gob and the like don't encode what has a secret key.
func (Secret) MarshalBinary() ([]byte, error) { return nil, errSecret }

// String returns no byte of the key.
func (PSK) String() string { return hidden }

// Format prints no byte of the key, for any verb of the package fmt.
func (PSK) Format(to fmt.State, _ rune) { io.WriteString(to, hidden) }

// MarshalText returns an error: encoding/json and the like don't encode what has a psk.
func (PSK) MarshalText() ([]byte, error) { return nil, errSecret }

// MarshalBinary returns an error: encoding/gob and the like don't encode what has a psk.
func (PSK) MarshalBinary() ([]byte, error) { return nil, errSecret }

// DH is the static key pair of a party. The secret key may be in a device: nothing but the results
// of X25519 is asked of it.
type DH interface {
	// Public returns the public key.
	Public() PublicKey
	// Agree returns X25519 of the secret key and this public key of the other party. An error ends the handshake, and
	// so do zeros. The context is that of the handshake: it ends with that of HandshakeContext, at the time limit, and
	// when the connection is closed.
	Agree(ctx context.Context, remote PublicKey) (Secret, error)
}

// KeyPair is a key pair of X25519 in memory. It is a DH.
type KeyPair struct {
	secret secretKey
	public PublicKey
}

// GenerateKeyPair draws a new key pair from crypto/rand.
func GenerateKeyPair() (*KeyPair, error) {
	var secret Secret
	if _, err := rand.Read(secret[:]); err != nil {
		return nil, err
	}
	defer wipe(secret[:])
	return NewKeyPair(secret)
}

// NewKeyPair returns the key pair of this secret key.
func NewKeyPair(secret Secret) (*KeyPair, error) {
	k := new(KeyPair)
	err := k.secret.set(&secret)
	wipe(secret[:])
	if err != nil {
		return nil, err
	}
	k.public, err = k.secret.public()
	return k, err
}

// LoadKeyPair returns the key pair whose secret key is in a file, as 64 hexadecimal digits. The command noisecat makes
// one: noisecat keygen -o FILE.
func LoadKeyPair(file string) (*KeyPair, error) {
	text, err := os.ReadFile(file)
	if err != nil {
		return nil, err
	}
	defer wipe(text)
	secret, err := ParseSecret(string(text))
	if err != nil {
		return nil, fmt.Errorf("%w: %s", err, file)
	}
	return NewKeyPair(secret)
}

// Public returns the public key.
func (k *KeyPair) Public() PublicKey { return k.public }

// Secret returns the secret key: keep it from others. After Wipe it is zeros.
func (k *KeyPair) Secret() Secret { return k.secret.bytes() }

// Agree returns X25519 of this secret key and a public one; ErrLowOrder if that is zeros, ErrClosed after
// Wipe. It ignores the context.
func (k *KeyPair) Agree(_ context.Context, remote PublicKey) (Secret, error) {
	return k.secret.agree(&remote)
}

// Wipe forgets the secret key. With Go 1.20 or later its memory is that of crypto/ecdh, which is overwritten once the
// garbage collector has freed it and something else takes its place.
func (k *KeyPair) Wipe() { k.secret.wipe() }

// Format prints the public key alone, for any verb of the package fmt.
func (k KeyPair) Format(to fmt.State, _ rune) { fmt.Fprintf(to, "key pair %v", k.public) }

// MarshalText returns an error: encoding/json and the like don't encode what has a key pair.
func (KeyPair) MarshalText() ([]byte, error) { return nil, errSecret }

func wipe(b []byte) {
	for i := range b {
		b[i] = 0
	}
}
