//go:build !go1.20

package noise

import "example.org/yulimosar/noise/internal/curve"

// secretKey is a secret key of X25519.
type secretKey struct {
	key   Secret
	isSet bool
}

func (s *secretKey) set(secret *Secret) error {
	s.key, s.isSet = *secret, true
	return nil
}

func (s *secretKey) public() (key PublicKey, err error) {
	base := [KeyLen]byte{9}
	made, err := curve.X25519(s.key[:], base[:])
	copy(key[:], made)
	return key, err
}

func (s *secretKey) bytes() Secret { return s.key }

// agree fails if the result is zeros.
func (s *secretKey) agree(remote *PublicKey) (result Secret, err error) {
	if !s.isSet {
		return result, errWiped
	}
	made, err := curve.X25519(s.key[:], remote[:])
	if err != nil {
		return result, ErrLowOrder
	}
	copy(result[:], made)
	wipe(made)
	return result, nil
}

func (s *secretKey) wipe() {
	wipe(s.key[:])
	s.isSet = false
}
