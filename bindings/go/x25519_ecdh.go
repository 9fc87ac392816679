//go:build go1.20

package noise

import "crypto/ecdh"

// secretKey is a secret key of X25519.
type secretKey struct{ key *ecdh.PrivateKey }

func (s *secretKey) set(secret *Secret) (err error) {
	s.key, err = ecdh.X25519().NewPrivateKey(secret[:])
	return err
}

func (s *secretKey) public() (key PublicKey, err error) {
	copy(key[:], s.key.PublicKey().Bytes())
	return key, nil
}

func (s *secretKey) bytes() (secret Secret) {
	if s.key != nil {
		made := s.key.Bytes()
		copy(secret[:], made)
		wipe(made)
	}
	return secret
}

// agree fails if the result is zeros.
func (s *secretKey) agree(remote *PublicKey) (result Secret, err error) {
	if s.key == nil {
		return result, errWiped
	}
	other, err := ecdh.X25519().NewPublicKey(remote[:])
	if err != nil {
		return result, err
	}
	made, err := s.key.ECDH(other)
	if err != nil {
		return result, ErrLowOrder
	}
	copy(result[:], made)
	wipe(made)
	return result, nil
}

func (s *secretKey) wipe() { s.key = nil }
