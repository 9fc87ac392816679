package noise

// NewHandshakeForVectors is NewHandshakeState with this party's ephemeral key pair, for test vectors alone: a program
// that gives one ephemeral key to two handshakes loses their secrecy. A pattern text may have ephemeral keys before its
// "..." then; peerEphemeral is that of the other party, or nil.
func NewHandshakeForVectors(
	config *Config, initiator bool, ephemeral *KeyPair, peerEphemeral *PublicKey,
) (*HandshakeState, error) {
	h := &HandshakeState{initiator: initiator, ephemeral: ephemeral, isForVectors: true}
	if peerEphemeral != nil {
		h.remote.e, h.remote.hasE = *peerEphemeral, true
	}
	if isNil(ephemeral) {
		return nil, &ConfigError{"", errNilKey}
	}
	return started(config, h, true)
}
