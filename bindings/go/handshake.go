package noise

import (
	"context"
	"crypto/subtle"
	"net"

	"example.org/yulimosar/noise/internal/library"
)

// HandshakeState runs a handshake message by message. One goroutine at a time may use it.
//
// The parties write in turn, the initiator first. After the last message, Split, Datagrams or CipherStates uses it up.
// A refused message, or another party that isn't accepted, ends it: each later call returns ErrEnded.
type HandshakeState struct {
	memory    *handshakeMemory
	config    Config
	pattern   *pattern
	initiator bool
	ephemeral *KeyPair
	ended     error
	isJudged  bool       // whether the other party's static key was, if it is known from the start
	next      int        // the message that is due, from 0 on
	remote    remoteKeys // those that are known
	below     net.Conn   // the connection below, if there is one
	isTrying  bool       // a message is tried: a fault leaves the handshake as it was
	isOfConn  bool       // of a Conn, of which there may be many
	isWanted  bool       // a *WantedPSKError was returned for the message that is due
	pskCount  int        // how many psks SetPSK has passed since
	at        library.StageResult

	isForVectors bool // a pre-message may have an ephemeral key
}

// remoteKeys are the public keys of the other party, as far as they are known.
type remoteKeys struct {
	e, s PublicKey
	hasE bool
}

// with returns the keys with the ephemeral key of a message.
func (k remoteKeys) with(m *message, received []byte) remoteKeys {
	if m.hasE && len(received) >= m.e+KeyLen {
		k.hasE = true
		copy(k.e[:], received[m.e:])
	}
	return k
}

// NewHandshakeState starts a handshake with a new ephemeral key pair. A *ConfigError says what is wrong with the
// Config. If it has neither PSKs nor PSKFor, SetPSK passes the psks.
func NewHandshakeState(config *Config, initiator bool) (*HandshakeState, error) {
	ephemeral, err := GenerateKeyPair()
	if err != nil {
		return nil, err
	}
	return started(config, &HandshakeState{initiator: initiator, ephemeral: ephemeral}, true)
}

// ofConn is NewHandshakeState for a Conn over this connection.
func ofConn(config *Config, initiator bool, below net.Conn) (*HandshakeState, error) {
	ephemeral, err := GenerateKeyPair()
	if err != nil {
		return nil, err
	}
	h := &HandshakeState{initiator: initiator, ephemeral: ephemeral, below: below, isOfConn: true}
	return started(config, h, false)
}

// deep makes a call of the library that needs much stack.
func (h *HandshakeState) deep(call func()) {
	if h.isOfConn {
		deep(call)
		return
	}
	call()
}

// started returns a handshake in which neither VerifyPeer nor PSKFor has been called.
func started(config *Config, h *HandshakeState, isLate bool) (*HandshakeState, error) {
	if config == nil {
		return nil, &ConfigError{"", errNil}
	}
	h.memory, h.config, h.pattern = new(handshakeMemory), *config, patternOf(config.pattern())
	if h.pattern.fault != nil {
		return nil, &ConfigError{"Pattern", h.pattern.fault}
	}
	if h.pattern.early && !h.isForVectors {
		return nil, &ConfigError{"Pattern", errEarly}
	}
	if err := h.config.check(h.pattern, h.initiator, isLate); err != nil {
		return nil, err
	}
	if code := h.start(); code != 0 {
		return nil, &ConfigError{fieldOf(code), code}
	}
	if h.pattern.knows(h.initiator) {
		h.remote.s = *config.PeerStatic
	}
	return h, nil
}

func keyFor(key PublicKey) library.Key { return library.Key{Present: 1, Bytes: key} }

// start starts the handshake.
func (h *HandshakeState) start() Code {
	setup := new(library.Setup)
	if !h.initiator {
		setup.Responder = 1
	}
	setup.E = keyFor(h.ephemeral.Public())
	if h.config.Static != nil {
		setup.S = keyFor(h.config.Static.Public())
	}
	if h.remote.hasE {
		setup.RemoteE = keyFor(h.remote.e)
	}
	if h.pattern.knows(h.initiator) {
		setup.RemoteS = keyFor(*h.config.PeerStatic)
	}
	setup.PSKCount = uint8(len(h.config.PSKs))
	for i := range h.config.PSKs {
		setup.PSKs[i] = h.config.PSKs[i]
		defer wipe(setup.PSKs[i][:])
	}
	pattern, prologue := []byte(h.config.pattern()), h.config.Prologue
	var code Code
	h.deep(func() {
		code = Code(library.Start(
			&h.memory.opaque,
			place(pattern), uint(len(pattern)),
			place(prologue), uint(len(prologue)),
			setup,
		))
		h.look()
	})
	return code
}

// stage returns how many messages have passed, how many the pattern has, and whether this party writes the next.
func (h *HandshakeState) stage() (passed, messages int, writes bool) {
	if h.memory == nil {
		return 0, 0, false
	}
	return int(h.at.Passed), int(h.at.Messages), h.at.WritesNext != 0
}

// look asks the library how far the handshake is. A struct that isn't a handshake's is at no message.
func (h *HandshakeState) look() {
	if library.Stage(&h.memory.opaque, &h.at) != 0 {
		h.at = library.StageResult{}
	}
}

// Done reports whether all messages have passed.
func (h *HandshakeState) Done() bool {
	passed, messages, _ := h.stage()
	return h.isOver() == nil && passed == messages
}

// WritesNext reports whether this party writes the next message.
func (h *HandshakeState) WritesNext() bool {
	passed, messages, writes := h.stage()
	return h.ended == nil && writes && passed < messages
}

// MessageIndex returns the number of the messages that have passed.
func (h *HandshakeState) MessageIndex() int {
	passed, _, _ := h.stage()
	return passed
}

// isOver returns why the handshake is over; nil if it isn't.
func (h *HandshakeState) isOver() error {
	if h.ended == nil && h.memory == nil {
		return errUnmade
	}
	return h.ended
}

// end ends the handshake at a token of the message that is due, and overwrites keys and X25519 results. A
// tokenError says itself at which.
func (h *HandshakeState) end(token string, cause error) error {
	fault := &HandshakeError{Message: h.next + 1, Token: token, Err: cause}
	if at, ok := cause.(*tokenError); ok {
		fault.Token, fault.Err = at.token, at.error
	}
	h.over(ErrEnded)
	return fault
}

// tokenError is a fault at a token.
type tokenError struct {
	error
	token string
}

// refuse ends the handshake at the message that is due, which the library refuses at a token, counted from 0.
func (h *HandshakeState) refuse(token int, code Code) error {
	message := h.next
	err := &HandshakeError{Message: message + 1, Token: h.pattern.tokenAt(message, token), Err: code}
	if code == ErrTag {
		err.differ = h.pattern.differences(message, token)
	}
	h.over(ErrEnded)
	return err
}

// Close overwrites what the handshake keeps. Later calls return ErrClosed, which is an ErrEnded here.
func (h *HandshakeState) Close() error {
	h.isTrying = false
	h.over(errHandshakeClosed)
	return nil
}

// over overwrites what the handshake keeps; later calls return an error.
func (h *HandshakeState) over(why error) {
	if h.isTrying {
		h.ended = why
		return
	}
	if h.memory != nil {
		h.memory.wipe()
		h.memory = nil
	}
	if h.ephemeral != nil {
		h.ephemeral.Wipe()
	}
	if h.ended == nil {
		h.ended = why
	}
}

// verifyFirst decides whether a static key of the other party that is known from the start is accepted.
func (h *HandshakeState) verifyFirst(ctx context.Context) error {
	if h.isJudged || !h.pattern.knows(h.initiator) {
		return nil
	}
	h.isJudged = true
	return h.verify(ctx, "", Peer{})
}

// supply passes the X25519 result for a DH token to the library: of one of this party's key pairs and a
// public key of the other party.
func (h *HandshakeState) supply(ctx context.Context, token string, remote PublicKey) error {
	var own DH = h.ephemeral
	of := byte(0)
	if token[index(!h.initiator)] == 's' {
		own, of = h.config.Static, 1
	}
	result, err := agreed(ctx, own, remote)
	if err != nil {
		return &tokenError{err, token}
	}
	code := library.Answer(&h.memory.opaque, of, &remote[0], &result[0])
	wipe(result[:])
	return asError(uint32(code))
}

// agreed is Agree, unless the context has ended; zeros are an error.
func agreed(ctx context.Context, own DH, remote PublicKey) (result Secret, err error) {
	if err := ctx.Err(); err != nil {
		return result, err
	}
	if result, err = own.Agree(ctx, remote); err == nil && result == (Secret{}) {
		err = zeroResult{}
	}
	return result, err
}

// wanted returns the DH token whose result the library asks for.
func (h *HandshakeState) wanted(keys *remoteKeys) string {
	own, other := byte('e'), byte('s')
	if h.memory.result.OfStatic != 0 {
		own = 's'
	}
	if keys.hasE && PublicKey(h.memory.result.Remote) == keys.e {
		other = 'e'
	}
	token := [2]byte{own, other}
	return string([]byte{token[index(!h.initiator)], token[index(h.initiator)]})
}

// called makes a call of the library, and supplies the results of X25519 and the psks that it asks for. A
// *WantedPSKError leaves the handshake as it was; after another error it has ended.
func (h *HandshakeState) called(ctx context.Context, keys *remoteKeys, call func() uint32) (Code, error) {
	result := &h.memory.result
	for {
		var err error
		var code uint32
		h.deep(func() {
			code = call()
			h.look()
		})
		switch code {
		case codeWanted:
			err = h.supply(ctx, h.wanted(keys), PublicKey(result.Remote))
		case uint32(ErrWantedPSK):
			if h.config.PSKFor == nil {
				h.isWanted = true
				return 0, h.wantedPSK()
			}
			err = h.choose(ctx)
		default:
			return Code(code), nil
		}
		if err != nil {
			return 0, h.end("", err)
		}
	}
}

// wantedPSK returns what the library asks for.
func (h *HandshakeState) wantedPSK() error {
	result := &h.memory.result
	if result.RemoteKnown == 0 {
		return &WantedPSKError{}
	}
	key := PublicKey(result.Remote)
	return &WantedPSKError{&key}
}

// choose passes the psks that this party shares with the owner of the static key that the library has reported.
func (h *HandshakeState) choose(ctx context.Context) error {
	if h.memory.result.RemoteKnown == 0 {
		return errPSKTooLate
	}
	psks, err := h.config.PSKFor(ctx, PublicKey(h.memory.result.Remote))
	if err == nil && len(psks) != h.pattern.psks {
		err = ErrPSKCount
	}
	for i := 0; err == nil && i < len(psks); i++ {
		err = h.SetPSK(psks[i])
	}
	if err != nil {
		return &tokenError{err, "psk"}
	}
	return nil
}

// SetPSK passes the psk of the first psk token that has none: after a *WantedPSKError, or before. It is for a Config
// with neither PSKs nor PSKFor. ErrPSKCount: no token that is still to come lacks its psk; ErrZeroPSK. To replace a
// psk call UnsetPSK first.
func (h *HandshakeState) SetPSK(psk PSK) error {
	if err := h.isOver(); err != nil {
		return err
	}
	defer wipe(psk[:])
	if psk == (PSK{}) && !h.config.AllowZeroPSK {
		return ErrZeroPSK
	}
	var code uint32
	h.deep(func() { code = library.SetPsk(&h.memory.opaque, &psk[0]) })
	if code == 0 && h.isWanted && !h.isTrying {
		h.pskCount++
	}
	return asError(code)
}

// UnsetPSK takes back the last psk that no message has used yet, if there is one.
func (h *HandshakeState) UnsetPSK() error {
	if err := h.isOver(); err != nil {
		return err
	}
	var code uint32
	h.deep(func() { code = library.UnsetPsk(&h.memory.opaque) })
	if h.pskCount > 0 {
		h.pskCount--
	}
	return asError(code)
}

// messagePassed notes that the message that was due has passed, with its psks.
func (h *HandshakeState) messagePassed() {
	h.next++
	h.isWanted, h.pskCount = false, 0
}

// takeBack takes back the psks that were passed for a message that is refused.
func (h *HandshakeState) takeBack() {
	for h.pskCount > 0 && h.UnsetPSK() == nil {
	}
	h.isWanted = false
}

// WriteMessage appends the next message, with this payload, to dst. ErrNotYourTurn, ErrDone, ErrTooLong and a
// *WantedPSKError leave the handshake as it was.
func (h *HandshakeState) WriteMessage(dst, payload []byte) ([]byte, error) {
	return h.WriteMessageContext(context.Background(), dst, payload)
}

// WriteMessageContext is WriteMessage with the context that VerifyPeer, PSKFor and Agree get.
func (h *HandshakeState) WriteMessageContext(ctx context.Context, dst, payload []byte) ([]byte, error) {
	if err := h.isOver(); err != nil {
		return dst, err
	}
	m, size, code := h.memory, uint(0), uint32(0)
	h.deep(func() { code = library.MessageLen(&m.opaque, uint(len(payload)), &size) })
	switch {
	case code == codeStruct:
		return dst, h.end("", Code(codeStruct))
	case code == 0:
		if err := h.verifyFirst(ctx); err != nil {
			return dst, err
		}
	}
	whole, room := grown(dst, int(size))
	if overlap(room, payload) {
		payload = append([]byte(nil), payload...)
	}
	reads(payload)
	writes(room)
	made, err := h.called(ctx, &h.remote, func() uint32 {
		return library.Write(&m.opaque, place(payload), uint(len(payload)), place(room), uint(len(room)), &m.result)
	})
	switch {
	case err != nil:
		return dst, err
	case made == codeStruct || made == codeAgreement:
		return dst, h.end("", made)
	case made != 0:
		return dst, made
	}
	h.messagePassed()
	return whole[:len(dst)+int(m.result.Len)], nil
}

// ReadMessage reads the message that is due, and appends its payload to dst. A *HandshakeError says what is wrong with
// the message, and the handshake has ended; ErrNotYourTurn, ErrDone and a *WantedPSKError leave it as it was.
func (h *HandshakeState) ReadMessage(dst, message []byte) ([]byte, error) {
	return h.ReadMessageContext(context.Background(), dst, message)
}

// ReadMessageContext is ReadMessage with the context that VerifyPeer, PSKFor and Agree get.
func (h *HandshakeState) ReadMessageContext(ctx context.Context, dst, message []byte) ([]byte, error) {
	return h.readMessage(ctx, dst, message, library.Read)
}

// TryReadMessage is ReadMessageContext for messages that a stranger can send, as over UDP: also after a *HandshakeError
// the handshake is as it was, and another message can be read in the place of the one that is refused. So a message
// that was altered, repeated or invented doesn't end the handshake.
func (h *HandshakeState) TryReadMessage(ctx context.Context, dst, message []byte) ([]byte, error) {
	if err := h.isOver(); err != nil {
		return dst, err
	}
	was, before := *h, *h.memory
	h.isTrying = true
	defer func() {
		if h.memory != nil && h.ended != nil {
			*h.memory, *h = before, was
			h.takeBack()
		}
		h.isTrying = false
		before.wipe()
	}()
	return h.readMessage(ctx, dst, message, library.TryRead)
}

// readCall is noise_read, or noise_try_read.
type readCall func(h *library.Handshake, message *byte, messageLen uint, result *library.Result) uint32

func (h *HandshakeState) readMessage(ctx context.Context, dst, message []byte, call readCall) ([]byte, error) {
	if err := h.isOver(); err != nil {
		return dst, err
	}
	passed, messages, writes := h.stage()
	switch {
	case passed == messages:
		return dst, ErrDone
	case writes:
		return dst, ErrNotYourTurn
	case len(message) > MaxMessage:
		return dst, h.end("", ErrLength)
	}
	if err := h.verifyFirst(ctx); err != nil {
		return dst, err
	}
	payload, err := h.read(ctx, message, call)
	if err != nil {
		return dst, err
	}
	if passed == h.pattern.learns(h.initiator) {
		key, isKnown := h.PeerStatic()
		if !isKnown {
			return dst, h.end("", Code(codeStruct))
		}
		h.remote.s = key
		if err := h.verify(ctx, "s", Peer{Message: passed + 1, Payload: payload}); err != nil {
			return dst, err
		}
	}
	return append(dst, payload...), nil
}

func (h *HandshakeState) read(ctx context.Context, received []byte, read readCall) ([]byte, error) {
	m, work := h.memory, append([]byte(nil), received...)
	keys := h.remote.with(&h.pattern.messages[h.next], received)
	code, err := h.called(ctx, &keys, func() uint32 {
		return read(&m.opaque, place(work), uint(len(work)), &m.result)
	})
	switch {
	case err != nil:
		return nil, err
	case code == ErrShort || code == ErrTag:
		return nil, h.refuse(int(m.result.Token), code)
	case code != 0:
		return nil, h.end("", code)
	}
	h.remote = keys
	h.messagePassed()
	return work[m.result.From : m.result.From+m.result.Len], nil
}

// verify decides whether the other party's static key is accepted, which is known from a token of a
// message, or from the start.
func (h *HandshakeState) verify(ctx context.Context, token string, peer Peer) error {
	isAccepted := false
	defer func() {
		if !isAccepted { // also if VerifyPeer panics, and its caller goes on
			h.over(ErrEnded)
		}
	}()
	key, message := h.remote.s, peer.Message
	if want := h.config.PeerStatic; want != nil && subtle.ConstantTimeCompare(want[:], key[:]) != 1 {
		return &HandshakeError{Message: message, Token: token, Err: ErrPeerKey}
	}
	if h.config.VerifyPeer != nil {
		if peer.Static = key; h.below != nil {
			peer.Addr = h.below.RemoteAddr()
		}
		if err := h.config.VerifyPeer(ctx, peer); err != nil {
			return &HandshakeError{Message: message, Token: token, Err: err}
		}
	}
	isAccepted = true
	return nil
}

// PeerStatic returns the other party's static key, and whether it is known.
func (h *HandshakeState) PeerStatic() (key PublicKey, known bool) {
	if h.memory == nil {
		return key, false
	}
	var k library.Key
	code := uint32(codeStruct)
	h.deep(func() { code = library.RemoteStatic(&h.memory.opaque, &k) })
	if code != 0 || k.Present == 0 {
		return key, false
	}
	return k.Bytes, true
}

// HandshakeHash returns the hash of what has passed so far. After the last message it is the same at both
// parties (the framework's 11.2).
func (h *HandshakeState) HandshakeHash() (hash [KeyLen]byte) {
	if h.memory != nil {
		h.deep(func() { library.Hash(&h.memory.opaque, &hash[0]) })
	}
	return hash
}

// Split returns the two directions of the transport, after all messages have passed. The handshake is used up.
func (h *HandshakeState) Split() (*Sender, *Receiver, error) {
	if err := h.isOver(); err != nil {
		return nil, nil, err
	}
	s, r := new(Sender), new(Receiver)
	var code uint32
	h.deep(func() {
		code = library.Finish(&h.memory.opaque, uint64(h.config.Interval), &s.memory.opaque, &r.memory.opaque)
	})
	if code != 0 {
		return nil, nil, Code(code)
	}
	h.over(errUsedUp)
	return s, r, nil
}

// splitStream makes the two directions of a stream, after all messages have passed. The handshake is used up.
func (h *HandshakeState) splitStream(s *streamSenderMemory, r *streamReceiverMemory) error {
	if err := h.isOver(); err != nil {
		return err
	}
	var code uint32
	h.deep(func() { code = library.FinishStream(&h.memory.opaque, uint64(h.config.Interval), &s.opaque, &r.opaque) })
	if code != 0 {
		return Code(code)
	}
	h.over(errUsedUp)
	return nil
}

// Datagrams returns the two directions for datagrams, after all messages have passed. A datagram may arrive after
// others whose nonces are less than window greater; window is 64, 256 or 1024. The handshake is used up.
func (h *HandshakeState) Datagrams(window int) (*DatagramSender, *DatagramReceiver, error) {
	if err := h.isOver(); err != nil {
		return nil, nil, err
	}
	if window != 64 && window != 256 && window != 1024 {
		return nil, nil, ErrWindow
	}
	s, r := new(DatagramSender), new(DatagramReceiver)
	var code uint32
	h.deep(func() {
		code = library.FinishDatagrams(&h.memory.opaque, uint32(window), &s.memory.opaque, &r.memory.opaque)
	})
	if code != 0 {
		return nil, nil, Code(code)
	}
	h.over(errUsedUp)
	return s, r, nil
}

// CipherStates returns the standard's CipherStates (the framework's 5.2), after all messages have passed: for a
// protocol whose packets have associated data, name their nonces or have a form of their own. The handshake is used up.
func (h *HandshakeState) CipherStates() (send, receive *CipherState, err error) {
	if err := h.isOver(); err != nil {
		return nil, nil, err
	}
	send, receive = new(CipherState), &CipherState{receives: true}
	var code uint32
	h.deep(func() { code = library.FinishCiphers(&h.memory.opaque, &send.memory.opaque, &receive.memory.opaque) })
	if code != 0 {
		return nil, nil, Code(code)
	}
	h.over(errUsedUp)
	return send, receive, nil
}
