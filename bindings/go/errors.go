package noise

import (
	"errors"
	"fmt"
	"io"
	"net"
	"os"
	"strings"
)

// Code is the number that a call of the library returns for a fault. The constants are errors: compare with
// errors.Is(err, noise.ErrTag).
type Code uint32

var texts = map[Code]string{
	ErrName:              "not the name of a fundamental pattern with 25519, ChaChaPoly and SHA256",
	ErrPattern:           "the pattern text has a fault, or the pattern isn't valid",
	codeEphemeralMissing: "the pattern needs an ephemeral key of this party",
	ErrStaticMissing:     "the pattern needs a static key of this party",
	ErrRemoteMissing:     "the pattern needs the other party's static key beforehand",
	ErrRemoteUnexpected:  "the other party has no such static key in this pattern",
	ErrPSKCount:          "the number of psks isn't the number of psk tokens",
	ErrWantedPSK:         "the message needs a psk",
	ErrNotYourTurn:       "it is the other party's turn",
	ErrTooLong:           "more bytes than a message may have",
	ErrDone:              "all messages of the handshake have passed",
	ErrEnded:             "a refused message has ended the handshake",
	codeAgreement:        "something else than the library has changed the state",
	ErrShort:             "the message is too short",
	ErrTag:               "a tag is wrong: the parties differ in something, or the message was changed",
	ErrExhausted:         "this key encrypts and decrypts no more messages",
	codeRoom:             "the buffer is too short for the message",
	ErrNotDone:           "messages of the handshake are still due",
	codeWanted:           "the call needs a result of X25519",
	ErrOneWay:            "the pattern is one-way, and this is the other direction",
	codeStruct:           "the state isn't one that a call could have made",
	ErrLength:            "more than 65535 bytes",
	ErrWindow:            "the window isn't 64, 256 or 1024",
	ErrReserved:          "the datagram has the reserved nonce",
	ErrOld:               "the datagram is older than the window",
	ErrRepeated:          "a datagram with this nonce was opened before",
	codeNotDue:           "a payload of this length can't be written now",
	codeHeading:          "the heading of the pattern text is wrong",
	codeArrow:            "a line of the pattern text has no arrow",
	codeToken:            "a word of the pattern text isn't a token",
	codePreMessage:       "a pre-message of the pattern text is wrong",
	codeTurn:             "a line of the pattern text is out of turn",
	codePSKPlace:         "a psk token isn't where the heading says",
	codeNameTaken:        "the name belongs to a fundamental pattern, and this is another pattern",
	codeLimit:            "the pattern has too many messages or tokens",
	codeEnding:           "the pattern text ends too early",
	codeRule:             "the pattern isn't valid",
	codeOverlap:          "a buffer that the call writes to overlaps another one",
}

// Error returns what the code means.
func (c Code) Error() string {
	if text, ok := texts[c]; ok {
		return "noise: " + text
	}
	return fmt.Sprintf("noise: code %d", uint32(c))
}

// withoutName returns the text of an error without the package's name.
func withoutName(err error) string { return strings.TrimPrefix(err.Error(), "noise: ") }

// asError returns nil for 0, which is no Code.
func asError(code uint32) error {
	if code == 0 {
		return nil
	}
	return Code(code)
}

var (
	// ErrClosed is net.ErrClosed, which errors.Is finds in what is returned by a thing that was closed.
	ErrClosed = net.ErrClosed
	// ErrCut is returned if the connection was lost before the end of the other party's stream, or in the handshake.
	// It is an io.ErrUnexpectedEOF, and never an io.EOF. If the connection below had an error, as ECONNRESET,
	// errors.Is finds that too.
	ErrCut error = cut{}
	// ErrNoEnd is returned by Close if the end of this party's stream wasn't sent: the other party's Read returns
	// ErrCut, though it may have read all. If an error has prevented it, errors.Is finds that too.
	ErrNoEnd = errors.New("noise: closed without the end of the stream")
	// ErrUnfinished is returned by CloseWrite after a Write that has failed at a deadline, until a Write has succeeded:
	// the end would say that all was written.
	ErrUnfinished = errors.New("noise: the last Write has failed, and no other one has succeeded since")
	// ErrUnauthenticated is returned if nothing says who may be the other party.
	ErrUnauthenticated = errors.New("noise: nothing says who may be the other party: " +
		"set VerifyPeer, PeerStatic, PSKs or PSKFor, or InsecureAcceptAnyKey")
	// ErrPeerKey is returned if the other party's static key isn't Config.PeerStatic.
	ErrPeerKey = errors.New("noise: the other party has another static key than the one expected")
	// ErrDirection is returned if a CipherState for receiving has to encrypt, or one for sending to decrypt.
	ErrDirection = errors.New("noise: the CipherState is for the other direction")
	// ErrLowOrder is returned if X25519 of the other party's public key is zeros (the framework's 12.1).
	ErrLowOrder = errors.New("noise: X25519 of the other party's public key is zeros")
	// ErrZeroPSK is returned for a psk of zeros, as of one that was never set, unless Config.AllowZeroPSK is set.
	ErrZeroPSK = errors.New("noise: a psk is zeros")
	// ErrHandshakeTimeout is returned if a handshake took longer than Config.HandshakeTimeout. It is an
	// os.ErrDeadlineExceeded, and a net.Error.
	ErrHandshakeTimeout error = tooSlow{}
)

// closedError is an ErrClosed of something else than a network connection.
type closedError struct{ text string }

func (e *closedError) Error() string        { return e.text }
func (e *closedError) Is(target error) bool { return target == ErrClosed }

var (
	errClosed = &closedError{"noise: closed"}
	errWiped  = &closedError{"noise: the key pair was wiped"}
)

// tooLong says that a message of a handshake is longer than Config allows. It is an ErrTooLong.
type tooLong struct{ count, most int }

func (e *tooLong) Is(target error) bool { return target == ErrTooLong }
func (e *tooLong) Error() string {
	return fmt.Sprintf("it has %d bytes, and Config allows %d: perhaps the other party speaks another protocol",
		e.count, e.most)
}

// zeroResult is an ErrLowOrder of a DH that isn't a KeyPair.
type zeroResult struct{}

func (zeroResult) Is(target error) bool { return target == ErrLowOrder }
func (zeroResult) Error() string {
	return "Agree has returned zeros: it has failed, or the other party's public key is of low order"
}

type tooSlow struct{}

func (tooSlow) Error() string        { return "noise: the handshake took too long" }
func (tooSlow) Timeout() bool        { return true }
func (tooSlow) Temporary() bool      { return false }
func (tooSlow) Is(target error) bool { return target == os.ErrDeadlineExceeded }

type cut struct{}

func (cut) Error() string        { return "noise: the connection was cut before the end of the stream" }
func (cut) Is(target error) bool { return target == io.ErrUnexpectedEOF }

// lostError is ErrCut with the error of the connection below.
type lostError struct{ cause error }

func (e *lostError) Error() string        { return ErrCut.Error() + ": " + e.cause.Error() }
func (e *lostError) Is(target error) bool { return target == ErrCut || target == io.ErrUnexpectedEOF }
func (e *lostError) Unwrap() error        { return withoutEOF(e.cause) }

// noEndError is ErrNoEnd with what has prevented the end.
type noEndError struct{ cause error }

func (e *noEndError) Error() string        { return ErrNoEnd.Error() + ": " + withoutName(e.cause) }
func (e *noEndError) Is(target error) bool { return target == ErrNoEnd }
func (e *noEndError) Unwrap() error        { return withoutEOF(e.cause) }

// withoutEOF returns an error of which errors.Is finds all but io.EOF, which says of a stream that it is whole.
func withoutEOF(err error) error {
	if errors.Is(err, io.EOF) {
		return notEOF{err}
	}
	return err
}

type notEOF struct{ cause error }

func (e notEOF) Error() string        { return e.cause.Error() }
func (e notEOF) Is(target error) bool { return target != io.EOF && errors.Is(e.cause, target) }
func (e notEOF) As(target any) bool   { return errors.As(e.cause, target) }

// overError says why a handshake is over, other than a refusal. It is an ErrEnded.
type overError struct {
	text     string
	isClosed bool // it is an ErrClosed too
}

func (e *overError) Error() string { return e.text }
func (e *overError) Is(target error) bool {
	return target == ErrEnded || e.isClosed && target == ErrClosed
}

var (
	errHandshakeClosed = &overError{"noise: the handshake was closed", true}
	errUnmade          = &overError{"noise: NewHandshakeState hasn't made this HandshakeState", false}
	errUsedUp          = &overError{"noise: the handshake is used up: its keys were handed on", false}
)

// HandshakeError says what is wrong with a message of a handshake. Unwrap returns the cause, as ErrTag or
// the error of VerifyPeer.
type HandshakeError struct {
	Message int    // the message, from 1 on; 0 if PeerStatic or VerifyPeer refused a key that is known before the first
	Token   string // where in the message, as "s", "es" or "payload"; "" if the fault isn't at one place
	Err     error  // the cause
	differ  string // ErrTag: in what the parties may differ
}

// Error returns the message, the token and the cause: noise: message 2, token s: a tag is wrong ..
func (e *HandshakeError) Error() string {
	place := fmt.Sprintf("message %d", e.Message)
	switch {
	case e.Message == 0:
		place = "before message 1"
	case e.Token == payloadToken:
		place += ", payload"
	case e.Token != "":
		place += ", token " + e.Token
	}
	if e.differ != "" && e.Err == ErrTag {
		return "noise: " + place + ": a tag is wrong: the message was changed, or the parties differ in " + e.differ
	}
	return "noise: " + place + ": " + withoutName(e.Err)
}

// Unwrap returns the cause, of which errors.Is finds all but io.EOF.
func (e *HandshakeError) Unwrap() error { return withoutEOF(e.Err) }

// WantedPSKError says that the message that is due needs a psk, which SetPSK passes. The handshake is as it was.
type WantedPSKError struct {
	// PeerStatic is the other party's static key, of which it hasn't shown yet that it has the secret key; nil if it
	// isn't known.
	PeerStatic *PublicKey
}

// Error returns what is needed.
func (e *WantedPSKError) Error() string { return ErrWantedPSK.Error() }

// Unwrap returns ErrWantedPSK.
func (e *WantedPSKError) Unwrap() error { return ErrWantedPSK }

// ConfigError is a fault of a Config, found before a byte is sent.
type ConfigError struct {
	Field string // of the Config
	Err   error  // what is wrong with it
}

// Error returns the field, and what is wrong with it.
func (e *ConfigError) Error() string {
	if e.Field == "" {
		return "noise: Config: " + e.Err.Error()
	}
	return "noise: Config." + e.Field + ": " + withoutName(e.Err)
}

// Unwrap returns what is wrong with the field.
func (e *ConfigError) Unwrap() error { return e.Err }
