package noise

import (
	"context"
	"errors"
	"log"
	"net"
	"reflect"
	"strings"
	"time"
)

// Config is what a party starts from. It may serve for many connections at once; while one uses it, it must not be
// changed. The package doesn't change it.
type Config struct {
	// Pattern is a protocol name, as Noise_XX_25519_ChaChaPoly_SHA256; the name of a pattern alone, as XXpsk3; or the
	// text of your own pattern, whose last byte is a line feed. "" is XX.
	Pattern string
	// Prologue is what the parties have agreed on before, at most 65535 bytes: the same bytes at both.
	Prologue []byte
	// Static is this party's static key pair, if the pattern has one.
	Static DH
	// PeerStatic is the other party's static key; nil if it isn't known. If the pattern needs the key beforehand,
	// the handshake starts with it. If a message of the handshake has the key, the two are compared, and
	// ErrPeerKey ends the handshake.
	PeerStatic *PublicKey
	// VerifyPeer is called with the other party's static key as soon as that is known, before anything else is read or
	// written: with the message that has the key, and that message's payload, which may have a certificate of it; or
	// with a key that is known from the start, before the first message is written, or once it has come. An error ends
	// the handshake. It isn't called in a handshake without such a key. The context ends with that of HandshakeContext,
	// at the time limit, and when the connection is closed.
	VerifyPeer func(ctx context.Context, peer Peer) error
	// InsecureAcceptAnyKey lets a party talk to anybody, if neither VerifyPeer nor PeerStatic nor PSKs nor PSKFor say
	// who may be the other party.
	InsecureAcceptAnyKey bool
	// PSKs has one pre-shared key for each psk token of the pattern, in their order.
	PSKs []PSK
	// AllowZeroPSK lets a psk be zeros, as in protocols whose psk is optional: it says nothing of the other party.
	AllowZeroPSK bool
	// PSKFor, in place of PSKs, returns those that this party shares with the owner of a static key. It is called at
	// the first psk token, before which that key has to be known. The other party hasn't shown yet that it has the
	// secret key: so choose the psks, and do nothing else. At XXpsk3, where the token is in the message that has the
	// key, VerifyPeer is called after PSKFor, once that message is accepted. An error ends the handshake, and nothing
	// more is sent; 32 random bytes for a key that you don't know, in place of an error, don't tell which keys you
	// know. The context is that of VerifyPeer.
	PSKFor func(ctx context.Context, key PublicKey) ([]PSK, error)
	// Interval is the number of messages after which each direction is rekeyed; 0 is never. The same at both parties.
	Interval uint64
	// Payloads are those of the handshake: Payloads[0] goes with message 1 of the pattern, Payloads[1] with message 2,
	// if this party writes that message.
	Payloads [][]byte
	// PayloadFor, in place of Payloads, returns the payload of the message after peer.Message. It is called once for
	// each message that a Conn writes. An error ends the handshake. The context is that of VerifyPeer.
	PayloadFor func(ctx context.Context, peer Peer) ([]byte, error)
	// MaxHandshakeMessage is how many bytes a message of the handshake may have that a Conn reads; 0 is 4096 more than
	// it has without a payload.
	MaxHandshakeMessage int
	// HandshakeTimeout is how long the handshake of a Conn may take, from the first call that runs it; 0 is 10
	// seconds at what a listener of this package has accepted, and no limit at what Client and Server return.
	// Less than 0 is no limit.
	HandshakeTimeout time.Duration
	// ErrorLog gets a line for each handshake of a Conn that has failed, with the other party's address; nil: no lines.
	ErrorLog *log.Logger
}

// Peer is what is known of the other party in a handshake.
type Peer struct {
	Static  PublicKey // its static key; zeros if that isn't known yet
	Message int       // its last message that was read, counted from 1; 0 if there is none
	Payload []byte    // that message's payload
	Addr    net.Addr  // the address of the connection below; nil if there is no Conn
}

const suite = "_25519_ChaChaPoly_SHA256"

// pattern returns the name or the text that the library gets.
func (c *Config) pattern() string {
	switch {
	case c.Pattern == "":
		return "Noise_XX" + suite
	case strings.HasSuffix(c.Pattern, "\n") || strings.HasPrefix(c.Pattern, "Noise_"):
		return c.Pattern
	default:
		return "Noise_" + c.Pattern + suite
	}
}

// protocolName returns the name of the handshake's protocol.
func (c *Config) protocolName() string {
	pattern := c.pattern()
	if heading := strings.Index(pattern, ":\n"); heading >= 0 {
		return "Noise_" + pattern[:heading] + suite
	}
	return pattern
}

var (
	errNil        = errors.New("the Config is nil")
	errZeroKey    = errors.New("the public key is zeros, as one that was never set")
	errNilKey     = errors.New("a nil pointer")
	errTwo        = errors.New("set either PSKs or PSKFor")
	errTwoOf      = errors.New("set either Payloads or PayloadFor")
	errNoKey      = errors.New("the other party has no static key in this pattern")
	errPSKTooLate = errors.New("the other party's static key isn't known before the first psk token")
	errTooSmall   = errors.New("less than a message of the pattern has")
	errEarly      = errors.New("the pattern has an ephemeral key before \"...\", which this package doesn't support")
)

// check compares a Config with its pattern, which the library accepts. isLate is whether SetPSK may still pass psks.
func (c *Config) check(p *pattern, initiator, isLate bool) error {
	known, learns := p.knows(initiator), p.learns(initiator)
	hasKey := known || learns >= 0
	switch {
	case isNil(c.Static):
		return &ConfigError{"Static", errNilKey}
	case c.Static != nil && c.Static.Public() == PublicKey{}:
		return &ConfigError{"Static", errZeroKey}
	case c.PeerStatic != nil && *c.PeerStatic == PublicKey{}:
		return &ConfigError{"PeerStatic", errZeroKey}
	case c.PeerStatic != nil && !hasKey:
		return &ConfigError{"PeerStatic", ErrRemoteUnexpected}
	case c.PeerStatic == nil && known:
		return &ConfigError{"PeerStatic", ErrRemoteMissing}
	case c.VerifyPeer != nil && !hasKey && !c.InsecureAcceptAnyKey:
		return &ConfigError{"VerifyPeer", errNoKey}
	case len(c.PSKs) > MaxPSKs:
		return &ConfigError{"PSKs", ErrPSKCount}
	case c.PayloadFor != nil && c.Payloads != nil:
		return &ConfigError{"PayloadFor", errTwoOf}
	case c.PSKFor != nil && c.PSKs != nil:
		return &ConfigError{"PSKFor", errTwo}
	case c.PSKFor != nil && p.psks == 0:
		return &ConfigError{"PSKFor", ErrPSKCount}
	case c.PSKFor != nil && !known && !p.learnsBeforePSK(initiator):
		return &ConfigError{"PSKFor", errPSKTooLate}
	case c.MaxHandshakeMessage < 0 || c.MaxHandshakeMessage > 0 && c.MaxHandshakeMessage < p.longest():
		return &ConfigError{"MaxHandshakeMessage", errTooSmall}
	case c.PSKFor == nil && len(c.PSKs) != p.psks && (c.PSKs != nil || !isLate):
		return &ConfigError{"PSKs", ErrPSKCount}
	}
	hasPSK := p.psks > 0 && !c.AllowZeroPSK
	for _, psk := range c.PSKs {
		if psk == (PSK{}) && !c.AllowZeroPSK {
			return &ConfigError{"PSKs", ErrZeroPSK}
		}
		hasPSK = hasPSK || psk != PSK{}
	}
	if c.VerifyPeer == nil && c.PeerStatic == nil && !hasPSK && !c.InsecureAcceptAnyKey {
		return &ConfigError{"VerifyPeer", ErrUnauthenticated}
	}
	return nil
}

// isNil reports whether a key is a nil pointer of some type.
func isNil(key DH) bool {
	value := reflect.ValueOf(key)
	return value.Kind() == reflect.Pointer && value.IsNil()
}

// Check returns the *ConfigError that Client, for the initiator, or Server would return; nil if there is none. It
// doesn't call VerifyPeer or PSKFor.
func (c *Config) Check(initiator bool) error {
	h, err := started(c, &HandshakeState{initiator: initiator, ephemeral: new(KeyPair), isOfConn: true}, false)
	if err != nil {
		return err
	}
	return h.Close()
}

// fieldOf returns the field at fault if noise_start returns this code.
func fieldOf(code Code) string {
	switch code {
	case ErrStaticMissing:
		return "Static"
	case ErrRemoteMissing, ErrRemoteUnexpected:
		return "PeerStatic"
	case ErrPSKCount:
		return "PSKs"
	case ErrLength:
		return "Prologue"
	default:
		return "Pattern"
	}
}
