package noise

import (
	"bytes"
	"crypto/hmac"
	"crypto/rand"
	"crypto/sha256"
	"encoding/binary"
	"net"
	"net/netip"
	"time"
)

// The rules of docs/UDP.md that need no keys of a handshake. All of them are tested by vectors/datagrams.json, as those
// of the other packages are.

const (
	transportByte, cookieReplyByte, withCookieByte = 8, 9, 10 // kinds above the numbers of messages

	indexLen       = 8
	cookieLen      = 16 // of a cookie, and of the hash in its reply
	packetHeading  = 1 + indexLen + 8
	packetOverhead = packetHeading + TagLen
	cookieReplyLen = 1 + 2*cookieLen
	mostTimes      = 3 // so many times the bytes that came go to an address that hasn't shown itself
	cookiePeriod   = 120 * time.Second
	mostASecond    = 32 // handshakes of a host that are begun by cookies
)

// packetKind is what a datagram is, by its first byte and length.
type packetKind int

const (
	kindNone packetKind = iota
	kindMessage
	kindTransport
	kindCookieReply
	kindWithCookie
)

// kindOf returns what a datagram is, of a pattern with so many messages.
func kindOf(datagram []byte, messages int) packetKind {
	switch length := len(datagram); {
	case length == 0:
		return kindNone
	case int(datagram[0]) < messages:
		return kindMessage
	case datagram[0] == transportByte && length >= packetOverhead:
		return kindTransport
	case datagram[0] == cookieReplyByte && length == cookieReplyLen:
		return kindCookieReply
	case datagram[0] == withCookieByte && length > 1+cookieLen:
		return kindWithCookie
	}
	return kindNone
}

// firstAnswer is what a responder does at a first message that begins a handshake.
type firstAnswer int

const (
	answerNone firstAnswer = iota
	answerMessage
	answerCookie
)

// decideFirst decides what is done at a first message in a datagram of `came` bytes, to which `answer` bytes would be
// sent. isShown is whether a right cookie came with it.
func decideFirst(count, busy int, isShown bool, came, answer int) firstAnswer {
	switch {
	case isShown || count < busy && maySend(came, 0, answer, false):
		return answerMessage
	case maySend(came, 0, cookieReplyLen, false):
		return answerCookie
	}
	return answerNone
}

// maySend reports whether `length` bytes may go to an address from which `came` bytes came, and to which `sent` went.
func maySend(came, sent, length int, isShown bool) bool {
	return isShown || sent+length <= mostTimes*came
}

// halfDone is a handshake that isn't established: its host, and whether all its messages have passed.
type halfDone struct {
	host   string
	isDone bool
}

// givesWay returns which handshake is closed where there are too many: its place in the list, the oldest first.
func givesWay(begun []halfDone) int {
	isAllDone := true
	for _, it := range begun {
		isAllDone = isAllDone && it.isDone
	}
	counts := map[string]int{}
	for _, it := range begun {
		if isAllDone || !it.isDone {
			counts[it.host]++
		}
	}
	place := -1
	for i, it := range begun {
		if (isAllDone || !it.isDone) && (place < 0 || counts[it.host] > counts[begun[place].host]) {
			place = i
		}
	}
	return place
}

// addressBytes returns what a cookie has of an address: of IPv4, of IPv6, or of another network.
func addressBytes(addr net.Addr) []byte {
	at, err := addrPort(addr)
	if err != nil || !at.IsValid() {
		return append([]byte{0}, addr.String()...)
	}
	family := byte(6)
	if at.Addr().Is4() {
		family = 4
	}
	made := append([]byte{family}, at.Addr().AsSlice()...)
	return binary.BigEndian.AppendUint16(made, at.Port())
}

func addrPort(addr net.Addr) (netip.AddrPort, error) {
	var at netip.AddrPort
	if udp, ok := addr.(*net.UDPAddr); ok {
		at = udp.AddrPort()
	} else if parsed, err := netip.ParseAddrPort(addr.String()); err != nil {
		return at, err
	} else {
		at = parsed
	}
	return netip.AddrPortFrom(at.Addr().Unmap().WithZone(""), at.Port()), nil
}

// hostOf returns by what half-done handshakes are counted: an IPv4 address, or the first 64 bits of an IPv6 address.
func hostOf(addr net.Addr) string {
	switch text := addressBytes(addr); text[0] {
	case 4:
		return string(text[1:5])
	case 6:
		return string(text[1:9])
	default:
		return string(text)
	}
}

// cookieOf returns the cookie of an address and a first message.
func cookieOf(secret *[32]byte, addr net.Addr, message []byte) []byte {
	hash := sha256.Sum256(message)
	mac := hmac.New(sha256.New, secret[:])
	mac.Write(addressBytes(addr))
	mac.Write(hash[:])
	return mac.Sum(nil)[:cookieLen]
}

// cookieReply returns the datagram with a cookie.
func cookieReply(message, cookie []byte) []byte {
	hash := sha256.Sum256(message)
	return append(append([]byte{cookieReplyByte}, hash[:cookieLen]...), cookie...)
}

// withCookie returns the datagram with which a cookie is answered.
func withCookie(cookie, message []byte) []byte {
	return append(append([]byte{withCookieByte}, cookie...), message...)
}

// cookieIn returns the cookie in a reply; nil if the reply is for another message.
func cookieIn(reply, message []byte) []byte {
	hash := sha256.Sum256(message)
	if !bytes.Equal(reply[1:1+cookieLen], hash[:cookieLen]) {
		return nil
	}
	return reply[1+cookieLen:]
}

// hostRate counts how many handshakes of each host were begun by a cookie in this second.
type hostRate struct {
	second int64
	counts map[string]int
}

// allow reports whether one more of a host may begin; if so, it is counted. now is since the listener began.
func (r *hostRate) allow(host string, now time.Duration) bool {
	if second := int64(now / time.Second); second != r.second || r.counts == nil {
		r.second, r.counts = second, map[string]int{}
	}
	if r.counts[host] >= mostASecond {
		return false
	}
	r.counts[host]++
	return true
}

// packetIndex is the index of a session.
type packetIndex [indexLen]byte

// indexOf returns the index of a session, by the last message of its handshake.
func indexOf(last []byte) (index packetIndex) {
	copy(index[:], last[len(last)-indexLen:])
	return index
}

// moves reports whether a session's address becomes that of a datagram that opened, where it isn't the first.
func moves(nonce, newest uint64) bool { return nonce > newest }

// cookies are a responder's secrets: one makes cookies for 120 seconds, and counts for 120 more.
type cookies struct {
	draw    func(to []byte) error
	secrets []cookieSecret // the newest first
}

type cookieSecret struct {
	bytes [32]byte
	drawn time.Time
}

func drawSecret(to []byte) error {
	_, err := rand.Read(to)
	return err
}

// renew forgets secrets that no longer count, draws the next one when it is due, and reports whether there is one.
func (c *cookies) renew(now time.Time) bool {
	for n := len(c.secrets); n > 0 && now.Sub(c.secrets[n-1].drawn) >= 2*cookiePeriod; n-- {
		c.secrets = c.secrets[:n-1]
	}
	if len(c.secrets) > 0 && now.Sub(c.secrets[0].drawn) < cookiePeriod {
		return true
	}
	made := cookieSecret{drawn: now}
	if c.draw(made.bytes[:]) != nil {
		return false
	}
	c.secrets = append([]cookieSecret{made}, c.secrets...)
	return true
}

// make returns a cookie for an address and a first message; nil if no secret can be drawn.
func (c *cookies) make(addr net.Addr, message []byte, now time.Time) []byte {
	if !c.renew(now) {
		return nil
	}
	return cookieOf(&c.secrets[0].bytes, addr, message)
}

// accept reports whether a cookie is right.
func (c *cookies) accept(cookie []byte, addr net.Addr, message []byte, now time.Time) bool {
	if !c.renew(now) {
		return false
	}
	isRight := false
	for i := range c.secrets {
		isRight = hmac.Equal(cookie, cookieOf(&c.secrets[i].bytes, addr, message)) || isRight
	}
	return isRight
}
