package noise

import (
	"bytes"
	"encoding/hex"
	"encoding/json"
	"fmt"
	"net"
	"os"
	"strconv"
	"testing"
	"time"
)

// ruleCases is vectors/datagrams.json, which an independent program makes.
type ruleCases struct {
	Kinds []struct {
		FirstByte        *byte
		Length, Messages int
		Kind             string
	}
	Hosts   []struct{ IP, Host string }
	Cookies []struct {
		Secret, IP                             string
		Port                                   int
		Address, Message, Cookie, Reply, Again string
	}
	Replies []struct {
		Reply, Message string
		Cookie         *string
	}
	Secrets struct {
		IP      string
		Port    int
		Message string
		Secrets []string
		Steps   []struct {
			Milliseconds int
			Cookie       string
			Accepted     bool
		}
	}
	Firsts []struct {
		HalfDone, Busy int
		Shown          bool
		Came, Answer   int
		Does           string
	}
	Sends []struct {
		Came, Sent, Length int
		Shown, May         bool
	}
	Rates []struct {
		Milliseconds int
		Host         string
		Count, Begin int
	}
	GivesWay []struct {
		Begun []struct {
			Host string
			Done bool
		}
		Place int
	}
	Moves []struct {
		Nonce  string
		Newest *string
		Moves  bool
	}
	Indices []struct{ LastMessage, Index string }
}

func loadRuleCases(t *testing.T) (cases ruleCases) {
	t.Helper()
	path := os.Getenv("NOISE_DATAGRAMS")
	if path == "" {
		path = "../../vectors/datagrams.json"
	}
	text, err := os.ReadFile(path)
	if os.IsNotExist(err) && os.Getenv("NOISE_DATAGRAMS") == "" {
		t.Skip("vectors/datagrams.json isn't part of the package")
	}
	if err != nil {
		t.Fatal(err)
	}
	if err := json.Unmarshal(text, &cases); err != nil {
		t.Fatal(err)
	}
	return cases
}

func unhex(t *testing.T, digits string) []byte {
	t.Helper()
	made, err := hex.DecodeString(digits)
	if err != nil {
		t.Fatal(err)
	}
	return made
}

func udpAddr(ip string, port int) net.Addr { return &net.UDPAddr{IP: net.ParseIP(ip), Port: port} }

func same(t *testing.T, what string, got, want any) {
	t.Helper()
	if fmt.Sprint(got) != fmt.Sprint(want) {
		t.Errorf("%s: %v, and not %v", what, got, want)
	}
}

func TestPacketRulesOfDatagrams(t *testing.T) {
	cases := loadRuleCases(t)
	names := map[packetKind]string{
		kindNone: "none", kindMessage: "message", kindTransport: "transport", kindCookieReply: "cookie reply",
		kindWithCookie: "with cookie",
	}
	for _, it := range cases.Kinds {
		datagram := bytes.Repeat([]byte{7}, it.Length)
		if it.FirstByte != nil {
			datagram[0] = *it.FirstByte
		}
		same(t, fmt.Sprintf("%+v", it), names[kindOf(datagram, it.Messages)], it.Kind)
	}
	for _, it := range cases.Moves {
		nonce, _ := strconv.ParseUint(it.Nonce, 16, 64)
		isMoving := it.Newest == nil
		if it.Newest != nil {
			newest, _ := strconv.ParseUint(*it.Newest, 16, 64)
			isMoving = moves(nonce, newest)
		}
		same(t, fmt.Sprintf("%+v", it), isMoving, it.Moves)
	}
	for _, it := range cases.Indices {
		index := indexOf(unhex(t, it.LastMessage))
		same(t, it.LastMessage, hex.EncodeToString(index[:]), it.Index)
	}
}

func TestPacketRulesOfCookies(t *testing.T) {
	cases := loadRuleCases(t)
	for _, it := range cases.Cookies {
		var secret [32]byte
		copy(secret[:], unhex(t, it.Secret))
		addr, message := udpAddr(it.IP, it.Port), unhex(t, it.Message)
		cookie := cookieOf(&secret, addr, message)
		same(t, "address", hex.EncodeToString(addressBytes(addr)), it.Address)
		same(t, "cookie", hex.EncodeToString(cookie), it.Cookie)
		same(t, "reply", hex.EncodeToString(cookieReply(message, cookie)), it.Reply)
		same(t, "again", hex.EncodeToString(withCookie(cookie, message)), it.Again)
	}
	for _, it := range cases.Replies {
		cookie := cookieIn(unhex(t, it.Reply), unhex(t, it.Message))
		same(t, it.Reply, cookie != nil, it.Cookie != nil)
		if it.Cookie != nil {
			same(t, it.Reply, hex.EncodeToString(cookie), *it.Cookie)
		}
	}
	given, start := cases.Secrets, time.Now()
	drawn := given.Secrets
	secrets := cookies{draw: func(to []byte) error {
		copy(to, unhex(t, drawn[0]))
		drawn = drawn[1:]
		return nil
	}}
	for _, it := range given.Steps {
		isRight := secrets.accept(unhex(t, it.Cookie), udpAddr(given.IP, given.Port), unhex(t, given.Message),
			start.Add(time.Duration(it.Milliseconds)*time.Millisecond))
		same(t, fmt.Sprintf("%+v", it), isRight, it.Accepted)
	}
	same(t, "secrets that weren't drawn", len(drawn), 0)
}

func TestPacketRulesOfAddresses(t *testing.T) {
	cases := loadRuleCases(t)
	for _, it := range cases.Hosts {
		same(t, it.IP, hex.EncodeToString([]byte(hostOf(udpAddr(it.IP, 4045)))), it.Host)
	}
	zoned := &net.UDPAddr{IP: net.ParseIP("fe80::1"), Port: 1, Zone: "eth0"}
	same(t, "a zone", addressBytes(zoned), addressBytes(udpAddr("fe80::1", 1)))
	same(t, "a path", addressBytes(&net.UnixAddr{Name: "/a/socket", Net: "unixgram"}), []byte("\x00/a/socket"))
}

func TestPacketRulesOfFirstMessages(t *testing.T) {
	cases := loadRuleCases(t)
	names := map[firstAnswer]string{answerNone: "none", answerMessage: "answer", answerCookie: "cookie"}
	for _, it := range cases.Firsts {
		got := decideFirst(it.HalfDone, it.Busy, it.Shown, it.Came, it.Answer)
		same(t, fmt.Sprintf("%+v", it), names[got], it.Does)
	}
	for _, it := range cases.Sends {
		same(t, fmt.Sprintf("%+v", it), maySend(it.Came, it.Sent, it.Length, it.Shown), it.May)
	}
	rate := hostRate{}
	for _, it := range cases.Rates {
		begun := 0
		for i := 0; i < it.Count; i++ {
			if rate.allow(it.Host, time.Duration(it.Milliseconds)*time.Millisecond) {
				begun++
			}
		}
		same(t, fmt.Sprintf("%+v", it), begun, it.Begin)
	}
	for _, it := range cases.GivesWay {
		var begun []halfDone
		for _, one := range it.Begun {
			begun = append(begun, halfDone{one.Host, one.Done})
		}
		same(t, fmt.Sprintf("%+v", it), givesWay(begun), it.Place)
	}
}
