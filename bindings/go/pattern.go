package noise

import (
	"fmt"
	"strings"
	"sync"

	"example.org/yulimosar/noise/internal/library"
)

// pattern is what the library says of a pattern.
type pattern struct {
	fault    error   // why it isn't accepted
	known    [2]bool // whether the static key of the initiator, and of the responder, is in a pre-message
	early    bool    // an ephemeral key is in a pre-message
	messages []message
	psks     int // the number of psk tokens
	isOneWay bool
}

type message struct {
	byInitiator bool
	tokens      []string
	hasE        bool
	e           int // the offset of its ephemeral key
	least       int // its length without a payload
}

// The tokens by their numbers in the library.
var tokenNames = [...]string{"", "e", "s", "ee", "es", "se", "ss", "psk", payloadToken}

// PatternError is a fault of a pattern text. It is an ErrPattern.
type PatternError struct {
	// Line is the line of the text, counted from 1; 0 if the pattern breaks a rule of validity.
	Line int
	// Rule is the lowest rule, 1 to 5, that is broken at the first place where any is; 0 if the text has a fault.
	Rule int
	// Message and Token say where a rule is broken: the message is counted from 1, and the token from 0.
	Message, Token int
	code           Code
}

// Error returns the place, and what is wrong there.
func (e *PatternError) Error() string {
	if e.Line > 0 {
		return fmt.Sprintf("noise: line %d of the pattern text: %s", e.Line, texts[e.code])
	}
	return fmt.Sprintf("noise: the pattern breaks rule %d of validity in message %d, token %d",
		e.Rule, e.Message, e.Token)
}

// Is reports whether an error is ErrPattern.
func (e *PatternError) Is(target error) bool { return target == ErrPattern }

var patterns sync.Map // those of the protocol names that handshakes had, by name: a few hundred names are valid

// patternOf asks the library for the pattern of a protocol name or a pattern text.
func patternOf(text string) *pattern {
	if p, ok := patterns.Load(text); ok {
		return p.(*pattern)
	}
	p := new(pattern)
	deep(func() { p.ask([]byte(text)) })
	if p.fault == nil && !strings.HasSuffix(text, "\n") {
		patterns.Store(text, p)
	}
	return p
}

func (p *pattern) ask(text []byte) {
	var info library.PatternInfo
	var result library.PatternResult
	switch code := Code(library.Pattern(place(text), uint(len(text)), &info, &result)); code {
	case 0:
	case ErrName:
		p.fault = ErrName
		return
	case codeRule:
		p.fault = &PatternError{
			Rule:    int(result.Rule),
			Message: int(result.Message),
			Token:   int(result.Token),
			code:    code,
		}
		return
	default:
		p.fault = &PatternError{Line: int(result.Line), code: code}
		return
	}
	p.psks, p.isOneWay = int(info.PSKs), info.OneWay != 0
	for party, tokens := range info.PreMessages {
		for _, token := range tokens {
			p.known[party] = p.known[party] || tokenNames[token] == "s"
			p.early = p.early || tokenNames[token] == "e"
		}
	}
	for i := 0; i < int(info.Messages); i++ {
		var layout library.MessageLayout
		if code := library.Layout(place(text), uint(len(text)), byte(i+1), 0, &layout); code != 0 {
			p.fault = Code(code)
			return
		}
		p.messages = append(p.messages, laidOut(i%2 == 0, &layout))
	}
}

// laidOut returns what a layout says of a message without a payload; the payload is its last piece.
func laidOut(byInitiator bool, layout *library.MessageLayout) message {
	m := message{byInitiator: byInitiator, least: int(layout.Len)}
	for _, piece := range layout.Pieces[:layout.Count-1] {
		name := tokenNames[piece.Token]
		m.tokens = append(m.tokens, name)
		if name == "e" {
			m.hasE, m.e = true, int(piece.From)
		}
	}
	return m
}

// longest returns the length of the longest message without a payload.
func (p *pattern) longest() int {
	most := 0
	for _, m := range p.messages {
		if m.least > most {
			most = m.least
		}
	}
	return most
}

// knows reports whether a party needs the other's static key beforehand.
func (p *pattern) knows(initiator bool) bool { return p.known[index(initiator)] }

// learns returns the message, from 0 on, that gives a party the other's static key; -1 if none does.
func (p *pattern) learns(initiator bool) int {
	for i, m := range p.messages {
		if m.byInitiator != initiator && contains(m.tokens, "s") {
			return i
		}
	}
	return -1
}

// learnsBeforePSK reports whether a message gives a party the other's static key before the first psk token.
func (p *pattern) learnsBeforePSK(initiator bool) bool {
	for _, m := range p.messages {
		for _, token := range m.tokens {
			switch {
			case token == "psk":
				return false
			case token == "s" && m.byInitiator != initiator:
				return true
			}
		}
	}
	return false
}

// payloadToken stands for the payload where a token is named.
const payloadToken = "payload"

// tokenAt returns the name of a token of a message, both from 0 on; after the last comes the payload.
func (p *pattern) tokenAt(message, token int) string {
	if tokens := p.messages[message].tokens; token < len(tokens) {
		return tokens[token]
	}
	return payloadToken
}

// differences returns in what two parties may differ if the tag is wrong at a token of a message, both from 0 on.
func (p *pattern) differences(message, token int) string {
	last := p.messages[message].tokens
	if token < len(last) {
		last = last[:token]
	}
	hasPSK := contains(last, "psk")
	for _, m := range p.messages[:message] {
		hasPSK = hasPSK || contains(m.tokens, "psk")
	}
	hasKey := p.known[0] || p.known[1]
	switch {
	case hasKey && hasPSK:
		return "the pattern, the prologue, a psk or a static key known beforehand"
	case hasKey:
		return "the pattern, the prologue or a static key known beforehand"
	case hasPSK:
		return "the pattern, the prologue or a psk"
	}
	return "the pattern or the prologue"
}

// index returns the place of a party in an array of two, and in a DH token: the initiator comes first.
func index(responder bool) int {
	if responder {
		return 1
	}
	return 0
}

func contains(tokens []string, wanted string) bool {
	for _, token := range tokens {
		if token == wanted {
			return true
		}
	}
	return false
}
