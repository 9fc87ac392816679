// Package suite runs the suite of test vectors with an implementation in Go. A program calls Main with a function that
// starts a party: see the folders beside this.
package suite

import (
	"bufio"
	"bytes"
	"crypto/sha256"
	"encoding/hex"
	"encoding/json"
	"encoding/xml"
	"errors"
	"fmt"
	"os"
	"strconv"
	"strings"
)

// ErrNotSupported is what a party returns where its Noise doesn't claim to do something: the test isn't run.
var ErrNotSupported = errors.New("not supported")

// Bytes are given as hex digits, by a rule (byte and count), or of a long message by its digest.
type Bytes struct {
	Data   []byte
	SHA256 string
}

// UnmarshalJSON reads any of the three.
func (b *Bytes) UnmarshalJSON(text []byte) (err error) {
	var rule struct {
		Byte, SHA256 string
		Count        int
	}
	var digits string
	if text[0] == '"' {
		if err = json.Unmarshal(text, &digits); err == nil {
			b.Data, err = hex.DecodeString(digits)
		}
		return err
	}
	if err = json.Unmarshal(text, &rule); err != nil {
		return err
	}
	b.SHA256 = rule.SHA256
	one, err := hex.DecodeString(rule.Byte)
	b.Data = bytes.Repeat(one, rule.Count)
	return err
}

// fault says what is wrong if these aren't the bytes.
func (b *Bytes) fault(do string, data []byte) error {
	right, got := fmt.Sprintf("%x", b.Data), fmt.Sprintf("%x", data)
	if b.SHA256 != "" {
		right, got = b.SHA256, fmt.Sprintf("%x", sha256.Sum256(data))
	}
	if got == right {
		return nil
	}
	return fmt.Errorf("%s: %.400s in place of %.400s", do, got, right)
}

// Keys are a party's private keys, and the public ones of the other party's pre-message.
type Keys struct{ E, S, RE, RS Bytes }

// Setup is what a party starts from. What is "name" if the protocol name is tested: read it, and not the pattern.
type Setup struct {
	Protocol, What       string
	Pattern              []string
	Prologue             Bytes
	PSKs                 []Bytes
	Initiator, Responder Keys
}

// Group is a set-up, the right conversation, and the tests.
type Group struct {
	Setup
	Type     string
	Hash     Bytes
	Messages []struct{ Payload, Message Bytes }
	Tests    []*Test
}

// Keys returns those of a role.
func (g *Setup) Keys(role string) *Keys {
	if role == "initiator" {
		return &g.Initiator
	}
	return &g.Responder
}

// Algorithm returns the DH function, the cipher or the hash of the protocol name: number 0, 1 or 2.
func (g *Setup) Algorithm(number int) string {
	if parts := strings.Split(g.Protocol, "_"); len(parts) == 5 {
		return parts[2+number]
	}
	return ""
}

// Before returns the tokens of a role's pre-message, joined by commas.
func (g *Setup) Before(role string) string {
	arrow := map[string]string{"initiator": "-> ", "responder": "<- "}[role]
	for i, line := range g.Pattern {
		if line == "..." {
			for _, line := range g.Pattern[:i] {
				if strings.HasPrefix(line, arrow) {
					return line[3:]
				}
			}
		}
	}
	return ""
}

// name returns that of the pattern, with its psk indices.
func (g *Group) name() string {
	if parts := strings.Split(g.Protocol, "_"); len(parts) > 1 {
		return parts[1]
	}
	return strings.ToLower(strings.TrimPrefix(g.Type, "Noise"))
}

// Tokens returns the tokens of each message of the handshake.
func (g *Setup) Tokens() (messages [][]string) {
	for _, line := range g.Pattern {
		if line == "..." {
			messages = nil
		} else {
			messages = append(messages, strings.Split(line[3:], ", "))
		}
	}
	return messages
}

// Test is a test, and what came of it. A test of a set-up has that itself.
type Test struct {
	Setup
	Place                 string
	ID                    int `json:"tcId"`
	Comment, Result, Role string
	Flags                 []string
	Steps                 []Step
	Message, Frame        Bytes

	group                 *Group
	pattern, outcome, why string
}

// A note says of a flag whether it is of a kind of cases, `case`, or of a `mistake`.
type note struct{ Kind string }

// Step is a step of a test.
type Step struct {
	Do, Role, Direction, Nonce, Refused, At string
	Message, Cut                            *int
	Optional                                bool
	XOR                                     []int
	Append                                  Bytes
	Bytes, Is, Payload                      *Bytes
}

// Party is one party of a Noise. An error of a call is a refusal. After the handshake, Write and Read
// are of transport messages.
type Party interface {
	Write(payload []byte) ([]byte, error)
	Read(message []byte) ([]byte, error)
	Rekey(direction string) error
	SetNonce(direction string, nonce uint64) error
	Hash() []byte
	// RemoteStatic returns the other party's static key, after the handshake.
	RemoteStatic() ([]byte, error)
	// Place returns the token at which a message was refused; nothing if the Noise doesn't say so.
	Place(err error) string
}

// Start starts a party of a set-up.
type Start func(setup *Setup, role string) (Party, error)

// run is a test that is being run.
type run struct {
	group   *Group
	setup   *Setup
	test    *Test
	start   Start
	parties map[string]Party
	written map[int][]byte
}

func (r *run) party(role string) (Party, error) {
	if p := r.parties[role]; p != nil {
		return p, nil
	}
	p, err := r.start(r.setup, role)
	r.parties[role] = p
	return p, err
}

// received returns the bytes that a step reads, with the step's change.
func (r *run) received(s *Step) []byte {
	var data []byte
	if s.Bytes != nil {
		data = s.Bytes.Data
	} else if message := &r.group.Messages[*s.Message].Message; message.SHA256 != "" {
		data = r.written[*s.Message]
	} else {
		data = message.Data
	}
	if s.Cut != nil {
		data = data[:*s.Cut]
	}
	data = append(append([]byte{}, data...), s.Append.Data...)
	if s.XOR != nil {
		data[s.XOR[0]] ^= byte(s.XOR[1])
	}
	return data
}

// call makes the call of a step, and returns what it has to give.
func (r *run) call(p Party, s *Step) (got []byte, wanted *Bytes, err error) {
	switch s.Do {
	case "write":
		payload := s.Payload
		if payload == nil {
			payload = &r.group.Messages[*s.Message].Payload
		}
		got, err = p.Write(payload.Data)
		if s.Message != nil {
			r.written[*s.Message] = got
			wanted = &r.group.Messages[*s.Message].Message
		}
		if s.Is != nil {
			wanted = s.Is
		}
	case "read":
		if wanted = s.Payload; wanted == nil && s.Message != nil {
			wanted = &r.group.Messages[*s.Message].Payload
		}
		got, err = p.Read(r.received(s))
	case "rekey":
		err = p.Rekey(s.Direction)
	case "nonce":
		nonce, _ := strconv.ParseUint(s.Nonce, 10, 64)
		err = p.SetNonce(s.Direction, nonce)
	case "hash":
		got, wanted = p.Hash(), &r.group.Hash
	case "remote":
		wanted = s.Is
		got, err = p.RemoteStatic()
	}
	if wanted == nil {
		wanted = &Bytes{}
	}
	return got, wanted, err
}

// step takes a step: whether the test goes on, and what is wrong.
func (r *run) step(s *Step) (on bool, fault error) {
	role := s.Role
	if role == "" {
		role = r.test.Role
	}
	p, err := r.party(role)
	switch {
	case errors.Is(err, ErrNotSupported):
		return false, err
	case err != nil && r.test.Steps[0].Optional:
		return false, nil
	case err != nil:
		return false, fmt.Errorf("the start was refused: %v", err)
	}
	got, wanted, err := r.call(p, s)
	switch {
	case errors.Is(err, ErrNotSupported):
		return false, err
	case err != nil && s.Refused == "" && s.Optional:
		return false, nil
	case err != nil && s.Refused == "":
		return false, fmt.Errorf("%s was refused: %v", s.Do, err)
	case err != nil:
		if at := p.Place(err); at != "" && at != s.At {
			return false, fmt.Errorf("refused at %s, in place of %s", at, s.At)
		}
		return true, nil
	case s.Refused != "" && s.At != "":
		return false, fmt.Errorf("%s was accepted, and has to be refused: %s at %s", s.Do, s.Refused, s.At)
	case s.Refused != "":
		return false, fmt.Errorf("%s was accepted, and has to be refused: %s", s.Do, s.Refused)
	}
	err = wanted.fault(s.Do, got)
	return err == nil, err
}

// run takes the steps: whether none was refused that may be, and what is wrong.
func (r *run) run() (through bool, fault error) {
	for i := range r.test.Steps {
		on, err := r.step(&r.test.Steps[i])
		if err != nil && !errors.Is(err, ErrNotSupported) {
			err = fmt.Errorf("step %d: %v", i, err)
		}
		if !on {
			return false, err
		}
	}
	return true, nil
}

// runStart runs a test of a set-up: if it is wrong, the start or a later step has to be refused.
func (r *run) runStart() error {
	through, err := r.run()
	if r.test.Result != "invalid" || errors.Is(err, ErrNotSupported) {
		return err
	}
	if through || err != nil {
		return fmt.Errorf("the set-up was taken, and has to be refused: %s", r.test.Place)
	}
	return nil
}

// pass runs a test.
func (t *Test) pass(g *Group, start Start) {
	defer func() {
		if r := recover(); r != nil {
			t.outcome, t.why = "failed", fmt.Sprint("crashed: ", r)
		}
	}()
	var err error
	r := &run{g, &g.Setup, t, start, map[string]Party{}, map[int][]byte{}}
	switch g.Type {
	case "NoiseHandshake":
		_, err = r.run()
	case "NoiseStart":
		r.setup = &t.Setup
		err = r.runStart()
	default:
		err = fmt.Errorf("%w: frames are the caller's", ErrNotSupported)
	}
	t.outcome = "passed"
	if errors.Is(err, ErrNotSupported) {
		t.outcome, t.why = "not run", err.Error()
	} else if err != nil {
		t.outcome, t.why = "failed", err.Error()
	}
}

const usage = `usage: %s SUITE.json [JUNIT.xml] [--only WORDS]
       %[1]s --lines

It runs the suite, and reports. JUNIT.xml gets each test. --only runs a part: the tests that have one
of the words, which are joined by commas, as number, pattern or flag. The status is 0 if no test
failed, 1 if one did, and 2 if nothing was run. --lines speaks the line protocol instead.
`

// end ends the program with the status 2.
func end(format string, of ...any) {
	fmt.Fprintf(os.Stderr, format, of...)
	os.Exit(2)
}

// wordsOf returns the words of the command line but --only, and what that chooses.
func wordsOf(name string) (words []string, only string) {
	for i := 1; i < len(os.Args); i++ {
		if os.Args[i] == "--only" && i+1 < len(os.Args) {
			i++
			only = os.Args[i]
		} else {
			words = append(words, os.Args[i])
		}
	}
	if len(words) > 0 && (words[0] == "--help" || words[0] == "-h") {
		fmt.Printf(usage, name)
		os.Exit(0)
	}
	if len(words) != 1 && len(words) != 2 || words[0] == "--only" {
		end(usage, name)
	}
	return words, only
}

// chosen returns the tests of the groups: those that only names, or all.
func chosen(groups []*Group, only string) (tests []*Test, err error) {
	found := map[string]bool{}
	for _, word := range strings.Split(only, ",") {
		found[word] = only == ""
	}
	for _, g := range groups {
		for _, t := range g.Tests {
			t.group, t.pattern = g, g.name()
			is := only == ""
			for _, has := range append([]string{strconv.Itoa(t.ID), t.pattern}, t.Flags...) {
				if _, wanted := found[has]; wanted {
					found[has], is = true, true
				}
			}
			if is {
				tests = append(tests, t)
			}
		}
	}
	for word, is := range found {
		if !is {
			return nil, fmt.Errorf("no test has the number, pattern or flag %s", word)
		}
	}
	return tests, nil
}

// Main runs the suite of the first word of the command line, and reports; see usage.
func Main(name string, start Start) {
	words, only := wordsOf(name)
	if words[0] == "--lines" {
		speak(start)
		return
	}
	text, err := os.ReadFile(words[0])
	var suite struct {
		Notes  map[string]note
		Groups []*Group `json:"testGroups"`
	}
	if err == nil {
		err = json.Unmarshal(text, &suite)
	}
	var tests []*Test
	if err == nil {
		tests, err = chosen(suite.Groups, only)
	}
	if err != nil {
		end("%s: %v\n", name, err)
	}
	for _, t := range tests {
		t.pass(t.group, start)
	}
	failed := printReport(tests, suite.Notes)
	if len(words) > 1 {
		if err := writeJUnit(words[1], name, tests); err != nil {
			end("%s: %v\n", name, err)
		}
	}
	if failed {
		os.Exit(1)
	}
}

// wordOf returns the bytes of a word of the line protocol.
func wordOf(word string) Bytes {
	data, _ := hex.DecodeString(word) // "-" and "empty" are none
	return Bytes{Data: data}
}

// setupOf returns the set-up of a line that starts a party.
func setupOf(words []string) *Setup {
	keys := Keys{E: wordOf(words[5]), S: wordOf(words[6]), RE: wordOf(words[7]), RS: wordOf(words[8])}
	g := &Setup{What: words[1], Prologue: wordOf(words[3]), Protocol: words[9], Initiator: keys, Responder: keys}
	for _, line := range strings.Split(words[2], "/") {
		line = strings.ReplaceAll(line, ",", ", ")
		if len(line) > 2 && line != "..." {
			line = line[:2] + " " + line[2:]
		}
		g.Pattern = append(g.Pattern, line)
	}
	for _, it := range strings.Split(words[4], ",") {
		if it != "-" {
			g.PSKs = append(g.PSKs, wordOf(it))
		}
	}
	return g
}

// answer answers a line of the line protocol.
func answer(p *Party, start Start, words []string) (data []byte, err error) {
	switch words[0] {
	case "start":
		*p, err = start(setupOf(words[1:]), words[1])
	case "write":
		data, err = (*p).Write(wordOf(words[1]).Data)
	case "read":
		data, err = (*p).Read(wordOf(words[1]).Data)
	case "rekey":
		err = (*p).Rekey(words[1])
	case "nonce":
		nonce, _ := strconv.ParseUint(words[2], 10, 64)
		err = (*p).SetNonce(words[1], nonce)
	case "hash":
		data = (*p).Hash()
	case "remote":
		data, err = (*p).RemoteStatic()
	}
	return data, err
}

// speak speaks the line protocol.
func speak(start Start) {
	var p Party
	lines := bufio.NewScanner(os.Stdin)
	lines.Buffer(nil, 1<<20)
	for lines.Scan() {
		data, err := answer(&p, start, strings.SplitN(lines.Text(), " ", 11))
		switch {
		case errors.Is(err, ErrNotSupported):
			fmt.Println("unsupported", err)
		case err != nil && p != nil:
			fmt.Println("refused", p.Place(err))
		case err != nil:
			fmt.Println("refused")
		default:
			fmt.Printf("ok %x\n", data)
		}
	}
}

// printReport prints a line for each flag, the tests that failed, and why some weren't run.
func printReport(tests []*Test, notes map[string]note) (failed bool) {
	counts, total, reasons := map[string]map[string]int{}, map[string]int{}, map[string]int{}
	var flags, why []string
	for _, t := range tests {
		total[t.outcome]++
		for _, flag := range t.Flags {
			if counts[flag] == nil {
				counts[flag] = map[string]int{}
				flags = append(flags, flag)
			}
			counts[flag][t.outcome]++
		}
		if t.outcome == "not run" {
			if reasons[t.why] == 0 {
				why = append(why, t.why)
			}
			reasons[t.why]++
		}
	}
	fmt.Printf("%-28s %-7s %7s %7s %7s\n", "flag", "kind", "passed", "failed", "not run")
	for _, flag := range flags {
		count := counts[flag]
		fmt.Printf("%-28s %-7s %7d %7d %7d\n", flag, notes[flag].Kind,
			count["passed"], count["failed"], count["not run"])
	}
	printFailures(tests, flags)
	for _, it := range why {
		fmt.Printf("not run %d: %s\n", reasons[it], it)
	}
	fmt.Printf("%d passed, %d failed, %d not run\n", total["passed"], total["failed"], total["not run"])
	return total["failed"] > 0
}

// printFailures prints the tests that failed, by their first flag: those first that accept what has
// to be refused.
func printFailures(tests []*Test, flags []string) {
	for _, head := range []string{"accepted, and has to be refused", "other failures"} {
		var some []*Test
		for _, flag := range flags {
			for _, t := range tests {
				isAccepted := strings.Contains(t.why, "and has to be refused")
				if t.Flags[0] == flag && t.outcome == "failed" && isAccepted == (head[0] == 'a') {
					some = append(some, t)
				}
			}
		}
		if len(some) > 0 {
			fmt.Printf("%s: %d\n", head, len(some))
		}
		for _, t := range some {
			fmt.Printf("failed %d %s %s: %s: %s\n", t.ID, t.pattern, strings.Join(t.Flags, ","), t.Comment, t.why)
		}
	}
}

type junitMessage struct {
	Message string `xml:"message,attr"`
}

type junitCase struct {
	Class   string        `xml:"classname,attr"`
	Name    string        `xml:"name,attr"`
	Failure *junitMessage `xml:"failure"`
	Skipped *junitMessage `xml:"skipped"`
}

type junitSuite struct {
	XMLName  xml.Name    `xml:"testsuite"`
	Name     string      `xml:"name,attr"`
	Tests    int         `xml:"tests,attr"`
	Failures int         `xml:"failures,attr"`
	Skipped  int         `xml:"skipped,attr"`
	Cases    []junitCase `xml:"testcase"`
}

// writeJUnit writes JUnit's XML: a test case for each test, whose class is its first flag.
func writeJUnit(path, name string, tests []*Test) error {
	made := junitSuite{Name: name, Tests: len(tests)}
	for _, t := range tests {
		it := junitCase{Class: t.Flags[0], Name: fmt.Sprintf("%d %s: %s", t.ID, t.pattern, t.Comment)}
		switch t.outcome {
		case "failed":
			it.Failure = &junitMessage{t.why}
			made.Failures++
		case "not run":
			it.Skipped = &junitMessage{t.why}
			made.Skipped++
		}
		made.Cases = append(made.Cases, it)
	}
	text, err := xml.MarshalIndent(made, "", " ")
	if err != nil {
		return err
	}
	return os.WriteFile(path, append([]byte(xml.Header), text...), 0o666)
}
