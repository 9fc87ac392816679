package live

import (
	"fmt"
	"os"
	"os/exec"
	"strings"
	"testing"

	"example.org/yulimosar/noise"
)

// TestJavaScript runs the package against checks/web/echo.mjs, which has the JavaScript module. NOISE_JS_ECHO has the
// path of a program that runs it.
func TestJavaScript(t *testing.T) {
	program := os.Getenv("NOISE_JS_ECHO")
	if program == "" {
		t.Skip("NOISE_JS_ECHO isn't set")
	}
	for _, name := range []string{
		"X", "NNpsk0+psk2", "NKpsk2", "XX", "IKpsk1", "KKpsk0",
		"MINEpsk3:\n  <- s\n  ...\n  -> e, es\n  <- e, ee\n  -> s, se, psk\n",
	} {
		for _, initiator := range []bool{true, false} {
			name, initiator := name, initiator
			t.Run(fmt.Sprintf("%.8s/%v", name, initiator), func(t *testing.T) {
				t.Parallel()
				withJavaScript(t, program, name, initiator)
			})
		}
	}
}

// TestJavaScriptPSKOfEachPeer is pskOfEachPeer with the same program.
func TestJavaScriptPSKOfEachPeer(t *testing.T) {
	program := os.Getenv("NOISE_JS_ECHO")
	if program == "" {
		t.Skip("NOISE_JS_ECHO isn't set")
	}
	pskOfEachPeer(t, program)
}

func withJavaScript(t *testing.T, program, name string, initiator bool) {
	own, err := noise.GenerateKeyPair()
	must(t, err)
	other, err := noise.GenerateKeyPair()
	must(t, err)
	config := &noise.Config{Pattern: name, Prologue: []byte("live"), Static: own, InsecureAcceptAnyKey: true}
	known := map[bool]string{true: " X NKpsk2 IKpsk1 KKpsk0 ", false: " KKpsk0 "}[initiator]
	if strings.Contains(known, " "+name+" ") || initiator && strings.Contains(name, "\n") {
		key := other.Public()
		config.PeerStatic = &key
	}
	heading, _, _ := strings.Cut(name, ":")
	psks := []string{}
	for i := 0; i < strings.Count(heading, "psk"); i++ {
		config.PSKs = append(config.PSKs, pskOf(byte(i+7)))
		psks = append(psks, strings.Repeat(fmt.Sprintf("%02x", i+7), 32))
	}
	words := []string{name, hexOf(other), fmt.Sprintf("%x", own.Public()), "-"}
	if len(psks) > 0 {
		words[3] = strings.Join(psks, ",")
	}
	if initiator {
		toRust(t, exec.Command(program, append(words, "@127.0.0.1:0")...), config, name == "X")
	} else {
		fromRust(t, program, words, config, name == "X")
	}
}
