//go:build race

package noise

import (
	"os"
	"os/exec"
	"strings"
	"testing"
)

const isRace = true

// TestRaceIsSeen runs itself with two goroutines of which one changes a payload while the other seals it: the
// race detector has to say so.
func TestRaceIsSeen(t *testing.T) {
	if os.Getenv("NOISE_RACES") != "" {
		a, _ := finished(t, "NN")
		s, _, err := a.Split()
		must(t, err)
		payload, done := make([]byte, 1000), make(chan bool)
		go func() { payload[500] = 1; close(done) }()
		_, err = s.Seal(nil, payload)
		must(t, err)
		<-done
		return
	}
	cmd := exec.Command(os.Args[0], "-test.run", "TestRaceIsSeen")
	cmd.Env = append(os.Environ(), "NOISE_RACES=1")
	said, err := cmd.CombinedOutput()
	if err == nil || !strings.Contains(string(said), "DATA RACE") {
		t.Errorf("%v: %s", err, said)
	}
}
