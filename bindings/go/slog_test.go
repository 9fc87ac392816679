//go:build go1.21

package noise

import (
	"bytes"
	"log/slog"
	"strings"
	"testing"
)

// TestSecretsInLogs logs secrets alone, and in what has them.
func TestSecretsInLogs(t *testing.T) {
	var to bytes.Buffer
	own := pair(t)
	secret, psk := own.Secret(), pskOf(0xa7)
	for _, handler := range []slog.Handler{slog.NewJSONHandler(&to, nil), slog.NewTextHandler(&to, nil)} {
		for _, it := range []any{
			secret, &secret, psk, &psk, []PSK{psk}, own, struct{ PSK PSK }{psk}, map[string]PSK{"psk": psk},
		} {
			to.Reset()
			slog.New(handler).Info("message", "it", it)
			if text := to.String(); strings.Contains(text, "a7a7") || strings.Contains(text, "167") ||
				strings.Contains(text, `\xa7`) || strings.Contains(text, "§") {
				t.Errorf("%T: %s", it, text)
			}
		}
		for _, it := range []any{secret, &secret, psk, &psk} {
			to.Reset()
			if slog.New(handler).Info("message", "it", it); !strings.Contains(to.String(), hidden) {
				t.Errorf("%T: %s", it, &to)
			}
		}
	}
}
