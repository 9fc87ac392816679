//go:build go1.21

package noise

import (
	"fmt"
	"log/slog"
)

// LogValue returns no byte of the key.
func (Secret) LogValue() slog.Value { return slog.StringValue(hidden) }

// LogValue returns no byte of the key.
func (PSK) LogValue() slog.Value { return slog.StringValue(hidden) }

// LogValue returns the public key alone.
func (k KeyPair) LogValue() slog.Value { return slog.StringValue(fmt.Sprint(k)) }
