//go:build unix || windows

package main

import (
	"errors"
	"os/signal"
	"syscall"
)

// ignoreClosedOutput makes a closed output an error of its Write.
func ignoreClosedOutput() { signal.Ignore(syscall.SIGPIPE) }

// isReset reports whether the other party's system has ended a connection.
func isReset(err error) bool {
	return errors.Is(err, syscall.ECONNRESET) || errors.Is(err, syscall.EPIPE)
}
