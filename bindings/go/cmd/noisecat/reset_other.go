//go:build !unix && !windows

package main

// ignoreClosedOutput does nothing where a closed output ends no process.
func ignoreClosedOutput() {}

// isReset reports nothing where the system has no such errors.
func isReset(error) bool { return false }
