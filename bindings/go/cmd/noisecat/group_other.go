//go:build !unix

package main

import (
	"os"
	"os/exec"
)

// endings are the signals that end this process, with the commands that it runs.
var endings = []os.Signal{os.Interrupt}

// dieOf ends this process after a signal.
func dieOf(os.Signal) { os.Exit(1) }

func setGroup(*exec.Cmd) {}

// killGroup kills a command; what that has started goes on.
func killGroup(cmd *exec.Cmd) { cmd.Process.Kill() }

// mayPass reports whether a listener may accept again after this error.
func mayPass(error) bool { return false }
