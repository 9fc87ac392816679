package main

import (
	"errors"
	"fmt"
	"io"
	"net"
	"os"
	"os/exec"
	"os/signal"
	"strings"
	"sync"

	"example.org/yulimosar/noise"
)

// command is a running command of -exec.
type command struct {
	*exec.Cmd
	in    io.WriteCloser
	isOff bool // it reads no more
	once  sync.Once
	mutex sync.Mutex
	ended bool
	err   error // its status
}

// executed joins to the standard input and output of a new process, which after a fault is killed, with those that it
// has started. A status other than 0 is a fault.
func executed(words string, peer *noise.Conn) (*local, error) {
	c := &command{Cmd: exec.Command("/bin/sh", "-c", words)}
	c.Stderr = os.Stderr
	c.Env = environment(peer)
	setGroup(c.Cmd)
	out, err := c.StdoutPipe()
	if err == nil {
		c.in, err = c.StdinPipe()
	}
	if err == nil {
		err = c.start()
	}
	if err != nil {
		return nil, err
	}
	done := func() error {
		if err := c.in.Close(); !errors.Is(err, os.ErrClosed) { // which it is if the command has ended
			return err
		}
		return nil
	}
	return &local{&untilEnd{out, c.wait}, c, done, func(isWhole bool) error {
		c.in.Close()
		if isWhole {
			out.Close()
			go c.wait() // in a one-way pattern nobody has read to its end
			return nil
		}
		c.kill()
		c.wait()
		return nil
	}}, nil
}

// environment is this process's, with what is known of the other party.
func environment(peer *noise.Conn) (all []string) {
	const key, address = "NOISECAT_PEER_KEY=", "NOISECAT_PEER_ADDRESS="
	for _, it := range os.Environ() {
		if !strings.HasPrefix(it, key) && !strings.HasPrefix(it, address) {
			all = append(all, it)
		}
	}
	if static := peer.ConnectionState().PeerStatic; static != nil {
		all = append(all, key+static.String())
	}
	if addr, ok := peer.RemoteAddr().(*net.TCPAddr); ok {
		all = append(all, address+addr.String())
	}
	return all
}

// Write writes to the command's standard input. What a command doesn't read is dropped: its status says whether that is
// a fault.
func (c *command) Write(b []byte) (int, error) {
	if !c.isOff {
		_, err := c.in.Write(b)
		c.isOff = err != nil
	}
	return len(b), nil
}

// running are the commands that run.
var running = struct {
	sync.Mutex
	all  map[*command]bool
	once sync.Once
}{all: map[*command]bool{}}

// start starts the command; a signal that ends this process then kills it.
func (c *command) start() error {
	running.once.Do(func() {
		signals := make(chan os.Signal, 1)
		signal.Notify(signals, endings...)
		go func() {
			s := <-signals
			running.Lock() // and no other command starts
			for it := range running.all {
				it.kill()
			}
			dieOf(s)
		}()
	})
	running.Lock()
	defer running.Unlock()
	err := c.Start()
	if err == nil {
		running.all[c] = true
	}
	return err
}

// wait waits for the command.
func (c *command) wait() error {
	c.once.Do(func() {
		c.err = c.Wait()
		c.mutex.Lock()
		c.ended = true
		c.mutex.Unlock()
		running.Lock()
		delete(running.all, c)
		running.Unlock()
	})
	return c.err
}

// kill kills the command and what it has started, unless it has ended.
func (c *command) kill() {
	c.mutex.Lock()
	defer c.mutex.Unlock()
	if !c.ended {
		killGroup(c.Cmd)
	}
}

// untilEnd asks at the end of what it reads whether that is all.
type untilEnd struct {
	io.Reader
	ask func() error
}

func (u *untilEnd) Read(b []byte) (int, error) {
	n, err := u.Reader.Read(b)
	if n == 0 && err == io.EOF {
		if ended := u.ask(); ended != nil {
			return 0, fmt.Errorf("-exec: %w", ended)
		}
	}
	return n, err
}
