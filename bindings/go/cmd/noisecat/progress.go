package main

import (
	"fmt"
	"io"
	"os"
	"sync/atomic"
	"time"
)

// progress counts what all channels have sent and received, and shows it each second.
type progress struct{ went, came atomic.Int64 }

// show shows what is counted, until its result is called.
func (p *progress) show() (stop func()) {
	begun, ended, gone := time.Now(), make(chan bool), make(chan bool)
	go func() {
		defer close(gone)
		tick := time.NewTicker(time.Second)
		defer tick.Stop()
		for last := int64(0); ; {
			select {
			case <-ended:
				all := p.went.Load() + p.came.Load()
				p.line(begun, float64(all)/time.Since(begun).Seconds())
				fmt.Fprintln(os.Stderr)
				return
			case <-tick.C:
				all := p.went.Load() + p.came.Load()
				p.line(begun, float64(all-last))
				last = all
			}
		}
	}()
	return func() { close(ended); <-gone }
}

// line overwrites the line before.
func (p *progress) line(begun time.Time, rate float64) {
	seconds := int(time.Since(begun).Seconds())
	fmt.Fprintf(os.Stderr, "\r%s sent, %s received, %s/s, %d:%02d:%02d   ", size(float64(p.went.Load())),
		size(float64(p.came.Load())), size(rate), seconds/3600, seconds/60%60, seconds%60)
}

// size returns a count of bytes in a unit of three digits.
func size(count float64) string {
	units := []string{"B", "kB", "MB", "GB", "TB", "PB"}
	for count >= 999.95 && len(units) > 1 {
		count, units = count/1000, units[1:]
	}
	if units[0] == "B" {
		return fmt.Sprintf("%.0f B", count)
	}
	return fmt.Sprintf("%.1f %s", count, units[0])
}

// over returns what a channel is joined to, counted.
func (p *progress) over(target *local) *local {
	counted := *target
	counted.Reader, counted.Writer = &countedReader{target.Reader, &p.went}, &countedWriter{target.Writer, &p.came}
	return &counted
}

type countedReader struct {
	io.Reader
	count *atomic.Int64
}

func (c *countedReader) Read(b []byte) (int, error) {
	n, err := c.Reader.Read(b)
	c.count.Add(int64(n))
	return n, err
}

type countedWriter struct {
	io.Writer
	count *atomic.Int64
}

func (c *countedWriter) Write(b []byte) (int, error) {
	n, err := c.Writer.Write(b)
	c.count.Add(int64(n))
	return n, err
}
