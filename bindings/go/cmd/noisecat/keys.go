package main

import (
	"context"
	"errors"
	"fmt"
	"io"
	"os"
	"runtime"
	"strings"

	"example.org/yulimosar/noise"
)

// keygen makes a key.
func keygen(words []string) error {
	flags := newFlags()
	name := flags.String("o", "", "the new `file`; without it the key goes to standard output")
	if err := parse(flags, words); err != nil {
		return err
	}
	key, err := noise.GenerateKeyPair()
	if err != nil {
		return err
	}
	defer key.Wipe()
	if *name == "" {
		fmt.Fprintf(os.Stderr, "public key: %x\n", key.Public())
		secret := key.Secret()
		_, err = fmt.Printf("%x\n", secret[:])
		return err
	}
	if err := keep(*name, key); err != nil {
		return err
	}
	_, err = fmt.Printf("%x\n", key.Public())
	return err
}

// keep writes a key to a new file that only its owner can read.
func keep(name string, key *noise.KeyPair) error {
	file, err := os.OpenFile(name, os.O_WRONLY|os.O_CREATE|os.O_EXCL, 0o600)
	if err != nil {
		return err
	}
	secret := key.Secret()
	_, err = fmt.Fprintf(file, "%x\n", secret[:])
	if err == nil {
		err = file.Sync()
	}
	if closing := file.Close(); err == nil {
		err = closing
	}
	if err != nil {
		os.Remove(name)
	}
	return err
}

// pubkey prints the public key of the key on standard input.
func pubkey(words []string) error {
	if err := parse(newFlags(), words); err != nil {
		return err
	}
	text, err := io.ReadAll(io.LimitReader(os.Stdin, 1000))
	if err != nil {
		return err
	}
	secret, err := noise.ParseSecret(string(text))
	if err != nil {
		return fmt.Errorf("standard input: %s", withoutName(err))
	}
	key, err := noise.NewKeyPair(secret)
	if err != nil {
		return err
	}
	_, err = fmt.Printf("%x\n", key.Public())
	return err
}

// withoutName returns the text of an error without the package's name.
func withoutName(err error) string { return strings.TrimPrefix(err.Error(), "noise: ") }

// warn says which files of keys and psks others can read.
func (o *options) warn() {
	for _, name := range append(strings.Split(o.psk, ","), o.key) {
		info, err := os.Stat(name)
		if err == nil && runtime.GOOS != "windows" && info.Mode().IsRegular() && info.Mode().Perm()&0o077 != 0 {
			fmt.Fprintf(os.Stderr, "noisecat: warning: others can read %s (mode %04o): chmod 600 %s\n",
				name, info.Mode().Perm(), name)
		}
	}
}

func (o *options) config() (*noise.Config, error) {
	c := &noise.Config{
		Pattern:              o.pattern,
		Prologue:             []byte(o.prologue),
		Interval:             o.interval,
		InsecureAcceptAnyKey: o.any,
		HandshakeTimeout:     o.timeout,
		PayloadFor:           announce,
	}
	if strings.HasPrefix(o.pattern, "@") {
		text, err := os.ReadFile(o.pattern[1:])
		if err != nil {
			return nil, err
		}
		c.Pattern = string(text)
	}
	if o.key != "" {
		key, err := noise.LoadKeyPair(o.key)
		if err != nil {
			return nil, err
		}
		c.Static = key
	}
	if err := o.setPSKs(c); err != nil {
		return nil, err
	}
	if err := o.setPeer(c); err != nil {
		return nil, wrong{err}
	}
	if err := c.Check(o.connect != ""); err != nil {
		return nil, wrong{err}
	}
	return c, nil
}

func (o *options) setPSKs(c *noise.Config) error {
	if o.psk == "" {
		return nil
	}
	for _, name := range strings.Split(o.psk, ",") {
		text, err := os.ReadFile(name)
		if err != nil {
			return err
		}
		psk, err := noise.ParsePSK(string(text))
		if err != nil {
			return fmt.Errorf("%w: %s", err, name)
		}
		c.PSKs = append(c.PSKs, psk)
	}
	return nil
}

var errNotAllowed = errors.New("the other party's key isn't allowed")

// setPeer sets who may be the other party.
func (o *options) setPeer(c *noise.Config) error {
	if o.peer != "" {
		key, err := noise.ParsePublicKey(o.peer)
		if err != nil {
			return fmt.Errorf("-peer: %s", withoutName(err))
		}
		c.PeerStatic = &key
	}
	if o.allow == "" {
		return nil
	}
	allowed := map[noise.PublicKey]bool{}
	for _, digits := range strings.Split(o.allow, ",") {
		key, err := noise.ParsePublicKey(digits)
		if err != nil {
			return fmt.Errorf("-allow: %s", withoutName(err))
		}
		allowed[key] = true
	}
	c.VerifyPeer = func(_ context.Context, peer noise.Peer) error {
		if !allowed[peer.Static] {
			return fmt.Errorf("%w: %x", errNotAllowed, peer.Static)
		}
		return nil
	}
	return nil
}
