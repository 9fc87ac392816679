// Noisecat joins standard input and output to a secure channel by the Noise Protocol Framework,
// as nc does to a plain one.
//
//	noisecat keygen -o server.key             makes a file with a new key, and prints the public key
//	noisecat pubkey < server.key              prints the public key
//	noisecat -listen :9000 -key server.key -allow KEY,..
//	noisecat -connect host:9000 -key client.key -peer KEY
//
// A listener accepts the first connection whose handshake succeeds, and tells the failures on standard error; with
// -keep it accepts one after another, and sends each the file that standard input is. Of a terminal, or /dev/null, it
// sends nothing then, and a pipe, of which only one could get what comes, is refused. With port 0 it listens at a free
// port, and prints the address on standard error.
//
// -forward HOST:PORT joins each channel to a TCP connection of its own, and -exec COMMAND to a process of its own; with
// -keep all of them at once. The command has the other party's public key and address in NOISECAT_PEER_KEY, if there is
// one, and NOISECAT_PEER_ADDRESS. What it doesn't read is dropped, and a status other than 0 is a fault. After a fault
// it is killed, with what it has started in its process group.
//
//	noisecat -connect host:9000 -key client.key -peer KEY -local 127.0.0.1:8080
//
// accepts plain connections, as of a browser, and joins each to a channel of its own.
//
// The status is 0 if both parties have sent all and, where both are noisecat, each has said over the channel that it
// has written out all; 1 after a fault, and 2 if the words of the command are wrong, each with a sentence on standard
// error. Where the other party is another program, the status 0 says that its stream has ended. After a fault of one
// party, as a full disk at its output, the connection is reset, and the other party's status is 1 too.
package main

import (
	"errors"
	"flag"
	"fmt"
	"io"
	"os"
	"time"

	"example.org/yulimosar/noise"
)

const usage = `usage: noisecat -listen ADDRESS  [-key FILE] [-allow KEY,..] [-psk FILE,..] [FLAGS]
       noisecat -connect ADDRESS [-key FILE] [-peer KEY] [-psk FILE,..] [FLAGS]
       noisecat keygen [-o FILE]    makes a key: 64 hex digits, in a new file that others can't read, or on standard
                                    output; the public key on standard output, or on standard error
                                    if that has the secret one. A psk is made the same way
       noisecat pubkey              prints the public key of the key on standard input
       noisecat -version

`

type options struct {
	listen, connect, local, key, allow, peer, pattern, psk, prologue, forward, exec string

	interval                    uint64
	timeout, idle               time.Duration
	any, keep, verbose, version bool
	isCounted                   bool
	progress                    *progress        // nil: nothing is shown
	input                       func() io.Reader // what is read for a connection
}

// wrong is what is wrong with the words of the command.
type wrong struct{ error }

func main() {
	ignoreClosedOutput()
	err := run(os.Args[1:])
	var words wrong
	switch {
	case err == nil || errors.Is(err, flag.ErrHelp):
	case errors.As(err, &words):
		fmt.Fprintln(os.Stderr, "noisecat:", sentence(words.error))
		os.Exit(2)
	default:
		fmt.Fprintln(os.Stderr, "noisecat:", sentence(err))
		os.Exit(1)
	}
}

func run(words []string) error {
	if len(words) > 0 && words[0] == "keygen" {
		return keygen(words[1:])
	}
	if len(words) > 0 && words[0] == "pubkey" {
		return pubkey(words[1:])
	}
	var o options
	if err := parse(o.flags(), words); err != nil {
		return err
	}
	switch {
	case o.version:
		_, err := fmt.Println("noisecat", noise.Version)
		return err
	case (o.listen == "") == (o.connect == ""):
		return wrong{errors.New("name either -listen or -connect: noisecat -h shows all flags")}
	case o.keep && o.listen == "":
		return wrong{errors.New("-keep is for -listen")}
	case o.local != "" && (o.connect == "" || o.forward != "" || o.exec != ""):
		return wrong{errors.New("-local is for -connect, without -forward and -exec")}
	case o.forward != "" && o.exec != "":
		return wrong{errors.New("name either -forward or -exec")}
	case o.idle < 0:
		return wrong{errors.New("-idle: less than 0")}
	case o.timeout <= 0:
		return wrong{errors.New("-timeout: not more than 0")}
	}
	if o.keep && o.idle == 0 && o.forward == "" && o.exec == "" {
		o.idle = time.Minute // one channel after another: a silent one would keep the others out
	}
	if err := o.setInput(os.Stdin); err != nil {
		return err
	}
	if o.isCounted {
		o.progress = new(progress)
	}
	return join(&o)
}

// flags returns the flags that set the options.
func (o *options) flags() *flag.FlagSet {
	flags := newFlags()
	flags.StringVar(&o.listen, "listen", "", "listen at this `address`, as :9000")
	flags.StringVar(&o.connect, "connect", "", "connect to this `address`, as host:9000")
	flags.StringVar(&o.key, "key", "", "the `file` of this party's key, which keygen makes")
	flags.StringVar(&o.allow, "allow", "",
		"accept the other party if it has one of these public `keys` (hex, joined by commas)")
	flags.StringVar(&o.peer, "peer", "", "the public `key` of the other party (hex)")
	flags.BoolVar(&o.any, "insecure-any", false, "talk to anybody")
	flags.StringVar(&o.pattern, "pattern", "XX",
		"the pattern, as IK or XXpsk3, the whole protocol `name`, or @FILE with a pattern text")
	flags.StringVar(&o.psk, "psk", "",
		"the `files` of the psks, 64 hex digits each, one for each psk token, joined by commas")
	flags.StringVar(&o.prologue, "prologue", "", "the `text` that both parties have agreed on")
	flags.Uint64Var(&o.interval, "interval", 0,
		"rekey after this `number` of messages, the same at both parties; 0: never")
	flags.DurationVar(&o.timeout, "timeout", 30*time.Second, "the `time` that connecting and a handshake may take")
	flags.BoolVar(&o.keep, "keep", false,
		"with -listen: accept one connection after another, and send each the file that standard input is")
	flags.StringVar(&o.forward, "forward", "",
		"join each channel to a TCP connection to this `address`, in place of standard input and output")
	flags.StringVar(&o.exec, "exec", "",
		"join each channel to the standard input and output of this `command` of the shell")
	flags.StringVar(&o.local, "local", "",
		"with -connect: listen at this `address`, as 127.0.0.1:8080, and join each connection to a channel of its own")
	flags.DurationVar(&o.idle, "idle", 0,
		"end a channel over which nothing has come or gone for this `time`; "+
			"0: never, and with -keep on standard output 1m0s")
	flags.BoolVar(&o.isCounted, "progress", false,
		"show each second how many bytes were sent and received, and the rate, on standard error")
	flags.BoolVar(&o.verbose, "v", false,
		"show how many bytes go over the connection, and the handshake hash, on standard error")
	flags.BoolVar(&o.version, "version", false, "print the version")
	return flags
}

// newFlags returns flags of which nothing is printed but by parse.
func newFlags() *flag.FlagSet {
	flags := flag.NewFlagSet("noisecat", flag.ContinueOnError)
	flags.SetOutput(io.Discard)
	flags.Usage = func() {}
	return flags
}

// parse reads flags, and no other words. At -h it prints the usage.
func parse(flags *flag.FlagSet, words []string) error {
	err := flags.Parse(words)
	switch {
	case errors.Is(err, flag.ErrHelp):
		fmt.Print(usage)
		flags.SetOutput(os.Stdout)
		flags.PrintDefaults()
		return err
	case err != nil:
		return wrong{err}
	case flags.NArg() > 0:
		return wrong{fmt.Errorf("one word too many: %s", flags.Arg(0))}
	}
	return nil
}

// flagOf are the flags for the fields of a Config.
var flagOf = map[string]string{
	"Pattern":    "-pattern",
	"Prologue":   "-prologue",
	"Static":     "-key",
	"PeerStatic": "-peer",
	"VerifyPeer": "-allow",
	"PSKs":       "-psk",
}

// sentence returns what an operator has to know about an error.
func sentence(err error) string {
	var config *noise.ConfigError
	var handshake *noise.HandshakeError
	var output *outputError
	switch {
	case errors.Is(err, noise.ErrUnauthenticated):
		return "nothing says who may be the other party: name it by -peer, -allow or -psk, " +
			"or take anybody by -insecure-any"
	case errors.As(err, &config):
		return flagOf[config.Field] + ": " + withoutName(config.Err)
	case errors.As(err, &handshake) || errors.As(err, &output):
		return withoutName(err)
	case errors.Is(err, noise.ErrTag) || errors.Is(err, noise.ErrShort):
		return "a message was changed on the way: " + withoutName(err)
	case err == errNotWritten:
		return err.Error()
	case errors.Is(err, noise.ErrCut):
		return "the connection was cut before the other party had sent all"
	case isReset(err):
		return "the connection was cut: " + err.Error()
	}
	return withoutName(err)
}
