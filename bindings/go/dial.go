package noise

import (
	"context"
	"net"
	"time"
)

// Dialer connects, and runs the handshake as the initiator.
type Dialer struct {
	NetDialer *net.Dialer // its Timeout and Deadline are for connection and handshake together; nil: the zero Dialer
	Config    *Config     // of the initiator
}

// Dial connects, and runs the handshake.
func (d *Dialer) Dial(network, address string) (net.Conn, error) {
	return d.DialContext(context.Background(), network, address)
}

// DialContext connects, and runs the handshake; both end with the context.
func (d *Dialer) DialContext(ctx context.Context, network, address string) (net.Conn, error) {
	c, err := d.dial(ctx, network, address)
	if err != nil {
		return nil, err
	}
	return c, nil
}

func (d *Dialer) dial(ctx context.Context, network, address string) (*Conn, error) {
	if err := d.Config.Check(true); err != nil {
		return nil, err
	}
	inner := d.NetDialer
	if inner == nil {
		inner = new(net.Dialer)
	}
	if inner.Timeout > 0 {
		limited, cancel := context.WithTimeout(ctx, inner.Timeout)
		defer cancel()
		ctx = limited
	}
	if !inner.Deadline.IsZero() {
		limited, cancel := context.WithDeadline(ctx, inner.Deadline)
		defer cancel()
		ctx = limited
	}
	conn, err := inner.DialContext(ctx, network, address)
	if err != nil {
		return nil, err
	}
	c := newConn(conn, d.Config, true, 0)
	if err := c.HandshakeContext(ctx); err != nil {
		c.Close()
		return nil, err
	}
	return c, nil
}

// Dial connects, and runs the handshake as the initiator.
func Dial(network, address string, config *Config) (*Conn, error) {
	return (&Dialer{Config: config}).dial(context.Background(), network, address)
}

// listenerLimit is how long the handshake of an accepted connection may take, if the Config doesn't say.
const listenerLimit = 10 * time.Second

type listener struct {
	net.Listener
	config *Config
	fault  error // of the Config
}

// Listen listens, and accepts connections as the responder. A *ConfigError says what is wrong with the Config.
func Listen(network, address string, config *Config) (net.Listener, error) {
	if err := config.Check(false); err != nil {
		return nil, err
	}
	inner, err := net.Listen(network, address)
	if err != nil {
		return nil, err
	}
	return &listener{inner, config, nil}, nil
}

// NewListener accepts connections of inner as the responder. Accept returns a *Conn whose handshake hasn't run yet, so
// that no peer delays another, and none ends the listener: its errors are those of inner, or the *ConfigError that
// Config.Check returns. A handshake may take 10 seconds, unless Config.HandshakeTimeout says otherwise.
func NewListener(inner net.Listener, config *Config) net.Listener {
	return &listener{inner, config, config.Check(false)}
}

// Accept returns a *Conn whose handshake hasn't run yet.
func (l *listener) Accept() (net.Conn, error) {
	if l.fault != nil {
		return nil, l.fault
	}
	conn, err := l.Listener.Accept()
	if err != nil {
		return nil, err
	}
	return newConn(conn, l.config, false, listenerLimit), nil
}
