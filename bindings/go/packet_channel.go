package noise

import (
	"bytes"
	"context"
	"encoding/binary"
	"net"
)

// packetChannel is one handshake over datagrams and its keys, without input and output: it outlives loss, repetition,
// delays and strangers. One goroutine at a time may use it, but for seal.
type packetChannel struct {
	config        *Config
	initiator     bool
	window        int
	pattern       *pattern
	addr          net.Addr // of the other party
	handshake     *HandshakeState
	sender        *DatagramSender
	receiver      *DatagramReceiver
	first         []byte // message 0
	own, others   []byte // the last datagram of the handshake that was sent, and that was accepted
	cookie        []byte // what the responder wants beside message 0
	out           [][]byte
	index         packetIndex // once all messages have passed
	isDone        bool        // whether they have
	isEstablished bool        // whether a datagram has opened
	accepted      int         // how many messages of the other party were accepted
	newest        uint64      // the greatest nonce that was opened
	fault         error       // why the last message was refused
	state         ConnectionState
}

// ofAddr tells VerifyPeer the address of the other party.
type ofAddr struct {
	net.Conn
	addr net.Addr
}

func (o ofAddr) RemoteAddr() net.Addr { return o.addr }

// newPacketChannel starts a handshake; the initiator's first datagram is to be sent then.
func newPacketChannel(
	ctx context.Context, config *Config, initiator bool, window int, addr net.Addr,
) (*packetChannel, error) {
	h, err := ofConn(config, initiator, ofAddr{addr: addr})
	if err != nil {
		return nil, err
	}
	c := &packetChannel{
		config: config, initiator: initiator, window: window, pattern: h.pattern, addr: addr, handshake: h,
		state: ConnectionState{ProtocolName: config.protocolName(), Initiator: initiator},
	}
	if initiator {
		if err := c.write(ctx); err != nil {
			c.close()
			return nil, err
		}
		c.first = c.own[1:]
	}
	return c, nil
}

// writesLast reports whether this party writes the last message.
func (c *packetChannel) writesLast() bool {
	return c.pattern.messages[len(c.pattern.messages)-1].byInitiator == c.initiator
}

// take takes a datagram of any kind but a transport one.
func (c *packetChannel) take(ctx context.Context, datagram []byte) {
	switch kind := kindOf(datagram, len(c.pattern.messages)); {
	case c.isEstablished:
	case kind == kindCookieReply:
		c.keepCookie(datagram)
	case kind == kindMessage && bytes.Equal(datagram, c.others):
		c.answer() // what was sent after it was lost
	case kind == kindMessage && c.handshake != nil:
		c.read(ctx, datagram)
	}
}

// keepCookie keeps a cookie; the first one is sent at once.
func (c *packetChannel) keepCookie(datagram []byte) {
	if !c.initiator || c.accepted > 0 || c.handshake == nil {
		return
	}
	had := c.cookie
	if cookie := cookieIn(datagram, c.first); cookie != nil {
		if c.cookie = cookie; had == nil {
			c.repeat()
		}
	}
}

func (c *packetChannel) read(ctx context.Context, datagram []byte) {
	h, message := c.handshake, datagram[1:]
	index := h.MessageIndex()
	if int(datagram[0]) != index || h.WritesNext() || len(message) > c.longest(index) {
		return
	}
	payload, err := h.TryReadMessage(ctx, []byte{}, message)
	if err == nil {
		c.state.Payloads = append(c.state.Payloads, payload)
		if h.Done() {
			err = c.finish(datagram)
		} else {
			err = c.write(ctx)
		}
		if err != nil { // as for a key of low order: the handshake is over
			c.handshake.Close()
			c.handshake = nil
		}
	}
	if err != nil {
		c.fault = err
		return
	}
	c.others = datagram
	if c.accepted++; c.first == nil {
		c.first = message
	}
	if c.isDone && !c.writesLast() {
		c.answer()
	}
}

// longest returns how many bytes a message may have.
func (c *packetChannel) longest(index int) int {
	if c.config.MaxHandshakeMessage > 0 {
		return c.config.MaxHandshakeMessage
	}
	return c.pattern.messages[index].least + 4096
}

func (c *packetChannel) write(ctx context.Context) error {
	h := c.handshake
	index := h.MessageIndex()
	payload, err := c.payload(ctx, index)
	if err != nil {
		return h.end("", err)
	}
	if c.own, err = h.WriteMessageContext(ctx, []byte{byte(index)}, payload); err != nil {
		return err
	}
	c.state.Payloads = append(c.state.Payloads, nil)
	c.out = append(c.out, c.own)
	if h.Done() {
		return c.finish(c.own)
	}
	return nil
}

// payload returns that of the message that is due.
func (c *packetChannel) payload(ctx context.Context, index int) ([]byte, error) {
	if c.config.PayloadFor == nil {
		if index < len(c.config.Payloads) {
			return c.config.Payloads[index], nil
		}
		return nil, nil
	}
	peer := Peer{Message: index, Addr: c.addr}
	peer.Static, _ = c.handshake.PeerStatic()
	if index > 0 {
		peer.Payload = c.state.Payloads[index-1]
	}
	return c.config.PayloadFor(ctx, peer)
}

// finish takes the keys, after the last message.
func (c *packetChannel) finish(last []byte) (err error) {
	h := c.handshake
	if key, isKnown := h.PeerStatic(); isKnown {
		c.state.PeerStatic = &key
	}
	c.state.HandshakeHash, c.index = h.HandshakeHash(), indexOf(last)
	if c.sender, c.receiver, err = h.Datagrams(c.window); err != nil {
		return err
	}
	c.handshake, c.isDone, c.state.HandshakeComplete = nil, true, true
	return nil
}

// answer sends the message after the last one that was read; after the last of all, an empty payload.
func (c *packetChannel) answer() {
	if !c.isDone || c.writesLast() {
		c.out = append(c.out, c.own)
	} else {
		c.sendEmpty()
	}
}

// repeat sends again what the other party hasn't answered. A responder does so only after the last message.
func (c *packetChannel) repeat() {
	switch {
	case c.isEstablished:
	case c.isDone && !c.writesLast():
		c.sendEmpty()
	case c.initiator && c.cookie != nil && c.accepted == 0:
		c.out = append(c.out, withCookie(c.cookie, c.first))
	case c.initiator:
		c.out = append(c.out, c.own)
	}
}

func (c *packetChannel) sendEmpty() {
	if datagram, err := c.seal(nil); err == nil {
		c.out = append(c.out, datagram)
	}
}

// seal returns the transport datagram of a payload. Any goroutine may call it, once the channel is established.
func (c *packetChannel) seal(payload []byte) ([]byte, error) {
	made := make([]byte, 1+indexLen, len(payload)+packetOverhead)
	made[0] = transportByte
	copy(made[1:], c.index[:])
	return c.sender.Seal(made, payload)
}

// open opens a transport datagram, and reports whether it did; hasMoved is whether the session's address becomes that
// of the datagram.
func (c *packetChannel) open(datagram []byte) (payload []byte, isOpen, hasMoved bool) {
	if !c.isDone || !bytes.Equal(datagram[1:1+indexLen], c.index[:]) {
		return nil, false, false
	}
	payload, err := c.receiver.Open(nil, datagram[1+indexLen:])
	if err != nil {
		return nil, false, false
	}
	nonce := binary.BigEndian.Uint64(datagram[1+indexLen:])
	if hasMoved = !c.isEstablished || moves(nonce, c.newest); hasMoved {
		c.newest = nonce
	}
	c.isEstablished = true
	if len(payload) == 0 && c.writesLast() {
		c.sendEmpty()
	}
	return payload, true, hasMoved
}

// toSend returns the datagrams to send next.
func (c *packetChannel) toSend() [][]byte {
	made := c.out
	c.out = nil
	return made
}

// close overwrites the keys.
func (c *packetChannel) close() {
	if c.handshake != nil {
		c.handshake.Close()
		c.handshake = nil
	}
	if c.isDone {
		c.sender.Close()
		c.receiver.Close()
	}
	c.out = nil
}
