package noise

import (
	"sync"

	"example.org/yulimosar/noise/internal/library"
)

// CipherState is one direction's key and nonce (the framework's 5.1), for a protocol whose packets have associated
// data, name their nonces or have a form of their own. HandshakeState.CipherStates makes two, one to send and one to
// receive, at nonce 0. Any goroutine may call it; of a one-way pattern, the one for the responder's messages has no
// key: each call returns ErrOneWay.
type CipherState struct {
	mutex    sync.Mutex
	memory   cipherMemory
	receives bool
	closed   bool
	spare    []byte // a copy of the associated data, if it is where the message goes
}

// Encrypt appends the message of a plaintext to dst, with this associated data (EncryptWithAd): 16 bytes longer than
// the plaintext, which has at most 65519; neither the data nor the nonce is in it. The next nonce is one greater. It
// allocates no memory if dst has room; dst may be plaintext[:0]. At an error nothing changes: ErrTooLong, ErrLength if
// the data has more than 65535 bytes, ErrOneWay, ErrExhausted, ErrDirection, ErrClosed.
func (c *CipherState) Encrypt(dst, ad, plaintext []byte) ([]byte, error) {
	c.mutex.Lock()
	defer c.mutex.Unlock()
	return c.encrypt(dst, ad, plaintext)
}

// EncryptNext is Encrypt with associated data that a function makes of the nonce, for packets whose header
// has it: also with other goroutines that encrypt, the message is encrypted at that nonce. The function
// mustn't call the CipherState. After an error the nonce isn't used up. EncryptNext doesn't call it after
// Close and where there is no key.
func (c *CipherState) EncryptNext(dst, plaintext []byte, ad func(nonce uint64) []byte) ([]byte, error) {
	c.mutex.Lock()
	defer c.mutex.Unlock()
	switch {
	case c.closed:
		return dst, errClosed
	case c.receives:
		return dst, ErrDirection
	}
	nonce, err := c.nonce()
	if err != nil {
		return dst, err
	}
	return c.encrypt(dst, ad(nonce), plaintext)
}

func (c *CipherState) encrypt(dst, ad, plaintext []byte) ([]byte, error) {
	switch {
	case c.closed:
		return dst, errClosed
	case c.receives:
		return dst, ErrDirection
	case len(plaintext) > MaxMessage-TagLen:
		return dst, ErrTooLong
	}
	whole, room := grown(dst, len(plaintext)+TagLen)
	ad = apart(room, ad, &c.spare)
	copy(room, plaintext)
	m := &c.memory
	reads(ad)
	writes(room)
	code := library.CipherEncrypt(
		&m.opaque,
		place(ad), uint(len(ad)),
		place(room), uint(len(room)), uint(len(plaintext)),
		&m.result,
	)
	if code != 0 {
		return dst, Code(code)
	}
	return whole, nil
}

// Decrypt appends the plaintext of a message to dst (DecryptWithAd); dst may be message[:0]. The next nonce is one
// greater. It allocates no memory if dst has room for the message. At an error nothing changes: ErrTag, ErrShort,
// ErrTooLong, ErrLength, ErrOneWay, ErrExhausted, ErrDirection, ErrClosed.
func (c *CipherState) Decrypt(dst, ad, message []byte) ([]byte, error) {
	c.mutex.Lock()
	defer c.mutex.Unlock()
	return c.decrypt(dst, ad, message)
}

// DecryptAt is Decrypt at this nonce, whatever the next nonce is, also with other goroutines that decrypt. The caller
// refuses nonces that have come before. At an error nothing changes.
func (c *CipherState) DecryptAt(nonce uint64, dst, ad, message []byte) ([]byte, error) {
	c.mutex.Lock()
	defer c.mutex.Unlock()
	if c.closed || !c.receives {
		return c.decrypt(dst, ad, message)
	}
	was, err := c.nonce()
	if err != nil {
		return dst, err
	}
	library.CipherSetNonce(&c.memory.opaque, uint64(nonce))
	whole, err := c.decrypt(dst, ad, message)
	if err != nil {
		library.CipherSetNonce(&c.memory.opaque, uint64(was))
	}
	return whole, err
}

func (c *CipherState) decrypt(dst, ad, message []byte) ([]byte, error) {
	switch {
	case c.closed:
		return dst, errClosed
	case !c.receives:
		return dst, ErrDirection
	case len(message) > MaxMessage:
		return dst, ErrTooLong
	}
	whole, room := grown(dst, len(message))
	ad = apart(room, ad, &c.spare)
	copy(room, message)
	m := &c.memory
	reads(ad)
	writes(room)
	code := library.CipherDecrypt(&m.opaque, place(ad), uint(len(ad)), place(room), uint(len(room)), &m.result)
	if code != 0 {
		return dst, Code(code)
	}
	return whole[:len(dst)+int(m.result.Len)], nil
}

// nonce returns the nonce of the next message.
func (c *CipherState) nonce() (uint64, error) {
	if code := library.CipherNonce(&c.memory.opaque, &c.memory.nonce); code != 0 {
		return 0, Code(code)
	}
	return uint64(c.memory.nonce), nil
}

// Nonce returns the nonce of the next message; 0 after Close, and if there is no key. Where several goroutines encrypt,
// the next message may have another: EncryptNext hands it on.
func (c *CipherState) Nonce() uint64 {
	c.mutex.Lock()
	defer c.mutex.Unlock()
	if c.closed {
		return 0
	}
	nonce, _ := c.nonce()
	return nonce
}

// SetNonce sets the nonce of the next message (the framework's 11.4). Who encrypts must never set it back: whoever sees
// two messages of one nonce learns the xor of their plaintexts, and can forge messages of that nonce. Who decrypts has
// to refuse what came before. ErrOneWay, ErrClosed.
func (c *CipherState) SetNonce(nonce uint64) error {
	c.mutex.Lock()
	defer c.mutex.Unlock()
	if c.closed {
		return errClosed
	}
	return asError(uint32(library.CipherSetNonce(&c.memory.opaque, uint64(nonce))))
}

// Rekey replaces the key by the one that follows from it, and keeps the nonce (the framework's
// 11.3). ErrOneWay, ErrClosed.
func (c *CipherState) Rekey() error {
	c.mutex.Lock()
	defer c.mutex.Unlock()
	if c.closed {
		return errClosed
	}
	return asError(uint32(library.CipherRekey(&c.memory.opaque)))
}

// Close overwrites the key. Later calls return ErrClosed.
func (c *CipherState) Close() error {
	c.mutex.Lock()
	defer c.mutex.Unlock()
	c.closed = true
	c.memory.wipe()
	wipe(c.spare)
	return nil
}
