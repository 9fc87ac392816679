// Package noise makes secure channels by the Noise Protocol Framework, revision 34, with 25519, ChaChaPoly and SHA256,
// over a library whose calls are proved to do what the framework says.
//
// [Listen] and [Dial], or [Client] and [Server] over any [net.Conn], make a net.Conn whose bytes are sealed, as
// crypto/tls does. [ListenPacket] and [DialPacket] make sessions over UDP. Below them, [HandshakeState], [Sender],
// [Receiver], [DatagramSender], [DatagramReceiver] and [CipherState] take and append to byte slices, for programs that
// move the messages by other means.
//
// A [Config] has the pattern and the keys, and says who may be the other party. A Config that would accept anybody is
// refused, unless InsecureAcceptAnyKey is set.
//
// # Frames, and the end of a stream
//
// A [Conn] sends each message after its length in two bytes, the higher first (the framework's 13). A Write of more
// than 65519 bytes becomes several messages. An empty payload is the end of the stream: [Conn.CloseWrite] and
// [Conn.Close] send one, and Read at the other party then returns [io.EOF]. If the connection ends without it, Read
// returns [ErrCut]. After a refused message, or once the connection was lost, nothing more is written, and no end is
// sent. The library makes and reads the frames, and decides what is an end.
//
// # Building
//
// Cgo isn't needed. On amd64 and arm64 the library is in the package in Go's assembler. Elsewhere, and with the build
// tag purego, it is plain Go, translated from the proved code. On riscv64 with cgo it is assembly text, which gcc or
// clang turns into code. With the build tag noise_installed the package is linked with the library noise_c that
// pkg-config finds.
package noise
