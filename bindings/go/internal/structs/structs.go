// Package structs has the structs of include/noise.h, with the layout that C gives them.
package structs

// The Opaque structs. The empty array gives each an address that is a multiple of 8.
type (
	// Handshake is noise_handshake.
	Handshake struct {
		_      [0]uint64
		Opaque [1472]byte
	}
	// StreamSender is noise_stream_sender.
	StreamSender struct {
		_      [0]uint64
		Opaque [64]byte
	}
	// StreamReceiver is noise_stream_receiver.
	StreamReceiver struct {
		_      [0]uint64
		Opaque [64]byte
	}
	// Sender is noise_sender.
	Sender struct {
		_      [0]uint64
		Opaque [56]byte
	}
	// Receiver is noise_receiver.
	Receiver struct {
		_      [0]uint64
		Opaque [56]byte
	}
	// DatagramSender is noise_datagram_sender.
	DatagramSender struct {
		_      [0]uint64
		Opaque [48]byte
	}
	// DatagramReceiver is noise_datagram_receiver.
	DatagramReceiver struct {
		_      [0]uint64
		Opaque [192]byte
	}
	// Cipher is noise_cipher.
	Cipher struct {
		_      [0]uint64
		Opaque [48]byte
	}
)

// Key is noise_key.
type Key struct {
	Present byte
	Bytes   [32]byte
}

// Setup is noise_setup.
type Setup struct {
	Responder              byte
	E, S, RemoteE, RemoteS Key
	PSKCount               byte
	PSKs                   [9][32]byte
}

// Result is noise_result.
type Result struct {
	From, Len   uint
	Token       byte
	OfStatic    byte
	Remote      [32]byte
	RemoteKnown byte
}

// StreamResult is noise_stream_result.
type StreamResult struct{ From, Len, Used, Wanted uint }

// StageResult is noise_stage_result.
type StageResult struct{ Messages, Passed, Ended, WritesNext byte }

// PatternResult is noise_pattern_result.
type PatternResult struct {
	Line     uint
	Rule     byte
	Message  byte
	Token    byte
	Messages byte
}

// KeysNeeded is noise_keys_needed.
type KeysNeeded struct{ E, S, RemoteE, RemoteS byte }

// PatternInfo is noise_pattern_info.
type PatternInfo struct {
	Messages    byte
	OneWay      byte
	PSKs        byte
	Needed      [2]KeysNeeded
	PreMessages [2][2]byte
	Tokens      [8][10]byte
}

// Piece is noise_piece.
type Piece struct {
	Token     byte
	Encrypted byte
	From      uint32
	Len       uint32
}

// MessageLayout is noise_message_layout.
type MessageLayout struct {
	Count  byte
	Len    uint32
	Pieces [11]Piece
}
