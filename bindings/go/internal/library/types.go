// Package library is the proved library noise_c, of include/noise.h: its calls, and its structs with the layout that C
// gives them. On amd64 and arm64 its code is here in Go's assembler. Elsewhere, and with the build tag purego, it is
// that of the package pure, in Go. By cgo it is assembly text on riscv64, and with the build tag noise_installed that
// of the library which pkg-config finds.
//
// A call keeps no pointer. A pointer that has a count may lead anywhere if the count is 0, but mustn't be nil.
package library

import "example.org/yulimosar/noise/internal/structs"

// The structs of the calls.
type (
	Handshake        = structs.Handshake
	StreamSender     = structs.StreamSender
	StreamReceiver   = structs.StreamReceiver
	Sender           = structs.Sender
	Receiver         = structs.Receiver
	DatagramSender   = structs.DatagramSender
	DatagramReceiver = structs.DatagramReceiver
	Cipher           = structs.Cipher
	Key              = structs.Key
	Setup            = structs.Setup
	Result           = structs.Result
	StreamResult     = structs.StreamResult
	StageResult      = structs.StageResult
	PatternResult    = structs.PatternResult
	KeysNeeded       = structs.KeysNeeded
	PatternInfo      = structs.PatternInfo
	Piece            = structs.Piece
	MessageLayout    = structs.MessageLayout
)
