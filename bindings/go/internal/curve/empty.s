//go:build !go1.20

// A function without a body needs a file in assembler.
