//go:build !purego && cgo && noise_installed

package library

// The flags of pkg-config come last. With these before them the static library is linked, and the shared one, which
// isn't needed then, isn't.

// #cgo pkg-config: noise_c
// #cgo linux LDFLAGS: -Wl,--as-needed -l:libnoise_c.a
import "C"
