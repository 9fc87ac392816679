//go:build race

package noise

import (
	"runtime"
	"unsafe"
)

// reads and writes tell the race detector what a call of the library reads and writes, which it doesn't see.
func reads(b []byte) {
	if len(b) > 0 {
		runtime.RaceReadRange(unsafe.Pointer(&b[0]), len(b))
	}
}

func writes(b []byte) {
	if len(b) > 0 {
		runtime.RaceWriteRange(unsafe.Pointer(&b[0]), len(b))
	}
}
