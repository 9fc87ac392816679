package noise

import "example.org/yulimosar/noise/internal/library"

// The calls of a handshake take some 15 KB of stack. Where they run on a goroutine's stack, those of connections run on
// goroutines of their own, which end with them, so that the stacks of the connections, of which there may be many, stay
// small.

var noDeepCall = !library.OnStack

// deep makes calls of the library that need much stack. They don't wait for anything.
func deep(call func()) {
	if noDeepCall {
		call()
		return
	}
	done := make(chan struct{})
	go func() {
		defer close(done)
		call()
	}()
	<-done
}
