//go:build !purego && !plan9 && (amd64 || arm64)

package pure

import (
	"fmt"
	"math/rand"
	"os"
	"reflect"
	"strconv"
	"testing"

	"example.org/yulimosar/noise/internal/library"
)

// assembled has the calls of the library in assembler, with pointers in the place of slices.
var assembled = map[string]any{
	"Start": library.Start, "Answer": library.Answer, "SetPsk": library.SetPsk, "UnsetPsk": library.UnsetPsk,
	"Write": library.Write, "Read": library.Read, "TryRead": library.TryRead, "MessageLen": library.MessageLen,
	"Hash": library.Hash, "RemoteStatic": library.RemoteStatic, "Stage": library.Stage,
	"CheckPattern": library.CheckPattern, "Pattern": library.Pattern, "Layout": library.Layout,
	"FrameMessage": library.FrameMessage, "FrameFind": library.FrameFind, "FinishStream": library.FinishStream,
	"StreamWrite": library.StreamWrite, "StreamEnd": library.StreamEnd, "StreamRead": library.StreamRead,
	"StreamIsCut": library.StreamIsCut, "Finish": library.Finish, "Seal": library.Seal,
	"SealInPlace": library.SealInPlace, "Open": library.Open, "SenderNonce": library.SenderNonce,
	"ReceiverNonce": library.ReceiverNonce, "FinishDatagrams": library.FinishDatagrams,
	"DatagramSeal": library.DatagramSeal, "DatagramSealInPlace": library.DatagramSealInPlace,
	"DatagramOpen": library.DatagramOpen, "DatagramSenderNonce": library.DatagramSenderNonce,
	"FinishCiphers": library.FinishCiphers, "CipherEncrypt": library.CipherEncrypt,
	"CipherDecrypt": library.CipherDecrypt, "CipherRekey": library.CipherRekey, "CipherNonce": library.CipherNonce,
	"CipherSetNonce": library.CipherSetNonce,
}

var nothing [1]byte

// callAssembled makes a call of the library in assembler.
func callAssembled(name string, args []any) uint32 {
	var values []reflect.Value
	for _, it := range args {
		switch it := it.(type) {
		case []byte:
			at := &nothing[0]
			if len(it) > 0 {
				at = &it[0]
			}
			values = append(values, reflect.ValueOf(at), reflect.ValueOf(uint(len(it))))
		case *[32]byte:
			values = append(values, reflect.ValueOf(&it[0]))
		default:
			values = append(values, reflect.ValueOf(it))
		}
	}
	return uint32(reflect.ValueOf(assembled[name]).Call(values)[0].Uint())
}

// number is that of an environment's variable, or another one.
func number(name string, other int64) int64 {
	if n, err := strconv.ParseInt(os.Getenv(name), 10, 64); err == nil {
		return n
	}
	return other
}

// comparing is a driver that makes each call of the assembler and of this package, and compares all that they leave.
// It counts the calls by their names and codes.
func comparing(t *testing.T, seed int64, outcomes map[string]int) *driver {
	worlds := []*world{new(world), new(world)}
	d := &driver{Rand: rand.New(rand.NewSource(seed)), worlds: worlds}
	d.do = func(name string, args func(w *world) []any) uint32 {
		a, b := callAssembled(name, args(worlds[0])), callPlain(name, args(worlds[1]))
		if a != b || *worlds[0] != *worlds[1] {
			t.Fatalf("call %d of the seed %d, %s: %d and %d, or other bytes", d.made, seed, name, a, b)
		}
		d.made++
		outcomes[fmt.Sprint(name, " ", a)]++
		return a
	}
	return d
}

// TestCompared makes the same random calls of the assembler and of this package, and compares all that they leave:
// NOISE_CALLS of them, of the seed NOISE_SEED.
func TestCompared(t *testing.T) {
	calls, seed := number("NOISE_CALLS", 300000), number("NOISE_SEED", 1)
	if testing.Short() {
		calls /= 10
	}
	outcomes := map[string]int{}
	d := comparing(t, seed, outcomes)
	for d.made < calls {
		d.step()
	}
	for name := range plain {
		if outcomes[name+" 0"] == 0 && !testing.Short() {
			t.Errorf("no call of %s has succeeded", name)
		}
	}
	t.Logf("%d calls, %d outcomes", d.made, len(outcomes))
}
