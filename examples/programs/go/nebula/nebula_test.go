package main

import (
	"bytes"
	"encoding/pem"
	"errors"
	"fmt"
	"net"
	"os"
	"os/exec"
	"path/filepath"
	"strings"
	"sync"
	"testing"
	"time"

	"example.org/yulimosar/noise"
)

// A node of Debian's package nebula: cipher chachapoly is the suite of the package noise; tun.disabled needs no rights.
const config = `
pki: {ca: %[1]s/ca.crt, cert: %[1]s/node.crt, key: %[1]s/node.key}
lighthouse: {am_lighthouse: true}
listen: {host: 127.0.0.1, port: %[2]d}
cipher: chachapoly
tun: {disabled: true}
logging: {level: debug}
firewall: {outbound: [{port: any, proto: any, host: any}], inbound: [{port: any, proto: any, host: any}]}
`

// certificates makes them, in a folder.
func certificates(t *testing.T) (room string) {
	t.Helper()
	room = t.TempDir()
	for _, words := range []string{
		"ca -name good -out-crt ca.crt -out-key ca.key",
		"ca -name other -out-crt other-ca.crt -out-key other-ca.key",
		"sign -name node -ip 192.168.100.1/24",
		"sign -name me -ip 192.168.100.2/24",
		"sign -name stranger -ip 192.168.100.3/24 -ca-crt other-ca.crt -ca-key other-ca.key",
		"sign -name gone -ip 192.168.100.4/24 -duration 1s",
	} {
		cmd := exec.Command("nebula-cert", strings.Fields(words)...)
		cmd.Dir = room
		if out, err := cmd.CombinedOutput(); err != nil {
			t.Fatalf("nebula-cert %s: %v: %s", words, err, out)
		}
	}
	return room
}

// started starts a node, until the test ends, and returns its log.
func started(t *testing.T, cmd *exec.Cmd) (said *nodeLog) {
	t.Helper()
	said = new(nodeLog)
	cmd.Stdout, cmd.Stderr = said, said
	must(t, cmd.Start())
	t.Cleanup(func() {
		cmd.Process.Kill()
		cmd.Wait()
		if t.Failed() {
			t.Log(said.String())
		}
	})
	said.says(t, "Nebula interface is active")
	return said
}

// node starts a node without a tun, and returns the folder of the certificates, its address, and its log.
func node(t *testing.T) (room, address string, said *nodeLog) {
	t.Helper()
	if _, err := exec.LookPath("nebula"); err != nil {
		t.Skip(err)
	}
	room = certificates(t)
	free, err := net.ListenPacket("udp", "127.0.0.1:0")
	must(t, err)
	port := free.LocalAddr().(*net.UDPAddr).Port
	free.Close()
	must(t, os.WriteFile(room+"/node.yml", []byte(fmt.Sprintf(config, room, port)), 0o600))
	return room, fmt.Sprintf("127.0.0.1:%d", port), started(t, exec.Command("nebula", "-config", room+"/node.yml"))
}

// nodeLog is what a node says. The buffer isn't embedded: os/exec would copy by its ReadFrom, past the mutex.
type nodeLog struct {
	mutex sync.Mutex
	text  bytes.Buffer
}

func (l *nodeLog) Write(b []byte) (int, error) {
	l.mutex.Lock()
	defer l.mutex.Unlock()
	return l.text.Write(b)
}

func (l *nodeLog) String() string {
	l.mutex.Lock()
	defer l.mutex.Unlock()
	return l.text.String()
}

// says waits for words in the log.
func (l *nodeLog) says(t *testing.T, words string) {
	t.Helper()
	for end := time.Now().Add(10 * time.Second); ; time.Sleep(20 * time.Millisecond) {
		if strings.Contains(l.String(), words) {
			return
		}
		if time.Now().After(end) {
			t.Fatalf("the node doesn't say %q", words)
		}
	}
}

func must(t testing.TB, err error) {
	t.Helper()
	if err != nil {
		t.Fatal(err)
	}
}

func soon() time.Time { return time.Now().Add(10 * time.Second) }

// member returns the party with the certificate of this name.
func member(t *testing.T, room, ca, name string) *party {
	t.Helper()
	p, err := load(filepath.Join(room, ca), filepath.Join(room, name+".crt"), filepath.Join(room, name+".key"))
	must(t, err)
	return p
}

func dialed(t *testing.T, address string) net.Conn {
	t.Helper()
	conn, err := net.Dial("udp", address)
	must(t, err)
	t.Cleanup(func() { conn.Close() })
	return conn
}

// TestNode has a tunnel with a real node: test requests and replies, changed headers, and repeated packets each way.
func TestNode(t *testing.T) {
	room, address, said := node(t)
	conn := dialed(t, address)
	tunnel, err := member(t, room, "ca.crt", "me").connect(conn, soon())
	must(t, err)
	said.says(t, "Handshake message sent")
	if tunnel.peer.name != "node" {
		t.Error(tunnel.peer.name)
	}
	for i := 0; i < 3; i++ {
		must(t, tunnel.ping(conn, soon()))
	}
	request, err := tunnel.seal(typeTest, testRequest, nil)
	must(t, err)
	for at := range request {
		if at == 0 || at >= 4 && at < 8 {
			continue // another type, or the index of another tunnel: the node says that it knows none
		}
		changed := append([]byte(nil), request...)
		changed[at] ^= 4
		_, err := conn.Write(changed)
		must(t, err)
	}
	if reply := answer(t, conn, 300*time.Millisecond); len(reply) > 0 {
		t.Errorf("the node answers to a changed packet: %x", reply)
	}
	_, err = conn.Write(request)
	must(t, err)
	reply := answer(t, conn, 10*time.Second)
	if len(reply) != len(request) {
		t.Fatalf("no reply to what was changed before: %x", reply)
	}
	for at := range reply {
		changed := append([]byte(nil), reply...)
		changed[at] ^= 4
		if _, err := tunnel.open(changed); err == nil {
			t.Errorf("a reply whose byte %d was changed is accepted", at)
		}
	}
	_, err = tunnel.open(reply)
	must(t, err)
	if _, err := tunnel.open(reply); !errors.Is(err, errRepeated) {
		t.Errorf("the reply a second time: %v", err)
	}
	_, err = conn.Write(request)
	must(t, err)
	if reply := answer(t, conn, 300*time.Millisecond); len(reply) > 0 {
		t.Errorf("the node answers to the same packet twice: %x", reply)
	}
	must(t, tunnel.ping(conn, soon()))
}

// TestForgedAnswers has somebody who sends answers of their own, and altered ones, before each of the node's.
func TestForgedAnswers(t *testing.T) {
	room, address, _ := node(t)
	between, err := net.ListenPacket("udp", "127.0.0.1:0")
	must(t, err)
	defer between.Close()
	there := dialed(t, address)
	go func() {
		packet, answer := make([]byte, 9001), make([]byte, 9001)
		for {
			n, from, err := between.ReadFrom(packet)
			if err != nil {
				return
			}
			there.Write(packet[:n])
			there.SetReadDeadline(time.Now().Add(300 * time.Millisecond))
			m, err := there.Read(answer)
			if err != nil {
				continue
			}
			forged := append(append([]byte(nil), answer[:headerLen]...), make([]byte, 300)...)
			between.WriteTo(forged, from)
			between.WriteTo(answer[:headerLen+1], from)
			altered := append([]byte(nil), answer[:m]...)
			altered[m-1] ^= 1
			between.WriteTo(altered, from)
			between.WriteTo(answer[:m], from)
		}
	}()
	conn := dialed(t, between.LocalAddr().String())
	tunnel, err := member(t, room, "ca.crt", "me").connect(conn, soon())
	must(t, err)
	must(t, tunnel.ping(conn, soon()))
}

// answer returns the next packet of type test that comes within a time; nil if none does. At a counter that it has seen
// the node also sends an error packet, which isn't authenticated.
func answer(t *testing.T, conn net.Conn, limit time.Duration) []byte {
	t.Helper()
	room := make([]byte, 9001)
	must(t, conn.SetReadDeadline(time.Now().Add(limit)))
	for {
		n, err := conn.Read(room)
		if err != nil || room[0] == version<<4|typeTest {
			return room[:n]
		}
	}
}

// TestRefusals has certificates that this party refuses, and certificates that the node refuses.
func TestRefusals(t *testing.T) {
	room, address, said := node(t)
	conn := dialed(t, address)
	_, err := member(t, room, "other-ca.crt", "me").connect(conn, soon())
	wants(t, err, "the certificate is by another authority")
	_, err = member(t, room, "node.crt", "me").connect(conn, soon())
	wants(t, err, "isn't one of an authority")
	_, err = member(t, room, "ca.crt", "stranger").connect(dialed(t, address), time.Now().Add(time.Second))
	wants(t, err, errSilent.Error())
	said.says(t, "Invalid certificate from host")
	swapped := member(t, room, "ca.crt", "me")
	swapped.key = member(t, room, "ca.crt", "node").key // another key than the certificate's
	_, err = swapped.connect(dialed(t, address), time.Now().Add(time.Second))
	wants(t, err, errSilent.Error())
	changed := member(t, room, "ca.crt", "me")
	changed.own.signature = append([]byte(nil), changed.own.signature...)
	changed.own.signature[7] ^= 1
	_, err = changed.connect(dialed(t, address), time.Now().Add(time.Second))
	wants(t, err, errSilent.Error())
}

func wants(t *testing.T, err error, words string) {
	t.Helper()
	if err == nil || !strings.Contains(err.Error(), words) {
		t.Errorf("got %v, want %s", err, words)
	}
}

// TestCertificates looks at certificates that nebula-cert has made, each of which is refused for one reason.
func TestCertificates(t *testing.T) {
	room, _, _ := node(t)
	good := member(t, room, "ca.crt", "node")
	key, now := good.key.Public(), time.Now()
	must(t, good.own.verify(good.authority, key, now))
	wants(t, good.own.verify(good.authority, noise.PublicKey{1}, now), "for another key")
	wants(t, good.own.verify(good.authority, key, now.Add(365*24*time.Hour)), "expired")
	wants(t, good.own.verify(good.authority, key, now.Add(-time.Hour)), "isn't valid yet")
	wants(t, good.authority.verify(good.authority, key, now), "one of an authority")
	gone := member(t, room, "ca.crt", "gone")
	wants(t, gone.own.verify(good.authority, gone.key.Public(), now.Add(3*time.Second)), "expired")
	all, err := os.ReadFile(room + "/node.crt")
	must(t, err)
	block, _ := pem.Decode(all)
	if !bytes.Equal(good.own.encoded(key[:]), block.Bytes) {
		t.Error("a certificate is encoded in another way than nebula-cert's")
	}
	travels := good.own.encoded(nil)
	again, err := parseCertificate(travels)
	must(t, err)
	must(t, again.verify(good.authority, key, now))
	if err := again.verify(good.authority, noise.PublicKey{1}, now); err == nil {
		t.Error("a certificate without its key is accepted for another")
	}
	for at := range travels { // a changed certificate isn't read, or refused
		travels[at] ^= 1
		if again, err := parseCertificate(travels); err == nil && again.verify(good.authority, key, now) == nil {
			t.Errorf("accepted with byte %d changed", at)
		}
		travels[at] ^= 1
	}
	for length := range travels {
		again, err := parseCertificate(travels[:length])
		if err == nil && again.verify(good.authority, key, now) == nil {
			t.Errorf("accepted with %d bytes", length)
		}
	}
}

func TestWindow(t *testing.T) {
	w := window{next: 3}
	for _, it := range []struct {
		counter uint64
		isNew   bool
	}{
		{3, true}, {3, false}, {5, true}, {4, true}, {4, false}, {68, true}, {5, false}, {6, true}, {4, false},
		{1000, true}, {936, false}, {937, true}, {937, false}, {936, false}, {1<<64 - 2, true}, {1000, false},
	} {
		if got := w.isNew(it.counter); got != it.isNew {
			t.Errorf("counter %d: %v", it.counter, got)
		} else if got {
			w.note(it.counter)
		}
	}
}
