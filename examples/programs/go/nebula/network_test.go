package main

import (
	"bytes"
	"encoding/binary"
	"fmt"
	"net"
	"os"
	"os/exec"
	"strings"
	"testing"
	"time"
)

// A node with a tun, in a network namespace of its own, which reaches this process by a pair of veth: this
// process is 192.168.100.2 to it.
const networkConfig = `
pki: {ca: %[1]s/ca.crt, cert: %[1]s/node.crt, key: %[1]s/node.key}
static_host_map: {"192.168.100.2": ["%[2]s"]}
lighthouse: {am_lighthouse: false}
listen: {host: %[3]s, port: 4242}
cipher: chachapoly
tun: {dev: nebula0, mtu: 1300}
logging: {level: debug}
firewall: {outbound: [{port: any, proto: any, host: any}], inbound: [{port: any, proto: any, host: any}]}
`

// What the network of this process is called, beside that of another one that runs this test.
var (
	namespace = fmt.Sprintf("noise-nebula-%d", os.Getpid())
	veth      = fmt.Sprintf("noise%d", os.Getpid())
	subnet    = fmt.Sprintf("198.18.%d.%d", os.Getpid()/64%256, os.Getpid()%64*4+1)
	ownIP     = net.ParseIP(subnet)
	nodeIP    = net.IPv4(ownIP[12], ownIP[13], ownIP[14], ownIP[15]+1)
)

// ip runs iproute2.
func ip(format string, words ...any) error {
	command := strings.Fields(fmt.Sprintf(format, words...))
	out, err := exec.Command("ip", command...).CombinedOutput()
	if err != nil {
		return fmt.Errorf("ip %v: %w: %s", command, err, out)
	}
	return nil
}

// joined makes the namespace, with a pair of veth to it, and says why it can't. It needs the rights of root.
func joined(t *testing.T) error {
	if err := ip("netns add %s", namespace); err != nil {
		return err
	}
	t.Cleanup(func() {
		ip("link delete %s", veth)
		ip("netns delete %s", namespace)
	})
	inside := "-n " + namespace
	for _, err := range []error{
		ip("link add %s type veth peer name veth1 netns %s", veth, namespace),
		ip("address add %s/30 dev %s", ownIP, veth),
		ip("link set %s up", veth),
		ip("%s address add %s/30 dev veth1", inside, nodeIP),
		ip("%s link set veth1 up", inside),
		ip("%s link set lo up", inside),
		ip("%s tuntap add dev probe mode tun", inside),
		ip("%s link delete probe", inside),
	} {
		if err != nil {
			return err
		}
	}
	return nil
}

// network starts a node in the namespace. It returns the folder of the certificates, and this process's
// socket, which the node knows.
func network(t *testing.T) (room string, own *net.UDPConn, said *nodeLog) {
	t.Helper()
	if _, err := exec.LookPath("nebula"); err != nil {
		t.Skip(err)
	}
	if err := joined(t); err != nil {
		t.Skip("no network namespace with a tun: ", err)
	}
	room = certificates(t)
	own, err := net.ListenUDP("udp", &net.UDPAddr{IP: ownIP})
	must(t, err)
	t.Cleanup(func() { own.Close() })
	must(t, os.WriteFile(room+"/node.yml", []byte(fmt.Sprintf(networkConfig, room, own.LocalAddr(), nodeIP)), 0o600))
	return room, own, started(t, exec.Command("ip", "netns", "exec", namespace, "nebula", "-config", room+"/node.yml"))
}

// packet4 returns a packet of IPv4 from this process's address in Nebula's network to the node's.
func packet4(protocol byte, payload []byte) []byte {
	b := []byte{0x45, 0, 0, 0, 0, 0, 0, 0, 64, protocol, 0, 0, 192, 168, 100, 2, 192, 168, 100, 1}
	binary.BigEndian.PutUint16(b[2:], uint16(len(b)+len(payload)))
	binary.BigEndian.PutUint16(b[10:], checksum(b))
	return append(b, payload...)
}

// checksum returns that of RFC 1071.
func checksum(b []byte) uint16 {
	sum := uint32(0)
	for i := 0; i < len(b); i += 2 {
		sum += uint32(b[i]) << 8
		if i+1 < len(b) {
			sum += uint32(b[i+1])
		}
	}
	for sum > 0xffff {
		sum = sum>>16 + sum&0xffff
	}
	return ^uint16(sum)
}

// message waits for a packet with data, of this protocol of IPv4, from the node to this process, and
// returns what IPv4 carries.
func message(t *testing.T, conn net.Conn, tunnel *tunnel, protocol byte) []byte {
	t.Helper()
	room := make([]byte, 9001)
	must(t, conn.SetReadDeadline(soon()))
	for {
		n, err := conn.Read(room)
		must(t, err)
		if n < headerLen || room[0] != version<<4|typeMessage {
			continue
		}
		text, err := tunnel.open(room[:n])
		must(t, err)
		addresses := []byte{192, 168, 100, 1, 192, 168, 100, 2}
		if len(text) > 20 && text[9] == protocol && bytes.Equal(text[12:20], addresses) {
			return text[20:]
		}
	}
}

// echoes sends a request of ICMP through the tunnel, which the system of the namespace answers by the node's tun.
func echoes(t *testing.T, conn net.Conn, tunnel *tunnel, sequence uint16) {
	t.Helper()
	request := []byte{8, 0, 0, 0, 0x47, 0x11, byte(sequence >> 8), byte(sequence)}
	request = append(request, bytes.Repeat([]byte("noise"), 100)...)
	binary.BigEndian.PutUint16(request[2:], checksum(request))
	packet, err := tunnel.seal(typeMessage, 0, packet4(1, request))
	must(t, err)
	_, err = conn.Write(packet)
	must(t, err)
	reply := message(t, conn, tunnel, 1)
	if reply[0] != 0 || checksum(reply) != 0 || !bytes.Equal(reply[4:], request[4:]) {
		t.Errorf("the reply to a request of ICMP: %x", reply)
	}
}

// TestData has a node as the responder, which passes packets on through its tun.
func TestData(t *testing.T) {
	room, _, _ := network(t)
	conn := dialed(t, nodeIP.String()+":4242")
	tunnel, err := member(t, room, "ca.crt", "me").connect(conn, soon())
	must(t, err)
	for i := uint16(0); i < 20; i++ {
		echoes(t, conn, tunnel, i)
	}
	must(t, tunnel.ping(conn, soon()))
}

// TestResponder has a node as the initiator: a program in the namespace sends a datagram to this process's address in
// Nebula's network, and waits for its answer. A first message that was altered, or is by a stranger, changes nothing.
func TestResponder(t *testing.T) {
	room, own, said := network(t)
	program := exec.Command("ip", "netns", "exec", namespace, "bash", "-c",
		`exec 3<>/dev/udp/192.168.100.2/7 && printf 'a datagram' >&3 && timeout 10 head -c 10 <&3`)
	answer := make(chan string, 1)
	go func() {
		out, _ := program.CombinedOutput()
		answer <- string(out)
	}()
	first := make([]byte, 9001)
	must(t, own.SetReadDeadline(soon()))
	n, from, err := own.ReadFromUDP(first)
	must(t, err)
	me := member(t, room, "ca.crt", "me")
	// The header, the static key, the certificate.
	for _, at := range []int{0, headerLen - 1, headerLen + 32, headerLen + 64 + 20} {
		altered := append([]byte(nil), first[:n]...)
		altered[at] ^= 1
		if _, reply, err := me.answer(altered); err == nil || reply != nil {
			t.Errorf("a first message whose byte %d was changed is answered", at)
		}
	}
	_, _, err = member(t, room, "other-ca.crt", "me").answer(first[:n])
	wants(t, err, "the certificate is by another authority")
	tunnel, reply, err := me.answer(first[:n])
	must(t, err)
	if tunnel.peer.name != "node" {
		t.Error(tunnel.peer.name)
	}
	_, err = own.WriteToUDP(reply, from)
	must(t, err)
	said.says(t, "Handshake message received")
	conn := connected{own, from}
	datagram := message(t, conn, tunnel, 17)
	if string(datagram[8:]) != "a datagram" {
		t.Fatalf("the datagram: %q", datagram)
	}
	back := append([]byte{datagram[2], datagram[3], datagram[0], datagram[1], 0, 18, 0, 0}, "an answer."...)
	packet, err := tunnel.seal(typeMessage, 0, packet4(17, back)) // without a checksum, as UDP over IPv4 may be
	must(t, err)
	_, err = conn.Write(packet)
	must(t, err)
	if got := <-answer; got != "an answer." {
		t.Errorf("the program got %q", got)
	}
	echoes(t, conn, tunnel, 1)
	must(t, tunnel.ping(conn, time.Now().Add(5*time.Second)))
}

// connected writes to one address.
type connected struct {
	*net.UDPConn
	to *net.UDPAddr
}

func (c connected) Write(b []byte) (int, error) { return c.WriteToUDP(b, c.to) }
