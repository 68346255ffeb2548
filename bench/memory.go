// Makes a call of the package for Go about a file, for bench/memory:
//
//	memory KIND FILE SECOND
//
// It prints the error, and on standard error by how many bytes the peak of its memory grew meanwhile.
package main

import (
	"fmt"
	"net/netip"
	"os"
	"strings"
	"time"

	"rafendilo.example/go/rafendilo"
)

// peak is that of this process's memory.
func peak() int {
	status, _ := os.ReadFile("/proc/self/status")
	_, after, _ := strings.Cut(string(status), "VmHWM:")
	var kibibytes int
	fmt.Sscan(after, &kibibytes)
	return kibibytes << 10
}

func call(kind string, file []byte, text string, second []byte) error {
	switch kind {
	case "users":
		_, err := rafendilo.LogIn(rafendilo.Offer{User: "user", Blob: second}, rafendilo.SignedBySshd{},
			rafendilo.Trusted{AuthorizedKeys: []rafendilo.Text{file}, Principals: rafendilo.PrincipalsInCertificate{},
				Revoked: rafendilo.NoRevocations},
			rafendilo.Place{Client: netip.MustParseAddr("192.0.2.1"), Now: time.Now()}, nil)
		return err
	case "hosts":
		login := rafendilo.HostLogin{KnownHosts: []string{text}, Host: "host.example.com", Port: 22,
			Revoked: rafendilo.NoRevocations}
		return rafendilo.CheckHostKey(login, second)
	default:
		return rafendilo.CheckUnrevokedCertificate([][]byte{file}, second)
	}
}

func main() {
	file, _ := os.ReadFile(os.Args[2])
	second, _ := os.ReadFile(os.Args[3])
	text := string(file)
	before := peak()
	err := call(os.Args[1], file, text, second)
	fmt.Println(err)
	fmt.Fprintln(os.Stderr, peak()-before)
}
