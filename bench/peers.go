// Makes a call of the package for Go, or what answers the same by golang.org/x/crypto/ssh, so
// many times, for bench/peers:
//
//	peers ours|theirs log-in|authorized_keys|known_hosts|held-known_hosts CALLS FILE SECOND
//
// FILE is the key of an authority, or a file of that name, which each call reads anew, unless it is
// held. SECOND is the key or the certificate that is asked about. It prints nanoseconds of
// processor time a call, and what the last one answered.
package main

import (
	"bytes"
	"fmt"
	"net"
	"net/netip"
	"os"
	"strconv"
	"syscall"
	"time"

	"golang.org/x/crypto/ssh"
	"golang.org/x/crypto/ssh/knownhosts"
	"rafendilo.example/go/rafendilo"
)

const user, host = "user", "host.example.com"

var (
	address = netip.MustParseAddr("192.0.2.1")
	now     = time.Unix(2000000000, 0)
)

// have is what was found; the program ends where nothing was.
func have[T any](found T, err error) T {
	if err != nil {
		fmt.Fprintln(os.Stderr, err)
		os.Exit(2)
	}
	return found
}

// ---- ours

// logIn is a login where the SSH library verifies the client's signature. That of a certificate
// is believed: verification is not measured here.
func logIn(blob []byte, keys []rafendilo.Text, authorities []rafendilo.SHA256) bool {
	_, err := rafendilo.LogIn(rafendilo.Offer{User: user, Blob: blob}, rafendilo.SignedByTransport{},
		rafendilo.Trusted{
			AuthorizedKeys: keys, Authorities: authorities,
			Principals: rafendilo.PrincipalsInCertificate{}, Revoked: rafendilo.NoRevocations,
		},
		rafendilo.Place{Client: address, Now: now}, func(rafendilo.Question) bool { return true })
	return err == nil
}

func isHost(login rafendilo.HostLogin, key []byte) bool {
	login.Host, login.Port, login.Now, login.Revoked = host, 22, now, rafendilo.NoRevocations
	return rafendilo.CheckHostKey(login, key) == nil
}

// ours is the call, after what it does not read each time.
func ours(kind, path string, second []byte) func() bool {
	switch kind {
	case "log-in":
		authorities := []rafendilo.SHA256{have(rafendilo.Fingerprint(have(os.ReadFile(path))))}
		return func() bool { return logIn(second, nil, authorities) }
	case "authorized_keys":
		return func() bool { return logIn(second, []rafendilo.Text{have(os.ReadFile(path))}, nil) }
	case "known_hosts":
		return func() bool {
			return isHost(rafendilo.HostLogin{KnownHosts: []string{string(have(os.ReadFile(path)))}}, second)
		}
	default:
		held := rafendilo.HoldHosts([]string{string(have(os.ReadFile(path)))})
		return func() bool { return isHost(rafendilo.HostLogin{Held: held}, second) }
	}
}

// ---- theirs

// believed is a key under which each signature is one, of a certificate too.
type believed struct{ ssh.PublicKey }

func (believed) Verify([]byte, *ssh.Signature) error { return nil }

// connection is that of the user.
type connection struct{ ssh.ConnMetadata }

func (connection) User() string { return user }

// isCertified reads the certificate, and asks all that a CertChecker asks.
func isCertified(blob, authority []byte) bool {
	key, err := ssh.ParsePublicKey(blob)
	if err != nil {
		return false
	}
	certificate := key.(*ssh.Certificate)
	certificate.SignatureKey = believed{certificate.SignatureKey}
	checker := ssh.CertChecker{
		IsUserAuthority: func(by ssh.PublicKey) bool { return bytes.Equal(by.Marshal(), authority) },
		IsRevoked:       func(*ssh.Certificate) bool { return false },
		Clock:           func() time.Time { return now },
	}
	_, err = checker.Authenticate(connection{}, certificate)
	return err == nil
}

// isAuthorized reads all lines, until one has the key.
func isAuthorized(text, blob []byte) bool {
	for {
		key, _, _, rest, err := ssh.ParseAuthorizedKey(text)
		if err != nil || bytes.Equal(key.Marshal(), blob) {
			return err == nil
		}
		text = rest
	}
}

func isKnown(known ssh.HostKeyCallback, key ssh.PublicKey) bool {
	return known(host+":22", net.TCPAddrFromAddrPort(netip.AddrPortFrom(address, 22)), key) == nil
}

// theirs is the same as ours.
func theirs(kind, path string, second []byte) func() bool {
	key := have(ssh.ParsePublicKey(second))
	switch kind {
	case "log-in":
		authority := have(os.ReadFile(path))
		return func() bool { return isCertified(second, authority) }
	case "authorized_keys":
		return func() bool { return isAuthorized(have(os.ReadFile(path)), second) }
	case "known_hosts":
		return func() bool { return isKnown(have(knownhosts.New(path)), key) }
	default:
		known := have(knownhosts.New(path))
		return func() bool { return isKnown(known, key) }
	}
}

// used is the processor time of this process, of its collector too.
func used() int64 {
	var of syscall.Rusage
	if syscall.Getrusage(syscall.RUSAGE_SELF, &of) != nil {
		os.Exit(2)
	}
	return of.Utime.Nano() + of.Stime.Nano()
}

func main() {
	of := map[string]func(kind, path string, second []byte) func() bool{"ours": ours, "theirs": theirs}
	calls, second := have(strconv.Atoi(os.Args[3])), have(os.ReadFile(os.Args[5]))
	call, last := of[os.Args[1]](os.Args[2], os.Args[4], second), false
	began := used()
	for at := 0; at < calls; at++ {
		last = call()
	}
	took := (used() - began) / int64(calls)
	fmt.Println(took, map[bool]string{true: "valid", false: "refused"}[last])
}
