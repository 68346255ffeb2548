package rafendilo_test

import (
	"crypto/ed25519"
	"encoding/base64"
	"testing"
	"time"

	"rafendilo.example/go/rafendilo"
)

// What is left out trusts neither key nor certificate, also where a line is for every host.
func TestHosts(t *testing.T) {
	private, key := made(t)
	line := "ssh-ed25519 " + base64.StdEncoding.EncodeToString(key) + "\n"
	by := func(message []byte) ([]byte, error) {
		return rafendilo.JoinStrings([]byte("ssh-ed25519"), ed25519.Sign(private, message))
	}
	certificate, err := rafendilo.MakeCertificate(rafendilo.Draft{
		Key: key, Authority: key, Type: rafendilo.Host, ValidBefore: rafendilo.Forever,
		Principals: []string{"h"},
	}, by)
	same(t, "error", err, nil)
	unread := rafendilo.ErrUnreadableRevocations
	for what, it := range map[string]struct {
		turn                 func(*rafendilo.HostLogin)
		ofKey, ofCertificate error
	}{
		"the host's": {func(it *rafendilo.HostLogin) {}, nil, nil},
		"no text": {
			func(it *rafendilo.HostLogin) { it.KnownHosts = nil },
			rafendilo.ErrHostUnknown, rafendilo.ErrHostUnknown,
		},
		"no host": {
			func(it *rafendilo.HostLogin) { it.Host = "" }, rafendilo.ErrNoHost, rafendilo.ErrNoHost,
		},
		"no port": {
			func(it *rafendilo.HostLogin) { it.Port = 0 }, rafendilo.ErrNoPort, rafendilo.ErrNoPort,
		},
		"no time": {
			func(it *rafendilo.HostLogin) { it.Now = time.Time{} }, nil, nil,
		},
		"no file": {func(it *rafendilo.HostLogin) { it.Revoked = nil }, unread, unread},
		"a file that was not read": {
			func(it *rafendilo.HostLogin) { it.Revoked = [][]byte{nil} }, unread, unread,
		},
		// 1,024 bits, and IsSignature
		"no size":     {func(it *rafendilo.HostLogin) { it.LeastRSABits = 0 }, nil, nil},
		"no verifier": {func(it *rafendilo.HostLogin) { it.Verify = nil }, nil, nil},
		"no address": {
			func(it *rafendilo.HostLogin) { it.Host = "127.1" },
			rafendilo.ErrNoAddress, rafendilo.ErrNoAddress,
		},
		"an address": {
			func(it *rafendilo.HostLogin) { it.Host = "FD00:0::1" },
			rafendilo.ErrHostRevoked, rafendilo.ErrHostRevoked,
		},
	} {
		login := rafendilo.HostLogin{
			KnownHosts: []string{"* " + line, "@cert-authority * " + line, "@revoked fd00::1 " + line},
			Host:       "h", Port: 22, Now: time.Unix(1704067200, 0),
			Revoked: rafendilo.NoRevocations, LeastRSABits: 2048,
			Verify: rafendilo.IsSignature,
		}
		it.turn(&login)
		same(t, what, rafendilo.CheckHostKey(login, key), it.ofKey)
		knownBy, err := rafendilo.CheckHostCertificate(login, certificate)
		same(t, what, err, it.ofCertificate)
		same(t, what+": by what it is known", knownBy != 0, err == nil)
	}
}
