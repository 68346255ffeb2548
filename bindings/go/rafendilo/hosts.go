package rafendilo

// #include "rafendilo.h"
import "C"

import (
	"bytes"
	"strings"
	"time"
)

// HeldHosts is texts of known_hosts that are read once, to be asked again and again. A question then
// reads the lines for its host, and those that have a pattern or a hash. The others cost it next to
// nothing. What is zero has no lines.
type HeldHosts struct {
	text   input
	places []C.raf_line_place
}

// HoldHosts holds a copy of these texts, which are all that count, or all that do beside those of a
// HostLogin.
func HoldHosts(knownHosts []string) HeldHosts {
	text := inputOf(strings.Join(knownHosts, "\n"))
	places := make([]C.raf_line_place, bytes.Count(text, []byte("\n"))+1)
	var count C.size_t
	if C.raf_place_hosts(text.pointer(), text.length(), &places[0], C.size_t(len(places)), &count) != C.RAF_DONE {
		// the library is another than the header's: without places each host is refused
		count = 0
	}
	return HeldHosts{text, places[:count]}
}

func (held HeldHosts) place() *C.raf_line_place {
	return &held.places[:1][0]
}

func (held HeldHosts) count() C.size_t {
	return C.size_t(len(held.places))
}

// HostLogin is a host that shows a key or a certificate. What is left out trusts none.
type HostLogin struct {
	// KnownHosts are the texts of all the files of known_hosts that count, the user's and the
	// machine's.
	KnownHosts []string
	// Held are such texts too, those that are held.
	Held HeldHosts
	// Host is the name or the address as the user typed it, alone: net.SplitHostPort takes
	// apart what a dialer has. An address is asked in the text that ssh asks.
	Host string
	// Port is where it was asked.
	Port uint16
	// Now is the time at which a certificate has to be valid. Of a key it is not asked.
	Now time.Time
	// Revoked is what the files of ssh's RevokedHostKeys have, or NoRevocations. Without a
	// file, or with one that was not read (nil), no host is trusted.
	Revoked [][]byte
	// LeastRSABits is ssh's RequiredRSASize. Below 1,024, as 0, it is 1,024.
	LeastRSABits uint32
	// Verify is IsSignature where it is nil. Of a key it is not asked.
	Verify Verifier
}

// CheckHostKey gives nil exactly if the key, given as its blob, is trusted as that of the host, as
// ssh does or more strictly (docs/OPENSSH.md); else a Status that says what is wrong first. It
// fails with ErrText where the host is not UTF-8, and with ErrMemory.
//
// Whether the host holds the key is not looked at.
func CheckHostKey(login HostLogin, key []byte) error {
	var memory held
	defer memory.free()
	asked, in := login.held(&memory), inputOf(key)
	if login.Held.text == nil {
		return errorOf(C.raf_check_host_key(&asked, in.pointer(), in.length()))
	}
	text := login.Held.text
	return errorOf(C.raf_check_held_host_key(&asked, text.pointer(), text.length(),
		login.Held.place(), login.Held.count(), in.pointer(), in.length()))
}

// KnownBy is by what a host that shows a certificate is known; what is zero is none of both.
type KnownBy uint32

const (
	// ByAuthority is an authority of the host, which made the certificate.
	ByAuthority KnownBy = C.RAF_BY_AUTHORITY
	// ByCertifiedKey is the key in the certificate, as if nobody had signed it.
	ByCertifiedKey KnownBy = C.RAF_BY_CERTIFIED_KEY
)

// CheckHostCertificate gives by what a host that shows a certificate, given as its blob, is known, and
// nil exactly if it is; else a Status that says what is wrong first. An authority makes it known by a
// certificate that lists the host in small letters. Else the certified key does, as CheckHostKey says.
// It fails as that does.
//
// It asks the library, the verifier, and the library again, over copies that nobody changes. The
// verifier is not asked about the certificate of another authority, unless the host is known by the
// key, or about one that is revoked.
//
// Whether the host holds the certified key is not looked at.
func CheckHostCertificate(login HostLogin, certificate []byte) (KnownBy, error) {
	var memory held
	defer memory.free()
	asked, in := login.held(&memory), inputOf(certificate)
	var knownBy C.uint32_t
	err := decided(login.Verify, in, func(isVerified C.uint32_t) error {
		text := login.Held.text
		if text == nil {
			return errorOf(C.raf_check_host_certificate(&asked, in.pointer(), in.length(),
				isVerified, &knownBy))
		}
		return errorOf(C.raf_check_held_host_certificate(&asked, text.pointer(), text.length(),
			login.Held.place(), login.Held.count(), in.pointer(), in.length(), isVerified, &knownBy))
	})
	return KnownBy(knownBy), err
}

func (login HostLogin) held(memory *held) C.raf_host_login {
	return C.raf_host_login{
		known_hosts:    spansOf(memory, login.KnownHosts),
		host:           spanOf(memory, login.Host),
		revoked:        filesOf(memory, login.Revoked),
		unix_timestamp: C.uint64_t(SecondOf(login.Now)),
		least_rsa_bits: C.uint32_t(login.LeastRSABits),
		port:           C.uint16_t(login.Port),
	}
}

// HostAndPort takes apart what a user types: host:port, [host]:port, [host] or a host alone, whose
// port is 0. Without brackets a text with several colons is a host alone, as an address of IPv6.
//
// It fails with ErrFormat where something else follows a bracket or the one colon, and with ErrText
// where the text is not UTF-8.
func HostAndPort(text string) (host string, port uint16, err error) {
	var found C.raf_destination
	in := inputOf(text)
	err = errorOf(C.raf_host_and_port(in.pointer(), in.length(), &found))
	if err != nil {
		return "", 0, err
	}
	return text[found.host.start:][:found.host.length], uint16(found.port), nil
}

// UnreadableHostLine gives the number, from 1, of the first line of a text of known_hosts by which
// CheckHostKey fails with ErrHostUnreadable for that host, and 0 where there is none. It fails with
// ErrText where the host is not UTF-8, and with ErrMemory.
func UnreadableHostLine(knownHosts, host string, port uint16) (int, error) {
	var number C.size_t
	var memory held
	defer memory.free()
	in, whom := spanOf(&memory, knownHosts), inputOf(host)
	status := C.raf_unreadable_host_line(in.bytes, in.length, whom.pointer(),
		whom.length(), C.uint16_t(port), &number)
	if status == C.RAF_END {
		return 0, nil
	}
	return int(number), errorOf(status)
}
