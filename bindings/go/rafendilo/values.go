package rafendilo

// #include "rafendilo.h"
import "C"

import (
	"math"
	"time"
)

// Algorithm is how a signature is made. Beside each stands what is in [Question.Key] after the
// name of its type, and what [Question.Signature] is; numbers are two's complement, big-endian. A
// verifier says no under a key that MayVerify does not take.
type Algorithm uint32

const (
	// DSA is with SHA-1. Key: p, q, g, y; signature: r and s, unsigned, 20 bytes each.
	DSA Algorithm = C.RAF_ASK_DSA
	// P256 is ECDSA with SHA-256. Key: the curve's name and the point as in SEC 1; signature:
	// two strings, r and s.
	P256 Algorithm = C.RAF_ASK_P256
	// P384 is ECDSA with SHA-384, likewise.
	P384 Algorithm = C.RAF_ASK_P384
	// P521 is ECDSA with SHA-512, likewise.
	P521 Algorithm = C.RAF_ASK_P521
	// Ed25519 has a key of 32 bytes and a signature of 64.
	Ed25519 Algorithm = C.RAF_ASK_ED25519
	// RSASHA256 is PKCS#1 v1.5 with SHA-256. Key: e and n; signature: an unsigned number.
	RSASHA256 Algorithm = C.RAF_ASK_RSA_SHA256
	// RSASHA512 is PKCS#1 v1.5 with SHA-512, likewise.
	RSASHA512 Algorithm = C.RAF_ASK_RSA_SHA512
)

// Question is what has to be verified: that Signature is one of Message under Key, made as
// Algorithm says. Key is a blob, which [Strings] takes apart; for a security key it is the plain
// key within, and Message is what the device signed.
type Question struct {
	Algorithm               Algorithm
	Key, Message, Signature []byte
}

// Verifier says whether the signature of a question is one, and no under a key that MayVerify does
// not take. A nil Verifier is taken for IsSignature.
type Verifier func(Question) bool

// SHA256 is the SHA-256 fingerprint of a key. The zero value is that of no key.
type SHA256 [32]byte

// SHA512 is the SHA-512 fingerprint of a key. The zero value is that of no key.
type SHA512 [64]byte

// Second is a time as certificates have it: seconds since 1970, and not milliseconds. Make it by
// SecondOf: a conversion of a number makes Forever of -1.
type Second uint64

// Forever is the end of a window that has none.
const Forever Second = math.MaxUint64

// SecondOf is the second in which the time falls. For a time before 1970, as time.Time{} is, it is
// 2^63, which is no time to a certificate: each call refuses it.
func SecondOf(at time.Time) Second {
	second := at.Unix()
	if second < 0 {
		return 1 << 63
	}
	return Second(second)
}

// Time is the time at which the second begins; false for Forever, and for what is no time.
func (second Second) Time() (time.Time, bool) {
	if second > math.MaxInt64 {
		return time.Time{}, false
	}
	return time.Unix(int64(second), 0), true
}

// CertificateType says whom a certificate is for.
type CertificateType uint32

const (
	// User is for a certificate by which a user logs in.
	User CertificateType = C.RAF_USER
	// Host is for a certificate by which a host shows who it is.
	Host CertificateType = C.RAF_HOST
)

// Fields is what a policy asks of a certificate.
type Fields struct {
	Serial uint64
	// ValidAfter is the first second of the window.
	ValidAfter Second
	// ValidBefore is the first second after the window, Forever if it has no end.
	ValidBefore Second
	Type        CertificateType
	// ListsPrincipals is false for a certificate that is for everybody.
	ListsPrincipals bool
	// HasCriticalOptions says that the certificate is to be refused by who does not know each.
	HasCriticalOptions bool
}

// Contents is what a certificate lists. All texts are UTF-8; they may hold line ends and terminal
// commands.
type Contents struct {
	KeyID string
	// Principals is empty for a certificate that is for everybody.
	Principals []string
	// CriticalOptions and Extensions have values by names; the value of one that has none is
	// empty.
	CriticalOptions, Extensions map[string]string
	// Key is the blob of the key that is certified, and Authority that of the one that signed.
	Key, Authority []byte
}

// Line is what stands in a line of a file of keys or of certificates.
type Line struct {
	// Blob is a key, or a certificate if IsCertificate says so.
	Blob          []byte
	Comment       string
	IsCertificate bool
}

// Entry is an entry of authorized_keys.
type Entry struct {
	// Options stand here as in the line: LineOptions takes them apart.
	Options string
	// Key is the blob in its normal form.
	Key     []byte
	Comment string
}

// LineOption is an option of an entry of authorized_keys.
type LineOption struct {
	// Name stands here as in the line: compare without case (strings.EqualFold).
	Name string
	// Value stands here without its quotes, and is empty where HasValue is false.
	Value    string
	HasValue bool
}

// Marker is what stands before an entry of known_hosts.
type Marker uint32

const (
	// NoMarker stands before the key of a host.
	NoMarker Marker = C.RAF_MARKER_NONE
	// CertAuthority is @cert-authority: the key is not a host's own, and signs certificates.
	CertAuthority Marker = C.RAF_MARKER_CERT_AUTHORITY
	// Revoked is @revoked: the key is not to be trusted.
	Revoked Marker = C.RAF_MARKER_REVOKED
)

// HostEntry is an entry of known_hosts.
type HostEntry struct {
	Marker Marker
	// Hosts stand here as in the line.
	Hosts string
	// Key is the blob in its normal form.
	Key     []byte
	Comment string
}
