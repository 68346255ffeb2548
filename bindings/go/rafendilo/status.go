package rafendilo

// #include "rafendilo.h"
import "C"

import "fmt"

// Status is why a call refused what it was given, or could not answer. It is an error, and no call
// gives one that says yes: what is done is nil. Compare with [errors.Is]. [errors.As] takes it out
// to show its number; where that is false the zero value that is left says nothing: decide by
// err == nil alone.
type Status uint32

// What is no answer on what was given.
const (
	// ErrMemory is no refusal: the library was refused memory, nothing is said of what was
	// given, and the call may be made again.
	ErrMemory Status = C.RAF_MEMORY
	// ErrText is for a principal, a line of authorized_keys or known_hosts, options or a host's
	// name that is not UTF-8. For such a line ReadLine fails with ErrCharacterEncoding.
	ErrText Status = C.RAF_TEXT
)

// The bytes are no certificate, key, signature or revocation list, or the line is none: an error
// that they have. For logs: lines with one error may fail with different ones.
const (
	// ErrBase64 is for a word of a line that is no Base64, or not the one of its bytes.
	ErrBase64 Status = C.RAF_BASE64
	// ErrCharacterEncoding is for a text that is not UTF-8, or has a character that no name
	// has.
	ErrCharacterEncoding Status = C.RAF_CHARACTER_ENCODING
	// ErrLabel is for a name that is none of those that may stand there.
	ErrLabel Status = C.RAF_LABEL
	// ErrLength is for a stated length that passes the bytes or is not the one wanted, for a
	// word of a line that is missing, and for what is too long for a string.
	ErrLength Status = C.RAF_LENGTH
	// ErrTrailingData is for bytes after the end.
	ErrTrailingData Status = C.RAF_TRAILING_DATA
	// ErrFormat is for a value that does not keep the form of its kind.
	ErrFormat Status = C.RAF_FORMAT
	// ErrAlgorithmUnknown is for two names that differ and have to be one, and for a point that
	// begins with 00 or 05.
	ErrAlgorithmUnknown Status = C.RAF_ALGORITHM_UNKNOWN
	// ErrCrypto is for a number in a signature that is not positive, and for a security key on
	// another curve than P-256.
	ErrCrypto Status = C.RAF_CRYPTO
	// ErrECDSA is for what is no encoding of a point.
	ErrECDSA Status = C.RAF_ECDSA
	// ErrTime is for a time above 2^63 - 1 in a certificate.
	ErrTime Status = C.RAF_TIME
	// ErrNamespace is for an empty namespace in an SSH signature.
	ErrNamespace Status = C.RAF_NAMESPACE
	// ErrUnsupportedVersion is for an SSH signature of a version above 1, and for a revocation
	// list of another version than 1.
	ErrUnsupportedVersion Status = C.RAF_UNSUPPORTED_VERSION
	// ErrRSASHA1 is for an RSA signature by SHA-1: the helpers in C tell it, while calls fail
	// with ErrLength.
	ErrRSASHA1 Status = C.RAF_RSA_SHA1
)

// What is wrong first with a certificate that is not valid, and why a signature does not count.
const (
	// ErrNotSigned is for a certificate or a signature that the verifier did not take.
	ErrNotSigned Status = C.RAF_NOT_SIGNED
	// ErrUntrustedAuthority is for one that none of the authorities signed.
	ErrUntrustedAuthority Status = C.RAF_UNTRUSTED_AUTHORITY
	// ErrInvalidTime is for a time that is none: before 1970.
	ErrInvalidTime Status = C.RAF_INVALID_TIME
	// ErrOutOfWindow is for a certificate that is not yet valid, or no longer.
	ErrOutOfWindow Status = C.RAF_OUT_OF_WINDOW
	// ErrUnlistedPrincipal is for one that lists principals, and not this one.
	ErrUnlistedPrincipal Status = C.RAF_UNLISTED_PRINCIPAL
	// ErrUnsupported is for a key and a signature that do not go together.
	ErrUnsupported Status = C.RAF_UNSUPPORTED
	// ErrSignerNotAllowed is for an SSH signature whose key no line lets sign for the identity,
	// in the namespace and at the time.
	ErrSignerNotAllowed Status = C.RAF_SIGNER_NOT_ALLOWED
	// ErrRevoked is for one whose key a revocation file revokes, and for such a certificate.
	ErrRevoked Status = C.RAF_REVOKED
	// ErrElsewhere is for a client's address that is none of those that are allowed.
	ErrElsewhere Status = C.RAF_ELSEWHERE
	// ErrUnreadableRevocations is for a revocation file that can't be read, and so revokes all,
	// and where there is none.
	ErrUnreadableRevocations Status = C.RAF_UNREADABLE_REVOCATIONS
	// ErrKeyNotAccepted is for a kind or a size of key that OpenSSH does not let in.
	ErrKeyNotAccepted Status = C.RAF_KEY_NOT_ACCEPTED
	// ErrLaterKey is for a line with a key of a later kind, which signs nothing that is read.
	// No call here fails with it: Authorities passes over such lines.
	ErrLaterKey Status = C.RAF_LATER_KEY
	// ErrUnsafeMode is for a file that is another's, or that others may write: IsSafeMode
	// denies it.
	ErrUnsafeMode Status = C.RAF_UNSAFE_MODE
	// ErrOtherNamespace is for an SSH signature that is for another namespace.
	ErrOtherNamespace Status = C.RAF_OTHER_NAMESPACE
)

// A certificate lets nobody in, whoever signed it: the first of these, with ErrKeyNotAccepted after
// ErrOtherKey.
const (
	// ErrNotNormalForm is for bytes that are not the certificate's normal form, and so not
	// those that were signed.
	ErrNotNormalForm Status = C.RAF_NOT_NORMAL_FORM
	// ErrOtherType is for one of a host where a user shows it, or of a user where a host does.
	ErrOtherType Status = C.RAF_OTHER_TYPE
	// ErrOtherKey is for one of another key than the client's. No call here fails with it.
	ErrOtherKey Status = C.RAF_OTHER_KEY
	// ErrCriticalOptions is for one with a critical option that is not known, or whose value
	// sshd does not read.
	ErrCriticalOptions Status = C.RAF_CRITICAL_OPTIONS
	// ErrExtensions is for one with data in an extension that is a flag, or with a zero byte in
	// the name of an extension.
	ErrExtensions Status = C.RAF_EXTENSIONS
	// ErrKeyID is for one with a zero byte in its key id.
	ErrKeyID Status = C.RAF_KEY_ID
	// ErrValidPrincipals is for one that lists no principal, more than 256 or one with a zero
	// byte, and for a user without a name.
	ErrValidPrincipals Status = C.RAF_VALID_PRINCIPALS
)

// A client's signature does not count.
const (
	// ErrOtherRequest is for signed bytes that are not those of the request, or are for another
	// service than ssh-connection. No call here fails with it.
	ErrOtherRequest Status = C.RAF_OTHER_REQUEST
	// ErrOtherAlgorithm is for a request that names another algorithm than the signature's.
	ErrOtherAlgorithm Status = C.RAF_OTHER_ALGORITHM
	// ErrUntouched is for a security key that nobody touched.
	ErrUntouched Status = C.RAF_UNTOUCHED
	// ErrUnverified is for one that did not verify its user.
	ErrUnverified Status = C.RAF_UNVERIFIED
	// ErrClientNotSigned is for a signature that is none of the key's for this request.
	ErrClientNotSigned Status = C.RAF_CLIENT_NOT_SIGNED
	// ErrNoFlags is for a security key whose flags nobody tells, where a touch or a verified
	// user is wanted.
	ErrNoFlags Status = C.RAF_NO_FLAGS
	// ErrNoSignature is for bytes that are no signature.
	ErrNoSignature Status = C.RAF_NO_SIGNATURE
)

// Nothing lets in. From ErrLineExpired to ErrLinePrincipals it is why the first line for the key,
// for the certificate's authority or for a principal of it refuses: each such line does.
const (
	// ErrUserNotListed is where no line is for them, and no authority's certificate lists the
	// user.
	ErrUserNotListed Status = C.RAF_USER_NOT_LISTED
	// ErrLineExpired is for a line whose expiry-time is over.
	ErrLineExpired Status = C.RAF_LINE_EXPIRED
	// ErrLineOption is for a line that has principals, and no cert-authority; of a file of
	// principals, for one that has either.
	ErrLineOption Status = C.RAF_LINE_OPTION
	// ErrLineElsewhere is for a line whose from is for other places.
	ErrLineElsewhere Status = C.RAF_LINE_ELSEWHERE
	// ErrLineCommand is for a line with another command than the certificate's.
	ErrLineCommand Status = C.RAF_LINE_COMMAND
	// ErrLinePrincipals is for a line that lets in nobody whom the certificate lists.
	ErrLinePrincipals Status = C.RAF_LINE_PRINCIPALS
	// ErrLineUnclear is for a line that may let in: sshd may take it, so no other one may
	// count.
	ErrLineUnclear Status = C.RAF_LINE_UNCLEAR
	// ErrTextUnreadable is for a text that could not be read, where nothing before it lets in.
	ErrTextUnreadable Status = C.RAF_TEXT_UNREADABLE
)

// What has no default is left out of a login.
const (
	// ErrUnsigned is where nobody has seen the signature: Signed is nil.
	ErrUnsigned Status = C.RAF_UNSIGNED
	// ErrNoPrincipals is where nobody says whom authorities let in: Trusted.Principals is nil.
	ErrNoPrincipals Status = C.RAF_NO_PRINCIPALS
)

// ErrNotPermitted is for what a grant does not permit.
const ErrNotPermitted Status = C.RAF_NOT_PERMITTED

// A draft of a certificate contradicts itself.
const (
	// ErrPrincipals is for a draft that lists none and does not say so, or says so and lists
	// some.
	ErrPrincipals Status = C.RAF_PRINCIPALS
	// ErrEmptyWindow is for a window that has no second.
	ErrEmptyWindow Status = C.RAF_EMPTY_WINDOW
)

// A host's key is not trusted: the first of these that holds.
const (
	// ErrHostRevoked is for a key that a line for the host revokes, or a revocation file.
	ErrHostRevoked Status = C.RAF_HOST_REVOKED
	// ErrHostUnreadable is for a text with a line that is no entry and may be one for the host.
	ErrHostUnreadable Status = C.RAF_HOST_UNREADABLE
	// ErrHostChanged is for a host for which a line has another key, and none this one.
	ErrHostChanged Status = C.RAF_HOST_CHANGED
	// ErrHostUnknown is for a host that no line without a marker is for.
	ErrHostUnknown Status = C.RAF_HOST_UNKNOWN
)

// Nothing is asked: the first of the three about a host, and that about a signer.
const (
	// ErrNoPort is for port 0.
	ErrNoPort Status = C.RAF_NO_PORT
	// ErrNoHost is for a host that is empty.
	ErrNoHost Status = C.RAF_NO_HOST
	// ErrNoAddress is for a host that is like an address, and is none with one text: 127.1, and
	// fe80::1%eth0.
	ErrNoAddress Status = C.RAF_NO_ADDRESS
	// ErrNoIdentity is for a signer whose identity is empty.
	ErrNoIdentity Status = C.RAF_NO_IDENTITY
)

// Name is the name of the status in include/rafendilo.h, without RAF_: NOT_SIGNED, for example.
func (status Status) Name() string {
	return C.GoString(C.raf_status_name(C.uint32_t(status)))
}

// Error is what it means, in words, and the number.
func (status Status) Error() string {
	words, isKnown := meanings[status]
	if !isKnown { // none that a call of this version gives
		words = "a status without words"
	}
	return fmt.Sprintf("%s (%d)", words, uint32(status))
}
