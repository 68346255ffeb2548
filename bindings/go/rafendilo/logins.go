package rafendilo

// #include "rafendilo.h"
import "C"

import (
	"encoding/binary"
	"fmt"
	"net/netip"
	"time"
)

// ---- what is asked

// Offer is what a client offers in its request.
type Offer struct {
	// User is whom to log in as.
	User string
	// Algorithm is as the request names it: rsa-sha2-512 also for a key of ssh-rsa. It is empty
	// only where somebody else verifies the signature, and does not tell it.
	Algorithm string
	// Blob is that of a key or of a certificate, as it was sent.
	Blob []byte
}

// Signed says who has seen the client's signature: it is a SignedRequest, a SignedByTransport or
// SignedBySshd. nil is nobody, and nobody is let in (ErrUnsigned).
type Signed interface{ isSigned() }

// SignedRequest is the signature itself: the verifier is asked about it, and a security key's flags
// are looked at.
type SignedRequest struct {
	// SessionID is the session's identifier (RFC 4253, section 7.2): the server's own, and
	// nothing that the client sent.
	SessionID []byte
	// HostKey is the blob of the server's own host key, and nothing that the client sent, where
	// the method is publickey-hostbound-v00@openssh.com; nil where it is publickey.
	HostKey []byte
	// Signature is its blob (RFC 4253, section 6.6).
	Signature []byte
}

// SignedByTransport is for a server whose SSH library verifies the signature under the blob's own
// key, for this user, before anybody is let in, as golang.org/x/crypto/ssh does.
type SignedByTransport struct {
	// Flags are those of a security key's signature (PROTOCOL.u2f: 1 touched, 4 verified). nil
	// where nobody tells them: then a security key is let in only if neither server nor grant
	// wants a touch or a verified user.
	Flags *byte
}

// SignedBySshd is for the programs that sshd runs: it verifies the signature itself, and looks at
// its flags.
type SignedBySshd struct{}

func (SignedRequest) isSigned()     {}
func (SignedByTransport) isSigned() {}
func (SignedBySshd) isSigned()      {}

// Text is that of a file that the server's configuration names: of no bytes where the file is not
// there, and Unreadable where it is there and could not be read.
type Text []byte

// Unreadable is a Text that could not be read: no text after it is asked, nor any other source.
var Unreadable Text

// Principals says whom a certificate lets in that an authority signed: it is PrincipalsInCertificate
// or PrincipalsInFiles. nil is neither, and nobody is let in (ErrNoPrincipals).
type Principals interface{ arePrincipals() }

// PrincipalsInCertificate are the users that the certificate lists: the server has no
// AuthorizedPrincipalsFile.
type PrincipalsInCertificate struct{}

// PrincipalsInFiles are those for whom the texts of the user's AuthorizedPrincipalsFile have one of
// the certificate's names; the user need not stand there. Of the first text that has a line for one,
// the first such line decides.
type PrincipalsInFiles []Text

func (PrincipalsInCertificate) arePrincipals() {}
func (PrincipalsInFiles) arePrincipals()       {}

// Trusted is whom a server trusts, in the order in which sshd asks. What is left out lets nobody in.
type Trusted struct {
	// AuthorizedKeys are the texts of AuthorizedKeysFile, each in its turn.
	AuthorizedKeys []Text
	// Authorities are the fingerprints of the keys that may sign logins of all users
	// (TrustedUserCAKeys), as Authorities reads them.
	Authorities []SHA256
	// Principals says whom these let in.
	Principals Principals
	// CommandKeys is what AuthorizedKeysCommand wrote, if it ended with 0.
	CommandKeys []Text
	// Revoked is what the files of RevokedKeys have, or NoRevocations. Without a file, or with
	// one that was not read (nil), nobody is let in.
	Revoked [][]byte
	// LeastRSABits is RequiredRSASize. Below 1,024, as 0, it is 1,024.
	LeastRSABits uint32
	// RequiresTouch says that each security key has to be touched (PubkeyAuthOptions).
	RequiresTouch bool
	// RequiresVerification says that each has to verify its user, likewise.
	RequiresVerification bool
}

// Place is where a client is, and when it asks.
type Place struct {
	// Client is the address of its socket. Without one, what asks for an address lets nobody in.
	Client netip.Addr
	// Host is the name that was found for the address (UseDNS), or empty.
	Host string
	// Now is the time of the login.
	Now time.Time
	// CallerChecksAddress says that sshd checks source-address itself, as before 9.4, which
	// tells its programs no address. It counts with SignedBySshd alone: else no address is known
	// then.
	CallerChecksAddress bool
}

// ---- what is answered

// Permits is what a login may do, a bit for each. Zero permits nothing.
type Permits uint32

const (
	// PermitPTY permits a terminal.
	PermitPTY Permits = C.RAF_PERMIT_PTY
	// PermitPortForwarding permits ports to be forwarded, where MayOpen and MayListen say so.
	PermitPortForwarding Permits = C.RAF_PERMIT_PORT_FORWARDING
	// PermitAgentForwarding permits the client's agent to be forwarded.
	PermitAgentForwarding Permits = C.RAF_PERMIT_AGENT_FORWARDING
	// PermitX11Forwarding permits X11 to be forwarded.
	PermitX11Forwarding Permits = C.RAF_PERMIT_X11_FORWARDING
	// PermitUserRC permits ~/.ssh/rc to run.
	PermitUserRC Permits = C.RAF_PERMIT_USER_RC
	// PermitAnyCommand permits what the client asks for, or a shell. Without it
	// Grant.ShownCommand alone may run, as Grant.Runs says.
	PermitAnyCommand Permits = C.RAF_PERMIT_ANY_COMMAND
	// PermitNoTouch permits a signature by a security key that nobody touched.
	PermitNoTouch Permits = C.RAF_PERMIT_NO_TOUCH
	// PermitNoVerification permits one by a security key that did not verify its user.
	PermitNoVerification Permits = C.RAF_PERMIT_NO_VERIFICATION
	// PermitTunnels permits tunnels (tun(4)).
	PermitTunnels Permits = C.RAF_PERMIT_TUNNELS
	// PermitAnyTunnel permits whichever device of them, and is never without PermitTunnels. With
	// that alone Grant.Tunnel is the only one.
	PermitAnyTunnel Permits = C.RAF_PERMIT_ANY_TUNNEL
)

// Has says whether all of these are permitted.
func (permits Permits) Has(these Permits) bool {
	return permits&these == these
}

// Source is by what a login is let in, or refused. Zero is none.
type Source uint32

const (
	// SourceAuthorizedKeys is a text of Trusted.AuthorizedKeys.
	SourceAuthorizedKeys Source = C.RAF_SOURCE_AUTHORIZED_KEYS
	// SourceAuthority is an authority, by a certificate that lists the user.
	SourceAuthority Source = C.RAF_SOURCE_AUTHORITY
	// SourcePrincipals is an authority, by a text of PrincipalsInFiles.
	SourcePrincipals Source = C.RAF_SOURCE_PRINCIPALS
	// SourceCommand is a text of Trusted.CommandKeys.
	SourceCommand Source = C.RAF_SOURCE_COMMAND
)

// String is what sshd's configuration calls it.
func (source Source) String() string {
	return map[Source]string{
		SourceAuthorizedKeys: "AuthorizedKeysFile", SourceAuthority: "TrustedUserCAKeys",
		SourcePrincipals: "AuthorizedPrincipalsFile", SourceCommand: "AuthorizedKeysCommand",
	}[source]
}

// HostPort is a host and a port.
type HostPort struct {
	// Host has no brackets. "*" is any; what else stands for a host, MayOpen and MayListen say.
	Host string
	// Port is the only one, unless AnyPort is true.
	Port    uint16
	AnyPort bool
}

// Grant is what a login is let in by, and what it may do. The zero value permits nothing.
type Grant struct {
	// Permits are bits. What else there is to ask, MayOpen, MayListen and Runs answer.
	Permits Permits
	// ShownCommand is to be shown: the one command that runs, which may be empty. With
	// PermitAnyCommand there is none. What runs is said by Runs.
	ShownCommand string
	// Source is by what the login is let in.
	Source Source
	// Text is the number of its text among its like, from 0.
	Text int
	// Line is the number of the line that lets in, from 1; 0 where the certificate alone does.
	Line int
	// Serial and KeyID are the certificate's, for logs; 0 and empty of a plain key.
	Serial uint64
	KeyID  string
	// Authority is that of the key that signed the certificate; of a plain key it is zero.
	Authority SHA256
	// Key is that of the plain key, also of one in a certificate: a server that wants two
	// methods in a row refuses a key that was taken before.
	Key SHA256
	// PermitOpen is to be shown: where ports may be forwarded to, "*" at any port where it is
	// anywhere. MayOpen reads it.
	PermitOpen []HostPort
	// PermitListen is the same of where may be listened, which MayListen reads.
	PermitListen []HostPort
	// Environment has NAME=VALUE each. By its defaults sshd sets none.
	Environment []string
	// Expires and ExpiresLast are the first and the last second that may be the last at which
	// the line counts; Forever where it counts at any.
	Expires, ExpiresLast Second
	// Tunnel is the only device of tun(4), with PermitTunnels and without PermitAnyTunnel.
	Tunnel uint32
}

// Runs is what runs where the client asks for that command, or for a shell (nil): the grant's
// command, which may be empty, and else what the client asks for. The zero value runs nothing.
func (grant Grant) Runs(asked *string) *string {
	of, asks := "", C.uint32_t(0)
	if asked != nil {
		of, asks = *asked, 1
	}
	in, command := inputOf(grant.ShownCommand), inputOf(of)
	given := C.raf_grant{
		permits: C.uint32_t(grant.Permits), force_command: C.raf_part{length: in.length()},
	}
	found, err := form(len(in)+len(of), func(to buffer, length *C.size_t) C.uint32_t {
		return C.raf_runs(&given, in.pointer(), in.length(), command.pointer(), command.length(),
			asks, to.at, to.length, length)
	})
	if err == Status(C.RAF_END) {
		return nil
	}
	// with another error nothing runs
	runs := string(found)
	return &runs
}

// MayOpen says whether the client may have a port forwarded to that host and port, as its request
// names them ("direct-tcpip").
func (grant Grant) MayOpen(host string, port uint32) bool {
	in, asked := inputOf(dataOf(grant.PermitOpen)), inputOf(host)
	given := C.raf_grant{
		permits: C.uint32_t(grant.Permits), permit_open: C.raf_part{length: in.length()},
	}
	return C.raf_may_open(&given, in.pointer(), in.length(), asked.pointer(), asked.length(),
		C.uint32_t(port)) == C.RAF_DONE
}

// MayListen says whether the client may have the server listen at that host and port, likewise
// ("tcpip-forward"). As the request has them, "", "localhost" and "127.0.0.1" are three hosts. Port
// 0, by which the server chooses one, is permitted where any port is.
func (grant Grant) MayListen(host string, port uint32) bool {
	in, asked := inputOf(dataOf(grant.PermitListen)), inputOf(host)
	given := C.raf_grant{
		permits: C.uint32_t(grant.Permits), permit_listen: C.raf_part{length: in.length()},
	}
	return C.raf_may_listen(&given, in.pointer(), in.length(), asked.pointer(), asked.length(),
		C.uint32_t(port)) == C.RAF_DONE
}

// Refused is why LogIn lets nobody in. [errors.Is] asks for its Status.
type Refused struct {
	// Status is what is wrong first.
	Status Status
	// Source, Text and Line are those of the line that refuses, from ErrLineExpired to
	// ErrLineUnclear, or of the text with ErrTextUnreadable; else they are zero.
	Source Source
	Text   int
	Line   int
}

// Error is what the status means, and which line of which text refuses.
func (refused Refused) Error() string {
	if refused.Source == 0 {
		return refused.Status.Error()
	}
	return fmt.Sprintf("%v: %v, text %d, line %d",
		refused.Status, refused.Source, refused.Text, refused.Line)
}

// Unwrap is its Status.
func (refused Refused) Unwrap() error {
	return refused.Status
}

// ---- the calls

// LogIn lets in who holds the key that is offered, by itself or in a certificate, and has signed
// with it, as sshd does by its method publickey, or more strictly (docs/OPENSSH.md). It gives what
// the login is bound to, by the first source of the trusted ones that lets it in. To keep to the
// grant is the caller's.
//
// Else it fails with a Refused, which says what is wrong first, also ErrText for a user or a host
// that is not UTF-8, and ErrMemory.
//
// It asks the library, the verifier, which is IsSignature where it is nil, and the library again,
// over copies that nobody changes. The verifier is asked about the signatures of the certificate and
// of the client, and only where nothing else is wrong.
func LogIn(
	offer Offer, signed Signed, trusted Trusted, place Place, verify Verifier,
) (Grant, error) {
	var memory held
	defer memory.free()
	asked := loginOf(&memory, offer, signed, trusted, place)
	ticket, answers, err := verify.answers(&asked,
		func(to buffer, answer *C.raf_login_questions) C.uint32_t {
			return C.raf_log_in_questions(&asked, to.at, to.length, answer)
		})
	if err == ErrMemory {
		return Grant{}, Refused{Status: ErrMemory}
	}
	// also where nothing is asked: this says why, and by which line
	grant, refused := grantOf(&asked, ticket, answers)
	if err != nil && refused == nil { // never, as is proved
		return Grant{}, Refused{Status: err.(Status)}
	}
	return grant, refused
}

// MayOffer gives nil exactly if what is offered lets in whoever signs with it: for the query
// without a signature (RFC 4252, section 7). It grants nothing, and asks the verifier about the
// signature of a certificate alone. Else it fails with a Status that says what is wrong first, as
// LogIn does, but nothing about a client's signature.
func MayOffer(offer Offer, trusted Trusted, place Place, verify Verifier) error {
	var memory held
	defer memory.free()
	asked := loginOf(&memory, offer, nil, trusted, place)
	ticket, answers, err := verify.answers(&asked,
		func(to buffer, answer *C.raf_login_questions) C.uint32_t {
			return C.raf_may_offer_questions(&asked, to.at, to.length, answer)
		})
	if err != nil {
		return err
	}
	return errorOf(C.raf_may_offer(&asked, &ticket, answers))
}

func loginOf(
	memory *held, offer Offer, signed Signed, trusted Trusted, place Place,
) C.raf_login {
	return C.raf_login{
		offer: C.raf_offer{
			user:      spanOf(memory, offer.User),
			algorithm: spanOf(memory, offer.Algorithm),
			blob:      spanOf(memory, offer.Blob),
		},
		signed_by: signedBy(memory, signed),
		trusted:   trusted.held(memory),
		place: C.raf_place{
			client:                spanOf(memory, place.Client.AsSlice()),
			host:                  spanOf(memory, place.Host),
			unix_timestamp:        C.uint64_t(SecondOf(place.Now)),
			caller_checks_address: numberOf(place.CallerChecksAddress),
		},
	}
}

// signedBy is who has seen the signature: nobody, unless it is one of the three.
func signedBy(memory *held, signed Signed) C.raf_signed {
	var request SignedRequest
	found := C.raf_signed{}
	switch it := signed.(type) {
	case SignedRequest:
		request, found.how = it, C.RAF_SIGNED_REQUEST
		found.has_host_key = numberOf(it.HostKey != nil)
	case SignedByTransport:
		found.how = C.RAF_SIGNED_BY_TRANSPORT
		if it.Flags != nil {
			found.how, found.flags = C.RAF_SIGNED_WITH_FLAGS, C.uint8_t(*it.Flags)
		}
	case SignedBySshd:
		found.how = C.RAF_SIGNED_BY_SSHD
	}
	found.session_id = spanOf(memory, request.SessionID)
	found.host_key = spanOf(memory, request.HostKey)
	found.signature = spanOf(memory, request.Signature)
	return found
}

func (trusted Trusted) held(memory *held) C.raf_trusted {
	found := C.raf_trusted{
		authorized_keys:       textsOf(memory, trusted.AuthorizedKeys),
		authorities:           memory.digests(trusted.Authorities),
		command_keys:          textsOf(memory, trusted.CommandKeys),
		revoked:               filesOf(memory, trusted.Revoked),
		least_rsa_bits:        C.uint32_t(trusted.LeastRSABits),
		requires_touch:        numberOf(trusted.RequiresTouch),
		requires_verification: numberOf(trusted.RequiresVerification),
	}
	var texts []Text
	switch it := trusted.Principals.(type) {
	case PrincipalsInCertificate:
		found.principals_from = C.RAF_PRINCIPALS_IN_CERTIFICATE
	case PrincipalsInFiles:
		found.principals_from, texts = C.RAF_PRINCIPALS_IN_FILES, it
	}
	found.principals = textsOf(memory, texts)
	return found
}

// answers is the ticket of the questions that the call writes, and the sum of those to which the
// verifier says yes; after a no it is asked nothing more. Where something else is wrong nothing is
// asked, and the call that decides says what is.
func (verify Verifier) answers(
	asked *C.raf_login, call func(to buffer, answer *C.raf_login_questions) C.uint32_t,
) (ticket C.raf_sha256, yes C.uint32_t, err error) {
	var answer C.raf_login_questions
	offer, by := asked.offer, asked.signed_by
	given := offer.user.length + offer.blob.length +
		by.session_id.length + by.host_key.length + by.signature.length
	data, err := written(int(2*given+4608), &answer.length, func(to buffer) C.uint32_t {
		return call(to, &answer)
	})
	if err != nil {
		return ticket, 0, err
	}
	for _, one := range [...]struct {
		bit      C.uint32_t
		question C.raf_question
	}{{C.RAF_ASKS_AUTHORITY, answer.authority}, {C.RAF_ASKS_CLIENT, answer.client}} {
		if answer.asked&one.bit != 0 && !verify.says(questionIn(data, one.question)) {
			break
		}
		yes |= answer.asked & one.bit
	}
	return answer.ticket, yes, nil
}

// ofGrant is the bytes of a buffer for what a login is bound to; a longer one is asked for again.
const ofGrant = 4096

// grantOf is what the library says of the login, given what the verifier answered.
func grantOf(login *C.raf_login, ticket C.raf_sha256, answers C.uint32_t) (Grant, error) {
	var answer C.raf_grant
	data, err := written(ofGrant, &answer.length, func(to buffer) C.uint32_t {
		return C.raf_log_in(login, &ticket, answers, to.at, to.length, &answer)
	})
	if status, isRefused := err.(Status); isRefused {
		return Grant{}, Refused{
			Status: status, Source: Source(answer.source),
			Text: int(answer.text), Line: int(answer.line),
		}
	}
	return grantIn(data, answer), nil
}

func grantIn(data []byte, answer C.raf_grant) Grant {
	grant := Grant{
		Permits:      Permits(answer.permits),
		ShownCommand: string(partOf(data, answer.force_command)),
		Source:       Source(answer.source),
		Text:         int(answer.text),
		Line:         int(answer.line),
		Serial:       uint64(answer.serial),
		KeyID:        string(partOf(data, answer.key_id)),
		PermitOpen:   hostPortsIn(partOf(data, answer.permit_open)),
		PermitListen: hostPortsIn(partOf(data, answer.permit_listen)),
		Expires:      Second(answer.expires.first),
		ExpiresLast:  Second(answer.expires.last),
		Tunnel:       uint32(answer.tunnel),
		Environment:  stringsIn(partOf(data, answer.environment)),
	}
	*grant.Authority.pointer(), *grant.Key.pointer() = answer.authority, answer.key
	return grant
}

// stringsIn are the strings that the library has written one after the other.
func stringsIn(data []byte) []string {
	found, err := Strings(data)
	if err != nil {
		panic(err)
	}
	return texts(found)
}

// hostPortsIn are the hosts and ports that are strings, one after the other. A port of no bytes is
// any.
func hostPortsIn(data []byte) []HostPort {
	all := []HostPort{}
	for found := stringsIn(data); len(found) >= 2; found = found[2:] {
		one := HostPort{Host: found[0], AnyPort: len(found[1]) != 2}
		if !one.AnyPort {
			one.Port = binary.BigEndian.Uint16([]byte(found[1]))
		}
		all = append(all, one)
	}
	return all
}

// dataOf is those as strings again. A host that is too long for one is left out.
func dataOf(all []HostPort) []byte {
	data := []byte{}
	for _, one := range all {
		port := ""
		if !one.AnyPort {
			port = string([]byte{byte(one.Port >> 8), byte(one.Port)})
		}
		if both, err := joined(one.Host, port); err == nil {
			data = append(data, both...)
		}
	}
	return data
}
