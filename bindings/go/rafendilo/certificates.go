package rafendilo

// #include "rafendilo.h"
import "C"

import (
	"time"
	"unicode/utf8"
)

// CertificateQuestion gives what has to be verified of a certificate, given as its blob, as
// ReadLine gives it. It fails with a Status for bytes that are none, with ErrUnsupported where key
// and signature do not go together, and with ErrMemory. CheckCertificate asks it itself.
func CertificateQuestion(certificate []byte) (Question, error) {
	return questionOf(inputOf(certificate))
}

func questionOf(in input) (Question, error) {
	return question(2*len(in)+256, func(to buffer, answer *C.raf_question) C.uint32_t {
		return C.raf_certificate_question(in.pointer(), in.length(), to.at, to.length, answer)
	})
}

// CheckCertificate gives nil exactly if the certificate, given as its blob, is valid at that
// time for one of the authorities, which are the fingerprints of their keys; else what is wrong
// first. The verifier is asked about this very certificate, once, and not at all where the
// certificate raises no question or is of another authority (ErrUntrustedAuthority), whose key may
// be one that the client made up.
//
// Nothing is said here of whom the certificate is for: of its type, its principals, its critical
// options, and whether it is revoked. LogIn asks what a login asks.
func CheckCertificate(
	certificate []byte, now time.Time, authorities []SHA256, verify Verifier,
) error {
	in, by, second := inputOf(certificate), digestsOf(authorities), C.uint64_t(SecondOf(now))
	return validated(verify, in, func(isVerified C.uint32_t) error {
		return errorOf(C.raf_check_certificate(in.pointer(), in.length(), second,
			by.pointer(), by.count(), isVerified))
	})
}

// CheckCertificateFor does the same, and gives ErrUnlistedPrincipal last, for a certificate that
// lists principals, and not this one. A certificate that lists none is for everybody, also for "".
// It fails with ErrText for a principal that is not UTF-8.
func CheckCertificateFor(
	certificate []byte, now time.Time, principal string, authorities []SHA256, verify Verifier,
) error {
	in, by, second := inputOf(certificate), digestsOf(authorities), C.uint64_t(SecondOf(now))
	whom := inputOf(principal)
	return validated(verify, in, func(isVerified C.uint32_t) error {
		return errorOf(C.raf_check_certificate_for(in.pointer(), in.length(), second,
			whom.pointer(), whom.length(), by.pointer(), by.count(), isVerified))
	})
}

// decided is a verdict about a certificate, once the verifier has answered its question. It is
// asked none where the verdict is another one already.
func decided(
	verify Verifier, certificate input, verdict func(isVerified C.uint32_t) error,
) error {
	if err := verdict(0); err != ErrNotSigned {
		return err
	}
	return answered(verify, certificate, verdict)
}

// validated is a verdict about a certificate, once the verifier has answered its question. It is
// asked none where the authority is another one.
func validated(
	verify Verifier, certificate input, verdict func(isVerified C.uint32_t) error,
) error {
	if err := verdict(1); err == ErrUntrustedAuthority || err == ErrMemory {
		return err
	}
	return answered(verify, certificate, verdict)
}

// answered is a verdict about a certificate by what the verifier says of its question, or no if
// there is none. It fails with ErrMemory where nothing is known of that.
func answered(
	verify Verifier, certificate input, verdict func(isVerified C.uint32_t) error,
) error {
	asked, err := questionOf(certificate)
	switch err := verify.check(asked, err); err {
	case nil:
		return verdict(1)
	case ErrMemory:
		return err
	default:
		return verdict(0)
	}
}

// CertificateFields gives what a policy asks of a certificate, valid or not. It fails with a Status
// for bytes that are none.
func CertificateFields(certificate []byte) (Fields, error) {
	var answer C.raf_fields
	in := inputOf(certificate)
	if err := errorOf(C.raf_certificate_fields(in.pointer(), in.length(), &answer)); err != nil {
		return Fields{}, err
	}
	return Fields{
		Serial:             uint64(answer.serial),
		ValidAfter:         Second(answer.valid_after),
		ValidBefore:        Second(answer.valid_before),
		Type:               CertificateType(answer.certificate_type),
		ListsPrincipals:    answer.lists_principals != 0,
		HasCriticalOptions: answer.has_critical_options != 0,
	}, nil
}

// CertificateContents gives what a certificate lists, valid or not. It fails with a Status for
// bytes that are none, and with ErrMemory.
func CertificateContents(certificate []byte) (Contents, error) {
	var parts C.raf_parts
	in := inputOf(certificate)
	if err := errorOf(C.raf_certificate_parts(in.pointer(), in.length(), &parts)); err != nil {
		return Contents{}, err
	}
	principals, err := Strings(partOf(in, parts.principals))
	if err != nil {
		return Contents{}, err
	}
	critical, err := Options(partOf(in, parts.critical_options))
	if err != nil {
		return Contents{}, err
	}
	extensions, err := Options(partOf(in, parts.extensions))
	if err != nil {
		return Contents{}, err
	}
	key, err := certificateKey(in)
	if err != nil {
		return Contents{}, err
	}
	return Contents{
		KeyID:           string(partOf(in, parts.key_id)),
		Principals:      texts(principals),
		CriticalOptions: critical,
		Extensions:      extensions,
		Key:             key,
		Authority:       partOf(in, parts.authority),
	}, nil
}

func certificateKey(in input) ([]byte, error) {
	return form(len(in), func(to buffer, length *C.size_t) C.uint32_t {
		return C.raf_certificate_key(in.pointer(), in.length(), to.at, to.length, length)
	})
}

func texts(contents [][]byte) []string {
	found := make([]string, len(contents))
	for at, content := range contents {
		found[at] = string(content)
	}
	return found
}

// Options gives the values, by their names, of the critical options or of the extensions that the
// bytes are. It fails with a Status where they are none, with ErrCharacterEncoding where a text is
// not UTF-8, and with ErrFormat where two have one name: in a certificate all are UTF-8, and each
// has a name of its own.
func Options(list []byte) (map[string]string, error) {
	var option C.raf_certificate_option_parts
	in, found := inputOf(list), map[string]string{}
	for place := C.size_t(0); ; place = option.next {
		status := C.raf_next_certificate_option(in.pointer(), in.length(), place, &option)
		if status == C.RAF_END {
			return found, nil
		}
		if err := errorOf(status); err != nil {
			return nil, err
		}
		name, value := string(partOf(in, option.name)), string(partOf(in, option.value))
		if !utf8.ValidString(name) || !utf8.ValidString(value) {
			return nil, ErrCharacterEncoding
		}
		if _, isThere := found[name]; isThere {
			return nil, ErrFormat
		}
		found[name] = value
	}
}
