package rafendilo

// #include "rafendilo.h"
import "C"

import (
	"crypto/rand"
	"sort"
	"strings"
)

// Draft is what a certificate is to say. What it leaves out is refused where it matters: a draft
// without principals, without an end or without a type tells no certificate.
type Draft struct {
	// Key is the blob of the key that is certified, and Authority that of the key that signs.
	Key, Authority []byte
	// Type is User or Host.
	Type CertificateType
	// KeyID is a text for logs.
	KeyID string
	// Serial is a number of its own, and not 0: to OpenSSH that is none, and no KRL can name
	// it.
	Serial uint64
	// Principals are names. Where there are none, AllPrincipals has to say that the certificate
	// is for everybody, and where there are some it may not.
	Principals    []string
	AllPrincipals bool
	// ValidAfter is the first second of the window, and ValidBefore the first one after it, or
	// Forever.
	ValidAfter, ValidBefore Second
	// CriticalOptions and Extensions are values by names, empty for an option that has none.
	CriticalOptions, Extensions map[string]string
	// Nonce is 32 random bytes of crypto/rand where none is given.
	Nonce []byte
}

// CertificateFields gives the bytes that the authority has to sign for a certificate of the draft;
// JoinCertificate makes the certificate of them and the signature. It fails with a Status where the
// draft tells no certificate: with ErrPrincipals and ErrEmptyWindow, with ErrFormat for a type that
// is none and for a principal with a zero byte, which sshd takes to end there, and so for another
// user's; with ErrTime for a time that is none, with ErrLabel for a key that has a private-use
// name; with ErrMemory, and where there are no random bytes with what crypto/rand says.
func (draft *Draft) CertificateFields() ([]byte, error) {
	var memory held
	defer memory.free()
	asked, err := draft.held(&memory)
	if err != nil {
		return nil, err
	}
	return form(1024, func(to buffer, length *C.size_t) C.uint32_t {
		return C.raf_certificate_to_be_signed(&asked, to.at, to.length, length)
	})
}

func (draft *Draft) held(memory *held) (asked C.raf_draft, err error) {
	nonce, err := draft.nonce()
	if err != nil {
		return asked, err
	}
	principals, err := principalsOf(draft.Principals)
	if err != nil {
		return asked, err
	}
	critical, err := listed(draft.CriticalOptions)
	if err != nil {
		return asked, err
	}
	extensions, err := listed(draft.Extensions)
	if err != nil {
		return asked, err
	}
	if draft.AllPrincipals {
		asked.all_principals = 1
	}
	asked.key, asked.authority = spanOf(memory, draft.Key), spanOf(memory, draft.Authority)
	asked.nonce, asked.key_id = spanOf(memory, nonce), spanOf(memory, draft.KeyID)
	asked.principals = spanOf(memory, principals)
	asked.critical_options, asked.extensions = spanOf(memory, critical), spanOf(memory, extensions)
	asked.serial, asked.certificate_type = C.uint64_t(draft.Serial), C.uint32_t(draft.Type)
	asked.valid_after = C.uint64_t(draft.ValidAfter)
	asked.valid_before = C.uint64_t(draft.ValidBefore)
	return asked, nil
}

func (draft *Draft) nonce() ([]byte, error) {
	if len(draft.Nonce) > 0 {
		return draft.Nonce, nil
	}
	made := make([]byte, 32)
	_, err := rand.Read(made)
	return made, err
}

// principalsOf is the names as a certificate lists them. It fails with ErrFormat for a zero byte.
func principalsOf(names []string) ([]byte, error) {
	for _, name := range names {
		if strings.IndexByte(name, 0) >= 0 {
			return nil, ErrFormat
		}
	}
	return joined(names...)
}

// listed is options as a certificate lists them: by rising names, and a value in a string of its
// own.
func listed(options map[string]string) ([]byte, error) {
	names := make([]string, 0, len(options))
	for name := range options {
		names = append(names, name)
	}
	sort.Strings(names)
	var list []byte
	for _, name := range names {
		var value []byte
		if options[name] != "" {
			inner, err := joined(options[name])
			if err != nil {
				return nil, err
			}
			value = inner
		}
		option, err := joined(name, string(value))
		if err != nil {
			return nil, err
		}
		list = append(list, option...)
	}
	return list, nil
}

// JoinCertificate gives the certificate that the signature's blob (RFC 4253, section 6.6) makes of
// the bytes that were signed. It fails with a Status where that is none, and with ErrMemory.
// Whether the signature is one of the authority is not asked here.
func JoinCertificate(toBeSigned, signature []byte) ([]byte, error) {
	in, by := inputOf(toBeSigned), inputOf(signature)
	return form(len(in)+len(by)+4, func(to buffer, length *C.size_t) C.uint32_t {
		return C.raf_certificate_make(in.pointer(), in.length(), by.pointer(), by.length(),
			to.at, to.length, length)
	})
}

// MakeCertificate gives the blob of the certificate that the draft tells. In between sign is called
// with the bytes that are to be signed, and gives the signature's blob, for example
//
//	return rafendilo.JoinStrings([]byte("ssh-ed25519"), ed25519.Sign(private, message))
//
// It fails with what sign fails with, and as Draft.CertificateFields and JoinCertificate do.
func MakeCertificate(draft Draft, sign func(message []byte) ([]byte, error)) ([]byte, error) {
	message, err := draft.CertificateFields()
	if err != nil {
		return nil, err
	}
	signature, err := sign(append([]byte(nil), message...))
	if err != nil {
		return nil, err
	}
	return JoinCertificate(message, signature)
}
