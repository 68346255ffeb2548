package rafendilo

// #include "rafendilo.h"
import "C"

import (
	"encoding/binary"
	"math"
)

// question is what a call writes, which is given a buffer of that length at first.
func question(
	length int, call func(to buffer, answer *C.raf_question) C.uint32_t,
) (Question, error) {
	var answer C.raf_question
	data, err := written(length, &answer.length, func(to buffer) C.uint32_t {
		return call(to, &answer)
	})
	if err != nil {
		return Question{}, err
	}
	return questionIn(data, answer), nil
}

func questionIn(data []byte, answer C.raf_question) Question {
	return Question{
		Algorithm: Algorithm(answer.algorithm),
		Key:       partOf(data, answer.key),
		Message:   partOf(data, answer.message),
		Signature: partOf(data, answer.signature),
	}
}

// ReadLine gives what stands in a line of a file of public keys (id_ed25519.pub) or of certificates
// (id_ed25519-cert.pub), with or without its end. It fails with a Status where the line is that of
// neither, and with ErrMemory. Look at IsCertificate where only a key or only a certificate will
// do.
func ReadLine(line string) (Line, error) {
	var answer C.raf_line
	in := inputOf(line)
	data, err := written(len(in), &answer.length, func(to buffer) C.uint32_t {
		return C.raf_read_line(in.pointer(), in.length(), to.at, to.length, &answer)
	})
	if err != nil {
		return Line{}, err
	}
	return Line{
		Blob:          partOf(data, answer.blob),
		Comment:       string(partOf(data, answer.comment)),
		IsCertificate: answer.kind == C.RAF_LINE_CERTIFICATE,
	}, nil
}

// ---- fingerprints

// Fingerprint gives the SHA-256 fingerprint of a key, given as its blob. It fails with a Status for
// bytes that are no key, and with ErrMemory.
func Fingerprint(key []byte) (SHA256, error) {
	var digest SHA256
	in := inputOf(key)
	err := errorOf(C.raf_fingerprint(in.pointer(), in.length(), digest.pointer()))
	return digest, err
}

// String is the fingerprint as ssh-keygen shows it: "SHA256:" and Base64.
func (digest SHA256) String() string {
	text := make(input, C.RAF_FINGERPRINT_TEXT)
	have(C.raf_fingerprint_text(digest.pointer(), text.pointer(), text.length()))
	return string(text)
}

// RandomArt is a picture of a key with that fingerprint, as `ssh-keygen -lv` shows it, whose header
// is, say, [ED25519 256]: eleven lines, without a line end after the last. It fails with ErrText
// where the header is not UTF-8, and with ErrMemory.
func (digest SHA256) RandomArt(header string) (string, error) {
	in := inputOf(header)
	enough := C.RAF_RANDOM_ART_TEXT + len(in)
	text, err := form(enough, func(to buffer, length *C.size_t) C.uint32_t {
		return C.raf_random_art(digest.pointer(), in.pointer(), in.length(), to.at, to.length, length)
	})
	return string(text), err
}

// FingerprintSHA512 gives the SHA-512 fingerprint of a key, as Fingerprint does.
func FingerprintSHA512(key []byte) (SHA512, error) {
	var digest SHA512
	in := inputOf(key)
	err := errorOf(C.raf_fingerprint_sha512(in.pointer(), in.length(), digest.pointer()))
	return digest, err
}

// String is the fingerprint as ssh-keygen shows it: "SHA512:" and Base64.
func (digest SHA512) String() string {
	text := make(input, C.RAF_FINGERPRINT_SHA512_TEXT)
	have(C.raf_fingerprint_sha512_text(digest.pointer(), text.pointer(), text.length()))
	return string(text)
}

// ---- signatures

// SignatureQuestion gives what has to be verified of a signature of the message under a key, given
// as their blobs (RFC 4253, section 6.6): as an agent gives it, or a client at a login. It fails
// with a Status for bytes that are none, with ErrUnsupported where they do not go together, and
// with ErrMemory.
//
// It does not look at the flags of a security key: of a login ask LogIn.
func SignatureQuestion(key, message, signature []byte) (Question, error) {
	in, of, by := inputOf(key), inputOf(message), inputOf(signature)
	length := len(in) + len(of) + len(by) + 256
	return question(length, func(to buffer, answer *C.raf_question) C.uint32_t {
		return C.raf_signature_question(in.pointer(), in.length(), of.pointer(), of.length(),
			by.pointer(), by.length(), to.at, to.length, answer)
	})
}

// ---- normal forms

// NormalKey gives the normal form of a key, given as its blob: two keys are the same exactly if
// their forms are. It fails with a Status for bytes that are none, and with ErrMemory.
func NormalKey(key []byte) ([]byte, error) {
	in := inputOf(key)
	return form(len(in), func(to buffer, length *C.size_t) C.uint32_t {
		return C.raf_key_normal(in.pointer(), in.length(), to.at, to.length, length)
	})
}

// NormalCertificate gives the normal form of a certificate, given as its blob. It fails as
// NormalKey does.
func NormalCertificate(certificate []byte) ([]byte, error) {
	in := inputOf(certificate)
	return form(len(in), func(to buffer, length *C.size_t) C.uint32_t {
		return C.raf_certificate_normal(in.pointer(), in.length(), to.at, to.length, length)
	})
}

// NormalSSHSig gives the normal form of an SSH signature, as SSHSigQuestion takes it. It fails as
// NormalKey does.
func NormalSSHSig(signature []byte) ([]byte, error) {
	in := inputOf(signature)
	return form(len(in), func(to buffer, length *C.size_t) C.uint32_t {
		return C.raf_sshsig_normal(in.pointer(), in.length(), to.at, to.length, length)
	})
}

// NormalSignature gives the normal form of a signature, as SignatureQuestion takes it, which is the
// bytes themselves. It fails with a Status for bytes that are none.
func NormalSignature(signature []byte) ([]byte, error) {
	in := inputOf(signature)
	return form(len(in), func(to buffer, length *C.size_t) C.uint32_t {
		return C.raf_signature_normal(in.pointer(), in.length(), to.at, to.length, length)
	})
}

// ---- strings

// Strings gives the contents of the strings (RFC 4251, section 5), one after the other, that the
// bytes of a question's key or of an ECDSA signature are. It fails with ErrLength where they are
// none.
func Strings(data []byte) ([][]byte, error) {
	var part C.raf_part
	in, found := inputOf(data), [][]byte{}
	for place := C.size_t(0); ; place = part.start + part.length {
		status := C.raf_next_string(in.pointer(), in.length(), place, &part)
		if status == C.RAF_END {
			return found, nil
		}
		if err := errorOf(status); err != nil {
			return nil, err
		}
		found = append(found, partOf(in, part))
	}
}

// JoinStrings gives the bytes that have these contents as strings, one after the other: each
// after its length of four bytes. It fails with ErrLength for a content of 2^32 bytes or more.
func JoinStrings(contents ...[]byte) ([]byte, error) {
	return joined(contents...)
}

func joined[T string | []byte](contents ...T) ([]byte, error) {
	found := []byte{}
	for _, content := range contents {
		if uint64(len(content)) > math.MaxUint32 {
			return nil, ErrLength
		}
		found = binary.BigEndian.AppendUint32(found, uint32(len(content)))
		found = append(found, content...)
	}
	return found, nil
}

// MayVerify tells whether a verifier may say yes to a signature under the key, given as its blob:
// OpenSSH lets somebody in by it, and one of RSA has 2,048 bits or more. It fails with a Status for
// bytes that are no key.
func MayVerify(key []byte) (bool, error) {
	in := inputOf(key)
	status := C.raf_may_verify(in.pointer(), in.length())
	if status == C.RAF_KEY_NOT_ACCEPTED {
		return false, nil
	}
	err := errorOf(status)
	return err == nil, err
}
