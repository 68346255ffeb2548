package rafendilo

// #include "rafendilo.h"
import "C"

import (
	"crypto"
	_ "crypto/sha256" // for crypto.SHA256
	_ "crypto/sha512" // for crypto.SHA512
)

// ReadArmour gives the bytes of an SSH signature in its armour, the text of a file of `ssh-keygen -Y
// sign`, as OpenSSH 9.5 reads it. What follows its last line is passed over. It fails with ErrFormat
// where the first or the last line is missing, with ErrBase64, and with ErrMemory.
func ReadArmour(text string) ([]byte, error) {
	in := inputOf(text)
	return form(len(in), func(to buffer, length *C.size_t) C.uint32_t {
		return C.raf_read_armour(in.pointer(), in.length(), to.at, to.length, length)
	})
}

// SSHSigQuestion gives what has to be verified of an SSH signature (what ReadArmour gives) of the
// message in that namespace, and the fingerprint of the key that signed: whether that key may sign
// CheckSSHSig asks. It fails with a Status for bytes that are none,
// with ErrOtherNamespace, with ErrUnsupported where key and signature do not go together, and with
// ErrMemory.
func SSHSigQuestion(signature []byte, namespace string, message []byte) (Question, SHA256, error) {
	var signer SHA256
	in, space, of := inputOf(signature), inputOf(namespace), inputOf(message)
	asked, err := question(2*len(in)+256, func(to buffer, answer *C.raf_question) C.uint32_t {
		return C.raf_sshsig_question(in.pointer(), in.length(), space.pointer(), space.length(),
			of.pointer(), of.length(), to.at, to.length, answer, signer.pointer())
	})
	return asked, signer, err
}

// SSHSigQuestionOfDigest gives the same with the digest of the message in place of the message, so
// that a long one need not be in memory: by the hash that SSHSigHash gives. It fails with ErrLength
// also where the digest is not as long as one by that hash.
func SSHSigQuestionOfDigest(
	signature []byte, namespace string, digest []byte,
) (Question, SHA256, error) {
	var signer SHA256
	in, space, of := inputOf(signature), inputOf(namespace), inputOf(digest)
	asked, err := question(2*len(in)+256, func(to buffer, answer *C.raf_question) C.uint32_t {
		return C.raf_sshsig_question_of_digest(in.pointer(), in.length(), space.pointer(),
			space.length(), of.pointer(), of.length(), to.at, to.length, answer, signer.pointer())
	})
	return asked, signer, err
}

// CheckSSHSig gives nil exactly if the bytes (what ReadArmour gives) are an SSH signature
// (`ssh-keygen -Y sign`) of the message in that namespace by one of the signers, which are the
// fingerprints of the keys that may sign for that namespace; else what is wrong first: as
// CheckSSHSigWithAnswer says, or, of a key that may sign, SSHSigQuestion. The verifier is not asked
// about another signer's key. It fails with ErrMemory, which says nothing of the signature.
func CheckSSHSig(
	signature []byte, namespace string, message []byte, signers []SHA256, verify Verifier,
) error {
	in := inputOf(signature)
	return checkSSHSig(in, namespace, signers, verify, func() (Question, SHA256, error) {
		return SSHSigQuestion(in, namespace, message)
	})
}

// CheckSSHSigOfDigest does the same with the digest of the message in place of the message, by
// the hash that SSHSigHash gives.
func CheckSSHSigOfDigest(
	signature []byte, namespace string, digest []byte, signers []SHA256, verify Verifier,
) error {
	in := inputOf(signature)
	return checkSSHSig(in, namespace, signers, verify, func() (Question, SHA256, error) {
		return SSHSigQuestionOfDigest(in, namespace, digest)
	})
}

// checkSSHSig is the library's verdict about a signature, once the verifier has answered its
// question. It is asked none where the verdict is another one already.
func checkSSHSig(
	in input, namespace string, signers []SHA256, verify Verifier,
	ask func() (Question, SHA256, error),
) error {
	if err := CheckSSHSigWithAnswer(in, namespace, signers, false); err != ErrNotSigned {
		return err
	}
	asked, _, err := ask()
	if err := verify.check(asked, err); err != nil {
		return err
	}
	return CheckSSHSigWithAnswer(in, namespace, signers, true)
}

// CheckSSHSigWithAnswer gives nil exactly if an SSH signature counts in that namespace, where the
// keys with these fingerprints may sign. isVerified is what a verifier said of the question of this
// signature, in the namespace and of the message.
//
// It fails with ErrSignerNotAllowed or ErrNotSigned, the first that holds; the last also for
// another namespace, and for reserved bytes: ssh-keygen verifies such a signature as if these were
// empty. Ask with false first, and verify only where it fails with the last; CheckSSHSig does so.
// It fails with a Status for bytes that are no signature, and with ErrMemory.
func CheckSSHSigWithAnswer(
	signature []byte, namespace string, signers []SHA256, isVerified bool,
) error {
	in, space, by := inputOf(signature), inputOf(namespace), digestsOf(signers)
	return errorOf(C.raf_check_sshsig(in.pointer(), in.length(), space.pointer(),
		space.length(), by.pointer(), by.count(), numberOf(isVerified)))
}

// sshsigFront is the length of what stands in front of the strings of an SSH signature: SSHSIG and
// its version.
const sshsigFront = 10

// SSHSigHash gives the hash by which an SSH signature digests its message: crypto.SHA256 or
// crypto.SHA512. It fails with a Status for bytes that are none, and with ErrMemory.
func SSHSigHash(signature []byte) (crypto.Hash, error) {
	fields, err := sshsigFields(signature)
	if err != nil {
		return 0, err
	}
	switch string(fields[3]) {
	case "sha256":
		return crypto.SHA256, nil
	case "sha512":
		return crypto.SHA512, nil
	default:
		return 0, ErrLabel
	}
}

// SSHSigReserved gives the reserved bytes of an SSH signature, which are signed too. ssh-keygen
// writes none, and `ssh-keygen -Y verify` takes them as empty, whatever they are. It fails with a
// Status for bytes that are no SSH signature, and with ErrMemory.
func SSHSigReserved(signature []byte) ([]byte, error) {
	fields, err := sshsigFields(signature)
	if err != nil {
		return nil, err
	}
	return fields[2], nil
}

// sshsigFields gives the signer's key, the namespace, the reserved bytes, the hash's name and the
// signature.
func sshsigFields(signature []byte) ([][]byte, error) {
	normal, err := NormalSSHSig(signature)
	if err != nil {
		return nil, err
	}
	return Strings(normal[sshsigFront:])
}
