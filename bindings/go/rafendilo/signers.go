package rafendilo

// #include "rafendilo.h"
import "C"

import "time"

// Signers is by whom a signature has to be, as `ssh-keygen -Y verify` asks, or more strictly: a
// time without Z in the text, which is of the machine's zone there, has to hold in every zone here.
// What is left out lets no signature count.
type Signers struct {
	// Text is that of a file of allowed signers.
	Text string
	// Identity is one of those whom it names.
	Identity string
	// Now is the time at which the key has to be allowed.
	Now time.Time
	// Revoked is what the files of ssh-keygen's -r have, as in Trusted.
	Revoked [][]byte
	// Verify is IsSignature where it is nil.
	Verify Verifier
}

// CheckSignerOfDigest gives nil exactly if the bytes (what ReadArmour gives) are an SSH
// signature, in that namespace and of a message with that digest, that counts as the identity's by
// the allowed signers; else what is wrong first: as CheckSignerWithAnswer says, or
// SSHSigQuestionOfDigest. The verifier is not asked about a key that may not sign. It fails with
// ErrMemory, which says nothing of the signature.
func CheckSignerOfDigest(
	signature []byte, namespace string, digest []byte, by Signers,
) error {
	var memory held
	defer memory.free()
	in := inputOf(signature)
	verdict := by.verdict(&memory, in, namespace)
	if err := verdict(0); err != ErrNotSigned {
		return err
	}
	asked, _, err := SSHSigQuestionOfDigest(in, namespace, digest)
	if err := by.Verify.check(asked, err); err != nil {
		return err
	}
	return verdict(1)
}

// CheckSignerWithAnswer gives nil exactly if an SSH signature counts as the identity's in that
// namespace, by the allowed signers (docs/SIGNED-FILE.md). isVerified is what a verifier said of the
// question of this signature, in the namespace and of the message.
//
// It fails with ErrNoIdentity, ErrSignerNotAllowed, ErrUnreadableRevocations, ErrRevoked or
// ErrNotSigned, the first that holds. Ask with false first, and verify only where it fails with the
// last; CheckSignerOfDigest does so. It fails with a Status for bytes that are no signature, with
// ErrText for an identity or a namespace that is not UTF-8, with ErrInvalidTime for a time before 1970, and with
// ErrMemory.
func CheckSignerWithAnswer(signature []byte, namespace string, by Signers, isVerified bool) error {
	var memory held
	defer memory.free()
	verdict := by.verdict(&memory, inputOf(signature), namespace)
	if isVerified {
		return verdict(1)
	}
	return verdict(0)
}

// verdict is what the library says of the signature, given what the verifier said.
func (by Signers) verdict(
	memory *held, in input, namespace string,
) func(isVerified C.uint32_t) error {
	text, whose, space := spanOf(memory, by.Text), inputOf(by.Identity), inputOf(namespace)
	now, files := by.Now.Unix(), filesOf(memory, by.Revoked)
	return func(isVerified C.uint32_t) error {
		if now < 0 {
			return ErrInvalidTime
		}
		return errorOf(C.raf_check_signer(text.bytes, text.length, whose.pointer(),
			whose.length(), space.pointer(), space.length(), in.pointer(), in.length(),
			C.uint64_t(now), files.items, files.count, isVerified))
	}
}
