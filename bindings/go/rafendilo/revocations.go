package rafendilo

// #include "rafendilo.h"
import "C"

import "unsafe"

// NoRevocations is the word of who asks no revocation file: one file, a key revocation list
// (PROTOCOL.krl) that revokes nothing. What is revoked is else what files of sshd's RevokedKeys
// have: each such a list, or keys, one a line; a file of no bytes revokes nothing. A nil slice is
// no file that was read.
var NoRevocations = noRevocations()

func noRevocations() [][]byte {
	file := C.raf_no_revocations().items
	return [][]byte{C.GoBytes(unsafe.Pointer(file.bytes), C.int(file.length))}
}

// filesOf is revocation files as a call takes them: none where one of them was not read, so that
// the call answers ErrUnreadableRevocations.
func filesOf(memory *held, revoked [][]byte) C.raf_spans {
	for _, file := range revoked {
		if file == nil {
			revoked = nil
		}
	}
	return spansOf(memory, revoked)
}

// CheckUnrevokedKey gives nil exactly if none of the files of sshd's RevokedKeys revokes the key,
// given as its blob. It fails with ErrRevoked where one does, with ErrUnreadableRevocations where
// one can't be read, as nil, and where there is none, with a Status for bytes that are no key, and
// with ErrMemory.
func CheckUnrevokedKey(revoked [][]byte, key []byte) error {
	var memory held
	defer memory.free()
	files, in := filesOf(&memory, revoked), inputOf(key)
	return errorOf(C.raf_check_unrevoked_key(files.items, files.count, in.pointer(), in.length()))
}

// CheckUnrevokedCertificate tells the same of a certificate, given as its blob, as
// CheckUnrevokedCertificateByKRL by a list; a text revokes it that has its key or the key that
// signed it. It fails as CheckUnrevokedKey does.
func CheckUnrevokedCertificate(revoked [][]byte, certificate []byte) error {
	var memory held
	defer memory.free()
	files, in := filesOf(&memory, revoked), inputOf(certificate)
	return errorOf(C.raf_check_unrevoked_certificate(files.items, files.count,
		in.pointer(), in.length()))
}

// CheckUnrevokedKeyByKRL gives nil exactly if a key revocation list (PROTOCOL.krl), as `ssh-keygen
// -k` makes it, has neither the key, given as its blob, nor its digest by SHA-1 or SHA-256. It
// fails with ErrRevoked where it has, with a Status for bytes that are no list (an empty file is
// none, nor is a text of keys), or else no key, and with ErrMemory.
func CheckUnrevokedKeyByKRL(krl, key []byte) error {
	var memory held
	defer memory.free()
	list, in := spanOf(&memory, krl), inputOf(key)
	return errorOf(C.raf_check_unrevoked_key_by_krl(list.bytes, list.length,
		in.pointer(), in.length()))
}

// CheckUnrevokedCertificateByKRL tells the same of a certificate, given as its blob: a list revokes
// it that has its key or the key that signed it, or its serial number or its key id among the
// certificates of that key or of every key. The serial number 0 revokes nothing. It fails as
// CheckUnrevokedKeyByKRL does.
func CheckUnrevokedCertificateByKRL(krl, certificate []byte) error {
	var memory held
	defer memory.free()
	list, in := spanOf(&memory, krl), inputOf(certificate)
	return errorOf(C.raf_check_unrevoked_certificate_by_krl(list.bytes, list.length,
		in.pointer(), in.length()))
}
