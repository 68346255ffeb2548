// Package rafendilo reads and makes SSH keys, certificates and signatures, and lines of
// authorized_keys and known_hosts, by the proved library that include/rafendilo.h declares.
//
// Who logs users in by public key calls [LogIn], which also asks about the client's signature. Who
// is shown a host's key or certificate calls [CheckHostKey] or [CheckHostCertificate]. Each of these
// is one call, which asks the library what has to be verified, has a [Verifier] verify that, by
// default [IsSignature] over Go's standard library, and asks the library again. A certificate that
// [CheckCertificate] finds valid may be for a host, or for nobody by name: that is no login. For
// servers and clients over golang.org/x/crypto/ssh there is a module of its own, xssh.
//
// # Errors
//
// Only a nil error is success. Each error of the library is a [Status], or of [LogIn] a [Refused]
// that has one, and no call gives one that says yes: compare with [errors.Is]
// (errors.Is(err, rafendilo.ErrOutOfWindow)). [ErrMemory] says nothing of what was asked: the
// library was refused memory, and the call may be made again. With an error the other results are
// zero values, and a zero [SHA256] is the fingerprint of no key. Where Go itself runs out of memory
// the program ends. No compiler sees a call whose error is dropped: have a linter look for such, as
// errcheck does.
//
// # Memory
//
// What a call is given it copies before the library sees it, so that nobody changes it in between,
// and it keeps no pointer. Slices and maps that it gives are the caller's own: they share no bytes
// with what was given, and appending to one changes no other. Calls from several goroutines at once
// are fine.
//
// # The library
//
// The library lies in this package as assembly text, for Linux on x86-64 and aarch64. It takes cgo
// and a C compiler, and no library or path. With the build tag rafendilo_installed the package
// links what pkg-config calls rafendilo (`make install`) instead. That the library answers rightly
// is proved; this package is written by hand and tested (checks/bindings).
package rafendilo
