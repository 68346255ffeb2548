package rafendilo

// #include <rafendilo.h>
import "C"

import "net/netip"

// CheckSourceAddress gives nil exactly if the list, the value of a certificate's critical option
// source-address, lets a client in from the address of its socket. ::ffff:10.1.2.3 is 10.1.2.3, and
// an address of fe80::/10 is in no network, as to sshd; golang.org/x/crypto/ssh lets in more.
//
// It fails with ErrElsewhere for another address, with ErrFormat for a malformed list, which sshd
// refuses too, with ErrText for one that is not UTF-8, and with ErrLength for no address.
func CheckSourceAddress(list string, address netip.Addr) error {
	in, from := inputOf(list), inputOf(address.AsSlice())
	return errorOf(C.raf_check_source_address(in.pointer(), in.length(),
		from.pointer(), from.length()))
}

// CheckFrom gives nil exactly if the list, the value of the option from of a line of
// authorized_keys, lets a client in from the address of its socket. The host is its name in the
// DNS, if it was looked up and looked up back, and else empty.
//
// It fails with ErrElsewhere if the list does not: then go on to the next line. After any other
// error refuse the login, since sshd may let in by this line: ErrFormat for a malformed list,
// ErrText where the text of the address may be another to sshd (fe80::/10, and ::/96 beyond :: and
// ::1), the host's name is like an address or a text is not UTF-8, ErrLength for no address, and
// ErrMemory.
func CheckFrom(list, host string, address netip.Addr) error {
	in, whom, from := inputOf(list), inputOf(host), inputOf(address.AsSlice())
	return errorOf(C.raf_check_from(in.pointer(), in.length(),
		whom.pointer(), whom.length(), from.pointer(), from.length()))
}
