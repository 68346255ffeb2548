package rafendilo

// #include "rafendilo.h"
import "C"

import (
	"bytes"
	"fmt"
)

// Authorities gives the fingerprints of the keys of a text, one a line, as that of sshd's
// TrustedUserCAKeys; and the numbers, from 1, of the lines that it passes over, which the caller
// should tell: those of keys of a later kind (IsLaterKeyLine). It fails where another line is no
// key, with its number and a Status, and with ErrMemory: use none of the keys then.
func Authorities(text string) (keys []SHA256, laterLines []int, err error) {
	return authoritiesOf(text, func(line input, key *SHA256) C.uint32_t {
		return C.raf_authority(line.pointer(), line.length(), key.pointer())
	})
}

// UserAuthorities gives those that may sign for the user, by a text that says which may for whom:
// in its lines names of users, with commas between, stand before a key. Lines without the user's
// name are passed over, whatever follows. It fails as Authorities does.
func UserAuthorities(text, user string) (keys []SHA256, laterLines []int, err error) {
	name := inputOf(user)
	return authoritiesOf(text, func(line input, key *SHA256) C.uint32_t {
		return C.raf_user_authority(line.pointer(), line.length(),
			name.pointer(), name.length(), key.pointer())
	})
}

func authoritiesOf(
	text string, call func(input, *SHA256) C.uint32_t,
) (keys []SHA256, laterLines []int, err error) {
	in, number := inputOf(text), 1
	for place := C.size_t(0); ; {
		part, isThere := nextLine(in, place)
		if !isThere {
			return keys, laterLines, nil
		}
		number += bytes.Count(in[place:part.start], []byte("\n"))
		place = part.start + part.length
		var key SHA256
		switch status := call(inputOf(partOf(in, part)), &key); status {
		case C.RAF_DONE:
			keys = append(keys, key)
		case C.RAF_LATER_KEY:
			laterLines = append(laterLines, number)
		case C.RAF_END: // a line of other users
		default:
			return nil, nil, fmt.Errorf("line %d: no key: %w", number, errorOf(status))
		}
	}
}

// IsLaterKeyLine tells whether a line of a text of authorities is that of a key of a kind that is
// not read here, as ssh-mldsa44-ed25519 of OpenSSH 10.6: an authority that signs nothing that is
// read. It is false for the line of a key that is, and for what is no key. It fails with ErrText
// for a line that is not UTF-8.
func IsLaterKeyLine(line string) (bool, error) {
	in := inputOf(line)
	status := C.raf_is_later_key_line(in.pointer(), in.length())
	if status == C.RAF_LABEL {
		return false, nil
	}
	err := errorOf(status)
	return err == nil, err
}

// NamesLaterKind tells whether bytes name, as a string, a kind of key that OpenSSH reads or read and
// that is not read here, of its certificates or of its signatures. It tells why they are no key, no
// certificate, whose authority may be such a key, or no signature.
func NamesLaterKind(data []byte) bool {
	in := inputOf(data)
	return C.raf_names_later_kind(in.pointer(), in.length()) == C.RAF_DONE
}

// IsSafeMode tells whether a file or a folder may be believed about a user, as by sshd's
// StrictModes: root or the user owns it, and neither group nor others may write. The numbers are
// those of stat(2); the user 0 is root.
func IsSafeMode(owner, user uint64, mode uint32) bool {
	return C.raf_check_safe_mode(C.uint64_t(owner), C.uint64_t(user), C.uint32_t(mode)) == C.RAF_DONE
}
