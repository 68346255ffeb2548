package rafendilo

// #include "rafendilo.h"
import "C"

// EntryLines gives the lines of a text of authorized_keys or known_hosts that may be entries: those
// that are neither empty nor a comment, without the spaces and tabs at their front and without
// their ends. Do not use bufio.Scanner, which stops at a long line.
func EntryLines(text string) []string {
	in, found := inputOf(text), []string{}
	for place := C.size_t(0); ; {
		part, isThere := nextLine(in, place)
		if !isThere {
			return found
		}
		found = append(found, string(partOf(in, part)))
		place = part.start + part.length
	}
}

// nextLine is the next line from that place on that may be an entry, if there is one.
func nextLine(in input, place C.size_t) (part C.raf_part, isThere bool) {
	status := C.raf_next_line(in.pointer(), in.length(), place, &part)
	if status == C.RAF_END {
		return part, false
	}
	have(status)
	return part, true
}

// entry is the entry that a call reads of a line, and its marker.
func entry(
	in input, call func(to buffer, answer *C.raf_entry) C.uint32_t,
) (HostEntry, error) {
	var answer C.raf_entry
	data, err := written(len(in), &answer.length, func(to buffer) C.uint32_t {
		return call(to, &answer)
	})
	if err != nil {
		return HostEntry{}, err
	}
	return HostEntry{
		Marker:  Marker(answer.marker),
		Hosts:   string(partOf(data, answer.front)),
		Key:     partOf(data, answer.key),
		Comment: string(partOf(data, answer.comment)),
	}, nil
}

// AuthorizedEntry gives the entry of a line of authorized_keys, as sshd reads it. It fails with a
// Status where the line is none, and with ErrMemory.
//
// It shows a line, and decides nothing: whom a text lets in, LogIn says.
func AuthorizedEntry(line string) (Entry, error) {
	in := inputOf(line)
	found, err := entry(in, func(to buffer, answer *C.raf_entry) C.uint32_t {
		return C.raf_authorized_entry(in.pointer(), in.length(), to.at, to.length, answer)
	})
	return Entry{Options: found.Hosts, Key: found.Key, Comment: found.Comment}, err
}

// KnownHost gives the entry of a line of known_hosts, as ssh reads it. It fails with a Status where
// the line is none, which may be a revocation, and with ErrMemory: to check the key of a host, call
// CheckHostKey.
func KnownHost(line string) (HostEntry, error) {
	in := inputOf(line)
	return entry(in, func(to buffer, answer *C.raf_entry) C.uint32_t {
		return C.raf_known_host(in.pointer(), in.length(), to.at, to.length, answer)
	})
}

// LineOptions gives the options of an entry of authorized_keys, of none where the text is empty.
// It fails with ErrFormat where the text is no list of options, with ErrText where it is not UTF-8,
// and with ErrMemory.
//
// What they say of a login, LogIn decides.
func LineOptions(text string) ([]LineOption, error) {
	in, found, place := inputOf(text), []LineOption{}, C.size_t(0)
	for {
		option, next, err := nextEntryOption(in, place)
		if err == Status(C.RAF_END) {
			return found, nil
		}
		if err != nil {
			return nil, err
		}
		found, place = append(found, option), next
	}
}

// ofOption is the bytes of a buffer for an option; a longer one is asked for again.
const ofOption = 256

// nextEntryOption is the option at that place, and the place of the next one.
func nextEntryOption(in input, place C.size_t) (LineOption, C.size_t, error) {
	var answer C.raf_line_option_parts
	data, err := written(ofOption, &answer.length, func(to buffer) C.uint32_t {
		return C.raf_next_line_option(in.pointer(), in.length(), place,
			to.at, to.length, &answer)
	})
	if err != nil {
		return LineOption{}, 0, err
	}
	return LineOption{
		Name:     string(partOf(data, answer.name)),
		Value:    string(partOf(data, answer.value)),
		HasValue: answer.has_value != 0,
	}, answer.next, nil
}

// LineMayNameKey tells whether sshd may take a line of authorized_keys for one of the key, given as
// its blob, whatever it makes of the line's options: for a program that has sshd check lines. Leave
// out none but those for which it is false. It fails with a Status for bytes that are no key, and
// with ErrMemory; then it is true.
func LineMayNameKey(line string, key []byte) (bool, error) {
	in, of := inputOf(line), inputOf(key)
	return mayBe(C.raf_line_may_name_key(in.pointer(), in.length(), of.pointer(), of.length()))
}

// LineMayNameAuthority tells the same of the authority that signed the certificate, given as its
// blob.
func LineMayNameAuthority(line string, certificate []byte) (bool, error) {
	in, of := inputOf(line), inputOf(certificate)
	return mayBe(C.raf_line_may_name_authority(in.pointer(), in.length(),
		of.pointer(), of.length()))
}

func mayBe(status C.uint32_t) (bool, error) {
	if status == C.RAF_END {
		return false, nil
	}
	return true, errorOf(status)
}
