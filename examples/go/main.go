// Check says whether certificates and SSH signatures are valid, or what is wrong first.
//
//	check certificates AUTHORITIES PRINCIPAL|- [SECOND] <id_ed25519-cert.pub
//	check signature SIGNERS NAMESPACE FILE <FILE.sig
//
// AUTHORITIES and SIGNERS are files of public keys, a line each. The first answers of each line of
// its input. The status is 0 if all is valid, 1 if not, and 2 where it can't tell: so also where
// there is no certificate. A valid certificate may be for a host, or for nobody by name, and - is
// no name that a client may choose: who logs users in calls rafendilo.LogIn.
package main

// extern int streams_are_open;
import "C"

import (
	"errors"
	"fmt"
	"io"
	"os"
	"strings"
)

const usage = `usage:

    check certificates AUTHORITIES PRINCIPAL|- [SECOND] <id_ed25519-cert.pub
    check signature SIGNERS NAMESPACE FILE <FILE.sig

The status is 0 if all is valid, 1 if not, and 2 where it can't tell.
`

// The statuses with which the program ends.
const (
	valid = iota
	invalid
	untold
)

// command does what the words say, on the input. It gives the lines to print, and whether all is
// valid; it fails where it can't tell.
type command func(words []string, given io.Reader) (lines []string, isValid bool, err error)

var commands = map[string]command{"certificates": certificates, "signature": signature}

var errUsage = errors.New("no such command")

func main() {
	os.Exit(run(os.Args[1:]))
}

func run(words []string) int {
	lines, isValid, err := answer(words)
	if err == nil {
		_, err = io.WriteString(os.Stdout, strings.Join(lines, ""))
	}
	switch {
	case errors.Is(err, errUsage):
		fmt.Fprint(os.Stderr, usage)
		return untold
	case err != nil:
		fmt.Fprintln(os.Stderr, "check:", err)
		return untold
	case !isValid:
		return invalid
	}
	return valid
}

func answer(words []string) ([]string, bool, error) {
	if len(words) < 3 {
		return nil, false, errUsage
	}
	call, isOne := commands[words[0]]
	if !isOne {
		return nil, false, errUsage
	}
	if C.streams_are_open == 0 {
		return nil, false, errors.New("standard input or output is closed")
	}
	return call(words[1:], os.Stdin)
}
