package main

import (
	"bufio"
	"errors"
	"fmt"
	"io"
	"os"
	"strconv"
	"time"
	"unicode/utf8"

	"rafendilo.example/go/rafendilo"
)

// fingerprints is those of the keys in a file. It tells of the lines that it passes over.
func fingerprints(path string) ([]rafendilo.SHA256, error) {
	text, err := os.ReadFile(path)
	if err != nil {
		return nil, err
	}
	keys, laterLines, err := rafendilo.Authorities(string(text))
	if err != nil {
		return nil, fmt.Errorf("%s: %w", path, err)
	}
	for _, line := range laterLines {
		why := "a later kind of key, which is not read"
		fmt.Fprintf(os.Stderr, "check: %s:%d: %s\n", path, line, why)
	}
	return keys, nil
}

// said is "valid", or what is wrong.
func said(err error) string {
	if err == nil {
		return "valid"
	}
	return "refused: " + err.Error()
}

// checkLine gives nil where the line is that of a certificate that is valid, else what is wrong
// first. Where the principal is -, any is meant.
func checkLine(line string, now time.Time, principal string, by []rafendilo.SHA256) error {
	certificate, err := rafendilo.ReadLine(line)
	switch {
	case err != nil:
		return err
	case !certificate.IsCertificate:
		return rafendilo.ErrLabel
	case principal == "-":
		return rafendilo.CheckCertificate(certificate.Blob, now, by, nil)
	}
	return rafendilo.CheckCertificateFor(certificate.Blob, now, principal, by, nil)
}

// timeOf is that of the second in the words, or now where they have none. Above 2^63 - 1 it is one
// before 1970, and no time to a certificate either.
func timeOf(words []string) (time.Time, error) {
	if len(words) == 0 {
		return time.Now(), nil
	}
	number, err := strconv.ParseUint(words[0], 10, 64)
	if err != nil {
		return time.Time{}, fmt.Errorf("%q is no second", words[0])
	}
	return time.Unix(int64(number), 0), nil
}

func certificates(words []string, given io.Reader) ([]string, bool, error) {
	if len(words) > 3 {
		return nil, false, errUsage
	}
	now, err := timeOf(words[2:])
	if err != nil {
		return nil, false, err
	}
	authorities, err := fingerprints(words[0])
	if err != nil {
		return nil, false, err
	}
	lines, isValid := []string{}, true
	for input, isEnd := bufio.NewReader(given), false; !isEnd; {
		line, err := input.ReadString('\n')
		isEnd = err == io.EOF
		if err != nil && !isEnd {
			return nil, false, err
		}
		if line == "" {
			continue
		}
		err = checkLine(line, now, words[1], authorities)
		if errors.Is(err, rafendilo.ErrMemory) {
			return nil, false, err
		}
		lines, isValid = append(lines, said(err)+"\n"), isValid && err == nil
	}
	if len(lines) == 0 {
		return nil, false, errors.New("no certificate was given")
	}
	return lines, isValid, nil
}

func signature(words []string, given io.Reader) ([]string, bool, error) {
	if len(words) != 3 {
		return nil, false, errUsage
	}
	if !utf8.ValidString(words[1]) {
		return nil, false, errors.New("the namespace is not UTF-8")
	}
	text, err := io.ReadAll(given)
	if err != nil {
		return nil, false, err
	}
	bare, err := rafendilo.ReadArmour(string(text))
	if err != nil {
		return nil, false, err
	}
	message, err := os.ReadFile(words[2])
	if err != nil {
		return nil, false, err
	}
	signers, err := fingerprints(words[0])
	if err != nil {
		return nil, false, err
	}
	err = rafendilo.CheckSSHSig(bare, words[1], message, signers, nil)
	if errors.Is(err, rafendilo.ErrMemory) {
		return nil, false, err
	}
	return []string{said(err) + "\n"}, err == nil, nil
}
