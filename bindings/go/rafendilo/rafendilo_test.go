package rafendilo_test

import (
	"bytes"
	"errors"
	"os"
	"reflect"
	"testing"
	"time"

	"rafendilo.example/go/rafendilo"
)

// ssh-keygen 9.2 made what is in ../testdata. checks/bindings asks what each call answers; these
// tests ask what it can't.

func read(t *testing.T, name string) string {
	t.Helper()
	text, err := os.ReadFile("../testdata/" + name)
	if err != nil {
		t.Fatal(err)
	}
	return string(text)
}

func blob(t *testing.T, name string) []byte {
	t.Helper()
	line, err := rafendilo.ReadLine(read(t, name))
	if err != nil {
		t.Fatal(err)
	}
	return line.Blob
}

func same(t *testing.T, what string, found, wanted any) {
	t.Helper()
	if !reflect.DeepEqual(found, wanted) {
		t.Errorf("%s: %v, and not %v", what, found, wanted)
	}
}

// Calls from several goroutines at once answer as one does.
func TestAtOnce(t *testing.T) {
	line, done := read(t, "user-cert.pub"), make(chan error)
	for at := 0; at < 8; at++ {
		go func() {
			found, err := rafendilo.ReadLine(line)
			if err == nil {
				_, err = rafendilo.CertificateContents(found.Blob)
			}
			done <- err
		}()
	}
	for at := 0; at < 8; at++ {
		same(t, "error", <-done, nil)
	}
}

// Times have nanoseconds, and a verifier may be nil.
func TestCheckCertificate(t *testing.T) {
	certificate := blob(t, "user-cert.pub")
	authority, _ := rafendilo.Fingerprint(blob(t, "authority.pub"))
	by := []rafendilo.SHA256{{}, authority}
	first, end := time.Unix(1704067200, 0), time.Unix(1706745600, 0)
	yes := func(question rafendilo.Question) bool { return question.Algorithm == rafendilo.Ed25519 }
	for _, it := range []struct {
		what   string
		now    time.Time
		verify rafendilo.Verifier
		wanted error
	}{
		{"before", first.Add(-1), yes, rafendilo.ErrOutOfWindow},
		{"the first second", first, yes, nil},
		{"the last nanosecond", end.Add(-1), yes, nil},
		{"the end", end, yes, rafendilo.ErrOutOfWindow},
		{"no time", time.Time{}, yes, rafendilo.ErrInvalidTime},
		{"no verifier of the caller's", first, nil, nil},
	} {
		err := rafendilo.CheckCertificate(certificate, it.now, by, it.verify)
		same(t, it.what, err, it.wanted)
		err = rafendilo.CheckCertificateFor(certificate, it.now, "alice", by, it.verify)
		same(t, it.what, err, it.wanted)
	}
}

// A verifier that changes what was given changes nothing.
func TestVerifierTurns(t *testing.T) {
	certificate, now := blob(t, "user-cert.pub"), time.Unix(1704067200, 0)
	authority, _ := rafendilo.Fingerprint(blob(t, "authority.pub"))
	by := []rafendilo.SHA256{authority}
	turn := func(rafendilo.Question) bool {
		certificate[4], by[0] = 0, rafendilo.SHA256{}
		return true
	}
	same(t, "what was given", rafendilo.CheckCertificate(certificate, now, by, turn), nil)
	same(t, "the turned bytes", rafendilo.CheckCertificate(certificate, now, by, turn) != nil, true)
}

func TestMakeCertificate(t *testing.T) {
	key := blob(t, "user.pub")
	draft := rafendilo.Draft{
		Key: key, Authority: key, Type: rafendilo.User, ValidBefore: rafendilo.Forever,
		Principals: []string{"alice"},
	}
	refused := errors.New("no")
	_, err := rafendilo.MakeCertificate(draft, func([]byte) ([]byte, error) { return nil, refused })
	same(t, "what the signer says", err, refused)
	one, err := draft.CertificateFields()
	same(t, "error", err, nil)
	other, _ := draft.CertificateFields()
	same(t, "two nonces are one", bytes.Equal(one, other), false)
	draft.ValidBefore = rafendilo.SecondOf(time.Unix(-1, 0))
	_, err = draft.CertificateFields()
	same(t, "an end before 1970", err, rafendilo.ErrTime)
	draft.ValidBefore, draft.AllPrincipals = rafendilo.Forever, true
	_, err = draft.CertificateFields()
	same(t, "some principals and all", err, rafendilo.ErrPrincipals)
}

func TestSecond(t *testing.T) {
	if _, isTime := rafendilo.Forever.Time(); isTime {
		t.Error("forever is a time")
	}
	at, isTime := rafendilo.Second(1704067200).Time()
	same(t, "a time", isTime && at.Equal(time.Date(2024, 1, 1, 0, 0, 0, 0, time.UTC)), true)
	same(t, "its second", rafendilo.SecondOf(at), rafendilo.Second(1704067200))
	same(t, "a second before 1970", rafendilo.SecondOf(time.Unix(-1, 0)), rafendilo.Second(1<<63))
}

func TestStatus(t *testing.T) {
	same(t, "name", rafendilo.ErrNotSigned.Name(), "NOT_SIGNED")
	same(t, "words", rafendilo.ErrNotSigned.Error(), "not signed (30)")
	same(t, "without words", rafendilo.Status(200).Error(), "a status without words (200)")
}

// What a call gives shares no bytes with what it was given, and appending to a part changes no
// other.
func TestCopies(t *testing.T) {
	certificate := blob(t, "user-cert.pub")
	kept := append([]byte(nil), certificate...)
	question, err := rafendilo.CertificateQuestion(certificate)
	same(t, "error", err, nil)
	contents, err := rafendilo.CertificateContents(certificate)
	same(t, "error", err, nil)
	message := append([]byte(nil), question.Message...)
	_ = append(question.Key, bytes.Repeat([]byte{1}, 100)...)
	same(t, "the message after the key", question.Message, message)
	for at := range contents.Authority {
		contents.Authority[at] = 0
	}
	same(t, "what was given", certificate, kept)
}
