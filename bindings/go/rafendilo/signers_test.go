package rafendilo_test

import (
	"crypto/ed25519"
	"crypto/sha512"
	"encoding/base64"
	"testing"
	"time"

	"rafendilo.example/go/rafendilo"
)

// joined is the strings, one after the other (RFC 4251, section 5).
func joined(t *testing.T, contents ...string) []byte {
	t.Helper()
	all := [][]byte{}
	for _, content := range contents {
		all = append(all, []byte(content))
	}
	found, err := rafendilo.JoinStrings(all...)
	if err != nil {
		t.Fatal(err)
	}
	return found
}

// made is a key, and its blob.
func made(t *testing.T) (ed25519.PrivateKey, []byte) {
	t.Helper()
	private := ed25519.NewKeyFromSeed(make([]byte, ed25519.SeedSize))
	return private, joined(t, "ssh-ed25519", string(private.Public().(ed25519.PublicKey)))
}

// What is left out lets no signature count, also where a line is for everybody; each file is asked,
// and none that was not read.
func TestSigners(t *testing.T) {
	private, key := made(t)
	line := "ssh-ed25519 " + base64.StdEncoding.EncodeToString(key) + "\n"
	digest := sha512.Sum512([]byte("text"))
	covered := append([]byte("SSHSIG"), joined(t, "file", "", "sha512", string(digest[:]))...)
	by := joined(t, "ssh-ed25519", string(ed25519.Sign(private, covered)))
	signature := append([]byte("SSHSIG\x00\x00\x00\x01"),
		joined(t, string(key), "file", "", "sha512", string(by))...)
	for what, it := range map[string]struct {
		turn   func(*rafendilo.Signers)
		wanted error
	}{
		"its signer":  {func(it *rafendilo.Signers) {}, nil},
		"no text":     {func(it *rafendilo.Signers) { it.Text = "" }, rafendilo.ErrSignerNotAllowed},
		"no identity": {func(it *rafendilo.Signers) { it.Identity = "" }, rafendilo.ErrNoIdentity},
		"no time":     {func(it *rafendilo.Signers) { it.Now = time.Time{} }, rafendilo.ErrInvalidTime},
		"no file":     {func(it *rafendilo.Signers) { it.Revoked = nil }, rafendilo.ErrUnreadableRevocations},
		"a file that was not read": {
			func(it *rafendilo.Signers) { it.Revoked = append(it.Revoked, nil) },
			rafendilo.ErrUnreadableRevocations,
		},
		"the second of two files has it": {
			func(it *rafendilo.Signers) { it.Revoked = append(it.Revoked, []byte(line)) },
			rafendilo.ErrRevoked,
		},
		"no verifier": {func(it *rafendilo.Signers) { it.Verify = nil }, nil},
		"a verifier that says no": {
			func(it *rafendilo.Signers) { it.Verify = func(rafendilo.Question) bool { return false } },
			rafendilo.ErrNotSigned,
		},
	} {
		signers := rafendilo.Signers{
			Text: "* " + line, Identity: "alice", Now: time.Unix(1704067200, 0),
			Revoked: rafendilo.NoRevocations,
		}
		it.turn(&signers)
		found := rafendilo.CheckSignerOfDigest(signature, "file", digest[:], signers)
		same(t, what, found, it.wanted)
	}
	signers := []rafendilo.SHA256{}
	err := rafendilo.CheckSSHSig(signature, "file", []byte("text"), signers, nil)
	same(t, "no signer", err, rafendilo.ErrSignerNotAllowed)
	own, _ := rafendilo.Fingerprint(key)
	signers = append(signers, own)
	err = rafendilo.CheckSSHSig(signature, "file", []byte("text"), signers, nil)
	same(t, "its key", err, nil)
}
