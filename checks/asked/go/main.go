// Asker answers the questions of checks/asked/answers.py, which says what they are, by the packages
// of bindings/go: a line for a line.
package main

import (
	"bufio"
	"crypto"
	"encoding/hex"
	"errors"
	"fmt"
	"net/netip"
	"os"
	"sort"
	"strconv"
	"strings"
	"time"

	"rafendilo.example/go/rafendilo"
)

// answers are the words after 0, or why there are none.
var answers = map[string]func(of []string) ([]string, error){
	"certificate": func(of []string) ([]string, error) {
		return asked(rafendilo.CertificateQuestion(data(of[0])))
	},
	"signature": func(of []string) ([]string, error) { return asked(signature(of)) },
	"sshsig": func(of []string) ([]string, error) {
		return signed(rafendilo.SSHSigQuestion(data(of[0]), text(of[1]), data(of[2])))
	},
	"sshsig-of-digest": func(of []string) ([]string, error) {
		return signed(rafendilo.SSHSigQuestionOfDigest(data(of[0]), text(of[1]), data(of[2])))
	},
	"sshsig-hash": sshsigHash,
	"sshsig-reserved": func(of []string) ([]string, error) {
		return made(rafendilo.SSHSigReserved(data(of[0])))
	},
	"is-sshsig": func(of []string) ([]string, error) {
		return nil, rafendilo.CheckSSHSig(data(of[0]), text(of[1]), data(of[2]), digests(of[3]), nil)
	},
	"is-sshsig-of-digest": func(of []string) ([]string, error) {
		by := digests(of[3])
		return nil, rafendilo.CheckSSHSigOfDigest(data(of[0]), text(of[1]), data(of[2]), by, nil)
	},
	"is-signer": func(of []string) ([]string, error) {
		return nil, rafendilo.CheckSignerOfDigest(data(of[3]), text(of[2]), data(of[6]), signers(of))
	},
	"is-signature": func(of []string) ([]string, error) {
		question, err := signature(of)
		return []string{bit(rafendilo.IsSignature(question))}, err
	},
	"fields": fields,
	"lists":  lists,
	"certificate-options": func(of []string) ([]string, error) {
		found, err := rafendilo.Options(data(of[0]))
		return pairs(found, ""), err
	},
	"strings": func(of []string) ([]string, error) {
		found, err := rafendilo.Strings(data(of[0]))
		return wordsOf(found), err
	},
	"key": key,
	"line": func(of []string) ([]string, error) {
		found, err := rafendilo.ReadLine(text(of[0]))
		return []string{bit(found.IsCertificate), word(found.Blob), word(found.Comment)}, err
	},
	"normal": func(of []string) ([]string, error) {
		return made(map[string]func([]byte) ([]byte, error){
			"key": rafendilo.NormalKey, "certificate": rafendilo.NormalCertificate,
			"sshsig": rafendilo.NormalSSHSig, "signature": rafendilo.NormalSignature,
		}[of[0]](data(of[1])))
	},
	"draft": func(of []string) ([]string, error) {
		draft, err := draftOf(of)
		if err != nil {
			return nil, err
		}
		return made(draft.CertificateFields())
	},
	"make": func(of []string) ([]string, error) {
		draft, err := draftOf(of)
		if err != nil {
			return nil, err
		}
		sign := func([]byte) ([]byte, error) { return data(of[12]), nil }
		return made(rafendilo.MakeCertificate(draft, sign))
	},
	"join": func(of []string) ([]string, error) {
		return made(rafendilo.JoinCertificate(data(of[0]), data(of[1])))
	},
	"lines": func(of []string) ([]string, error) {
		return wordsOf(rafendilo.EntryLines(text(of[0]))), nil
	},
	"entry": func(of []string) ([]string, error) {
		found, err := rafendilo.AuthorizedEntry(text(of[0]))
		return []string{"0", word(found.Options), word(found.Key), word(found.Comment)}, err
	},
	"host": func(of []string) ([]string, error) {
		found, err := rafendilo.KnownHost(text(of[0]))
		marker := strconv.FormatUint(uint64(found.Marker), 10)
		return []string{marker, word(found.Hosts), word(found.Key), word(found.Comment)}, err
	},
	"options":  options,
	"forwards": forwards,
	"runs":     runs,
	"host-key": func(of []string) ([]string, error) {
		login := hostLogin(of)
		err := rafendilo.CheckHostKey(login, data(of[2]))
		return nil, same(err, rafendilo.CheckHostKey(held(login), data(of[2])))
	},
	"host-certificate": func(of []string) ([]string, error) {
		login := hostLogin(of)
		login.Now = at(of[6])
		knownBy, err := rafendilo.CheckHostCertificate(login, data(of[2]))
		again, its := rafendilo.CheckHostCertificate(held(login), data(of[2]))
		if again != knownBy {
			its = errors.New("another by those that are held")
		}
		return []string{strconv.FormatUint(uint64(knownBy), 10)}, same(err, its)
	},
	"unreadable-line": unreadableLine,
	"other-key-line": func(of []string) ([]string, error) {
		isOther, err := rafendilo.IsLaterKeyLine(text(of[0]))
		if err == nil && !isOther {
			err = rafendilo.ErrLabel
		}
		return nil, err
	},
	"later-kind": func(of []string) ([]string, error) {
		if rafendilo.NamesLaterKind([]byte(text(of[0]))) {
			return nil, nil
		}
		return nil, rafendilo.ErrLabel
	},
	"line-authority": func(of []string) ([]string, error) {
		return authority(rafendilo.Authorities(text(of[0])))
	},
	"user-authority": func(of []string) ([]string, error) {
		return authority(rafendilo.UserAuthorities(text(of[0]), text(of[1])))
	},
	"for-key": func(of []string) ([]string, error) {
		return mayBe(rafendilo.LineMayNameKey(text(of[0]), data(of[1])))
	},
	"for-certificate": func(of []string) ([]string, error) {
		return mayBe(rafendilo.LineMayNameAuthority(text(of[0]), data(of[1])))
	},
	"may-verify": func(of []string) ([]string, error) {
		yes, err := rafendilo.MayVerify(data(of[0]))
		if err == nil && !yes {
			err = rafendilo.ErrKeyNotAccepted
		}
		return nil, err
	},
	"safe-mode": func(of []string) ([]string, error) {
		if !rafendilo.IsSafeMode(number(of[0]), number(of[1]), uint32(number(of[2]))) {
			return nil, rafendilo.ErrUnsafeMode
		}
		return nil, nil
	},
	"armour": func(of []string) ([]string, error) { return made(rafendilo.ReadArmour(text(of[0]))) },
	"random-art": func(of []string) ([]string, error) {
		drawn, err := digests(of[0])[0].RandomArt(text(of[1]))
		return []string{word(drawn)}, err
	},
	"host-and-port": func(of []string) ([]string, error) {
		host, port, err := rafendilo.HostAndPort(text(of[0]))
		return []string{word(host), fmt.Sprint(port)}, err
	},
	"time": func(of []string) ([]string, error) {
		first, last, err := rafendilo.ReadTime(text(of[0]))
		seconds := []string{fmt.Sprint(first.Unix()), fmt.Sprint(last.Unix())}
		return seconds, err
	},
	"signer": func(of []string) ([]string, error) {
		return nil, rafendilo.CheckSignerWithAnswer(data(of[3]), text(of[2]), signers(of), of[6] == "1")
	},
	"unrevoked-key": func(of []string) ([]string, error) {
		return nil, rafendilo.CheckUnrevokedKey(files(of[0]), data(of[1]))
	},
	"unrevoked-certificate": func(of []string) ([]string, error) {
		return nil, rafendilo.CheckUnrevokedCertificate(files(of[0]), data(of[1]))
	},
	"unrevoked-key-by-krl": func(of []string) ([]string, error) {
		return nil, rafendilo.CheckUnrevokedKeyByKRL(data(of[0]), data(of[1]))
	},
	"unrevoked-certificate-by-krl": func(of []string) ([]string, error) {
		return nil, rafendilo.CheckUnrevokedCertificateByKRL(data(of[0]), data(of[1]))
	},
}

// said are whole answers, without a 0.
var said = map[string]func(of []string) string{
	"validate": validate, "addresses": addresses, "log-in": logIn, "may-offer": mayOffer,
	"log-in-questions": logInQuestions,
}

func main() {
	input, output := bufio.NewReader(os.Stdin), bufio.NewWriter(os.Stdout)
	defer output.Flush()
	for {
		question, err := input.ReadString('\n')
		if err != nil {
			return
		}
		words := strings.Split(strings.TrimSuffix(question, "\n"), " ")
		if say, isWhole := said[words[0]]; isWhole {
			fmt.Fprintln(output, say(words[1:]))
		} else if found, err := answers[words[0]](words[1:]); err != nil {
			fmt.Fprintln(output, numberOf(err))
		} else {
			fmt.Fprintln(output, strings.Join(append([]string{"0"}, found...), " "))
		}
	}
}

// ---- words

// numberOf is that of a Status, 0 for nil.
func mayBe(yes bool, err error) ([]string, error) {
	if err == nil && !yes {
		err = rafendilo.Status(3) // RAF_END
	}
	return nil, err
}

func authority(keys []rafendilo.SHA256, others []int, err error) ([]string, error) {
	if err == nil && len(keys) == 0 {
		err = rafendilo.Status(3) // RAF_END
		if len(others) > 0 {
			err = rafendilo.ErrLaterKey
		}
	}
	if err != nil {
		return nil, err
	}
	return []string{word(keys[0][:])}, nil
}

func numberOf(err error) string {
	var status rafendilo.Status
	if err != nil && !errors.As(err, &status) {
		panic(err)
	}
	return strconv.FormatUint(uint64(status), 10)
}

func data(word string) []byte {
	if word == "-" {
		return nil
	}
	found, err := hex.DecodeString(word)
	if err != nil {
		panic(err)
	}
	return found
}

// file is what a file that was read has: also of no bytes it is not nil.
func file(word string) []byte {
	return append([]byte{}, data(word)...)
}

// files is several of them, with commas between.
func files(word string) [][]byte {
	if word == "none" {
		return nil
	}
	found := [][]byte{}
	for _, one := range strings.Split(word, ",") {
		found = append(found, file(one))
	}
	return found
}

func text(word string) string {
	return string(data(word))
}

func number(word string) uint64 {
	found, err := strconv.ParseUint(word, 10, 64)
	if err != nil {
		panic(err)
	}
	return found
}

func word[T string | []byte](content T) string {
	if len(content) == 0 {
		return "-"
	}
	return hex.EncodeToString([]byte(content))
}

func wordsOf[T string | []byte](contents []T) []string {
	found := []string{}
	for _, content := range contents {
		found = append(found, word(content))
	}
	return found
}

// made is the one word of what is made.
func made(content []byte, err error) ([]string, error) {
	return []string{word(content)}, err
}

func bit(yes bool) string {
	if yes {
		return "1"
	}
	return "0"
}

func digests(word string) []rafendilo.SHA256 {
	found := []rafendilo.SHA256{}
	for all := data(word); len(all) >= 32; all = all[32:] {
		found = append(found, *(*rafendilo.SHA256)(all))
	}
	return found
}

// at is the time of that second.
func at(word string) time.Time {
	return time.Unix(int64(number(word)), 0)
}

// pairs is options by rising names, each after the front.
func pairs(options map[string]string, front string) []string {
	names, found := []string{}, []string{}
	for name := range options {
		names = append(names, name)
	}
	sort.Strings(names)
	for _, name := range names {
		found = append(found, front+word(name)+"="+word(options[name]))
	}
	return found
}

// ---- questions

func signature(of []string) (rafendilo.Question, error) {
	return rafendilo.SignatureQuestion(data(of[0]), data(of[1]), data(of[2]))
}

func asked(question rafendilo.Question, err error) ([]string, error) {
	parts := wordsOf([][]byte{question.Key, question.Message, question.Signature})
	return append([]string{strconv.FormatUint(uint64(question.Algorithm), 10)}, parts...), err
}

func signed(question rafendilo.Question, signer rafendilo.SHA256, err error) ([]string, error) {
	found, err := asked(question, err)
	return append(found, word(signer[:])), err
}

func sshsigHash(of []string) ([]string, error) {
	hash, err := rafendilo.SSHSigHash(data(of[0]))
	names := map[crypto.Hash]string{crypto.SHA256: "sha256", crypto.SHA512: "sha512"}
	if err == nil && !hash.Available() {
		panic(hash)
	}
	return []string{names[hash]}, err
}

func validate(of []string) string {
	certificate, now, by, questions := data(of[0]), at(of[1]), digests(of[3]), 0
	verify := func(rafendilo.Question) bool {
		questions++
		return of[4] == "1"
	}
	var err error
	if of[2] == "*" {
		err = rafendilo.CheckCertificate(certificate, now, by, verify)
	} else {
		err = rafendilo.CheckCertificateFor(certificate, now, text(of[2]), by, verify)
	}
	return numberOf(err) + " " + strconv.Itoa(questions)
}

func hostLogin(of []string) rafendilo.HostLogin {
	login := rafendilo.HostLogin{
		Host: text(of[1]), Port: uint16(number(of[4])), Revoked: files(of[3]),
		LeastRSABits: uint32(number(of[5])),
	}
	for _, known := range files(of[0]) {
		login.KnownHosts = append(login.KnownHosts, string(known))
	}
	return login
}

// held is the same host by its texts as those that are held.
func held(login rafendilo.HostLogin) rafendilo.HostLogin {
	login.Held, login.KnownHosts = rafendilo.HoldHosts(login.KnownHosts), nil
	return login
}

// same is the error of both, or says that they are two.
func same(one, other error) error {
	if one != other {
		return fmt.Errorf("%v, and by those that are held %v", one, other)
	}
	return one
}

func unreadableLine(of []string) ([]string, error) {
	found, err := rafendilo.UnreadableHostLine(text(of[0]), text(of[1]), uint16(number(of[2])))
	if err == nil && found == 0 { // there is none
		err = rafendilo.Status(3)
	}
	return []string{strconv.Itoa(found)}, err
}

func signers(of []string) rafendilo.Signers {
	return rafendilo.Signers{
		Text: text(of[0]), Identity: text(of[1]), Revoked: files(of[4]), Now: at(of[5]),
	}
}

func addresses(of []string) string {
	list, host := text(of[0]), text(of[2])
	address, _ := netip.AddrFromSlice(data(of[1]))
	return numberOf(rafendilo.CheckSourceAddress(list, address)) + " " +
		numberOf(rafendilo.CheckFrom(list, host, address))
}

// ---- what is listed

func fields(of []string) ([]string, error) {
	found, err := rafendilo.CertificateFields(data(of[0]))
	numbers := fmt.Sprint(found.Serial, found.ValidAfter, found.ValidBefore, found.Type)
	return []string{numbers, bit(found.ListsPrincipals), bit(found.HasCriticalOptions)}, err
}

func lists(of []string) ([]string, error) {
	contents, err := rafendilo.CertificateContents(data(of[0]))
	found := []string{word(contents.KeyID), word(contents.Key), word(contents.Authority)}
	for _, name := range contents.Principals {
		found = append(found, "principal="+word(name))
	}
	found = append(found, pairs(contents.CriticalOptions, "critical=")...)
	return append(found, pairs(contents.Extensions, "extension=")...), err
}

// draftOf is the draft whose lists stand in the words as a certificate has them.
func draftOf(of []string) (rafendilo.Draft, error) {
	principals, err := rafendilo.Strings(data(of[3]))
	if err != nil {
		return rafendilo.Draft{}, err
	}
	critical, err := rafendilo.Options(data(of[4]))
	if err != nil {
		return rafendilo.Draft{}, err
	}
	extensions, err := rafendilo.Options(data(of[5]))
	draft := rafendilo.Draft{
		Key: data(of[0]), Nonce: data(of[1]), KeyID: text(of[2]), Authority: data(of[6]),
		CriticalOptions: critical, Extensions: extensions, Serial: number(of[7]),
		ValidAfter: rafendilo.Second(number(of[8])), ValidBefore: rafendilo.Second(number(of[9])),
		Type: rafendilo.CertificateType(number(of[10])), AllPrincipals: of[11] == "1",
	}
	for _, name := range principals {
		draft.Principals = append(draft.Principals, string(name))
	}
	return draft, err
}

func key(of []string) ([]string, error) {
	short, err := rafendilo.Fingerprint(data(of[0]))
	if err != nil {
		return nil, err
	}
	long, err := rafendilo.FingerprintSHA512(data(of[0]))
	return []string{word(short[:]), short.String(), word(long[:]), long.String()}, err
}

func options(of []string) ([]string, error) {
	all, err := rafendilo.LineOptions(text(of[0]))
	found := []string{}
	for _, option := range all {
		shown := word(option.Name)
		if option.HasValue {
			shown += "=" + word(option.Value)
		}
		found = append(found, shown)
	}
	return found, err
}
