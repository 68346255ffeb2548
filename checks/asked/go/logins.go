package main

import (
	"errors"
	"fmt"
	"net/netip"
	"strings"

	"rafendilo.example/go/rafendilo"
)

// textsOf is several texts, of which ? could not be read.
func textsOf(word string) []rafendilo.Text {
	found := []rafendilo.Text{}
	if word == "none" {
		return found
	}
	for _, one := range strings.Split(word, ",") {
		if one == "?" {
			found = append(found, rafendilo.Unreadable)
		} else {
			found = append(found, file(one))
		}
	}
	return found
}

func offerOf(of []string) rafendilo.Offer {
	return rafendilo.Offer{User: text(of[0]), Algorithm: text(of[1]), Blob: data(of[2])}
}

func signedOf(of []string) rafendilo.Signed {
	flags := byte(number(of[5]))
	switch of[3] {
	case "1":
		request := rafendilo.SignedRequest{SessionID: data(of[0]), Signature: data(of[2])}
		if of[4] != "0" {
			request.HostKey = file(of[1])
		}
		return request
	case "2":
		return rafendilo.SignedByTransport{}
	case "3":
		return rafendilo.SignedByTransport{Flags: &flags}
	case "4":
		return rafendilo.SignedBySshd{}
	default:
		return nil
	}
}

func trustedOf(of []string) rafendilo.Trusted {
	trusted := rafendilo.Trusted{
		AuthorizedKeys: textsOf(of[0]), Authorities: digests(of[1]), CommandKeys: textsOf(of[3]),
		Revoked: files(of[4]), LeastRSABits: uint32(number(of[6])), RequiresTouch: of[7] != "0",
		RequiresVerification: of[8] != "0",
	}
	switch of[5] {
	case "1":
		trusted.Principals = rafendilo.PrincipalsInCertificate{}
	case "2":
		trusted.Principals = rafendilo.PrincipalsInFiles(textsOf(of[2]))
	}
	return trusted
}

func placeOf(of []string) rafendilo.Place {
	client, _ := netip.AddrFromSlice(data(of[0]))
	return rafendilo.Place{Client: client, Host: text(of[1]), Now: at(of[2])}
}

// granted is what LogIn answers to the words, by that verifier.
func granted(of []string, verify rafendilo.Verifier) (rafendilo.Grant, error) {
	return rafendilo.LogIn(offerOf(of), signedOf(of[3:]), trustedOf(of[9:]), placeOf(of[18:]), verify)
}

// counting is IsSignature, which counts how often it is asked.
func counting(asked *int) rafendilo.Verifier {
	return func(question rafendilo.Question) bool {
		*asked++
		return rafendilo.IsSignature(question)
	}
}

func logIn(of []string) string {
	asked := 0
	grant, err := granted(of, counting(&asked))
	var refused rafendilo.Refused
	if errors.As(err, &refused) {
		return fmt.Sprint(numberOf(err), " ", asked, " ", uint32(refused.Source), " ", refused.Text, " ", refused.Line)
	}
	parts := [][]byte{
		[]byte(grant.ShownCommand), []byte(grant.KeyID), hostPorts(grant.PermitOpen),
		hostPorts(grant.PermitListen), stringsOf(grant.Environment...),
	}
	return strings.Join([]string{
		numberOf(err), fmt.Sprint(asked, uint32(grant.Source), grant.Text, grant.Line),
		strings.Join(wordsOf(parts), " "),
		fmt.Sprint(grant.Serial, uint64(grant.Expires), uint64(grant.ExpiresLast)),
		word(grant.Authority[:]), word(grant.Key[:]),
		fmt.Sprint(uint32(grant.Permits), grant.Tunnel),
	}, " ")
}

func logInQuestions(of []string) string {
	found := []string{}
	_, err := granted(of, func(question rafendilo.Question) bool {
		words, _ := asked(question, nil)
		found = append(found, words...)
		return true
	})
	return strings.Join(append([]string{numberOf(err)}, found...), " ")
}

func mayOffer(of []string) string {
	asked := 0
	err := rafendilo.MayOffer(offerOf(of), trustedOf(of[3:]), placeOf(of[12:]), counting(&asked))
	return fmt.Sprint(numberOf(err), " ", asked)
}

func forwards(of []string) ([]string, error) {
	grant, err := granted(of[2:], nil)
	host, port := text(of[0]), uint32(number(of[1]))
	return []string{bit(grant.MayOpen(host, port)), bit(grant.MayListen(host, port))}, err
}

func runs(of []string) ([]string, error) {
	grant, err := granted(of[2:], nil)
	if err != nil {
		return nil, err
	}
	asked := text(of[0])
	command := map[string]*string{"1": &asked}[of[1]]
	if found := grant.Runs(command); found != nil {
		return []string{word(*found)}, nil
	}
	return nil, rafendilo.Status(3) // RAF_END
}

func stringsOf(contents ...string) []byte {
	found := []byte{}
	for _, content := range contents {
		one, err := rafendilo.JoinStrings([]byte(content))
		if err != nil {
			panic(err)
		}
		found = append(found, one...)
	}
	return found
}

// hostPorts are hosts and ports as the library lays them out.
func hostPorts(all []rafendilo.HostPort) []byte {
	found := []byte{}
	for _, one := range all {
		port := string([]byte{byte(one.Port >> 8), byte(one.Port)})
		if one.AnyPort {
			port = ""
		}
		found = append(found, stringsOf(one.Host, port)...)
	}
	return found
}
