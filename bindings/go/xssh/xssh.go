// Package xssh has callbacks for golang.org/x/crypto/ssh: who logs in by public key, as
// [rafendilo.LogIn] decides, and whether a host is the one that known_hosts knows.
package xssh

import (
	"encoding/json"
	"errors"
	"io/fs"
	"net"
	"net/netip"
	"os"
	"strconv"
	"time"

	"golang.org/x/crypto/ssh"
	"rafendilo.example/go/rafendilo"
)

// extension is the name under which a login's permissions keep its grant.
const extension = "grant@rafendilo.example"

// PublicKeyCallback is that of a [ssh.ServerConfig]: it lets in whom [rafendilo.LogIn] lets in by
// what trusted gives of the user whom the client names, anew for each key that it offers. An error
// of trusted is a refusal.
//
// The callback comes before the signature: golang.org/x/crypto/ssh verifies it afterwards under the
// key that was offered, and lets nobody in without. It does not look at the flags of a security key.
// So one is let in only if neither server nor grant wants it touched or its user verified
// ([rafendilo.ErrNoFlags]). And it takes a signature of RSA by SHA-1, which sshd does not: where
// [ssh.ServerConfig] has PublicKeyAuthAlgorithms, leave out ssh-rsa.
//
// What the login is bound to, GrantOf tells. To keep to that is the caller's.
func PublicKeyCallback(
	trusted func(user string) (rafendilo.Trusted, error),
) func(ssh.ConnMetadata, ssh.PublicKey) (*ssh.Permissions, error) {
	return func(conn ssh.ConnMetadata, key ssh.PublicKey) (*ssh.Permissions, error) {
		whom, err := trusted(conn.User())
		if err != nil {
			return nil, err
		}
		offer := rafendilo.Offer{User: conn.User(), Blob: key.Marshal()}
		place := rafendilo.Place{Client: addressOf(conn.RemoteAddr()), Now: time.Now()}
		grant, err := rafendilo.LogIn(offer, rafendilo.SignedByTransport{}, whom, place, nil)
		if err != nil {
			return nil, err
		}
		text, err := json.Marshal(grant)
		if err != nil {
			return nil, err
		}
		return &ssh.Permissions{Extensions: map[string]string{extension: string(text)}}, nil
	}
}

// addressOf is the address of a socket; none where it is another place.
func addressOf(place net.Addr) netip.Addr {
	if place == nil {
		return netip.Addr{}
	}
	found, err := netip.ParseAddrPort(place.String())
	if err != nil {
		return netip.Addr{}
	}
	return found.Addr()
}

// GrantOf is what a login is bound to, by its [ssh.ServerConn.Permissions]. Of one that
// PublicKeyCallback has not let in it is the zero value, which permits nothing.
func GrantOf(permissions *ssh.Permissions) rafendilo.Grant {
	var grant rafendilo.Grant
	if permissions == nil || json.Unmarshal([]byte(permissions.Extensions[extension]), &grant) != nil {
		return rafendilo.Grant{}
	}
	return grant
}

// ReadText is the text of a file of authorized_keys or of principals, as sshd reads it: empty where
// it is not there, and [rafendilo.Unreadable] where it is and can't be read.
func ReadText(path string) rafendilo.Text {
	text, err := os.ReadFile(path)
	if errors.Is(err, fs.ErrNotExist) {
		return rafendilo.Text{}
	}
	if err != nil {
		return rafendilo.Unreadable
	}
	return text
}

// HostKeyCallback is that of a [ssh.ClientConfig]: it trusts the host if
// [rafendilo.CheckHostKey] does, or [rafendilo.CheckHostCertificate], which is asked about the
// address that was dialed, a host and a number of a port. Of known it takes all but the host, the
// port and the time. The texts are those of all files of known_hosts that count: KnownHosts reads
// them. What [ssh.ClientConfig.HostKeyAlgorithms] names first is what a host shows: let it be a kind
// of key that the texts have.
func HostKeyCallback(known rafendilo.HostLogin) ssh.HostKeyCallback {
	return func(dialed string, _ net.Addr, key ssh.PublicKey) error {
		host, digits, err := net.SplitHostPort(dialed)
		if err != nil {
			return err
		}
		port, err := strconv.ParseUint(digits, 10, 16)
		if err != nil {
			return err
		}
		asked := known
		asked.Host, asked.Port, asked.Now = host, uint16(port), time.Now()
		if _, isCertificate := key.(*ssh.Certificate); isCertificate {
			_, err = rafendilo.CheckHostCertificate(asked, key.Marshal())
			return err
		}
		return rafendilo.CheckHostKey(asked, key.Marshal())
	}
}

// KnownHosts gives the texts of these files of known_hosts; it fails where one can't be read.
func KnownHosts(paths ...string) ([]string, error) {
	var texts []string
	for _, path := range paths {
		text, err := os.ReadFile(path)
		if err != nil {
			return nil, err
		}
		texts = append(texts, string(text))
	}
	return texts, nil
}
