// Server is an example: an SSH server for one user, which tells each session what would run.
//
//	server USER HOST-KEY AUTHORIZED-KEYS AUTHORITIES REVOKED
//
// It prints the address at which it listens. The files are read anew for each login.
package main

import (
	"errors"
	"fmt"
	"log"
	"net"
	"os"

	"golang.org/x/crypto/ssh"
	"rafendilo.example/go/rafendilo"
	"rafendilo.example/go/xssh"
)

// trusted is whom the server trusts, by those files. Where one can't be read nobody is let in.
func trusted(user string) (rafendilo.Trusted, error) {
	if user != os.Args[1] {
		return rafendilo.Trusted{}, errors.New("no such user")
	}
	revoked, err := os.ReadFile(os.Args[5])
	if err != nil {
		return rafendilo.Trusted{}, err
	}
	text, err := os.ReadFile(os.Args[4])
	if err != nil {
		return rafendilo.Trusted{}, err
	}
	authorities, _, err := rafendilo.Authorities(string(text))
	return rafendilo.Trusted{
		AuthorizedKeys: []rafendilo.Text{xssh.ReadText(os.Args[3])}, Authorities: authorities,
		Principals: rafendilo.PrincipalsInCertificate{}, Revoked: [][]byte{revoked},
	}, err
}

func main() {
	config := &ssh.ServerConfig{PublicKeyCallback: xssh.PublicKeyCallback(trusted)}
	hostKey, err := ssh.ParsePrivateKey(must(os.ReadFile(os.Args[2])))
	config.AddHostKey(must(hostKey, err))
	listener := must(net.Listen("tcp", "127.0.0.1:0"))
	fmt.Println(listener.Addr())
	for {
		go serve(must(listener.Accept()), config)
	}
}

func must[T any](value T, err error) T {
	if err != nil {
		log.Fatal(err)
	}
	return value
}

func serve(socket net.Conn, config *ssh.ServerConfig) {
	conn, channels, requests, err := ssh.NewServerConn(socket, config)
	if err != nil {
		log.Print("refused: ", err)
		return
	}
	go ssh.DiscardRequests(requests)
	grant := xssh.GrantOf(conn.Permissions)
	for asked := range channels {
		if asked.ChannelType() != "session" {
			asked.Reject(ssh.UnknownChannelType, "a session alone is served here")
		} else if channel, requests, err := asked.Accept(); err == nil {
			go session(conn.User(), grant, channel, requests)
		}
	}
}

// session tells what would run, and ends.
func session(user string, grant rafendilo.Grant, channel ssh.Channel, requests <-chan *ssh.Request) {
	defer channel.Close()
	for request := range requests {
		var asked struct{ Command string }
		isCommand := request.Type == "exec" && ssh.Unmarshal(request.Payload, &asked) == nil
		request.Reply(isCommand, nil)
		if isCommand {
			fmt.Fprintf(channel, "%s, by %v, runs %q\n", user, grant.Source, *grant.Runs(&asked.Command))
			channel.SendRequest("exit-status", false, ssh.Marshal(struct{ Status uint32 }{0}))
			return
		}
	}
}
