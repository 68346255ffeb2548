// Client is an example: it runs a command at a host that known_hosts knows, by the keys of the
// agent that SSH_AUTH_SOCK names.
//
//	client USER HOST:PORT COMMAND KNOWN-HOSTS..
package main

import (
	"log"
	"net"
	"os"

	"golang.org/x/crypto/ssh"
	"golang.org/x/crypto/ssh/agent"
	"rafendilo.example/go/rafendilo"
	"rafendilo.example/go/xssh"
)

func main() {
	log.SetFlags(0)
	texts := must(xssh.KnownHosts(os.Args[4:]...))
	keys := agent.NewClient(must(net.Dial("unix", os.Getenv("SSH_AUTH_SOCK"))))
	client := must(ssh.Dial("tcp", os.Args[2], &ssh.ClientConfig{
		User: os.Args[1],
		Auth: []ssh.AuthMethod{ssh.PublicKeysCallback(keys.Signers)},
		HostKeyCallback: xssh.HostKeyCallback(rafendilo.HostLogin{
			KnownHosts: texts, Revoked: rafendilo.NoRevocations,
		}),
	}))
	output, err := must(client.NewSession()).CombinedOutput(os.Args[3])
	os.Stdout.Write(output)
	if err != nil {
		log.Fatal(err)
	}
}

func must[T any](value T, err error) T {
	if err != nil {
		log.Fatal("refused: ", err)
	}
	return value
}
