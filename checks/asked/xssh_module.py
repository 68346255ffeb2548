"""The module bindings/go/xssh, for checks/xssh: its examples of a server and of a client over golang.org/x/crypto/ssh, which Debian's
package golang-golang-x-crypto-dev has."""
import contextlib
import os
import subprocess
import time

from lib.harness import ssh_keygen

from .go_package import Go, exported
from .linked import run
from .xssh_logins import ADDRESS, ASKED, SECONDS

MODULE = os.path.join(Go.module, "xssh")
# where Debian has the sources of others, and what of them is needed
OTHERS = "/usr/share/gocode/src"
NEEDED = ("golang.org/x/crypto", "golang.org/x/sys")


def with_others(room):
    """The path of the module's go.mod with what Debian has in place of what is published."""
    with open(f"{MODULE}/go.mod", encoding="ascii") as file:
        text = file.read().replace("=> ../", f"=> {Go.module}")
    return room.write("xssh.mod", text + "".join(f"\nreplace {it} => {OTHERS}/{it}\n" for it in NEEDED))


def check_module(count, room):
    """What gofmt and vet say of the module, its tests, its names, and that its examples are built."""
    # the file names the versions of Debian 12; a later one may want later ones
    go, words = Go(room, None), ["-mod=mod", f"-modfile={with_others(room)}"]
    said = run(["gofmt", "-l", MODULE])
    count.check("Go: gofmt finds nothing in xssh", said.returncode == 0 and not said.stdout, said.stdout, said.stderr)
    said = go.run(MODULE, "vet", *words, "./...")
    count.check("Go: go vet finds nothing in xssh", said.returncode == 0, said.stdout, said.stderr)
    said = go.run(MODULE, "test", "-count=1", *words, ".")
    count.check("Go: the tests of xssh", said.returncode == 0 and said.stdout.startswith("ok"), said.stdout[-3000:], said.stderr)
    with open(f"{MODULE}/xssh.go", encoding="utf-8") as file:
        named = exported(file.read())
    undocumented = [name for comment, name in named if comment.split()[:2] != ["//", name]]
    count.check("Go: each name of xssh has a comment that begins with it", len(named) > 3 and not undocumented, undocumented)
    for name in ("server", "client"):
        said = go.run(MODULE, "build", *words, "-o", room.path(f"go-{name}"), f"./examples/{name}")
        count.check(f"Go: the example of a {name} is built", said.returncode == 0, said.stdout, said.stderr)


@contextlib.contextmanager
def started(count, room):
    """The example of a server, which runs: its port, and a function that gives what it has logged since it was asked last."""
    check_module(count, room)
    files = [room.path(it) for it in ("host", "authorized_keys", "authorities", "revoked")]
    with open(room.path("go-server.log"), "wb+") as written, open(room.path("go-server.log"), encoding="utf-8") as read:
        server = subprocess.Popen([room.path("go-server"), room.user, *files], stdout=subprocess.PIPE, stderr=written, text=True)

        def log(waits):
            text, until = "", time.monotonic() + SECONDS
            while not (text := text + read.read()) and waits and time.monotonic() < until:
                time.sleep(0.01)
            return text

        try:
            yield int(server.stdout.readline().rpartition(":")[2]), log
        finally:
            server.terminate()
            server.wait()


# ---- the example of a client


def known(room, port):
    """Names, texts of known_hosts, and what the client logs of a host that shows its key, and of one that shows a certificate: None where
    it goes on."""
    place, host, other = f"[{ADDRESS}]:{port}", room.read("host.pub"), room.read("stranger.pub")
    hashed = room.write("hashed", f"{place} {host}\n")
    ssh_keygen("-q", "-H", "-f", hashed)
    yield "a line", [f"{place} {host}"], None, None
    yield "a hashed line", [room.read("hashed")], None, None
    yield "a line of the second file", ["# x", f"{place} {host}"], None, None
    yield "no line", [f"elsewhere {host}"], 53, 53
    yield "a line of the plain name", [f"{ADDRESS} {host}"], None, None
    yield "another key", [f"{place} {other}"], 52, 52
    yield "a key that is revoked", [f"{place} {host}", f"@revoked * {host}"], 50, 50
    yield "an authority", [f"@cert-authority {place} {room.read('authority.pub')}"], 53, None
    yield "an authority of others", [f"@cert-authority elsewhere {room.read('authority.pub')}"], 53, 53
    yield "another authority", [f"@cert-authority {place} {other}"], 53, 53


def check_client(count, room, name, port, texts, wanted):
    """It goes on exactly where ssh does, by the same files, and says why not."""
    paths = [room.write(f"known{number}", f"{text}\n") for number, text in enumerate(texts)]
    words = ["ssh", "-F", "none", "-T", "-p", str(port)]
    for option in (
        "StrictHostKeyChecking=yes", f"UserKnownHostsFile={' '.join(paths)}", "GlobalKnownHostsFile=none", "BatchMode=yes", "IdentitiesOnly=yes",
        f"IdentityAgent={room.path('agent')}", f"IdentityFile={room.path('own.pub')}", "HostKeyAlgorithms=+ssh-ed25519-cert-v01@openssh.com",
    ):  # fmt: skip
        words += ["-o", option]
    by_ssh = run([*words, f"{room.user}@{ADDRESS}", ASKED], timeout=SECONDS)
    names = {**os.environ, "SSH_AUTH_SOCK": room.path("agent")}
    said = run([room.path("go-client"), room.user, f"{ADDRESS}:{port}", ASKED, *paths], env=names, timeout=SECONDS)
    as_wanted = (said.returncode == 0) == (wanted is None) and (wanted is None or f"({wanted})" in said.stderr)
    same = (said.stdout, said.returncode == 0) == (by_ssh.stdout, by_ssh.returncode == 0)
    count.check(f"Go, a client: {name}", as_wanted and same, said, by_ssh)


def check_hosts(count, room):
    """The example of a client at a real sshd that shows a key, and at one that shows a certificate."""
    room.write("authorized_keys", f"{room.fields['own']}\n")
    room.write("revoked", "")
    room.certified("host", "authority", "host", "-h", "-n", ADDRESS)
    for at, (what, configuration) in enumerate((("key", ""), ("certificate", f"HostCertificate {room.path('host-cert.pub')}\n"))):
        port = room.another_sshd(f"conf-{what}", configuration)
        for name, texts, *wanted in known(room, port):
            check_client(count, room, f"{name}, where a {what} is shown", port, texts, wanted[at])
    missing = run([room.path("go-client"), room.user, f"{ADDRESS}:{port}", ASKED, room.path("no-such-file")], timeout=SECONDS)
    count.check("Go, a client: a file that can't be read", missing.returncode == 1 and "no-such-file" in missing.stderr, missing)
