"""Logins at a real sshd by the values of options of authorized_keys, for checks/logins and checks/addresses. Its clients reach it over
TCP: of one at the other end of a pipe it knows no address."""
import getpass
import itertools
import os
import socket
import subprocess
from concurrent.futures import ThreadPoolExecutor

from lib.harness import SSHD, Count, new_key, ssh_keygen

SECONDS = 60
# lists of `principals` in the line of an authority, and whether one lets in by a certificate that lists a
PRINCIPALS = {
    "a": True, "x,a": True, "a,": True, "a,,x": True, ",a": False, "x,,a": False, "A": False, " a": False, "a ": False, "*": False,
    "a*": False, "!x,a": True, "": False,
}  # fmt: skip


def has_ipv6():
    """Whether this machine has the address ::1."""
    try:
        socket.create_server(("::1", 0), family=socket.AF_INET6).close()
    except OSError:
        return False
    return True


def listening(address):
    """A socket that listens at the address of this machine: for IPv6 where there is one, at which clients for IPv4 are shown as they
    mostly are to servers."""
    if not (socket.has_dualstack_ipv6() and has_ipv6()):
        return socket.create_server((address, 0))
    place = address if ":" in address else f"::ffff:{address}"
    return socket.create_server((place, 0), family=socket.AF_INET6, dualstack_ipv6=True)


class Logins:
    """Logins of the key in the folder, and of another with a certificate, each over TCP at an sshd of its own. Its options name the
    file of the lines by which they are let in."""

    def __init__(self, folder, configuration, options=("AuthorizedKeysFile={}",)):
        self.folder, self.options, self.numbers = folder, options, itertools.count()
        self.fields = {}
        for name in ("host", "own", "authority"):
            self.fields[name] = self.new(name)
        self.certify("certified")
        with open(self.path("conf"), "w", encoding="ascii") as file:
            file.write(configuration.format(folder))

    def path(self, name):
        return os.path.join(self.folder, name)

    def new(self, name):
        """The fields of a new key of that name."""
        return " ".join(new_key(self.path(name), "ed25519").decode().split()[:2])

    def certify(self, name, *words):
        """A new key of that name with a certificate that lists a and b."""
        self.new(name)
        ssh_keygen("-q", "-s", self.path("authority"), "-I", "id", "-n", "a,b", "-V", "-5m:+5m", *words, self.path(f"{name}.pub"))

    def serve(self, server, name):
        """Serves one client; sshd hangs up where it refuses, or when the command has ended."""
        server.settimeout(SECONDS)
        with server, server.accept()[0] as client:
            words = ["-i", "-f", self.path("conf"), "-E", self.path(f"{name}.log")]
            words += [word for option in self.options for word in ("-o", option.format(self.path(name)))]
            subprocess.run([SSHD, *words], stdin=client, stdout=client, stderr=subprocess.DEVNULL, check=False, timeout=SECONDS)

    def log_in(self, address, line, key="own", command="true", terminal="-T"):
        """Whether the key is let in by the line from the address, and what the command writes, at a terminal where ssh is told so."""
        name = f"keys{next(self.numbers)}"
        with open(self.path(name), "w", encoding="ascii") as file:
            file.write(line + "\n")
        server = listening(address)
        words = ["ssh", "-F", "none", terminal, "-i", self.path(key), "-p", str(server.getsockname()[1])]
        for option in (
            "StrictHostKeyChecking=no", "UserKnownHostsFile=/dev/null", "BatchMode=yes", "IdentitiesOnly=yes", "IdentityAgent=none",
            "LogLevel=ERROR",
        ):  # fmt: skip
            words += ["-o", option]
        with ThreadPoolExecutor(1) as pool:
            serving = pool.submit(self.serve, server, name)
            quiet = {"stdin": subprocess.DEVNULL, "stdout": subprocess.PIPE, "stderr": subprocess.DEVNULL}
            run = subprocess.run([*words, f"{getpass.getuser()}@{address}", command], **quiet, check=False, timeout=SECONDS)
            serving.result()
        with open(self.path(f"{name}.log"), encoding="utf-8", errors="replace") as file:
            return "Accepted publickey" in file.read(), run.stdout


def option_lists(folder, configuration):
    """Counts what sshd takes for a list of principals, and that it sets no environment."""
    logins, count = Logins(folder, configuration), Count()
    for items, wanted in PRINCIPALS.items():
        line = f'cert-authority,principals="{items}" {logins.fields["authority"]}'
        openssh_accepts_key, _ = logins.log_in("127.0.0.1", line, "certified")
        # it reads the names up to an empty one
        listed = "a" in itertools.takewhile(bool, items.split(","))
        count.check(f"principals={items[-20:]!r}", openssh_accepts_key == listed == wanted, openssh_accepts_key, listed)
    openssh_accepts_key, written = logins.log_in("127.0.0.1", f'environment="RAFENDILO=set" {logins.fields["own"]}', command="env")
    count.check("environment sets nothing", openssh_accepts_key and written and b"RAFENDILO" not in written, written)
    return count
