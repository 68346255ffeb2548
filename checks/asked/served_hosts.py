"""What clients over asyncssh and paramiko say of the keys and certificates of a real sshd, for checks/servers: python_client.py asks. And
whom that sshd lets in by the files that the servers have."""
import getpass
import os
import socket
import subprocess
import threading
from dataclasses import replace

from lib.harness import ROOT, SSHD

from .linked import run
from .served_logins import ADDRESS, LOGINS, PYTHON, SECONDS, USER

CLIENT = f"{ROOT}/checks/asked/python_client.py"
CONFIGURATION = """\
HostKey {key}
{more}
StrictModes no
PidFile none
UsePAM no
PasswordAuthentication {password}
"""
OUTSIDE = "192.0.2.7"
TRUSTED, UNREADABLE = "trusted", 51
# what known_hosts has, where [host] is the host and its port, what the host shows, the name of a file of what is revoked, and what is
# said of it: that, or the number of what is wrong. ssh says the same, but of a line that can't be read: that it passes over
ROWS = [
    ("a key that is known", "[host] {host}", "key", None, TRUSTED), ("one among others", "# a comment\nother {strange}\n[host] {strange}\n[host] {host}", "key", None, TRUSTED),
    ("another key", "[host] {strange}", "key", None, 52), ("no line", "", "key", None, 53), ("a line without the port", f"{ADDRESS} {{host}}", "key", None, TRUSTED),
    ("a line for another", f"[{OUTSIDE}]:22 {{host}}", "key", None, 53), ("a key that is revoked", "[host] {host}\n@revoked * {host}", "key", None, 50),
    ("a key that a file revokes", "[host] {host}", "key", "host.pub", 50), ("a file that is none", "[host] {host}", "key", "keys-of-none", 58),
    ("a file of another", "[host] {host}", "key", "strange.pub", TRUSTED), ("a line that can't be read", "[host] ssh-ed25519 AAAA\n[host] {host}", "key", None, UNREADABLE),
    ("a certificate of its authority", "@cert-authority [host] {authority}", "listed", None, TRUSTED),
    ("one of another authority", "@cert-authority [host] {strange}", "listed", None, 53), ("one for another host", "@cert-authority [host] {authority}", "other", None, 34),
    ("one that is over", "@cert-authority [host] {authority}", "over", None, 33), ("one for users", "@cert-authority [host] {authority}", "users", None, 71),
    ("one whose key is known", "[host] {host}", "listed", None, TRUSTED), ("one whose authority is revoked", "@cert-authority [host] {authority}\n@revoked * {authority}", "listed", None, 50),
]  # fmt: skip
HOST = ["-V", "-5m:+5m", "-h"]
CERTIFICATES = {
    "listed": [*HOST, "-n", ADDRESS], "other": [*HOST, "-n", OUTSIDE], "over": ["-V", "-10m:-5m", "-h", "-n", ADDRESS], "users": ["-V", "-5m:+5m", "-n", ADDRESS],
}  # fmt: skip


class Host:
    """A real sshd, which shows what is told of its configuration, until it is closed."""

    def __init__(self, maker, name, more, password="yes"):
        if os.geteuid() == 0:
            os.makedirs("/run/sshd", mode=0o755, exist_ok=True)
        path = maker.write(f"{name}.conf", CONFIGURATION.format(key=maker.path("host"), more=more, password=password))
        self.words, self.server = [SSHD, "-i", "-f", path, "-E", f"{path}.log"], socket.create_server((ADDRESS, 0))
        self.port = self.server.getsockname()[1]
        threading.Thread(target=self.serve, daemon=True).start()

    def serve(self):
        while True:
            try:
                client, _ = self.server.accept()
            except OSError:
                return
            with client:
                subprocess.run(self.words, stdin=client, stdout=client, stderr=subprocess.DEVNULL, check=False, timeout=SECONDS)

    def close(self):
        # which ends a wait too
        self.server.shutdown(socket.SHUT_RDWR)
        self.server.close()


def shown_of(maker):
    """Hosts by what they show: the key, or it and a certificate of it."""
    yield "key", Host(maker, "key", "")
    for name, words in CERTIFICATES.items():
        line = maker.certificate("authority", "host", *words)
        path = maker.write(f"{name}-host.pub", f"{line}\n")
        yield name, Host(maker, name, f"HostCertificate {path}")
    os.remove(maker.path("host-cert.pub"))


def check_by_sshd(count, servers):
    """A real sshd with the same files lets in at the same logins."""
    path = servers.maker.path
    more = f"AuthorizedKeysFile {path('keys')}\nTrustedUserCAKeys {path('authority.pub')}\nPermitRootLogin yes\nKbdInteractiveAuthentication no"
    sshd = Host(servers.maker, "sshd", more, "no")
    for login in LOGINS:
        # who runs this is the one user that there is
        if login.user == USER:
            found, said = servers.login(sshd.port, replace(login, user=getpass.getuser()))
            count.check(f"sshd: {login.name}", (found is not None) == (login.wanted is not None), found, said)
    sshd.close()


def ssh_trusts(port, known, revoked):
    """Whether ssh trusts the host, which lets nobody in."""
    named = [f"UserKnownHostsFile={known}", "GlobalKnownHostsFile=none", f"RevokedHostKeys={revoked}", "StrictHostKeyChecking=yes", "BatchMode=yes"]
    options = [word for it in [*named, "IdentityAgent=none", "IdentityFile=none"] for word in ("-o", it)]
    said = run(["ssh", "-F", "none", "-p", str(port), *options, f"alice@{ADDRESS}"], stdin=subprocess.DEVNULL, timeout=SECONDS).stderr
    told = {words for words in ("Permission denied", "Host key verification failed") if words in said}
    return {"Permission denied"} == told if len(told) == 1 else said


def check_hosts(count, servers, package):
    """Each host is trusted, or refused, as ssh(1) would."""
    maker = servers.maker
    maker.write("keys-of-none", "ssh-ed25519\n")
    hosts = dict(shown_of(maker))
    for name, text, shown, revoked, wanted in ROWS:
        host = hosts[shown]
        given = text.format(**servers.lines).replace("[host]", f"[{ADDRESS}]:{host.port}")
        known, files = maker.write("known_hosts", f"{given}\n"), maker.path(revoked) if revoked else "none"
        ran = run([PYTHON, CLIENT, package, str(host.port), files, known], timeout=SECONDS)
        said = ran.stdout.strip()
        same = said == wanted or wanted != TRUSTED and said.endswith(f"({wanted})")
        by_ssh = ssh_trusts(host.port, known, files)
        same = same and by_ssh is (wanted in (TRUSTED, UNREADABLE))
        count.check(f"{package}, a host: {name}", same, wanted, said, by_ssh, ran.stderr[-2000:])
    for host in hosts.values():
        host.close()
