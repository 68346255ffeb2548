"""Ports that a login may have forwarded, and what runs, by options of authorized_keys: what a real sshd does with them, for checks/logins,
and what the packages answer, for checks/foreign."""
import getpass
import os
import shlex
import subprocess

from lib.harness import SSHD, Count, new_key

SECONDS = 60
# the options, the host and the port as a client asks for them, and whether it may have the port forwarded to there
OPENED = [
    ("", "127.0.0.1", 1, True), ("restrict", "127.0.0.1", 1, False), ("no-port-forwarding", "127.0.0.1", 1, False),
    ('restrict,permitopen="127.0.0.1:1"', "127.0.0.1", 1, False), ('permitopen="127.0.0.1:1",no-port-forwarding', "127.0.0.1", 1, False),
    ('restrict,port-forwarding,permitopen="127.0.0.1:1"', "127.0.0.1", 1, True), ('permitopen="127.0.0.1:1"', "127.0.0.1", 1, True),
    ('permitopen="127.0.0.1:1"', "127.0.0.1", 2, False), ('permitopen="127.0.0.1:1"', "127.0.0.2", 1, False),
    ('permitopen="localhost:1"', "localhost", 1, True), ('permitopen="localhost:1"', "LOCALHOST", 1, False),
    ('permitopen="localhost:1"', "127.0.0.1", 1, False), ('permitopen="localhost:1"', "localhost.", 1, False),
    ('permitopen="*:1"', "127.0.0.2", 1, True), ('permitopen="*:1"', "127.0.0.2", 2, False), ('permitopen="127.0.0.1:*"', "127.0.0.1", 2, True),
    ('permitopen="127.0.0.?:1"', "127.0.0.1", 1, False), ('permitopen="127.*:1"', "127.0.0.1", 1, False), ('permitopen="[::1]:1"', "::1", 1, True),
    ('permitopen="127.0.0.1:1",permitopen="127.0.0.2:2"', "127.0.0.2", 2, True), ('permitopen="127.0.0.1:1",permitopen="127.0.0.2:2"', "127.0.0.1", 2, False),
    ('permitlisten="localhost:38081"', "127.0.0.1", 1, True),
]  # fmt: skip
# and whether it may have the server listen at them
LISTENED = [
    ("", "localhost", 38081, True), ("", "localhost", 0, True), ("restrict", "localhost", 38081, False), ("no-port-forwarding", "", 38081, False),
    ('restrict,permitlisten="38081"', "localhost", 38081, False), ('permitlisten="localhost:38081"', "localhost", 38081, True),
    ('permitlisten="localhost:38081"', "LocalHost", 38081, True), ('permitlisten="LocalHost:38081"', "LocalHost", 38081, False),
    ('permitlisten="LocalHost:38081"', "localhost", 38081, False), ('permitlisten="localhost:38081"', "127.0.0.1", 38081, False),
    ('permitlisten="localhost:38081"', "", 38081, False), ('permitlisten="localhost:38081"', "localhost", 38082, False),
    ('permitlisten="localhost:38081"', "localhost", 0, False), ('permitlisten="38081"', "", 38081, True), ('permitlisten="*:*"', "localhost", 0, True),
    ('permitlisten="127.0.0.?:38081"', "127.0.0.1", 38081, True), ('permitlisten="127.0.0.?:38081"', "::1", 38081, False),
    ('permitlisten="127.0.0.1:38081",permitlisten="l*:38082"', "localhost", 38082, True), ('permitopen="127.0.0.1:1"', "localhost", 38081, True),
]  # fmt: skip

# and the command that the client asks for, or none for a shell, with what runs
RUN = [
    ("", "echo asked", "echo asked"), ("", None, None), ('command="echo forced"', "echo asked", "echo forced"), ('command="echo forced"', None, "echo forced"),
    ('command=""', "echo asked", ""), ('restrict,command=""', None, ""), ("restrict", "echo asked", "echo asked"), ("restrict", None, None),
    ('no-touch-required,command="echo forced"', "echo asked", "echo forced"), ("verify-required,no-pty", None, None),
    ('permitopen="h:1",tunnel="1",command="echo forced"', None, "echo forced"),
]  # fmt: skip


class Server:
    """Serves a login of the key in the folder by a line with these options."""

    def __init__(self, folder, configuration):
        self.folder = folder
        new_key(f"{folder}/host", "ed25519")
        self.fields = new_key(f"{folder}/own", "ed25519").decode()
        with open(f"{folder}/conf", "w", encoding="ascii") as file:
            file.write(configuration.format(folder))

    def run(self, options, *words, read=""):
        with open(f"{self.folder}/keys", "w", encoding="ascii") as file:
            file.write(f"{options} {self.fields}")
        at = shlex.quote(self.folder)
        named = [f"ProxyCommand={SSHD} -i -f {at}/conf -E {at}/log", "StrictHostKeyChecking=no", "UserKnownHostsFile=/dev/null", "BatchMode=yes"]
        named += ["IdentitiesOnly=yes", "IdentityAgent=none", "ExitOnForwardFailure=yes"]
        line = ["ssh", "-F", "none", "-T", "-i", f"{self.folder}/own", *(it for on in named for it in ("-o", on)), *words]
        return subprocess.run(line, input=read, capture_output=True, text=True, check=False, timeout=SECONDS)

    def opens(self, options, host, port):
        """Whether sshd tries to reach the port. Nobody listens there."""
        ran = self.run(options, "-W", f"[{host}]:{port}", f"{getpass.getuser()}@localhost")
        told = {word for word in ("administratively prohibited", "connect failed") if word in ran.stderr}
        return {"connect failed"} == told if len(told) == 1 else ran.stderr

    def listens(self, options, host, port):
        """Whether sshd listens at the port."""
        ran = self.run(options, "-R", f"{f'[{host}]' if host else ''}:{port}:localhost:1", f"{getpass.getuser()}@localhost", "true")
        return True if ran.returncode == 0 else False if "remote port forwarding failed" in ran.stderr else ran.stderr

    def runs(self, options, asked):
        """The command that runs, by what it writes; none where a shell does, which reads another."""
        ran = self.run(options, f"{getpass.getuser()}@localhost", *[asked][: asked is not None], read="echo shell\n")
        said = ran.stdout.strip()
        return ran.stderr if ran.returncode else None if said == "shell" else f"echo {said}" if said else ""


def forwards(folder, configuration):
    """What sshd does, one after the other, since they listen at the same ports."""
    count, server = Count(), Server(folder, configuration)
    for ask, rows in ((server.opens, OPENED), (server.listens, LISTENED)):
        for options, host, port, wanted in rows:
            found = ask(options, host, port)
            count.check(f"sshd {ask.__name__} {host or 'no host'}, port {port}, by {options or 'no option'}: {wanted}", found is wanted, found)
    for options, asked, wanted in RUN:
        found = server.runs(options, asked)
        count.check(f"sshd runs {wanted!r} by {options or 'no option'} where {asked or 'a shell'} is asked for", found == wanted, found)
    return count


def check_forwards(count, key, log_in):
    """The same of a grant, which `log_in` gives of a text of authorized_keys for that key."""
    for name, rows in (("may_open", OPENED), ("may_listen", LISTENED)):
        for options, host, port, wanted in rows:
            grant = log_in(f"{options} {key}".strip().encode())
            count.check(f"{name} {host or 'no host'}, port {port}, by {options or 'no option'}", getattr(grant, name)(host, port) is wanted)
        grant = log_in(key.encode())
        count.check(f"{name} knows no port above 65,535", [getattr(grant, name)("h", it) for it in (65535, 65536, 65536 + 80)] == [True, False, False])
        count.check(f"{name} of bytes that are no text is no", not getattr(grant, name)(b"\xff", 80))
    for options, asked, wanted in RUN:
        found = log_in(f"{options} {key}".strip().encode()).runs(asked)
        count.check(f"what runs by {options or 'no option'} where {asked or 'a shell'} is asked for", found == wanted, found)
