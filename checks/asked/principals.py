"""Logins at a real sshd that asks helpers/sshkey-principals whom a certificate lets in, for checks/foreign."""
import base64
import getpass
import os
import shlex
import subprocess
from concurrent.futures import ThreadPoolExecutor

from lib.harness import SSHD, line_of, openssh

from .host_rows import LATER
from .linked import run
from .option_lists import Logins as OverTCP
from .revocation_calls import made_list
from .security_key_calls import COUNTER, SecurityKey, certified

# a shell that another one has started reads no file of the user's, which may take long
CONFIGURATION = """\
SetEnv SHLVL=2
HostKey {0}/host
TrustedUserCAKeys {0}/trusted
AuthorizedKeysFile none
StrictModes no
PidFile none
UsePAM no
PasswordAuthentication no
KbdInteractiveAuthentication no
PermitRootLogin yes
LogLevel VERBOSE
"""
# sshd wants a program that nobody else can change, on its whole path, which a new folder is not: env is, and runs it
COMMAND = """\
AuthorizedPrincipalsCommand /usr/bin/env {1} --insecure-modes {3}{0}/authorities %u %t %k
AuthorizedPrincipalsCommandUser {2}
"""


def login(maker, configuration, user, key, agent="none", command="true"):
    """Whether a real sshd lets the user in by the key, which the agent may have, and by the certificate of it if there is one; and
    what the command prints there."""
    log, certificate = maker.path(f"{key}.{configuration}.{user}.log"), maker.path(f"{key}-cert.pub")
    sshd = f"{SSHD} -i -f {shlex.quote(maker.path(configuration))} -E {shlex.quote(log)}"
    # as an option, since -i wants a file of the private key
    asked = ["ssh", "-F", "none", "-T", "-o", f"ProxyCommand={sshd}", "-o", f"IdentityFile={maker.path(key)}"]
    for option in (
        "StrictHostKeyChecking=no", "UserKnownHostsFile=/dev/null", "BatchMode=yes", "IdentitiesOnly=yes",
        f"IdentityAgent={agent}", "LogLevel=ERROR", *[f"CertificateFile={certificate}"] * os.path.exists(certificate),
    ):  # fmt: skip
        asked += ["-o", option]
    ran = run([*asked, f"{user}@localhost", command], stdin=subprocess.DEVNULL, timeout=60, errors="replace")
    with open(log, encoding="utf-8", errors="replace") as file:
        return f"Accepted publickey for {user} " in file.read(), ran.stdout


def logs_in(*given):
    return login(*given)[0]


class Logins:
    """Logins at a real sshd, over its standard input, with certificates that are made for it."""

    def __init__(self, maker, program, me, helper):
        self.maker, self.me = maker, me
        for name, kind in (("host", "ed25519"), ("own", "ed25519"), ("second", "ecdsa -b 256"), ("strange", "ed25519")):
            maker.key(name, kind)
        keys = {name: " ".join(maker.read(f"{name}.pub").split()[:2]) for name in ("own", "second", "strange")}
        self.devices = {kind: SecurityKey(kind, b"ssh:login") for kind in ("Ed25519", "ECDSA P-256")}
        devices = [it.line() for it in self.devices.values()]
        # before 10.6 sshd reads no further than to a later kind
        trusted = [LATER["later"], *keys.values(), *devices] if openssh() >= (10, 6) else [*keys.values(), *devices, LATER["later"]]
        maker.write("trusted", "".join(f"{it}\n" for it in trusted))
        # what a comment holds locks nobody out, nor do tabs
        second = keys["second"].replace(" ", "\t ")
        lines = [f"{me},nobody {keys['own']}", f"x{me},{me}\t{second} Z\xfcrich", f"x{me} {keys['strange']}"]
        lines += [f"{me} {it}" for it in (*devices, LATER["later"])]
        with open(maker.path("authorities"), "w", encoding="latin-1") as file:
            file.write("# who may sign for whom\n" + "".join(f"{it}\n" for it in lines))
        maker.write("plain", CONFIGURATION.format(maker.folder))
        with open(maker.path("revoked"), "wb") as file:
            file.write(made_list(maker, "own", ["serial: 5"]))
        for ending, text in (("text", f"# x\n{keys['own']}\n"), ("half", keys["strange"][:40]), ("empty", "")):
            maker.write(f"revoked.{ending}", text)
        for name, folder, more in (
            ("asking", "{0}", ""), ("lost", "{0}/none", ""), ("revoking", "{0}", "--revoked {0}/revoked "),
            ("unread", "{0}", "--revoked {0}/none "), ("by text", "{0}", "--revoked {0}/revoked.text "),
            ("by half a line", "{0}", "--revoked {0}/revoked.half "), ("by no bytes", "{0}", "--revoked {0}/revoked.empty "),
            ("by two files", "{0}", "--revoked {0}/revoked.empty --revoked {0}/revoked "), ("by more bits", "{0}", "--least-rsa-bits 3072 "),
            ("naming the client", "{0}", '--client "%C" '),
        ):  # fmt: skip
            command = COMMAND.format(folder.format(maker.folder), program, helper, more.format(maker.folder))
            maker.write(name, CONFIGURATION.format(maker.folder) + command)
        # the helper has to get there
        for folder in (maker.folder, os.path.dirname(maker.folder)):
            os.chmod(folder, 0o711)

    def openssh_accepts_key(self, number, user, authority, words, configuration="asking"):
        key = f"login{number}"
        self.maker.key(key, "ed25519")
        if isinstance(authority, tuple):
            self.certify(*authority, key, words)
        else:
            self.maker.certificate(authority, key, *words)
        return logs_in(self.maker, configuration, user, key)

    def certify(self, kind, counter, key, words):
        """A certificate of the key by a security key, that says the counter."""
        line, own = self.maker.certificate("own", key, *words), self.maker.read("own.pub")
        made = certified(self.devices[kind], *(base64.b64decode(it.split()[1]) for it in (line, own)), counter)
        self.maker.write(f"{key}-cert.pub", line_of(made) + "\n")

    def cases(self):
        """Names, users, authorities, words for ssh-keygen, configurations, and whether the user is let in."""
        me, now = self.me, ["-V", "-5m:+5m"]
        yield "its user, by an authority of the user", me, "own", ["-n", me, *now], "asking", True
        yield "the same by the other authority", me, "second", ["-n", f"y,{me}", *now], "asking", True
        yield "another user's certificate", me, "own", ["-n", f"x{me}", *now], "asking", False
        yield "an authority of another user, which sshd trusts", me, "strange", ["-n", me, *now], "asking", False
        yield "where sshd alone lets in", me, "strange", ["-n", me, *now], "plain", True
        yield "too early", me, "own", ["-n", me, "-V", "+5m:+6m"], "asking", False
        yield "too late", me, "own", ["-n", me, "-V", "-6m:-5m"], "asking", False
        yield "nobody is listed", me, "own", now, "asking", False
        yield "a file of authorities that is not there", me, "own", ["-n", me, *now], "lost", False
        yield "a revoked number", me, "own", ["-n", me, "-z", "5", *now], "revoking", False
        yield "another number", me, "own", ["-n", me, "-z", "6", *now], "revoking", True
        yield "the number of another authority", me, "second", ["-n", me, "-z", "5", *now], "revoking", True
        yield "no file of revocations", me, "own", ["-n", me, *now], "unread", False
        yield "an authority that a text revokes", me, "own", ["-n", me, *now], "by text", False
        yield "another authority than a text revokes", me, "second", ["-n", me, *now], "by text", True
        yield "a text with half a key", me, "own", ["-n", me, *now], "by half a line", False
        yield "a revocation file of no bytes", me, "own", ["-n", me, *now], "by no bytes", True
        yield "a number that the second file revokes", me, "own", ["-n", me, "-z", "5", *now], "by two files", False
        yield "a number that neither file revokes", me, "own", ["-n", me, "-z", "6", *now], "by two files", True
        yield "a key that is not RSA, where RSA has more bits", me, "own", ["-n", me, *now], "by more bits", True
        if openssh() >= (9, 4):
            yield "with where the client is, for the log", me, "own", ["-n", me, *now], "naming the client", True
        yield "a command", me, "own", ["-n", me, "-O", "force-command=true", *now], "asking", True
        yield "an option that sshd does not know", me, "own", ["-n", me, "-O", "critical:x@example.com=1", *now], "asking", False
        yield "an extension that sshd does not know", me, "own", ["-n", me, "-O", "extension:x@example.com=1", *now], "asking", True
        yield "data in an extension that is a flag", me, "own", ["-n", me, "-O", "clear", "-O", "extension:permit-pty=1", *now], "asking", False
        for kind in self.devices:
            device, turned = (kind, COUNTER), (kind, COUNTER + 1)
            yield f"its user, by a security key of {kind}", me, device, ["-n", me, *now], "asking", True
            yield "with another counter than was signed", me, turned, ["-n", me, *now], "asking", False
            yield "another user's certificate by it", me, device, ["-n", f"x{me}", *now], "asking", False
        yield "for hosts", me, "own", ["-h", "-n", me, *now], "asking", False
        if os.getuid() == 0:
            yield "another user, by its own", "nobody", "own", ["-n", "nobody", *now], "asking", True
            yield "another user, by the first one's", "nobody", "own", ["-n", me, *now], "asking", False
            yield "another user, by an authority of the first", "nobody", "second", ["-n", "nobody", *now], "asking", False


def check_addresses(count, folder, program, helper):
    """The program is not told where the client is: sshd itself asks the certificate's addresses, of a client over TCP."""
    os.mkdir(folder)
    os.chmod(folder, 0o711)
    clients, me = OverTCP(folder, CONFIGURATION + COMMAND.format("{0}", program, helper, "")), getpass.getuser()
    for name, text in (("trusted", clients.fields["authority"]), ("authorities", f"{me} {clients.fields['authority']}")):
        with open(clients.path(name), "w", encoding="ascii") as file:
            file.write(f"{text}\n")
    for number, (items, wanted) in enumerate((("127.0.0.0/8", True), ("192.0.2.0/24,127.0.0.1", True), ("192.0.2.0/24", False))):
        clients.certify(f"bound{number}", "-n", me, "-O", f"source-address={items}")
        openssh_accepts_key, _ = clients.log_in("127.0.0.1", "", f"bound{number}")
        count.check(f"login by principals, from 127.0.0.1 by a certificate for {items}", openssh_accepts_key == wanted, openssh_accepts_key)


def check_logins(count, built, folder, maker_in, helper):
    """maker_in gives what makes keys and certificates in a folder; helper is the user as whom sshd runs the program."""
    if not os.path.exists(SSHD):
        count.check(f"{SSHD} (Debian: openssh-server)", False)
        return
    # where sshd separates its privileges
    if os.getuid() == 0:
        os.makedirs("/run/sshd", mode=0o755, exist_ok=True)
    for name, out in (("plain", built.plain), ("with sanitizers", built.sanitized)):
        room = f"{folder}/logins-{os.path.basename(out)}"
        os.mkdir(room)
        logins = Logins(maker_in(room), f"{out}/sshkey-principals", getpass.getuser(), helper)
        cases = list(logins.cases()) if out == built.plain else list(logins.cases())[:4]
        with ThreadPoolExecutor(len(os.sched_getaffinity(0))) as pool:
            found = pool.map(lambda it: logins.openssh_accepts_key(it[0], *it[1][1:5]), list(enumerate(cases)))
            for (case, *_, wanted), openssh_accepts_key in zip(cases, found):
                count.check(f"login by principals, {name}: {case}", openssh_accepts_key == wanted, openssh_accepts_key)
    check_addresses(count, f"{folder}/logins-by-addresses", f"{built.plain}/sshkey-principals", helper)
