"""Logins at two real sshd's, one with authorized_keys and one with a file of principals, for checks/user-keys: whom they let in, which
command runs, whether it has a terminal, and a variable that is set."""
import getpass
import os
import re
import time
from concurrent.futures import ThreadPoolExecutor

from lib.harness import SSHD, string

from .login_options import certificate
from .option_lists import Logins
from .user_key_questions import Question

# a shell that another one has started reads no file of the user's, which may take long
CONFIGURATION = """\
SetEnv SHLVL=2
HostKey {0}/host
StrictModes no
PidFile none
UsePAM no
PasswordAuthentication no
KbdInteractiveAuthentication no
PermitRootLogin yes
PermitUserEnvironment yes
PermitTunnel yes
LogLevel VERBOSE
"""
ADDRESS, VARIABLE = "127.0.0.1", "RAFENDILO"
LINE_OPTIONS = ("AuthorizedKeysFile={}",)
PRINCIPALS_OPTIONS = ("AuthorizedKeysFile=none", "AuthorizedPrincipalsFile={}")


def telling(word):
    """A command that tells the word, whether there is a terminal, and the variable."""
    return f"echo {word}; tty -s && echo terminal; echo ${VARIABLE}"


ASKED, FORCED, CERTIFIED = map(telling, ("asked", "forced", "certified"))
BY_FORCED = f'command="{FORCED}"'
PAST, FUTURE = (time.strftime("%Y%m%d%H%M%SZ", time.gmtime(time.time() + it)) for it in (-3600, 3600))
# lines of authorized_keys, where %s is the fields of the own key, and %o those of another
OF_KEYS = [
    "%s", f"{BY_FORCED} %s", "restrict %s", "restrict,pty %s", "no-pty %s", 'from="127.0.0.1" %s', 'from="10.0.0.0/8" %s',
    'from="127.0.0.0/8,!127.0.0.1" %s', 'from="127.0.0.1/8" %s', 'from="*," %s', f'expiry-time="{PAST}" %s', f'expiry-time="{FUTURE}" %s',
    f'expiry-time="{FUTURE}",expiry-time="{PAST}" %s', f'expiry-time="x" %s\n{BY_FORCED} %s', f'environment="{VARIABLE}=set" %s',
    f'environment="{VARIABLE}=a",environment="{VARIABLE}=b" %s', f'environment="{VARIABLE}-=a" %s\nno-pty %s',
    'command="a",command="b" %s\n%s', f"foo %s\n{BY_FORCED} %s", "cert-authority %s", f"cert-authority %s\n{BY_FORCED} %s",
    f'principals="root" %s\n{BY_FORCED} %s', f"{BY_FORCED},no-pty %s\n%s", "%o\n%s", "# %s", "   \t%s a # b", "%s\r", f"{BY_FORCED} %s\r",
    f"{BY_FORCED} %s\r\r", f"{BY_FORCED} %s\v\f me\n%s",
    'command="" %s', ",,no-pty,,pty, %s", 'permitopen="h:80" %s', 'permitopen="h:http" %s\n%s', 'tunnel="x" %s', 'tunnel="1" %s',
    "verify-required %s", "no-touch-required %s", f"//%s\n{BY_FORCED} %s", f"no-pty, no-user-rc %s\n{BY_FORCED} %s",
    f'command="a" command="b" %s\n{BY_FORCED} %s', f'"%s"\n{BY_FORCED} %s', f'command="a %s\n{BY_FORCED} %s', f"x: %s\n{BY_FORCED} %s",
]  # fmt: skip
ALL = {it: b"" for it in ("permit-X11-forwarding", "permit-port-forwarding", "permit-pty", "permit-user-rc")}
COMMAND = {"critical": {"force-command": string(CERTIFIED.encode())}}
# the same by certificates, where %s is the fields of the authority, and what is said of the certificate
OF_CERTIFICATES = [
    ("cert-authority %s", {}), ("cert-authority %s", {"principals": []}), ("cert-authority %s", {"principals": ["other"]}),
    ('cert-authority,principals="other" %s', {"principals": ["other"]}), ('cert-authority,principals="x,other" %s', {}),
    ("cert-authority %s", COMMAND), (f'command="{CERTIFIED}",cert-authority %s', COMMAND), (f"{BY_FORCED},cert-authority %s", COMMAND),
    (f"{BY_FORCED},cert-authority %s\ncert-authority,no-pty %s", COMMAND), (f"{BY_FORCED},cert-authority %s", {}),
    ("cert-authority %s", {"extensions": {}}), ("restrict,cert-authority %s", {}), ("no-pty,cert-authority %s", {}),
    ("cert-authority %s", {"critical": {"source-address": string(b"127.0.0.0/8")}}),
    ("cert-authority %s", {"critical": {"source-address": string(b"10.0.0.0/8")}}), ("cert-authority %s", {"window": (0, 1)}),
    ("cert-authority %s", {"window": (2**33, 2**34)}), ("cert-authority %s", {"kind": 2}), ("%s", {}), (f"{BY_FORCED},cert-authority %s\r\r", {}),
    ('from="10.0.0.0/8",cert-authority %s\nno-pty,cert-authority %s', {}), ("cert-authority %s", {"critical": {"odd": b""}}),
]  # fmt: skip
# and lines of a file of principals, where %s is the user
OF_PRINCIPALS = [
    ("%s", {}), ("other", {}), (f"{BY_FORCED} %s", {}), ('from="10.0.0.0/8" %s\n%s', {}), ("foo %s\nno-pty %s", {}),
    ("cert-authority %s\n%s", {}), ("%s # c", {}), ("%s\r", {}), ("no-pty other\n%s", {}),
]  # fmt: skip


class Server(Logins):
    """Makes keys and certificates, and has an sshd with these options judge them."""

    def __init__(self, folder, by, options):
        os.mkdir(folder)
        trusted = f"TrustedUserCAKeys={folder}/authority.pub"
        super().__init__(folder, CONFIGURATION, [*options, *[trusted] * (by == "principals")])
        self.by, self.user, self.other = by, getpass.getuser(), self.new("other")

    def read(self, name):
        with open(self.path(name), encoding="ascii") as file:
            return file.read()

    def question(self, text, offered, authority):
        return Question(self.by, int(time.time()), "UTC0", text.encode(), self.user, offered, authority, ADDRESS, None, "")

    def told(self, text, key):
        """What the command wrote, a line each, or None where sshd does not let the key in. Where there is no terminal, nothing runs, and
        the key asks for none."""
        for terminal in ("-tt", "-T"):
            openssh_accepts_key, written = self.log_in(ADDRESS, text.removesuffix("\n"), key, ASKED, terminal)
            if not openssh_accepts_key or written:
                break
        return written.decode().split() if openssh_accepts_key else None

    def by_key(self, line):
        own = self.fields["own"]
        text = line.replace("%s", own).replace("%o", self.other) + "\n"
        return self.question(text, own, ""), self.told(text, "own")

    def by_certificate(self, number, line, said):
        name, signer = f"bound{number}", self.fields["authority"]
        text = line.replace("%s", signer if self.by == "line" else self.user) + "\n"
        said = {"principals": [self.user], "critical": {}, "extensions": ALL, **said}
        names = b"".join(string(it.encode()) for it in said.pop("principals"))
        critical, extensions = said.pop("critical"), said.pop("extensions")
        shown = certificate(self, "authority", self.new(name), names, critical, extensions, **said)
        with open(self.path(f"{name}-cert.pub"), "w", encoding="ascii") as file:
            file.write(shown + "\n")
        return self.question(text, shown, signer), self.told(text, name)


def logins(folder):
    """Questions, and what sshd says to each."""
    if not os.path.exists(SSHD):
        print(f"there is no {SSHD}, so no login is compared with it")
        return []
    if os.getuid() == 0:
        # where sshd separates its privileges
        os.makedirs("/run/sshd", mode=0o755, exist_ok=True)
    lines, principals = Server(f"{folder}/line", "line", LINE_OPTIONS), Server(f"{folder}/principals", "principals", PRINCIPALS_OPTIONS)
    with ThreadPoolExecutor(len(os.sched_getaffinity(0))) as pool:
        asked = [pool.submit(lines.by_key, it) for it in OF_KEYS]
        for server, rows in ((lines, OF_CERTIFICATES), (principals, OF_PRINCIPALS)):
            asked += [pool.submit(server.by_certificate, number, *it) for number, it in enumerate(rows)]
        return [it.result() for it in asked]


def wanted(grant):
    """What the command writes, a line each, in a login that is bound by these fields of an answer."""
    command = bytes.fromhex(grant["command"][1:]).decode() if grant["command"] else ASKED
    if not command:
        return []
    word = re.match(r"echo (\w+);", command)[1]
    variables = [bytes.fromhex(it).decode().split("=", 1) for it in grant["environment"].split(",") if it]
    return [word, *["terminal"] * ("t" in grant["may"]), *(value for name, value in variables if name == VARIABLE)]
