"""Logins at a real sshd that asks helpers/sshkey-authorized-keys by which lines it may let a key in, for checks/foreign. The judge is
the same sshd where it reads the files itself."""
import base64
import getpass
import os
from concurrent.futures import ThreadPoolExecutor

from lib.harness import SSHD, blob_of, line_of, string, take

from .linked import run
from .principals import login, logs_in
from .security_key_agent import Agent
from .security_key_calls import COUNTER, TOUCHED, SecurityKey, certified

# a shell that another one has started reads no file of the user's, which may take long
CONFIGURATION = """\
SetEnv SHLVL=2
HostKey {0}/host
StrictModes no
PidFile none
UsePAM no
PasswordAuthentication no
KbdInteractiveAuthentication no
PermitRootLogin yes
LogLevel VERBOSE
"""
READING = "AuthorizedKeysFile {0}/keys/%u\n"
# as in asked/principals.py, sshd runs env, which runs the program
ASKING = """\
AuthorizedKeysFile none
AuthorizedKeysCommand /usr/bin/env {1} --insecure-modes {0}/keys %u %t %k
AuthorizedKeysCommandUser {2}
"""
# the lines of the user's file, each with a key of its own
LINES = {
    "alone": "{} a comment", "rsa": "no-pty,no-agent-forwarding {} me", "ecdsa": "\t {}",
    "command": 'command="echo \\"a, b\\"" {} # c', "away": 'from="192.0.2.7" {}', "strange-option": "no-such-option {}",
    "no-options": "no-pty no-user-rc {}", "commented": "# {}", "authority": "cert-authority {} who signs",
    "listing": 'CERT-Authority,principals="other" {}', "plain": "{} no authority",
    "twice": 'from="192.0.2.7" {0}\nno-pty {0} again', "both": "{0}\ncert-authority {0}",
    "device": "{} a security key", "other-device": "no-touch-required {}", "strange-device": "# {}",
}  # fmt: skip
DEVICES = {"device": "Ed25519", "other-device": "ECDSA P-256", "strange-device": "Ed25519"}
KINDS = {"rsa": "rsa -b 2048", "ecdsa": "ecdsa -b 256"}
AUTHORITIES = ("authority", "listing", "both")
# lines that may be for any key: they are no entry, or have a zero byte
LET_IN = {
    "alone", "rsa", "ecdsa", "command", "plain", "twice", "both", "by-authority", "by-both", "for-a-listed", "device",
    "other-device", "untouched-other-device", "certified-device",
}  # fmt: skip


class Files:
    """Files of keys, and an sshd that reads them, or asks the program."""

    def __init__(self, maker, program, me, helper):
        self.maker, self.program, self.me, self.helper = maker, program, me, helper
        os.mkdir(maker.path("keys"))
        # sshd reads a user's file as that user, who has to get there
        for folder in (maker.folder, os.path.dirname(maker.folder)):
            os.chmod(folder, 0o711)
        for name in ("host", "strange", "nobody", "zero", *(it for it in LINES if it not in DEVICES)):
            maker.key(name, KINDS.get(name, "ed25519"))
        self.agents = {}
        for name, kind in DEVICES.items():
            self.plug(name, SecurityKey(kind, b"ssh:"))
        self.lines = {name: line.format(self.fields(name)).split("\n") for name, line in LINES.items()}
        # sshd reads no further than to a zero byte
        self.lines["zero"] = [f"{self.fields('zero')} a\0b"]
        # nobody's, and no security key's, whose last byte is the end of a text
        ends_in_zero = line_of(string(b"ssh-ed25519") + string(b"\1" * 31 + b"\0"))
        maker.write(f"keys/{me}", "\r\n".join(["# keys", "", ends_in_zero, *(it for lines in self.lines.values() for it in lines)]) + "\n")
        maker.write("keys/nobody", f"{self.fields('nobody')}\n")
        self.configure("", maker.folder)

    def configure(self, name, folder):
        """Two configurations of sshd: it reads the files of keys below the folder itself, or asks the program."""
        for way, words in (("reading", READING), ("asking", ASKING)):
            text = CONFIGURATION.format(self.maker.folder) + words.format(folder, self.program, self.helper)
            self.maker.write(f"{way}{name}", text)

    def plug(self, name, device, flags=TOUCHED):
        """A security key under that name, and an agent that has it."""
        self.maker.write(f"{name}.pub", f"{device.line()}\n")
        self.agents[name] = Agent(self.maker.path(f"{name}.agent"), device, flags)

    def unplug(self):
        for agent in self.agents.values():
            agent.shutdown()
            agent.server_close()

    def openssh_accepts_key(self, configuration, user, key):
        agent = self.agents.get(key)
        return logs_in(self.maker, configuration, user, key, agent.path if agent else "none")

    def fields(self, name):
        return " ".join(self.maker.read(f"{name}.pub").split()[:2])

    def certified(self, name, authority, *words):
        """A new key of that name with a certificate by the authority."""
        self.maker.key(name, "ed25519")
        agent = self.agents.get(authority)
        line = self.maker.certificate("strange" if agent else authority, name, "-V", "-5m:+5m", *words)
        if agent:
            blobs = (base64.b64decode(it.split()[1]) for it in (line, self.maker.read("strange.pub")))
            self.maker.write(f"{name}-cert.pub", line_of(certified(agent.key, *blobs, COUNTER)) + "\n")
        return name

    def printed(self, *words):
        ran = run([self.program, "--insecure-modes", *words])
        return ran.returncode, ran.stdout

    def offers(self):
        """Names of keys that are offered, and of users."""
        for name in ("strange", *LINES):
            yield name, self.me
        for name in ("device", "other-device"):
            self.plug(f"untouched-{name}", self.agents[name].key, 0)
            yield f"untouched-{name}", self.me
        self.plug("certified-device", SecurityKey("ECDSA P-256", b"ssh:"))
        self.maker.certificate("authority", "certified-device", "-V", "-5m:+5m", "-n", self.me)
        yield "certified-device", self.me
        yield "nobody", self.me
        for authority in (*AUTHORITIES, "plain", "strange"):
            yield self.certified(f"by-{authority}", authority, "-n", self.me), self.me
        yield self.certified("for-another", "authority", "-n", "other"), self.me
        yield self.certified("for-a-listed", "listing", "-n", "other"), self.me
        yield self.certified("for-nobody", "authority"), self.me
        yield self.certified("for-hosts", "authority", "-h", "-n", self.me), self.me
        if os.getuid() == 0:
            yield from (("nobody", "nobody"), ("alone", "nobody"))


def check_printed(count, name, files):
    """What is printed of each line: the line as it stands, if the key is in it."""
    folder, me = files.maker.path("keys"), files.me
    for key in files.lines:
        wanted = [it.lstrip() for other, lines in files.lines.items() if other == key for it in lines if it[0] != "#"]
        certificate = files.maker.read(f"{files.certified('printed', key, '-n', me)}-cert.pub")
        for offered in (files.fields(key), certificate):
            type_and_key = offered.split()[:2]
            for words in ([folder], ["--file", f"{folder}/{me}"]):
                found = files.printed(*words, me, *type_and_key)
                same = found == (0, "".join(f"{it}\n" for it in wanted))
                count.check(f"authorized_keys {name}, {key}: {len(wanted)} lines for {type_and_key[0]}", same, found)


def check_statuses(count, name, files):
    """What has nothing printed: 0 for a no, and 1 where the program can't tell."""
    folder, me, alone = files.maker.path("keys"), files.me, files.fields("alone").split()
    os.mkdir(f"{folder}/folder")
    for case, words, status in (
        ("no such file", [folder, "none", *alone], 0), ("no such folder", [f"{folder}/none", me, *alone], 0),
        ("another user's file", [folder, "nobody", *alone], 0), ("no such path", ["--file", f"{folder}/none", me, *alone], 0),
        ("a folder", [folder, "folder", *alone], 1), ("no key", [folder, me, "ssh-ed25519", "AAAA"], 1),
        ("a key under another name", [folder, me, "ssh-rsa", alone[1]], 1), ("no user", [folder, "", *alone], 1),
        ("the folder itself", [folder, ".", *alone], 1), ("the folder above", [f"{folder}/folder", "..", *alone], 1),
        ("a hidden file", [folder, f".{me}", *alone], 1), ("out of the folder", [f"{folder}/folder", f"../{me}", *alone], 1),
        ("below the folder", [files.maker.folder, f"keys/{me}", *alone], 1), ("no words", [folder, me], 1),
        ("a path and a folder", ["--file", f"{folder}/{me}", folder, me, *alone], 1),
    ):  # fmt: skip
        found = files.printed(*words)
        # of another user's file the lines that are no entries are none
        count.check(f"authorized_keys {name}: {case} is status {status}", found == (status, ""), found)


# ---- which line decides


def check_first_lines(count, files):
    """sshd takes the first line that lets a key in: one that binds the key, which the library does not read, and then one that does
    not. Where sshd runs the program, the same line decides as where it reads the file itself."""
    maker, me = files.maker, files.me
    key, others = files.fields("alone").encode(), [files.fields(it).encode() for it in ("plain", "rsa", "ecdsa")]
    kind, base64_text = key.split(b" ")
    short = string(b"ED25519") + string(take(take(blob_of(key.decode()))[1])[0])
    bound = b'restrict,command="echo BOUND" '
    free = b"\n" + key + b"\n"
    device = files.agents["device"]
    zero_ended = device.key.line(device.key.application + b"\0").encode()
    texts = {
        "nothing odd": bound + key + free, "more than 64 options": b"no-pty," * 65 + bound + key + free,
        "a zero byte in its comment": bound + key + b" x\0y" + free, "a Latin-1 comment": bound + key + b" caf\xe9" + free,
        "a Latin-1 byte in its command": b'restrict,command="echo BOUND #\xe9" ' + key + free,
        "a CR within Base64": bound + kind + b" " + base64_text[:20] + b"\r" + base64_text[20:] + b" x" + free,
        "two CR at its end": bound + key + b"\r\r" + free,
        "a form feed in its Base64": bound + kind + b" " + base64_text[:20] + b"\f" + base64_text[20:] + free,
        "a short name in its key": bound + b"ssh-ed25519 " + base64.b64encode(short) + free,
        "restrict twice": b"restrict," + bound + key + free,
        "other keys and a comment before": others[1] + b"\n" + others[2] + b" caf\xe9\n# x\n" + bound + key + free,
        "junk before": b'hello world\nssh-rsa AAAA\n"open\n' + bound + key + free,
        "a zero byte at the end of its application": bound + zero_ended + b"\n" + device.key.line().encode() + b"\n",
        "not listed": others[0] + b"\n",
    }  # fmt: skip
    for at, text in enumerate(texts.values()):
        os.makedirs(maker.path(f"first{at}/keys"))
        with open(maker.path(f"first{at}/keys/{me}"), "wb") as file:
            file.write(text)
        files.configure(f"-first{at}", maker.path(f"first{at}"))
    offered = [("device", device.path) if "application" in it else ("alone", "none") for it in texts]
    asked = [(f"{way}-first{at}", me, *it, "echo FREE") for at, it in enumerate(offered) for way in ("reading", "asking")]
    with ThreadPoolExecutor(len(os.sched_getaffinity(0))) as pool:
        found = list(pool.map(lambda it: login(maker, *it), asked))
    for case, reads, asks in zip(texts, found[::2], found[1::2]):
        count.check(f"the first line has {case}, as sshd alone says: {reads[1].strip() or 'refused'}", reads == asks, reads, asks)
    # a later sshd may read fewer of them, and the second line then counts for both
    said = [it for _, it in found[1::2]]
    count.check("most of the first lines bind the login", said.count("BOUND\n") > 8 and said[0] == "BOUND\n" and not said[-1], said)


# ---- who is let in


def check_offers(count, files):
    """Who is let in: as sshd says where it reads the files."""
    offers = list(files.offers())
    asked = [(way, user, key) for key, user in offers for way in ("reading", "asking")]
    with ThreadPoolExecutor(len(os.sched_getaffinity(0))) as pool:
        found = list(pool.map(lambda it: files.openssh_accepts_key(*it), asked))
    for (key, user), reads, asks in zip(offers, found[::2], found[1::2]):
        count.check(f"login of {user} by {key}, as sshd alone says: {'yes' if reads else 'no'}", reads == asks, reads, asks)
    # a certificate that lists nobody is for everybody in some versions of sshd, and for nobody in others
    let_in = {key for (key, user), asks in zip(offers, found[1::2]) if asks and user == files.me} - {"for-nobody"}
    count.check(f"{len(LET_IN)} of {len(offers)} log the user in", let_in == LET_IN, let_in ^ LET_IN)


def check_key_logins(count, built, folder, maker_in, helper):
    """maker_in gives what makes keys and certificates in a folder; helper is the user as whom sshd runs the program."""
    if not os.path.exists(SSHD):
        count.check(f"{SSHD} (Debian: openssh-server)", False)
        return
    for name, out in (("plain", built.plain), ("with sanitizers", built.sanitized)):
        room = f"{folder}/keys-{os.path.basename(out)}"
        os.mkdir(room)
        files = Files(maker_in(room), f"{out}/sshkey-authorized-keys", getpass.getuser(), helper)
        check_printed(count, name, files)
        check_statuses(count, name, files)
        if out == built.plain:
            check_offers(count, files)
            check_first_lines(count, files)
        files.unplug()
