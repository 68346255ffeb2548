"""sshkey-check in the words of `ssh-keygen -Y`, for checks/foreign: what it prints against ssh-keygen, and what git says of commits and
tags by each of both as its gpg.ssh.program."""
import os
import time

from lib.signatures import armoured

from .example_calls import INVALID, UNTOLD, VALID
from .linked import run, turned
from .made import END, FIRST, MIDDLE

# which lines of allowed signers are asked, at the middle of January 2024: it prints what ssh-keygen does
SIGNERS = [
    ("a name", "alice {key}"), ("several", "alice,*@example.org,bob {key} a comment"), ("others before it", "carol {other}\n# x\n\nalice {key}"),
    ("quotes", '"alice bob,carol" {key}'), ("tabs", "alice\t{key}"), ("the namespace", 'alice namespaces="git,file" {key}'),
    ("a time", 'alice valid-after="20240101Z",valid-before="20240201Z" {key}'), ("a time that is over", 'alice valid-before="20240101Z" {key}'),
    ("a time to come", 'alice valid-after="20240201Z" {key}'), ("an authority", "alice cert-authority {key}"), ("nobody", "alice {other}"),
    ("no line", "# nothing"), ("a pattern that leaves somebody out", "*,!bob {key}"), ("bytes beyond ASCII", "größe,鍵 {key}"),
]  # fmt: skip


def of(program, *words, text="", zone="UTC"):
    return run([program, *words], input=text, env={**os.environ, "TZ": zone})


def check_words(count, programs, maker):
    """Each word answers as ssh-keygen's, but for the status of what is refused."""
    path = maker.write("git.sig", armoured(maker.signature("signing", "a text", "git")))
    date = f"verify-time={time.strftime('%Y%m%d%H%M%S', time.gmtime(MIDDLE))}"
    keys = {it: maker.read(f"{name}.pub") for it, name in (("key", "signing"), ("other", "signing-other"))}
    for name, lines in SIGNERS:
        signers = maker.write("allowed", lines.format(**keys) + "\n")
        words = ["-Y", "find-principals", "-f", signers, "-s", path, "-O" + date]
        found = of("ssh-keygen", *words).stdout
        who = (found.splitlines() or ["alice"])[0]
        verified = ["-Y", "verify", "-n", "git", "-f", signers, "-I", who, "-s", path, "-O" + date]
        for program in programs:
            ran = of(program, *words)
            same = (ran.stdout, ran.returncode, bool(ran.stderr)) == (found, VALID if found else INVALID, not found)
            count.check(f"sshkey-check -Y find-principals by {name}", same, ran, found)
            for text in ("a text", "another"):
                judged, ran = of("ssh-keygen", *verified, text=text), of(program, *verified, text=text)
                same = (ran.stdout, ran.returncode) == (judged.stdout, VALID if judged.returncode == 0 else INVALID)
                count.check(f"sshkey-check -Y verify by {name}, of {text}", same, ran, judged)
    for text, space in (("a text", "git"), ("another", "git"), ("a text", "file")):
        words = ["-Y", "check-novalidate", "-n", space, "-s", path]
        judged = of("ssh-keygen", *words, text=text)
        for program in programs:
            ran = of(program, *words, text=text)
            same = (ran.stdout, ran.returncode) == (judged.stdout, VALID if judged.returncode == 0 else INVALID)
            count.check(f"sshkey-check -Y check-novalidate of {text} in {space}", same, ran, judged)


def check_namespaces(count, programs, maker):
    """A line for another namespace names nobody, where ssh-keygen names somebody whom it then refuses."""
    path = maker.write("git.sig", armoured(maker.signature("signing", "a text", "git")))
    signers = maker.write("allowed", f'alice namespaces="file" {maker.read("signing.pub")}\n')
    for program in programs:
        ran = of(program, "-Y", "find-principals", "-f", signers, "-s", path)
        count.check("sshkey-check -Y find-principals in another namespace", (ran.returncode, ran.stdout) == (INVALID, ""), ran)


def check_zones(count, program, maker):
    """A time without Z is the machine's, as git writes it; one that its clocks show twice, or never, is refused."""
    path = maker.write("git.sig", armoured(maker.signature("signing", "a text", "git")))
    signers = maker.write("allowed", f'alice valid-after="20240101Z",valid-before="20240201Z" {maker.read("signing.pub")}\n')
    words = ["-Y", "find-principals", "-f", signers, "-s", path, "-O"]
    for zone, date, status in (
        ("Europe/Berlin", "20240101005959", INVALID), ("Europe/Berlin", "20240101010000", VALID), ("Europe/Berlin", "20240201010000", VALID),
        ("Europe/Berlin", "20240201010001", INVALID), ("America/New_York", "20231231185959", INVALID), ("America/New_York", "20231231190000", VALID),
        ("UTC", "20240101", VALID), ("UTC", "202401010000", VALID), ("Europe/Berlin", "20240101000000Z", VALID), ("UTC", str(FIRST), VALID),
        ("UTC", str(END + 1), INVALID), ("Europe/Berlin", "20241027023000", UNTOLD), ("Europe/Berlin", "20240331023000", UNTOLD),
        ("Europe/Berlin", "20240731023000", INVALID), ("UTC", "20240231", UNTOLD), ("UTC", "soon", UNTOLD), ("UTC", "", UNTOLD),
    ):  # fmt: skip
        ran = of(program, *words, f"verify-time={date}", zone=zone)
        count.check(f"sshkey-check -O verify-time={date} in {zone}", ran.returncode == status and ran.stderr.count("\n") == (status != VALID), ran)
    for option in ("print-pubkey", "verify-time", "hashalg=sha256"):
        count.check(f"sshkey-check -O {option} is refused", of(program, *words, option).returncode == UNTOLD)


def check_hostile(count, program, maker):
    """Armours of bytes that are no signature print nobody, and what is turned is no good one."""
    signature = maker.signature("signing", "a text", "git")
    signers, wrong = maker.write("allowed", f"* {maker.read('signing.pub')}\n"), []
    # after the version, which nobody signs
    for data in (*(signature[:at] for at in range(len(signature))), *turned(signature)[10::3]):
        path = maker.write("git.sig", armoured(data))
        # who may have signed is told before anything is verified
        for words, said in (["find-principals", "-f", signers], "*\n"), (["check-novalidate", "-n", "git"], "Could not verify signature.\n"):
            ran = of(program, "-Y", *words, "-s", path, text="a text")
            is_sound = ran.returncode in (INVALID, UNTOLD) and ran.stdout in ("", said) and ran.stderr.startswith("sshkey-check: ")
            is_named = words[0] == "find-principals" and len(data) == len(signature) and ran.stdout == said and not ran.stderr
            wrong += [] if is_sound or is_named else [(data, words, ran)]
    count.check("sshkey-check -Y of signatures that are cut or turned", not wrong, *wrong[:2])


# ---- git itself


class Repository:
    """A repository of git with commits that keys signed, in a folder of its own."""

    def __init__(self, maker):
        self.maker, self.path = maker, maker.path("repository")
        self.git("init", "-q", self.path, at=maker.folder)
        for name, value in (
            ("user.name", "A"), ("user.email", "a@example.org"), ("gpg.format", "ssh"), ("gpg.ssh.allowedSignersFile", maker.path("allowed")),
        ):  # fmt: skip
            self.git("config", name, value)

    def git(self, *words, at=None, **how):
        env = {**os.environ, "GIT_CONFIG_GLOBAL": "/dev/null", "GIT_CONFIG_SYSTEM": "/dev/null", "TZ": "Europe/Berlin"}
        return run(["git", "-C", at or self.path, *words], **{"env": env, **how})

    def commit(self, name, key=None, date=None):
        """A commit of that message, signed by the key, with a tag of the same name."""
        how = {"env": {**os.environ, "GIT_COMMITTER_DATE": f"{date} +0000"}} if date else {}
        words = ["-c", f"user.signingkey={self.maker.path(f'{key}.pub')}"] if key else []
        self.git(*words, "commit", "-q", "--allow-empty", *(["-S"] if key else []), "-m", name, **how)
        self.git(*words, "tag", "-m", name, *(["-s"] if key else []), name, **how)

    def forge(self, name):
        """The same commit with another message, under the same signature."""
        raw = self.git("cat-file", "commit", "HEAD").stdout.replace("\n\n", "\n\nnot ")
        made = self.git("hash-object", "-t", "commit", "-w", "--stdin", input=raw).stdout.strip()
        self.git("tag", name, made)

    def said(self, program, name, *words):
        """What git says of a commit by that program, whether it takes it, and whether it takes the tag."""
        git = ["-c", f"gpg.ssh.program={program}", *words]
        shown = self.git(*git, "log", "-1", "--format=%G? %GS %GK %GT", f"{name}^0").stdout
        return shown, self.git(*git, "verify-commit", f"{name}^0").returncode, self.git(*git, "verify-tag", name).returncode


def check_commits(count, programs, maker):
    """git says of each commit and tag what it says by ssh-keygen, also by names, times and revoked keys."""
    at = Repository(maker)
    for name, key, date in (
        ("known", "signing", None), ("rsa", "signing-rsa", None), ("unknown", "signing-other", None), ("unsigned", None, None),
        ("within", "signing-ecdsa", MIDDLE), ("over", "signing-ecdsa", END + 86400), ("revoked", "signing-revoked", None),
    ):  # fmt: skip
        at.commit(name, key, date)
        if name == "known":
            at.forge("forged")
    lines = [
        "alice@example.org,b {signing}", '"*@example.org" namespaces="git" {signing-rsa}', "carol valid-before=\"20240201Z\" {signing-ecdsa}",
        "dave {signing-revoked}",
    ]  # fmt: skip
    names = ("signing", "signing-rsa", "signing-ecdsa", "signing-revoked")
    maker.write("allowed", "".join(f"{it.format(**{name: maker.read(f'{name}.pub') for name in names})}\n" for it in lines))
    revoked = ["-c", f"gpg.ssh.revocationFile={maker.path('signing-revoked.pub')}"]
    for name, letter in (
        ("known", "G"), ("rsa", "G"), ("unknown", "U"), ("unsigned", "N"), ("within", "G"), ("over", "U"), ("revoked", "B"), ("forged", "B"),
    ):  # fmt: skip
        judged = at.said("ssh-keygen", name, *revoked)
        count.check(f"git says {letter} of the commit that is {name}", judged[0].startswith(letter), judged)
        for program in programs:
            said = at.said(program, name, *revoked)
            count.check(f"git says the same by sshkey-check of the commit that is {name}", said == judged, said, judged)


def check_git(count, programs, maker):
    for name, kind in (("signing", "ed25519"), ("signing-rsa", "rsa -b 2048"), ("signing-ecdsa", "ecdsa -b 256"), ("signing-revoked", "ed25519"), ("signing-other", "ed25519")):
        maker.key(name, kind)
    check_words(count, programs, maker)
    check_namespaces(count, programs, maker)
    check_zones(count, programs[0], maker)
    check_hostile(count, programs[1], maker)
    check_commits(count, programs, maker)
