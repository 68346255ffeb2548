"""`sshkey-check revoked` and helpers/sshkey-revoked, for checks/foreign: which files of what is revoked can be read, as `ssh-keygen -Q`
reads them, how sshkey-check names those that can't, and what is fetched and put in place of a file."""
import json
import os
import stat

from lib.harness import ROOT, ssh_keygen
from lib.signatures import armoured

from .example_calls import UNTOLD, VALID
from .linked import run
from .made import MIDDLE, WINDOW

UNREAD = "the revocation file can't be read (58)"


def made_files(maker):
    """Names and paths of files, and what follows the path where one can't be read: the number of its first such line, or nothing of a
    list. None where it can."""
    line = maker.read("revoked.pub")
    key = maker.write("revoked-text", f"# x\n{line}\n")
    ssh_keygen("-q", "-k", "-f", maker.path("revoked-krl"), key)
    with open(maker.path("revoked-krl"), "rb") as file:
        krl = file.read()
    with open(maker.path("revoked-cut"), "wb") as file:
        file.write(krl[:-9])
    texts = {
        "a line that is no key": ("ssh-ed25519 AAAA\n", 1), "a last line that is no key": (f"{line}\n\n \t#\n{line}\nx", 5),
        "two lines that are none": (f"#\n{line}\n{line[:40]}\n{line}\nx\n", 3), "a line of a carriage return": (f"{line}\r\n\r\n{line}\n", 2),
        "a text whose first line is a list's": (f"SSHKRL\n{line}\n", 1), "a zero byte": (f"\n{line}\n\0\n", 3),
    }  # fmt: skip
    return [
        ("a list", maker.path("revoked-krl"), None), ("a text of keys", key, None), ("no bytes", maker.write("revoked-none", ""), None),
        ("a list that is cut", maker.path("revoked-cut"), ""), ("a private key", maker.path("revoked"), ":1"),
        *((name, maker.write(f"revoked-{name.replace(' ', '-')}", text), f":{number}") for name, (text, number) in texts.items()),
    ]  # fmt: skip


def check_read(count, programs, files, maker):
    for name, path, place in files:
        # which reads no text
        if "-krl" in path or "-cut" in path:
            judged = run(["ssh-keygen", "-Q", "-f", path, maker.path("other-revoked.pub")])
            count.check(f"ssh-keygen: {name}", (judged.returncode == 0) == (place is None), judged)
        for program in programs:
            ran = run([program, "revoked", path])
            wanted = (VALID, "valid\n", "") if place is None else (UNTOLD, "", f"sshkey-check: {path}{place}: {UNREAD}\n")
            count.check(f"sshkey-check revoked of {name}", (ran.returncode, ran.stdout, ran.stderr) == wanted, ran)
    (_, one, _), (_, other, _), *_, (_, bad, _) = files
    ran = run([programs[0], "revoked", "--json", one, bad, other])
    found = [(it["file"], it["verdict"], it["status"]) for it in map(json.loads, ran.stdout.splitlines())]
    count.check("sshkey-check revoked --json", (ran.returncode, found) == (UNTOLD, [(one, "valid", 0), (other, "valid", 0)]), ran)
    ran = run([programs[0], "revoked", maker.path("none")])
    count.check("sshkey-check revoked of a missing file", (ran.returncode, ran.stdout) == (UNTOLD, ""), ran)


def check_named(count, programs, files, maker):
    """Whatever is asked, the first file that can't be read is named, and what is asked about is none."""
    maker.certificate("other-revoked", "asking", "-n", "alice", *WINDOW)
    key, certificate, authority = (maker.path(it) for it in ("asking.pub", "asking-cert.pub", "other-revoked.pub"))
    fronts = {"keys": "", "hosts": "h ", "signers": "alice "}
    lines = {name: maker.write(f"asking-{name}", f"{front}{maker.read('asking.pub')}\n") for name, front in fronts.items()}
    signature = maker.write("asking.sig", armoured(maker.signature("asking", "a text")))
    by, at = ["-f", lines["signers"], "-I", "alice", "-n", "file", "-s", signature], ["--at", str(MIDDLE)]
    questions = [
        ("a certificate", ["--ca", authority, "--user", "alice", *at, certificate]), ("a host's key", ["--host", "h", "--known-hosts", lines["hosts"], key]),
        ("a login", ["login", "alice", key, "--authorized-keys", lines["keys"]]), ("a signature", ["verify", *by]), ("ssh-keygen's words", ["-Y", "verify", *by]),
    ]  # fmt: skip
    (_, listed, _), (_, text, _), (_, none, _), *unread = files
    cases = [(name, [path], path, place) for name, path, place in unread]
    cases += [(f"{name}, after three that can", [listed, none, text, path], path, place) for name, path, place in unread[:3]]
    cases += [("two that can't be read", [listed, unread[2][1], unread[0][1]], unread[2][1], unread[2][2]), ("three that can", [none, listed, text], None, None)]
    for question, words in questions:
        option = "-r" if "-Y" in words else "--revoked"
        for name, paths, path, place in cases:
            for program in programs:
                ran = run([program, *words, *(it for path in paths for it in (option, path))], input="a text")
                wanted = (VALID, "") if path is None else (UNTOLD, f"sshkey-check: {path}{place}: {UNREAD}\n")
                same = (ran.returncode, ran.stderr) == wanted and bool(ran.stdout) == (path is None)
                count.check(f"sshkey-check of {question} by {name}", same, ran)
        missing = maker.path("none")
        ran = run([programs[0], *words, option, listed, option, missing], input="a text")
        same = (ran.returncode, ran.stdout, ran.stderr) == (UNTOLD, "", f"sshkey-check: {missing}: No such file or directory\n")
        count.check(f"sshkey-check of {question} by a missing file", same, ran)


def check_fetched(count, programs, maker):
    """A list that can be read takes the place of the old one, and anything else leaves it as it was, and nothing beside it."""
    for name in ("revoked", "other-revoked", "asking"):
        maker.key(name, "ed25519")
    files = made_files(maker)
    check_read(count, programs, files, maker)
    check_named(count, programs, files, maker)
    folder = maker.path("fetched")
    os.mkdir(folder)
    env, target = {**os.environ, "PATH": f"{os.path.dirname(programs[0])}:{os.environ['PATH']}"}, f"{folder}/revoked"
    cases = [(name, f"file://{path}", path if place is None and name != "no bytes" else None) for name, path, place in files]
    cases += [("a missing file", f"file://{folder}/none", None), ("a list over HTTP", "http://localhost/revoked", None), ("no URL", "", None)]
    for name, url, wanted in cases:
        with open(target, "w", encoding="ascii") as file:
            file.write("old")
        before = os.stat(target).st_ino
        ran = run([f"{ROOT}/helpers/sshkey-revoked", url, target], env=env)
        with open(target, "rb") as file:
            found = file.read()
        if wanted:
            with open(wanted, "rb") as file:
                same = ran.returncode == 0 and found == file.read() and before != os.stat(target).st_ino
            same = same and stat.S_IMODE(os.stat(target).st_mode) == 0o644 and ran.stderr == ""
        else:
            same = ran.returncode == 1 and found == b"old" and "sshkey-revoked: " in ran.stderr
        count.check(f"sshkey-revoked of {name}", same and os.listdir(folder) == ["revoked"] and ran.stdout == "", ran, os.listdir(folder))
    for words in ([], [target], ["a", "b", "c"]):
        ran = run([f"{ROOT}/helpers/sshkey-revoked", *words], env=env)
        count.check(f"sshkey-revoked of {len(words)} words is no call", ran.returncode == 1 and "usage: sshkey-revoked URL FILE" in ran.stderr, ran)
