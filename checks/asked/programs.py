"""How examples/check.py has to end, and a program in another language that is written so, over the binding of its language to the
library for C: with these statuses.

    check_program(count, Program("Go", ["/somewhere/check"]), made)          # made: asked/made.py

The program is called as check.py is:

    certificates AUTHORITIES PRINCIPAL|- [SECOND] <LINES
    signature SIGNERS NAMESPACE FILE <FILE.sig

What it says of certificates and signatures asked/calls.py asks of the binding itself, call by call.
"""
import os
from dataclasses import dataclass

from lib.signatures import armoured

from .example_calls import SPACE, UNTOLD, VALID, armour_cases, certificate_cases
from .host_rows import LATER
from .linked import run
from .verdicts import said


@dataclass(frozen=True)
class Program:
    """A program to be judged: the language by which its cases are named, the words that run it, and what stands in front of its
    lines on standard error."""

    language: str
    words: list
    says: str = "check: "

    def run(self, *words, **how):
        return run([*self.words, *words], **how)


def is_untold(program, ran):
    """Whether it ended with 2 and one line that says why."""
    told = ran.stderr.startswith(program.says) and ran.stderr.count("\n") == 1
    return ran.returncode == UNTOLD and told and not ran.stdout


def is_as_wanted(program, ran, wanted):
    """Whether it has that status, and standard error is as the status wants it."""
    if wanted == UNTOLD:
        return is_untold(program, ran)
    return ran.returncode == wanted and not ran.stderr and bool(ran.stdout)


# ---- certificates


def check_statuses(count, program, made):
    """The status where all is valid, where one line is not, and where the program can't tell."""
    kind = made.kinds[0]
    for name, authorities, second, given, wanted in certificate_cases(made.maker, kind, made.middle):
        ran = program.run("certificates", authorities, "alice", second, input=given)
        count.check(f"{program.language}: {name}", is_as_wanted(program, ran, wanted), ran.returncode, ran.stdout, ran.stderr[-500:])
    two = made.maker.write("two", f"# keys\n\n \t{made.maker.read(f'{made.kinds[1].authority}.pub')}\n{made.maker.read(f'{kind.authority}.pub')}")
    given = f"{kind.line}\n{made.kinds[1].line}\n{made.kinds[2].line}\n"
    ran = program.run("certificates", two, "alice", str(made.middle), input=given)
    wanted = ["valid", "valid", said(made.rafendilo, made.rafendilo.Status.UNTRUSTED_AUTHORITY)]
    count.check(f"{program.language}: two authorities in a file", ran.stdout.splitlines() == wanted, ran.stdout, ran.stderr)
    later = made.maker.write("later", f"{LATER['later']}\n{made.maker.read(f'{kind.authority}.pub')}\n")
    ran = program.run("certificates", later, "alice", str(made.middle), input=f"{kind.line}\n")
    said_so = ran.stderr.startswith(f"{program.says}{later}:1: a later kind of key") and ran.stderr.count("\n") == 1
    same = (ran.returncode, ran.stdout) == (VALID, "valid\n") and said_so
    count.check(f"{program.language}: a line of a later kind of key is passed over", same, ran)
    ran = program.run("certificates", kind.path, "-", input=f"{kind.line}\n")
    wanted = said(made.rafendilo, made.rafendilo.Status.OUT_OF_WINDOW)
    count.check(f"{program.language}: without a second it is now", ran.stdout == f"{wanted}\n", ran.stdout, ran.stderr)


def check_words(count, program, made):
    """What is no command."""
    good = made.kinds[0].path
    for words in (
        [], ["certificates"], ["certificates", good], ["certificates", good, "alice", "1", "2"], ["signature", good, "file"],
        ["signature", good, "file", good, good], ["other", good, "file", good], ["--help"],
    ):  # fmt: skip
        ran = program.run(*words, input="")
        same = ran.returncode == UNTOLD and ran.stderr and not ran.stdout
        shown = " ".join(os.path.basename(it) for it in words)
        count.check(f"{program.language}: the words {shown!r} are no command", same, ran.returncode, ran.stdout, ran.stderr[-500:])


# ---- SSH signatures


def check_armour(count, program, made):
    """The program reads an armour where `ssh-keygen -Y verify` does (asked/example_calls.py)."""
    signed, path = made.maker.write("armour.txt", "a text"), made.maker.path("user0.pub")
    good, strange = (armoured(made.maker.signature("user0", it, SPACE)) for it in ("a text", "another text"))
    for case, text, wanted in armour_cases(good, strange):
        ran = program.run("signature", path, SPACE, signed, input=text)
        count.check(f"{program.language}, an armour: {case}", is_as_wanted(program, ran, wanted), ran)
    for case, words in (
        ("no such file", [path, SPACE, made.maker.path("none")]), ("a folder", [path, SPACE, made.folder]),
        ("no such signers", [made.maker.path("none"), SPACE, signed]), ("a folder of signers", [made.folder, SPACE, signed]),
    ):  # fmt: skip
        ran = program.run("signature", *words, input=good)
        count.check(f"{program.language}, a signature: {case}", is_untold(program, ran), ran)
    ran = run([*program.words, "signature", path, SPACE, signed], input=b"\xff" + good.encode(), text=False)
    count.check(f"{program.language}, an armour that is no text", ran.returncode == UNTOLD and not ran.stdout, ran)


# ---- streams


def check_streams(count, program, made):
    """Where input or output is closed, or nothing can be written, the program can't tell."""
    kind = made.kinds[0]
    certificates = ["certificates", kind.path, "alice", str(made.middle)]
    signature = ["signature", made.maker.path("user0.pub"), "file", made.maker.write("asked", "text")]
    given = {"certificates": f"{kind.line}\n", "signature": armoured(made.maker.signature("user0", "text"))}
    for words in (certificates, signature):
        name, text = f"{program.language}, {words[0]}", given[words[0]]
        ran = program.run(*words, input=text)
        count.check(f"{name}: all is open", (ran.returncode, ran.stdout, ran.stderr) == (VALID, "valid\n", ""), ran)
        for case, closing in (("input", "<&-"), ("output", ">&-"), ("input and output", "<&- >&-")):
            ran = run(["/bin/sh", "-c", f'exec "$@" {closing}', "sh", *program.words, *words], input=text)
            count.check(f"{name}: standard {case} is closed", is_untold(program, ran), ran)
        ran = run(["/bin/sh", "-c", 'exec "$@" 2>&-', "sh", *program.words, *words], input=text)
        count.check(f"{name}: standard error is closed", (ran.returncode, ran.stdout) == (VALID, "valid\n"), ran)
        ran = run(["/bin/sh", "-c", 'exec "$@" <&- >&- 2>&-', "sh", *program.words, *words], input=text)
        count.check(f"{name}: all are closed", ran.returncode == UNTOLD, ran)
        with open("/dev/full", "wb") as full:
            ran = program.run(*words, input=text, capture_output=False, stdout=full, stderr=-1)
        count.check(f"{name}: nothing is written", ran.returncode == UNTOLD and ran.stderr, ran)
        # Python itself ends where its input is a folder
        if program.language != "check.py":
            folder = os.open(made.folder, os.O_RDONLY)
            ran = program.run(*words, stdin=folder)
            os.close(folder)
            count.check(f"{name}: a folder on standard input", is_untold(program, ran), ran)


def check_program(count, program, made):
    check_statuses(count, program, made)
    check_words(count, program, made)
    check_armour(count, program, made)
    check_streams(count, program, made)


def check_program_without_memory(count, program, made):
    """A program that is linked with a library that is refused memory at each call can't tell."""
    kind = made.kinds[0]
    text = armoured(made.maker.signature("user0", "text"))
    empty = made.maker.write("empty", "")
    for name, words, given in (
        ("a certificate", ["certificates", kind.path, "alice", "7"], f"{kind.line}\n"),
        ("a certificate, and no authority", ["certificates", empty, "alice", "7"], f"{kind.line}\n"),
        ("a signature", ["signature", kind.path, "file", kind.path], text),
        ("a signature, and no signer", ["signature", empty, "file", kind.path], text),
    ):  # fmt: skip
        ran = program.run(*words, input=given)
        count.check(f"{program.language}: without memory, {name}", is_untold(program, ran), ran)
