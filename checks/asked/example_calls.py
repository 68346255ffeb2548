"""What the example programs do where they can't tell, for checks/foreign: files that can't be read or have no key, times that are
none, and what is not written. Whoever asks a program by its status has to hear of it."""
import os
import shutil
import string
import sys

from lib.harness import openssh
from lib.signatures import armoured

from .answers import WITHOUT_WORDS
from .host_rows import LATER
from .linked import ABI, BINDINGS, EXAMPLES, enumerations, run
from .revocation_calls import EMPTY, made_list
from .stubs import OTHER_ABI, check_other_abi, stub_library
from .verdicts import LET_IN

# what is said of a line of a later kind of key
PASSED_OVER = "a later kind of key, which is not read"
# the status that a program has promised
VALID, INVALID, UNTOLD = 0, 1, 2
SECONDS = [
    ("abc", UNTOLD), ("", UNTOLD), ("-1", UNTOLD), ("+1", UNTOLD), (" 1", UNTOLD), ("1 ", UNTOLD), ("1x", UNTOLD), ("0x1", UNTOLD),
    ("1_0", UNTOLD), ("18446744073709551616", UNTOLD), ("18446744073709551615", INVALID), ("0", INVALID),
]  # fmt: skip
# dates as ssh-keygen takes them, of a certificate for January 2024: without a zone they are none
DATES = [
    ("20240116Z", VALID), ("202401161200utc", VALID), ("20240116120000z", VALID), ("20231231235959Z", INVALID), ("20240101Z", VALID),
    ("20240131235959UTC", VALID), ("20240201Z", INVALID), ("20240116", UNTOLD), ("202401161200", UNTOLD), ("20240116120000", UNTOLD),
    ("99999999", UNTOLD), ("20241301Z", UNTOLD), ("20240116GMT", UNTOLD), ("2024011612Z", UNTOLD), ("999999999999", UNTOLD),
    ("2024-01-16", UNTOLD), ("Z", UNTOLD),
]  # fmt: skip


def python(built, name):
    """The words that run an example in Python over the library."""
    return ["/usr/bin/env", f"RAFENDILO_LIBRARY={built.plain}/librafendilo.so", sys.executable, os.path.join(EXAMPLES, name)]


def certificate_cases(maker, kind, middle):
    """Names, files of authorities, seconds, what is given of the certificate of that kind, and the status."""
    good, line = kind.path, f"{kind.line}\n"
    empty, wrong = maker.write("empty", ""), maker.write("wrong", f"\n# a comment\n{maker.read('user0.pub')}\nssh-ed25519 AAAA\n")
    yield from ((f"the second {word!r}", good, word, line, status) for word, status in SECONDS)
    yield from [
        ("all is valid", good, str(middle), line, VALID), ("two lines", good, str(middle), line * 2, VALID),
        ("no line", good, str(middle), "", UNTOLD), ("one line of two", good, str(middle), line + "ssh-ed25519 AAAA\n", INVALID),
        ("no line end", good, str(middle), kind.line, VALID), ("no authority", empty, str(middle), line, INVALID),
        ("a folder of authorities", maker.folder, str(middle), line, UNTOLD),
        ("no such file", maker.path("none"), str(middle), line, UNTOLD), ("a line that is no key", wrong, str(middle), line, UNTOLD),
    ]  # fmt: skip


def revoked_words(maker, files):
    """The words that name files of that content; None for one that is not there."""
    words = []
    for number, data in enumerate(files):
        path = maker.path("none" if data is None else f"revocations{number}")
        if data is not None:
            with open(path, "wb") as file:
                file.write(data)
        words += ["--revoked", path]
    return words


def check_certificates(count, built, maker, kind, middle):
    """sshkey-check has the status 2 where it can't tell."""
    good, line, wrong = kind.path, f"{kind.line}\n", maker.path("wrong")
    cases = [*certificate_cases(maker, kind, middle), *((f"the date {word!r}", good, word, line, status) for word, status in DATES)]
    programs = {"sshkey-check": built.plain, "sshkey-check with sanitizers": built.sanitized}
    folder = os.open(maker.folder, os.O_RDONLY)
    for program, out in programs.items():
        words = [f"{out}/sshkey-check", "--user", "alice", "--ca"]
        for name, authorities, second, given, wanted in cases:
            ran = run([*words, authorities, "--at", second], input=given)
            # of an empty file it says that, too
            lines = (wanted != VALID) + (not os.path.isdir(authorities) and os.path.exists(authorities) and not os.path.getsize(authorities))
            told = ran.stderr.count("\n") == lines and bool(ran.stdout) == (wanted != UNTOLD)
            count.check(f"{program}: {name}", ran.returncode == wanted and told, ran.returncode, ran.stdout, ran.stderr[-500:])
        with open("/dev/full", "wb") as full:
            ran = run([*words, good, "--at", str(middle)], input=line, capture_output=False, stdout=full, stderr=-1)
        count.check(f"{program}: nothing is written", ran.returncode == UNTOLD and ran.stderr, ran.returncode, ran.stderr)
        ran = run([*words, good, "--at", str(middle)], stdin=folder)
        count.check(f"{program}: a folder on standard input", ran.returncode == UNTOLD and ran.stderr, ran.returncode, ran.stderr)
        revoked = made_list(maker, None, [kind.line])
        unread, own = maker.read("user0.pub")[:40].encode(), kind.maker.read(f"{kind.authority}.pub").encode()
        for name, files, wanted in (
            ("nothing", [EMPTY], VALID), ("no bytes", [b""], VALID), ("its key", [revoked], INVALID), ("a text of its authority", [own], INVALID),
            ("half a list", [EMPTY[:20]], UNTOLD), ("a text of half a key", [unread], UNTOLD), ("nothing, and no bytes", [EMPTY, b""], VALID),
            ("nothing, and its key", [EMPTY, revoked], INVALID), ("its key, and half a list", [revoked, EMPTY[:20]], UNTOLD),
        ):  # fmt: skip
            ran = run([*words, good, "--at", str(middle), *revoked_words(maker, files)], input=line)
            same = ran.returncode == wanted and ("(56)" in ran.stderr) == (wanted == INVALID) and bool(ran.stdout) == (wanted != UNTOLD)
            count.check(f"{program}: revocation files of {name}", same, ran.returncode, ran.stdout, ran.stderr)
        ran = run([*words, good, "--at", str(middle), "--revoked", maker.path("none")], input=line)
        count.check(f"{program}: no file of revocations", ran.returncode == UNTOLD and ran.stderr and not ran.stdout, ran.stdout)
    os.close(folder)
    ran = run([f"{built.plain}/sshkey-check", "--ca", wrong, "--user", "alice"], input=line)
    count.check("sshkey-check names the line that is no key", f"{wrong}:4: no key" in ran.stderr, ran.stderr)
    later = maker.write("later", f"{LATER['later']} a comment\n{maker.read(f'{kind.authority}.pub')}\n")
    ran = run([f"{built.sanitized}/sshkey-check", "--ca", later, "--user", "alice", "--at", str(middle)], input=line)
    said = (ran.returncode, ran.stdout.partition("\n")[0], ran.stderr)
    count.check("and passes over a later kind of key", said == (VALID, LET_IN, f"sshkey-check: {later}:1: {PASSED_OVER}\n"), ran)


def check_module(count, built, maker, kind, middle):
    """`python -m rafendilo` has the same statuses, and tells the fingerprint that ssh-keygen shows."""
    words = [*python(built, "")[:2], f"PYTHONPATH={BINDINGS}/python", sys.executable, "-m", "rafendilo"]
    cases = [(*it[:2], "alice", *it[2:]) for it in certificate_cases(maker, kind, middle)]
    cases += [("another user", kind.path, "eve", str(middle), f"{kind.line}\n", INVALID)]
    for name, authorities, user, second, given, wanted in cases:
        ran = run([*words, "check", authorities, user, second], input=given)
        told = bool(ran.stdout) == (wanted != UNTOLD) and bool(ran.stderr) == (wanted == UNTOLD)
        told = told and ({*ran.stdout.splitlines()} == {LET_IN}) == (wanted == VALID)
        count.check(f"python -m rafendilo: {name}", ran.returncode == wanted and told, ran.returncode, ran.stdout, ran.stderr[-500:])
    wanted = run(["ssh-keygen", "-lf", maker.path("user0.pub")]).stdout.split()[1]
    ran = run([*words, "fingerprint"], input=f"{maker.read('user0.pub')}\n")
    count.check("python -m rafendilo tells the fingerprint", (ran.returncode, ran.stdout) == (VALID, f"{wanted}\n"), ran)
    for name, given in (("no command", []), ("no user", ["check", kind.path]), ("an unknown command", ["sign"])):
        ran = run([*words, *given], input="")
        count.check(f"python -m rafendilo with {name}", ran.returncode == UNTOLD and "python -m rafendilo check" in ran.stderr, ran)
    with open("/dev/full", "wb") as full:
        ran = run([*words, "fingerprint"], input=maker.read("user0.pub"), capture_output=False, stdout=full, stderr=-1)
    count.check("python -m rafendilo: nothing is written", ran.returncode == UNTOLD and ran.stderr, ran)


def check_revoked(count, out, maker, programs):
    """With files of revocations the programs print what they print without them, unless one revokes it or can't be read."""
    revoked, other = (made_list(maker, None, [maker.read(f"{it}.pub")]) for it in ("user0", "user1"))
    own, text = (maker.read(f"{it}.pub").encode() for it in ("user0", "user1"))
    for program, words in programs.items():
        plain = run([f"{out}/{program}", *words])
        for name, files, wanted in (
            ("a list of nothing", [EMPTY], VALID), ("an empty file", [b""], VALID), ("a list of another key", [other], VALID),
            ("a text of another key", [text], VALID), ("three files without it", [EMPTY, other, text], VALID), ("a list that revokes it", [revoked], INVALID),
            ("a text of its key", [own], INVALID), ("the last of three revokes it", [EMPTY, text, revoked], INVALID),
            ("the first of two revokes it", [own, EMPTY], INVALID), ("half a list", [EMPTY[:20]], UNTOLD), ("no such file", [None], UNTOLD),
            ("one revokes it, and the other is none", [revoked, EMPTY[:20]], UNTOLD), ("one revokes it, and the other is not there", [revoked, None], UNTOLD),
        ):  # fmt: skip
            ran = run([f"{out}/{program}", *revoked_words(maker, files), *words])
            # what is revoked is a no, and where no file is read the program can't tell
            said = {VALID: (0, plain.stdout), INVALID: (0, ""), UNTOLD: (1, "")}[wanted]
            same = (ran.returncode, ran.stdout) == said and bool(ran.stderr) == (wanted != VALID) and plain.stdout
            count.check(f"{program}, {os.path.basename(out)}: {name}", same, ran.returncode, ran.stdout, ran.stderr)


def check_helpers(count, built, maker, kind):
    """The helpers for sshd end with 1 where they can't tell, and sshkey-principals prints nothing then, nor for a no."""
    key, now = " ".join(maker.read(f"{kind.authority}.pub").split()[:2]), ["-V", "-5m:+5m"]
    offered = maker.certificate(kind.authority, "user0", "-n", "alice", *now).split()[:2]
    good = maker.write("helped", f"# authorities\r\n  bob,alice\t {key} a comment\r\nbob ssh-ed25519 AAAA\n")
    wrong = maker.write("wrong", f"alice {key}\nalice ssh-ed25519 AAAA\n")
    own = maker.write("own", f"{maker.read('user0.pub')}\n")
    for out in (built.plain, built.sanitized):
        name = os.path.basename(out)
        for case, words, wanted in (
            ("the user", [good, "alice", *offered], (0, "alice\n")), ("another user", [good, "eve", *offered], (0, "")),
            ("a user whose line has no key", [good, "bob", *offered], (1, "")), ("no user", [good, "", *offered], (1, "")),
            ("a beginning of a user", [good, "alic", *offered], (0, "")), ("a line that is no key", [wrong, "alice", *offered], (1, "")),
            ("a folder", [maker.folder, "alice", *offered], (1, "")), ("no such file", [maker.path("none"), "alice", *offered], (1, "")),
            ("no certificate", [good, "alice", *maker.read("user0.pub").split()[:2]], (1, "")),
        ):  # fmt: skip
            ran = run([f"{out}/sshkey-principals", "--insecure-modes", *words])
            same = (ran.returncode, ran.stdout) == wanted and bool(ran.stderr) != bool(ran.stdout)
            count.check(f"principals, {name}: {case}", same, ran.returncode, ran.stdout, ran.stderr)
        ran = run([f"{out}/sshkey-principals", "--insecure-modes", wrong, "alice", *offered])
        count.check(f"sshkey-principals, {name}, names the line", f"{wrong}:2: no key" in ran.stderr, ran.stderr)
        later = maker.write("later", f"alice {LATER['later']} x\nbob {LATER['misnamed']}\nalice {key}\n")
        for user, wanted in (("alice", (0, "alice\n", f"sshkey-principals: {later}:1: {PASSED_OVER}\n")), ("bob", (1, "", None))):
            ran = run([f"{out}/sshkey-principals", "--insecure-modes", later, user, *offered])
            same = (ran.returncode, ran.stdout) == wanted[:2] and (wanted[2] is None and "2: no key" in ran.stderr or ran.stderr == wanted[2])
            count.check(f"sshkey-principals, {name}, {user}: a line of a later kind", same, ran)
        check_bits(count, f"{out}/sshkey-principals", maker, kind)
        own_words = ["--file", own, "alice", *maker.read("own").split()[:2]]
        programs = {"sshkey-principals": [good, "alice", *offered], "sshkey-authorized-keys": own_words}
        programs = {program: ["--insecure-modes", *words] for program, words in programs.items()}
        check_revoked(count, out, maker, programs)
        for program, words in programs.items():
            with open("/dev/full", "wb") as full:
                ran = run([f"{out}/{program}", *words], capture_output=False, stdout=full, stderr=-1)
            count.check(f"{program}, {name}: nothing is written", ran.returncode == 1 and ran.stderr, ran.returncode, ran.stderr)


def check_bits(count, program, maker, kind):
    """RequiredRSASize of sshd, which is 1,024 here unless it is given."""
    maker.key("short", "rsa -b 2048")
    offered = maker.certificate(kind.authority, "short", "-n", "alice", "-V", "-5m:+5m").split()[:2]
    good = maker.write("bits", f"alice {maker.read(f'{kind.authority}.pub')}\n")
    for words, wanted in (([], "alice\n"), (["--least-rsa-bits", "2048"], "alice\n"), (["--least-rsa-bits", "2049"], "")):
        ran = run([program, "--insecure-modes", *words, good, "alice", *offered])
        same = (ran.returncode, ran.stdout) == (0, wanted) and ("(59)" in ran.stderr) == (not wanted)
        count.check(f"sshkey-principals, an RSA key of 2,048 bits {words}", same, ran)
    for bits in ("x", "-1", "4294967296", ""):
        ran = run([program, "--least-rsa-bits", bits, good, "alice", *offered])
        count.check(f"sshkey-principals --least-rsa-bits {bits!r} is no call", ran.returncode == 1 and ran.stderr.startswith(f"sshkey-principals: {bits} is no number\nusage: sshkey-principals "), ran)


def check_issuing(count, built, maker):
    """issue.py says in a line what is wrong, and ends with 2."""
    maker.key("rsa-issuer", "rsa -b 2048")
    run(["ssh-keygen", "-q", "-t", "ed25519", "-N", "a passphrase", "-f", maker.path("locked")])
    good, key = maker.path("issuer"), maker.path("holder.pub")
    for case, words in (
        ("an authority of RSA", [maker.path("rsa-issuer"), key, "id", "60"]), ("one with a passphrase", [maker.path("locked"), key, "id", "60"]),
        ("no such authority", [maker.path("none"), key, "id", "60"]), ("a public key as the authority", [key, key, "id", "60"]),
        ("no such key", [good, maker.path("none"), "id", "60"]), ("a private key as the key", [good, good, "id", "60"]),
        ("a folder as the key", [good, maker.folder, "id", "60"]), ("no number of seconds", [good, key, "id", "an hour"]),
        ("an end that is no time", [good, key, "id", str(1 << 64)]),
        ("a certificate as the key", [good, maker.path("user0-cert.pub"), "id", "60"]),
        *((f"the seconds {it!r}", [good, key, "id", it]) for it in ("1_0", "+60", " 60", "60 ", "-60", "", "\u0661", "6e1")),
        *((f"the key id {it!r}", [good, key, it, "60"]) for it in ("a\nb", "a\rb", "a\tb", "\x1b[2J", "a\u2028b", "\udcff")),
    ):  # fmt: skip
        ran = run([*python(built, "issue.py"), *words, "alice"])
        told = ran.stderr.startswith("issue.py: ") and ran.stderr.count("\n") == 1 and not ran.stdout
        count.check(f"issue.py: {case}", ran.returncode == UNTOLD and told, ran.returncode, ran.stdout, ran.stderr)
    ran = run(python(built, "issue.py"))
    count.check("issue.py shows how it is called", ran.returncode == UNTOLD and "issue.py AUTHORITY" in ran.stderr, ran.stderr)


PROGRAMS = {
    "check.py certificates": ["check.py", "certificates", "{issuer}.pub", "alice"],
    "check.py signature": ["check.py", "signature", "{key}", "file", "{key}"],
    "host.py": ["host.py", "h.example", "22", "{key}"], "issue.py": ["issue.py", "{issuer}", "{key}", "id", "60", "alice"],
}  # fmt: skip


def is_untold(ran, script):
    """Whether it ended with 2 and one line that says why."""
    return ran.returncode == UNTOLD and ran.stderr.startswith(f"{script}: ") and ran.stderr.count("\n") == 1 and not ran.stdout


def check_closed(count, built, maker):
    """Where the library can't be loaded, or input or output is closed, the programs in Python can't tell."""
    paths = {"key": maker.path("holder.pub"), "issuer": maker.path("issuer")}
    inputs = {"check.py certificates": maker.read("holder-cert.pub"), "check.py signature": armoured(maker.signature("holder", "x"))}
    inputs["host.py"] = maker.read("holder.pub")
    os.makedirs(maker.path("lacking"), exist_ok=True)
    stub_library(count, maker.path("abi"), lambda call: 77, OTHER_ABI)
    other = maker.path("abi/librafendilo.so")
    check_other_abi(count, "Python", [sys.executable, "-c", "import rafendilo"], env={**os.environ, "RAFENDILO_LIBRARY": other})
    maker.write("lacking/cryptography.py", "raise ImportError('there is no cryptography')\n")
    for name, (script, *words) in PROGRAMS.items():
        words, given = [it.format(**paths) for it in words], inputs.get(name, "")
        _, _, *program = python(built, script)
        for case, library in (("no library", maker.path("none")), ("another library", "libc.so.6"), ("another ABI", other), ("a text for a library", paths["key"])):
            ran = run([*program, *words], input=given, env={**os.environ, "RAFENDILO_LIBRARY": library})
            count.check(f"{name}: {case}", is_untold(ran, script), ran.returncode, ran.stdout, ran.stderr)
        if script != "host.py":
            found_first = {"PYTHONPATH": f"{maker.path('lacking')}:{BINDINGS}/python"}
            ran = run([*python(built, script), *words], input=given, env={**os.environ, **found_first})
            count.check(f"{name}: no package cryptography", is_untold(ran, script), ran.returncode, ran.stdout, ran.stderr)
        # issue.py has no input
        for case, closing in (("input", "<&-"), ("output", ">&-"))[script == "issue.py" :]:
            ran = run(["/bin/sh", "-c", f'exec "$@" {closing}', "sh", *python(built, script), *words], input=given)
            count.check(f"{name}: standard {case} is closed", is_untold(ran, script), ran.returncode, ran.stdout, ran.stderr)


# a namespace in which the Base64 of a signature by an Ed25519 key ends in ==
SPACE = "files"
# line ends that ssh-keygen reads from 9.5 on
CR_LF = "CR LF for line ends"
DIGITS = f"{string.ascii_uppercase}{string.ascii_lowercase}{string.digits}+/"


def armour_cases(good, strange):
    """Names, texts that are made of the armour of a signature, or are that of another text, and the status."""
    ends, (head, *body, tail) = good.rindex("-----END"), good.splitlines()
    at = good.index("==\n") - 1
    yield from [
        ("as it is", good, VALID), ("in one line", f"{head}\n{''.join(body)}\n{tail}\n", VALID), ("of another text", strange, INVALID),
        ("another name", good.replace("SSH SIGNATURE", "PGP THING"), UNTOLD), ("no end", good[:ends], UNTOLD),
        ("another name at its end", good.replace("END SSH", "END PGP"), UNTOLD),
        ("a public key's name", good.replace("SSH SIGNATURE", "SSH PUBLIC KEY"), UNTOLD),
        ("a character that is none of Base64", good[: ends - 9] + "*" + good[ends - 9 :], UNTOLD),
        ("one of another alphabet", good[: ends - 9] + "_" + good[ends - 9 :], UNTOLD),
        ("no armour", "".join(good.splitlines(True)[1:-1]), UNTOLD), ("nothing", "", UNTOLD), ("nothing between", f"{head}\n{tail}\n", UNTOLD), ("a text before", "x" + good, UNTOLD),
        ("a text after", good + "x\n", VALID), ("no line end", good.removesuffix("\n"), VALID),
        ("the end on the line of the Base64", good.replace(f"\n{tail}", tail), UNTOLD), ("a blank after the first line", good.replace(head, f"{head} "), UNTOLD),
        ("an empty line before the end", good.replace(tail, f"\n{tail}"), VALID), ("an empty line after the first", good.replace(head, f"{head}\n"), VALID),
        ("a blank before the end", good.replace(tail, f" {tail}"), UNTOLD), ("CR for line ends", good.replace("\n", "\r"), UNTOLD),
        ("CR for the last line end before the end", good.replace(f"\n{tail}", f"\r{tail}"), UNTOLD), ("CR within", good.replace(f"\n{tail}", f"\r\n{tail}"), VALID),
        ("two CR after the first line", good.replace(head, f"{head}\r\r"), UNTOLD),
        (CR_LF, good.replace("\n", "\r\n"), VALID),
        ("a bit after the last byte", good[:at] + DIGITS[DIGITS.index(good[at]) + 1] + good[at + 1 :], UNTOLD),
        ("no padding", good.replace("==\n", "\n"), UNTOLD), ("half the padding", good.replace("==\n", "=\n"), UNTOLD),
        *((f"a character {it!r} within", good[: ends - 9] + it + good[ends - 9 :], VALID) for it in " \t\v\f\n"),
        *((f"a character {it!r} within", good[: ends - 9] + it + good[ends - 9 :], UNTOLD) for it in "=\x1c\x85\xa0"),
    ]  # fmt: skip


def check_armour(count, maker):
    """`ssh-keygen -Y verify` reads an armour exactly where the programs have to (asked/programs.py)."""
    good, strange = (armoured(maker.signature("holder", it, SPACE)) for it in ("a text", "another text"))
    allowed = maker.write("armour.allowed", f"alice {maker.read('holder.pub')}")
    words = ["ssh-keygen", "-Y", "verify", "-n", SPACE, "-I", "alice", "-f", allowed]
    for case, text, wanted in armour_cases(good, strange):
        judged = run([*words, "-s", maker.write("armour.sig", text)], input="a text")
        is_read = wanted == VALID and (case != CR_LF or openssh() >= (9, 5))
        count.check(f"ssh-keygen, an armour: {case}", (judged.returncode == 0) == is_read, judged)


def check_host_words(count, built, maker):
    """host.py takes a port of digits, and a line whose name is that of its key."""
    line = maker.read("holder.pub")
    blob = line.split()[1]
    known = maker.write("known", f"h.example {line}\n")
    cases = [("the key", "22", f"{line}\n", VALID), ("the key without a comment", "22", f"ssh-ed25519 {blob}\n", VALID)]
    cases += [(f"the port {it!r}", it, f"{line}\n", UNTOLD) for it in ("2_2", "+22", " 22", "22 ", "-1", "", "65536", "ssh", "\u0662\u0662")]
    cases += [
        ("another name", "22", f"ssh-rsa {blob}\n", UNTOLD), ("no name", "22", f"{blob}\n", UNTOLD), ("an empty line", "22", "\n", UNTOLD),
        ("a certificate", "22", maker.read("user0-cert.pub") + "\n", UNTOLD), ("half a key", "22", f"ssh-ed25519 {blob[:40]}\n", UNTOLD),
        ("another host's key", "22", f"x.example {line}\n", UNTOLD), ("the key at another port", "22", f"[h.example]:2222 {line}\n", UNTOLD),
    ]  # fmt: skip
    for case, port, given, wanted in cases:
        ran = run([*python(built, "host.py"), "h.example", port, known], input=given)
        same = is_untold(ran, "host.py") if wanted == UNTOLD else (ran.returncode, ran.stdout, ran.stderr) == (wanted, "trusted\n", "")
        count.check(f"host.py: {case}", same, ran.returncode, ran.stdout, ran.stderr)
    known = maker.write("known", f"* {line}\n@revoked fd00::1 {line}\n")
    for host, port, wanted, said in (
        ("127.1", "22", UNTOLD, ""), ("", "22", UNTOLD, ""), ("h.example", "0", UNTOLD, ""), ("FD00:0::1", "22", INVALID, "revoked\n"), ("fd00::2", "22", VALID, "trusted\n"),
    ):  # fmt: skip
        ran = run([*python(built, "host.py"), host, port, known], input=f"{line}\n")
        count.check(f"host.py: the host {host!r} at {port}", (ran.returncode, ran.stdout) == (wanted, said), ran)
    check_scanned(count, built, maker)


def check_scanned(count, built, maker):
    """host.py reads what ssh-keyscan prints, which since 9.8 writes comments to standard output, and names keys of a later kind."""
    line, later = maker.read("holder.pub"), LATER["later"]
    known, other = maker.write("scanned", f"h.example,[h.example]:2222 {line}\n"), maker.read("issuer.pub")
    comment = "h.example:{} SSH-2.0-OpenSSH_10.6p1 Debian-1\n"
    for case, port, given, wanted, said in (
        ("a comment", "22", f"# {comment.format(22)}h.example {line}\n", VALID, "trusted\n"), ("a comment alone", "22", f"# {comment.format(22)}", UNTOLD, ""),
        ("a comment without its sign", "22", f"{comment.format(22)}{line}\n", VALID, "trusted\n"),
        ("a port", "2222", f"# {comment.format(2222)}[h.example]:2222 {line}\n", VALID, "trusted\n"),
        ("a later kind beside it", "22", f"h.example {later}\nh.example {line}\n", VALID, "later\ntrusted\n"),
        ("a later kind without the host", "22", f"{line}\n{later}\n", VALID, "trusted\nlater\n"),
        ("a later kind alone", "22", f"h.example {later}\n", INVALID, "later\n"),
        ("a later kind beside another key", "22", f"h.example {later}\nh.example {other}\n", INVALID, "later\nchanged\n"),
        ("a later kind that is cut", "22", f"h.example {LATER['cut']}\n", UNTOLD, ""),
    ):  # fmt: skip
        ran = run([*python(built, "host.py"), "h.example", port, known], input=given)
        count.check(f"host.py, scanned: {case}", (ran.returncode, ran.stdout) == (wanted, said) and bool(ran.stderr) == (wanted == UNTOLD), ran)


def check_copies(count, built, maker):
    """A package that stands elsewhere takes no library of the folders above it, and a link to the one of the sources theirs."""

    def loaded(folder, first="", **named):
        words = [sys.executable, "-c", f"import os\n{first}\nimport rafendilo\nprint(os.path.realpath(rafendilo._library.LIBRARY._name))"]
        kept = {name: value for name, value in os.environ.items() if name != "RAFENDILO_LIBRARY"}
        return run(words, env={**kept, "PYTHONPATH": folder, **named})

    for top, inner, is_taken in (("bindings", "python", True), ("site", "python", False), ("bindings", "site", False)):
        above = f"{maker.folder}/copied-{top}-{inner}"
        shutil.copytree(f"{BINDINGS}/python/rafendilo", f"{above}/{top}/{inner}/rafendilo", ignore=shutil.ignore_patterns("__pycache__"))
        os.mkdir(f"{above}/out")
        shutil.copy(f"{built.plain}/librafendilo.so", f"{above}/out")
        ran = loaded(f"{above}/{top}/{inner}")
        taken = ran.stdout.strip() == os.path.realpath(f"{above}/out/librafendilo.so")
        count.check(f"a package in {top}/{inner}: the library above is taken: {is_taken}", taken == is_taken, ran.stdout, ran.stderr[-500:])
    # where a wheel has the library, which the sources do not look at
    for top, is_taken in (("site", True), ("bindings", False)):
        inside = f"{maker.folder}/copied-{top}-python/{top}/python/rafendilo/librafendilo.so.{ABI}"
        shutil.copy(f"{built.plain}/librafendilo.so", inside)
        ran = loaded(os.path.dirname(os.path.dirname(inside)))
        taken = ran.stdout.strip() == os.path.realpath(inside)
        count.check(f"a library inside the package in {top}/python: it is taken: {is_taken}", taken == is_taken, ran.stdout, ran.stderr[-500:])
    ran = loaded(f"{maker.folder}/copied-bindings-site/bindings/site", LD_LIBRARY_PATH=built.plain)
    count.check("else the loader finds it", ran.stdout.strip().endswith(f"librafendilo.so.{ABI}"), ran.stdout, ran.stderr[-500:])
    os.makedirs(f"{maker.folder}/linked-python/elsewhere")
    sources = f"{maker.folder}/copied-bindings-python"
    os.symlink(f"{sources}/bindings/python/rafendilo", f"{maker.folder}/linked-python/elsewhere/rafendilo")
    ran = loaded(f"{maker.folder}/linked-python/elsewhere")
    count.check("a link takes that of the sources", ran.stdout.strip() == os.path.realpath(f"{sources}/out/librafendilo.so"), ran.stdout, ran.stderr)
    given, own = f"{built.plain}/librafendilo.so", f"{sources}/out/librafendilo.so"
    for name, first, wanted in (
        ("its own user", "", given), ("another user", "os.geteuid = lambda: os.getuid() + 1", own),
        ("another group", "os.getegid = lambda: os.getgid() + 1", own),
    ):  # fmt: skip
        ran = loaded(f"{sources}/bindings/python", first, RAFENDILO_LIBRARY=given)
        taken = ran.stdout.strip() == os.path.realpath(wanted)
        count.check(f"RAFENDILO_LIBRARY in a program with the rights of {name}", taken, ran.stdout, ran.stderr)


def check_meanings(count, built):
    """Each number of the header has words, and no two have the same. Other languages print them from those in C."""
    numbers = {*next(it for it in enumerations() if "RAF_DONE" in it).values()}
    said = run([f"{built.plain}/foreign"], input="meanings\n").stdout.rstrip("\n").split("|")
    found = {it: words for it, words in enumerate(said) if words != WITHOUT_WORDS}
    count.check("each number of the header has words, and no other", len(said) == 200 and {*found} == numbers, {*found} ^ numbers)
    count.check("no two have the same", len({*found.values()}) == len(found), sorted(found.values()))


def check_authorities(count, built, kind):
    """raf_add_authority tells refused memory from a line that is no key."""
    line = kind.maker.read(f"{kind.authority}.pub").encode()
    asked = [("a key", line, 0), ("no key", line[:20], 13), ("a certificate", kind.line.encode(), 14)]
    ran = run([f"{built.sanitized}/foreign"], input="".join(f"authority {it.hex()}\n" for _, it, _ in asked))
    for (name, _, wanted), answer in zip(asked, ran.stdout.splitlines()):
        first, *refused = map(int, answer.split())
        same = first == wanted and set(refused) <= {1, wanted} and (wanted or refused[-1:] == [1])
        count.check(f"an authority, {name}, where each request for memory is refused", same, answer)
    count.check("authorities are added without a fault", ran.returncode == 0, ran.stderr[-2000:])


def check_example_calls(count, built, maker, kind, middle):
    check_certificates(count, built, maker, kind, middle)
    check_module(count, built, maker, kind, middle)
    check_helpers(count, built, maker, kind)
    check_issuing(count, built, maker)
    check_closed(count, built, maker)
    check_armour(count, maker)
    check_host_words(count, built, maker)
    check_copies(count, built, maker)
    check_meanings(count, built)
    check_authorities(count, built, kind)
