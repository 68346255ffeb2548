"""helpers/sshkey-check, for checks/foreign: what it shows of a certificate against `ssh-keygen -L`, whether certificates are valid
against check.py, and whether signatures are against `ssh-keygen -Y verify`."""
import base64
import json
import os
import random
import re
import time
from concurrent.futures import ThreadPoolExecutor

from lib.harness import ROOT, blob_of, line_of, ssh_keygen, string
from lib.signatures import armoured, ssh_signature, ssh_signature_over

from .certificate_calls import CASES
from .key_calls import all_of
from .example_calls import INVALID, SPACE, UNTOLD, VALID, armour_cases
from .linked import VALGRIND, run, turned
from .host_rows import (
    BROKEN, CERTIFICATES, CERTIFICATES_AND_LATER, CERTIFICATES_OF_FILES, FORMER, HOST, KEYS, KEYS_AND_FORMER, KEYS_AND_LATER, KEYS_OF_FILES, LATER,
    LATER_BLOB, LATER_NAME, TYPED, UNASKED, field, in_one_file,
)  # fmt: skip
from .host_rows import INVALID as INVALID_TIME
from .hosts import written
from .checker_answers import check_answers, is_no_call
from .fetched import check_fetched
from .git_checker import check_git
from .login_checker import asked_of, certified, check_login_checker, granted, printed_with
from .login_options import certificate, pairs_of
from .made import MIDDLE, is_verified
from .verdicts import LET_IN

KINDS = ("ed25519", "ecdsa -b 256", "ecdsa -b 384", "ecdsa -b 521", "rsa -b 2048")
# of how many hostile byte strings the programs for sshd are given one
HOSTILE_WORDS = 150
WINDOWS = ("always:forever", "20240101:forever", "always:20240101000000", "20240101000000:20240201000000")
# lines of allowed signers with a signature by {key} of "a text" in SPACE, what it is asked about, what is revoked, and what is said at
# the middle of a window
NOBODY, REVOKED, UNREAD = "no allowed signer (55)", "revoked (56)", "the revocation file can't be read (58)"
ALLOWED = [
    ("as it is", "alice {key}", {}, None, "valid"), ("of one of two", "bob,alice {key}", {}, None, "valid"),
    ("of another text", "alice {key}", {"text": "a texts"}, None, "not signed (30)"),
    ("in another namespace", "alice {key}", {"space": "git"}, None, "another namespace (41)"),
    ("of somebody else", "alice {key}", {"who": "bob"}, None, NOBODY), ("by another key", "alice {other}", {}, None, NOBODY),
    ("by nobody", "# alice {key}", {}, None, NOBODY), ("by an authority", "alice cert-authority {key}", {}, None, NOBODY),
    ("in its namespace", f'alice namespaces="{SPACE}" {{key}}', {}, None, "valid"),
    ("by a key for another namespace", 'alice namespaces="git" {key}', {}, None, NOBODY),
    ("within its time", 'alice valid-after="20240101Z",valid-before="20240201Z" {key}', {}, None, "valid"),
    ("before its time", 'alice valid-after="20240201Z" {key}', {}, None, NOBODY),
    ("after its time", 'alice valid-before="20240101Z" {key}', {}, None, NOBODY),
    ("while another key is revoked", "alice {key}", {}, "{other}", "valid"), ("by a revoked key", "alice {key}", {}, "{key}", REVOKED),
    ("by a revoked key of nobody", "bob {key}", {}, "{key}", NOBODY),
    ("while an empty file revokes", "alice {key}", {}, "", "valid"), ("while a comment revokes", "alice {key}", {}, "# {key}", "valid"),
    ("while a line revokes no key", "alice {key}", {}, "ssh-ed25519 AAAA", UNREAD),
]  # fmt: skip
# texts of a certificate that a terminal would take for commands, and how they are shown
HOSTILE = (
    "\x1b[2J\x7f\x80\u0085\nx\\y\xa0\u00a9\u200d\u200e\u200f\u2027\u2028\u202e\u202f\u2066\u2069\u206a\u5b89",
    "\\033[2J\\177\\302\\200\\302\\205\\012x\\134y\xa0\u00a9\u200d\\342\\200\\216\\342\\200\\217\u2027\\342\\200\\250\\342\\200\\256\u202f"
    "\\342\\201\\246\\342\\201\\251\u206a\u5b89",
)  # fmt: skip


# ---- what is shown


def check_shown(count, programs, maker):
    """It shows what ssh-keygen does, also of several lines and of standard input."""
    for at, kind in enumerate(KINDS):
        maker.key(f"shower{at}", kind)
        maker.key(f"shown{at}", kind)
    cases = {**CASES, **{f"valid {it}": ["-V", it] for it in WINDOWS}}
    shown = [(f"{name}, {KINDS[0]}", 0, words) for name, words in cases.items()]
    shown += [(f"all options, {kind}", at, CASES["all options"]) for at, kind in enumerate(KINDS) if at]
    lines = ["# certificates", ""]
    for name, at, words in shown:
        given = words if "-I" in words else ["-I", "id", *words]
        ssh_keygen("-q", "-s", maker.path(f"shower{at}"), *given, maker.path(f"shown{at}.pub"))
        path = maker.path(f"shown{at}-cert.pub")
        lines.append(maker.read(f"shown{at}-cert.pub"))
        wanted = run(["ssh-keygen", "-L", "-f", path]).stdout
        for program in programs:
            ran = run([program, path])
            count.check(f"sshkey-check shows {name}", (ran.returncode, ran.stdout, ran.stderr) == (VALID, wanted, ""), ran, wanted)
    text = maker.write("shown", "".join(f"{it}\n" for it in lines))
    wanted = [run(["ssh-keygen", "-L", "-f", it], input="\n".join(lines)).stdout for it in (text, "-")]
    for words, of in (([text], wanted[0]), ([], wanted[1]), (["-"], wanted[1])):
        ran = run([programs[0], *words], input="\n".join(lines))
        count.check(f"sshkey-check shows {len(shown)} lines of {words or 'its input'}", (ran.returncode, ran.stdout) == (VALID, of), ran)
    check_hostile_texts(count, programs, maker)


def check_sha1(count, programs, maker):
    """Of a certificate that RSA with SHA-1 signed all is shown that ssh-keygen shows; it is named as that, and valid for nobody.
    So is an SSH signature, and what is cut or turned is named as what it is."""
    maker.key("sha1-authority", "rsa -b 2048")
    ca, told = maker.path("sha1-authority.pub"), "sshkey-check: {}: signed by RSA with SHA-1 (24)\n"
    for at, kind in enumerate(KINDS):
        words = ["-t", "ssh-rsa", "-s", maker.path("sha1-authority"), "-I", "id", "-n", "alice", "-O", "force-command=true"]
        ssh_keygen("-q", *words, maker.path(f"shown{at}.pub"))
        path = maker.path(f"shown{at}-cert.pub")
        wanted = run(["ssh-keygen", "-L", "-f", path]).stdout
        for program in programs:
            ran = run([program, path])
            same = (ran.returncode, ran.stdout, ran.stderr) == (INVALID, wanted, told.format(f"{path}:1")) and "(using ssh-rsa)" in wanted
            count.check(f"sshkey-check shows a certificate of {kind} that RSA with SHA-1 signed", same, ran, wanted)
            ran = run([program, "--ca", ca, "--user", "alice", path])
            same = (ran.returncode, ran.stdout, ran.stderr) == (INVALID, "refused\n", told.format(f"{path}:1"))
            count.check("and it is valid for nobody", same, ran)
    blob = blob_of(maker.read("shown0-cert.pub"))
    lines = [line_of(it) for it in (*(blob[:at] for at in range(1, len(blob), 7)), *turned(blob)[::5])]
    ran = run([programs[1]], input="".join(f"{it}\n" for it in lines))
    named = ran.stderr.count("sshkey-check: (stdin):")
    is_sound = ran.returncode == INVALID and named == len(lines) and 0 < ran.stderr.count("SHA-1") < named
    count.check(f"sshkey-check names each of {len(lines)} such certificates that are cut or turned", is_sound, ran.stderr[-2000:])
    signature = maker.signature(f"shown{len(KINDS) - 1}", "a text", SPACE)
    name, value = all_of(all_of(signature[10:])[4])
    renamed = signature[: -len(string(string(name) + string(value)))] + string(string(b"ssh-rsa") + string(value))
    path, key = maker.write("armour.sig", armoured(renamed)), maker.path(f"shown{len(KINDS) - 1}.pub")
    allowed = maker.write("signers", f"alice {maker.read(f'shown{len(KINDS) - 1}.pub')}\n")
    for words in (["-k", key], ["-f", allowed, "-I", "alice"]):
        ran = run([programs[1], "verify", *words, "-n", SPACE, "-s", path], input="a text")
        same = (ran.returncode, ran.stdout, ran.stderr) == (INVALID, "refused\n", told.format(path))
        count.check(f"sshkey-check verify {words[0]}, a signature by SHA-1", same, ran)


def later_lines(blob, authority):
    """Lines of a later or former kind of key: of keys, and of certificates of it, by it, and with a signature of it."""
    own, inner = base64.b64decode(LATER_BLOB), string(b"x") * 2
    front = blob[: blob.index(string(authority))]
    named = {it: string(it) + inner for it in (LATER_NAME + b"-cert", b"ssh-xmss@openssh.com", b"webauthn-sk-ecdsa-sha2-nistp256@openssh.com")}
    yield "a key", LATER["later"]
    for name, data in named.items():
        yield name.decode(), f"{name.decode()} {base64.b64encode(data).decode()}"
    yield "by an authority", line_of(front + string(own) + string(string(LATER_NAME) + inner))
    yield "by a signature of WebAuthn", line_of(front + string(authority) + string(list(named.values())[-1]))


def check_later_kinds(count, programs, maker):
    """What is of a later or former kind of key is named as that: keys, certificates, their authorities and signatures."""
    told = "sshkey-check: {}: a later kind of key, which is not read (61)\n"
    ca = maker.path("sha1-authority.pub")
    for name, line in later_lines(blob_of(maker.read("shown0-cert.pub")), blob_of(maker.read("sha1-authority.pub"))):
        path = maker.write("later.pub", f"{line}\n")
        for words, said in ((["--ca", ca, "--user", "alice"], "refused\n"), ([], ""), (["fingerprint"], "")):
            ran = run([programs[1], *words, path])
            same = (ran.returncode, ran.stdout, ran.stderr) == (INVALID, said, told.format(f"{path}:1"))
            count.check(f"sshkey-check {' '.join(words[:1])}, a later kind: {name}", same, ran)
    key = blob_of(maker.read("shown1.pub"))
    for name, signer, kind in (("a key", base64.b64decode(LATER_BLOB), LATER_NAME), ("WebAuthn", key, b"webauthn-sk-ecdsa-sha2-nistp256@openssh.com")):
        path = maker.write("armour.sig", armoured(ssh_signature(signer, string(kind) + string(b"x") * 3, SPACE.encode())))
        ran = run([programs[1], "verify", "-k", maker.path("shown1.pub"), "-n", SPACE, "-s", path], input="a text")
        same = (ran.returncode, ran.stdout, ran.stderr) == (INVALID, "refused\n", told.format(path))
        count.check(f"sshkey-check verify, a later kind: {name}", same, ran)


# options and windows of certificates that are not read, and why
UNREAD_ONES = [
    ("an option twice", {}, [("permit-pty", b""), ("permit-pty", b"")], None, "an option that stands there twice: permit-pty (15)"),
    ("an option out of order", {}, [("b@x", string(b"1")), ("a@x", b"")], None, "an option out of order: a@x (15)"),
    ("a longer name before its beginning", [("force-command", string(b"x")), ("force", string(b"y"))], {}, None, "an option out of order: force (15)"),
    ("an option twice and one out of order", {"verify-required": b""}, [("b", b""), ("b", b""), ("a", b"")], None,
     "an option that stands there twice: b (15)"),
    ("an option twice that would be a terminal's command", {}, [("\x1b[2J", b"")] * 2, None, "an option that stands there twice: ?[2J (15)"),
    ("an end that is too late", {}, {"permit-pty": b""}, (0, 2**63), "a time above 2^63 - 1 (19)"),
    ("a beginning that is too late", {}, {}, (2**63, 2**64 - 1), "a time above 2^63 - 1 (19)"),
    ("a window that is too late", {"force-command": string(b"x")}, {}, (2**64 - 2, 2**64 - 2), "a time above 2^63 - 1 (19)"),
]  # fmt: skip


def check_unread(count, programs, maker):
    """A certificate with an option twice or out of order, or a time above 2^63 - 1, is shown as ssh-keygen shows it, and what is wrong with
    it is said; it is valid for nobody."""
    for at in range(len(KINDS)):
        for name, critical, extensions, window, told in UNREAD_ONES[:: 1 if at == 0 else 5]:
            line = certificate(maker, f"shower{at}", maker.read(f"shown{at}.pub"), string(b"alice"), critical, extensions, window=window)
            path = maker.write("unread", f"{line} a comment\n")
            wanted = run(["ssh-keygen", "-L", "-f", path]).stdout
            said = f"sshkey-check: {path}:1: {told}\n"
            for program in programs:
                ran = run([program, path])
                same = (ran.returncode, ran.stderr, late(ran.stdout)) == (INVALID, said, late(wanted))
                count.check(f"sshkey-check shows a certificate of {KINDS[at]} with {name}", same, ran, wanted)
                ran = run([program, "--ca", maker.path(f"shower{at}.pub"), "--user", "alice", path])
                count.check("and it is valid for nobody", (ran.returncode, ran.stdout) == (INVALID, "refused\n"), ran)
                (found,) = map(json.loads, run([program, "--json", path]).stdout.splitlines())
                first, end = window or (found["valid_after"], found["valid_before"])
                same = (found["valid_after"], found["valid_before"]) == (first, None if end == 2**64 - 1 else end) and found["verdict"] == "refused"
                same = same and [it["name"] for it in found["extensions"]] == [it[0] for it in pairs_of(extensions)] and told.startswith(found["meaning"])
                count.check("and as an object with all that it says", same, found)
    blob = blob_of(certificate(maker, "shower0", maker.read("shown0.pub"), string(b"alice"), {}, [("a", b"")] * 2))
    lines = [line_of(it) for it in (*(blob[:at] for at in range(40, len(blob), 3)), *turned(blob)[40::2])]
    ran = run([programs[1]], input="".join(f"{it}\n" for it in lines))
    named = ran.stderr.count("sshkey-check: (stdin):")
    is_sound = ran.returncode == INVALID and named == len(lines) and 0 < ran.stderr.count("twice") < named
    count.check(f"sshkey-check names each of {len(lines)} such certificates that are cut or turned", is_sound, ran.stderr[-2000:])


def late(shown):
    """What is shown, without seconds above 2^63 - 1, in place of which ssh-keygen shows whatever lies in its memory."""
    return re.sub(r"(?<= )(second \d{19,20}|-?\d+-\d\d-\d\dT\d\d:\d\d:\d\d)", "TIME", shown).replace("\x1b", "\\033")


def check_hostile_texts(count, programs, maker):
    """What a terminal would take for commands is shown by octal digits, and a line that is no certificate is named."""
    text, wanted = HOSTILE
    of = string(text.encode())
    line = certificate(maker, "shower0", maker.read("shown0.pub"), of, {"force-command": of}, {}, text.encode())
    path = maker.write("hostile", f"{line}\n# a comment\nssh-ed25519 AAAA\n")
    for program in programs:
        ran = run([program, path])
        found = [it.strip() for it in ran.stdout.splitlines()]
        told = {f'Key ID: "{wanted}"', wanted, f"force-command {wanted}"} <= {*found} and "\x1b" not in ran.stdout
        count.check("sshkey-check shows what would be a terminal's commands", told and ran.returncode == INVALID, ran)
        count.check("and names a line that is no certificate", re.fullmatch(rf"sshkey-check: {re.escape(path)}:3: .*\n", ran.stderr), ran)


# ---- signatures


def check_verified(count, programs, maker):
    """A signature is valid exactly where ssh-keygen says so, and an armour is one where it reads it."""
    for at, kind in enumerate(KINDS):
        key, other = f"shown{at}", f"shown{(at + 1) % len(KINDS)}"
        signature = maker.signature(key, "a text", SPACE)
        keys = maker.write("both", f"# who may sign\n{maker.read('user0.pub')}\n{maker.read(f'{key}.pub')}\n")
        for name, words, text, wanted in (
            ("as it is", (keys, SPACE), "a text", "valid"), ("of another text", (keys, SPACE), "a texts", "not signed (30)"),
            ("in another namespace", (keys, "git"), "a text", "another namespace (41)"),
            ("by another key", (maker.path(f"{other}.pub"), SPACE), "a text", "no allowed signer (55)"),
            ("by no key", (maker.write("none-of-these", ""), SPACE), "a text", "no allowed signer (55)"),
        ):  # fmt: skip
            check_signature(count, programs, maker, f"by {kind}, {name}", signature, words, text, wanted)
    line = maker.read("shown0.pub")
    reserved = ssh_signature_over(b"reserved", maker.path("shown0"), line, b"a text")
    check_signature(count, programs, maker, "over reserved bytes", reserved, (maker.path("shown0.pub"), "file"), "a text", "not signed (30)")
    good, strange = (armoured(maker.signature("shown0", it, SPACE)) for it in ("a text", "another text"))
    for case, text, wanted in armour_cases(good, strange):
        given = ["verify", "-k", maker.path("shown0.pub"), "-n", SPACE, "-s", maker.write("armour.sig", text)]
        for program in programs:
            ran = run([program, *given], input="a text")
            count.check(f"sshkey-check, an armour: {case}", ran.returncode == wanted and ran.stderr.count("\n") == (wanted != VALID), ran)


def check_key_files(count, programs, maker):
    """What a comment in a file of keys holds is nothing to it, and each line that is no key is told."""
    signature = maker.write("armour.sig", armoured(maker.signature("shown0", "a text", SPACE)))
    certificate = maker.certificate("shower0", "shown0", "-n", "alice", "-V", "-5m:+60m")
    for key, words, valid in (("shown0", ["verify", "-n", SPACE, "-s", signature, "-k"], "valid"), ("shower0", ["--user", "alice", "--ca"], LET_IN)):
        line = maker.read(f"{key}.pub").encode().split()
        good = b"# keys\n\t" + b" \t".join(line[:2]) + b"\tZ\xfcrich\0\r\n"
        wrong = good + b"ssh-ed25519 AAAA\n" + good + b"\xff\n"
        for text, wanted, told in ((good, (VALID, f"{valid}\n"), []), (wrong, (UNTOLD, ""), ["3", "6"])):
            with open(maker.path("keys-of-any-bytes"), "wb") as file:
                file.write(text)
            for program in programs:
                ran = run([program, *words, file.name], input=certificate if key == "shower0" else "a text")
                lines = [it.split(":")[2] for it in ran.stderr.splitlines()]
                said = ran.returncode, "".join(it for it in ran.stdout.splitlines(True) if not it.startswith(" "))
                count.check(f"sshkey-check {words[0]} by a file of keys, {told or 'whole'}", (said, lines) == (wanted, told), ran)


def check_signature(count, programs, maker, name, signature, words, text, wanted):
    """What is said of a text, from its file and from standard input, and by ssh-keygen."""
    keys, space = words
    path, is_valid = maker.write("armour.sig", armoured(signature)), wanted == "valid"
    given = ["verify", "--keys", keys, "--namespace", space, "--signature", path]
    with open(keys, encoding="utf-8") as file:
        allowed = "".join(f"signer {it}" for it in file if not it.startswith("#"))
    judged = is_verified(maker.folder, "checked", signature, text, "signer", MIDDLE, allowed, space)
    count.check(f"ssh-keygen, a signature {name}", judged == is_valid, judged)
    empty = "" if os.path.getsize(keys) else f"sshkey-check: {keys}: it has no line\n"
    said = ("valid\n", "") if is_valid else ("refused\n", f"{empty}sshkey-check: {path}: {wanted}\n")
    for program in programs:
        for more, how in (([maker.write("asked", text)], {}), ([], {"input": text})):
            ran = run([program, *given, *more], **how)
            same = (ran.returncode, (ran.stdout, ran.stderr)) == (VALID if is_valid else INVALID, said)
            count.check(f"sshkey-check, a signature {name}", same, ran)


def check_allowed(count, programs, maker):
    """A signature counts as an identity's exactly where ssh-keygen says so, by a text of revoked keys and by a list of them."""
    keys = {"key": maker.read("shown0.pub"), "other": maker.read("shown1.pub")}
    path = maker.write("armour.sig", armoured(maker.signature("shown0", "a text", SPACE)))
    date = time.strftime("%Y%m%d%H%M%SZ", time.gmtime(MIDDLE))
    for name, line, asked, revoked, wanted in ALLOWED:
        words = ["-f", maker.write("signers", line.format(**keys) + "\n"), "-I", asked.get("who", "alice")]
        words += ["-n", asked.get("space", SPACE), "-s", path]
        files, text, is_valid = [[]], asked.get("text", "a text"), wanted == "valid"
        if revoked is not None:
            file = maker.write("revoked", revoked and f"# revoked\n{revoked.format(**keys)}\n")
            files = [["-r", file]]
        if revoked and revoked.startswith("{"):
            ssh_keygen("-q", "-k", "-f", maker.path("revoked.krl"), file)
            files += [["-r", maker.path("revoked.krl")]]
        for more in files:
            judged = run(["ssh-keygen", "-Y", "verify", "-O", f"verify-time={date}", *words, *more], input=text).returncode == 0
            count.check(f"ssh-keygen, a signature {name}, by {more or 'no file'}", judged == is_valid, judged)
            empty = f"sshkey-check: {maker.path('signers')}: it has no line\n" if line.startswith("#") else ""
            # after the comment in front
            named = f"{file}:2" if wanted == UNREAD else path
            said = ("valid\n", "") if is_valid else ("" if wanted == UNREAD else "refused\n", f"{empty}sshkey-check: {named}: {wanted}\n")
            status = VALID if is_valid else UNTOLD if wanted == UNREAD else INVALID
            for program, second in zip(programs, (date, str(MIDDLE))):
                ran = run([program, "verify", *words, *more, "--at", second], input=text)
                same = (ran.returncode, (ran.stdout, ran.stderr)) == (status, said)
                count.check(f"sshkey-check, a signature {name}", same, ran)


# numbers of what is wrong with what a host shows
NUMBERS = {
    "revoked": 50, "unreadable": 51, "changed": 52, "unknown": 53, INVALID_TIME: 33, field("type"): 71, field("critical options"): 73, "no port": 100,
    "no address": 102,
}  # fmt: skip


def check_hosts(count, programs, maker):
    """The rows of host_rows.py about which a real ssh was asked, by several files; and which line is named where one can't be read."""
    keys = {"key": maker.key("shown-host", "ed25519"), "other": maker.key("other-host", "ed25519"), "broken": BROKEN, **LATER, **FORMER}
    keys["authority"] = maker.read("shower0.pub")
    rows = [*in_one_file([*KEYS, *KEYS_AND_LATER, *KEYS_AND_FORMER]), *KEYS_OF_FILES]
    rows = [(name, files, port, None, wanted) for name, files, port, wanted in rows]
    rows += [*in_one_file([*CERTIFICATES, *CERTIFICATES_AND_LATER]), *CERTIFICATES_OF_FILES]
    rows = [(*row, HOST) for row in rows] + [(name, [lines], port, None, wanted, host) for name, host, lines, port, wanted in TYPED]
    rows += [(name, [["* {key}"]], port, None, wanted, host) for name, host, port, wanted in UNASKED if host]
    for name, files, port, words, wanted, host in rows:
        shown = keys["key"] if words is None else maker.certificate("shower0", "shown-host", *words)
        given = ["--host", host, "--port", str(port)]
        for number, lines in enumerate(files):
            with open(maker.path(f"known{number}"), "wb") as file:
                file.write(written(maker, lines, keys))
            given += ["--known-hosts", file.name]
        for program in programs:
            ran = run([program, *given], input=f"{shown}\n")
            found = re.search(r"\((\d+)\)\n\Z", ran.stderr)
            # of principals sshd says the same where the name is not listed
            right = NUMBERS.get(wanted, 34) if wanted != "ok" else None
            same = (ran.returncode, ran.stdout) == ((VALID, "valid\n") if wanted == "ok" else (INVALID, "refused\n"))
            named = re.findall(r"^sshkey-check: \S+known(\d):(\d+): no entry", ran.stderr, re.M)
            same = same and (int(found[1]) if found else None) == right and bool(named) == (wanted == "unreadable")
            count.check(f"sshkey-check of a host's {'key' if words is None else 'certificate'}, {name}", same, ran)
    known = maker.write("known0", f"# keys\n{HOST} {keys['key']}\n\n@revoked * {BROKEN}\n{HOST} {BROKEN}\n")
    ran = run([programs[0], "--host", HOST, "--known-hosts", known], input=f"{keys['key']}\n")
    count.check("sshkey-check names the first line that can't be read", f"{known}:4: no entry" in ran.stderr and ran.stderr.count("\n") == 2, ran)


def check_hostile_signatures(count, programs, maker):
    """Turned, cut and drawn bytes in an armour are no valid signature, and read nothing that is not theirs."""
    draw, signature = random.Random(69), maker.signature("shown0", "a text", SPACE)
    blobs = [*turned(signature)[::9], *(signature[:at] for at in range(9, len(signature), 9)), *(draw.randbytes(it) for it in range(1, 41))]
    given = ["verify", "-k", maker.path("shown0.pub"), "-n", SPACE, "-s", maker.path("armour.sig")]
    for program, every in ((programs[1:], 1), ([*VALGRIND, programs[0]], 20)):
        wrong = []
        for blob in blobs[::every]:
            maker.write("armour.sig", armoured(blob))
            ran = run([*program, *given], input="a text")
            is_refused = ran.returncode == INVALID and ran.stderr.count("\n") == 1
            wrong += [] if is_refused else [(blob.hex(), ran)]
        # the version is not signed, and another one is as good as ssh-keygen takes it
        count.check(f"sshkey-check, {len(blobs[::every])} hostile signatures", len(wrong) < 2 and not any(it[1].stderr for it in wrong), *wrong[:2])


# ---- hostile words and files


def check_hostile_words(count, built, made):
    """What a client sends, and files of any bytes, make the programs read nothing that is not theirs."""
    maker, draw = made.maker, random.Random(70)
    lines = [line_of(data) for kind, data, _ in made.hostile[::HOSTILE_WORDS] if kind in ("certificate", "key")]
    offered = [it.split(" ")[:2] for it in lines if "\0" not in it]
    text = "".join(f"alice {it}\nalice,\t{it}\n{it}\n" for it in lines).encode()
    for name in ("sshkey-principals", "sshkey-authorized-keys"):
        program, wrong = [f"{built.sanitized}/{name}", "--insecure-modes", *["--file"] * (name == "sshkey-authorized-keys")], []
        files = [text, b"", b"\0", b"alice", b"alice ", b"alice\t\xff\n", *(draw.randbytes(it * it) for it in range(20))]
        asked = [(text, *it) for it in offered] + [(it, *made.kinds[0].line.split(" ")[:2]) for it in files]
        for of, *words in asked:
            with open(maker.path("any-bytes"), "wb") as file:
                file.write(of)
            ran = run([*program, maker.path("any-bytes"), "alice", *words], text=False)
            is_sound = ran.returncode in (0, 1) and not re.search(rb"Sanitizer|runtime error", ran.stderr)
            wrong += [] if is_sound else [(words, ran)]
        count.check(f"{name} with sanitizers, {len(asked)} hostile keys and files", not wrong, *wrong[:2])
    shown = [line_of(data) for kind, data, _ in made.hostile if kind == "certificate"]
    for words, told in (([], r"^\(stdin\):(\d+):$"), (["--json"], r'"line":(\d+),"verdict":"shown"'), (["fingerprint"], r"^(?:\d+ )?SHA256:.*")):
        ran = run([f"{built.sanitized}/sshkey-check", *words], input="".join(f"{it}\n" for it in shown))
        # what is shown and not read is both
        found = {it if it.isdigit() else at for at, it in enumerate(re.findall(told, ran.stdout, re.M))}
        named = len(found | {*re.findall(r"^sshkey-check: \(stdin\):(\d+):", ran.stderr, re.M)})
        is_sound = ran.returncode == INVALID and named == len(shown) and not re.search("Sanitizer|runtime error", ran.stderr)
        count.check(f"sshkey-check {words} with sanitizers shows or names {len(shown):,} hostile certificates", is_sound, named, ran.stderr[-2000:])


# ---- how it is called


def check_words(count, programs, maker):
    """What is no call, what says the program, and streams that are closed or full."""
    ca, key = maker.path("shower0.pub"), maker.path("shown0.pub")
    with open(f"{ROOT}/VERSION", encoding="ascii") as file:
        version = file.read().strip()
    folder = os.path.dirname(programs[0])
    for name, status in (("sshkey-check", UNTOLD), ("sshkey-principals", 1), ("sshkey-authorized-keys", 1)):
        shown = run([f"{folder}/{name}", "--help"])
        asks = name == "sshkey-check" or f"usage: {name} [--revoked FILE].. " in shown.stdout
        count.check(f"{name} --help names its list", asks and "--revoked FILE" in shown.stdout, shown)
        count.check(f"{name} --help", shown.returncode == 0 and shown.stdout.startswith(f"usage: {name} ") and not shown.stderr, shown)
        told = run([f"{folder}/{name}", "--version"])
        count.check(f"{name} --version", (told.returncode, told.stdout, told.stderr) == (0, f"{name} {version}\n", ""), told)
        with open("/dev/full", "wb") as full:
            ran = run([f"{folder}/{name}", "--help"], capture_output=False, stdout=full, stderr=-1)
        count.check(f"{name} --help, and nothing is written", ran.returncode == status and ran.stderr, ran)
        ran = run([f"{folder}/{name}", "--other"])
        count.check(f"{name} --other", ran.returncode == status and not ran.stdout and ran.stderr, ran)
    signed = ["-k", key, "-n", SPACE, "-s", key]
    allowed = ["verify", "-f", key, "-I", "alice", *signed[2:]]
    for words in (
        allowed[:3] + allowed[5:], [*allowed[:1], *allowed[3:]], [*allowed, "-k", key], [*allowed, "--user", "alice"], allowed[1:],
        ["verify", *signed, "-r", key], ["verify", *signed, "--at", "1"], ["--host", "h"], ["--known-hosts", key], ["--port", "22"],
        ["--host", "h", "--known-hosts", key, "--ca", ca], ["--host", "h", "--known-hosts", key, "--user", "alice"], ["--host", "h", "--port", "22"],
        ["--host", "h", "--host", "h", "--known-hosts", key], ["verify", *signed, "--host", "h", "--known-hosts", key],
        [key, key], ["--user", "alice"], ["--at", "1"], ["--ca"], ["--ca", ca], ["--ca", ca, "--user", "alice", "--ca", ca],
        ["--ca", ca, "--user", "alice", "--keys", key], signed, ["--from", "::1"], ["--from", "::1", "--user", "alice"],
        ["verify", *signed, "--from", "::1"], ["--host", "h", "--known-hosts", key, "--from", "::1"],
        ["verify"], ["verify", *signed[:4]], ["verify", *signed, "--ca", ca], ["verify", *signed, key, key], ["verify", "--help"],
    ):  # fmt: skip
        ran = run([programs[0], *words], input="")
        count.check(f"sshkey-check {' '.join(map(os.path.basename, words))} is no call", is_no_call(ran), ran)
    for words in (["verify", *signed[:4], "-s", maker.path("none")], ["verify", "-k", maker.folder, *signed[2:]], [*allowed, "-r", maker.path("none")],
                  ["verify", "-f", maker.path("none"), *allowed[3:]], [maker.path("none")], ["--host", "h", "--known-hosts", maker.path("none")],
                  *(["--ca", ca, "--user", "alice", "--from", it] for it in ("", "192.0.2", "::1%lo", "localhost")),
                  *(["--host", "h", "--known-hosts", key, "--port", it] for it in ("65536", "x", "-1", ""))):
        ran = run([programs[0], *words], input="")
        count.check(f"sshkey-check can't tell of {words[-1]}", ran.returncode == UNTOLD and ran.stderr.count("\n") == 1, ran)


def check_refused_memory(count, built, maker):
    """Where one request for memory is refused, or all from there on, the programs can't tell: no answer is a refusal. The first ones are
    each tried, which are the programs' own, and of libcrypto's some: a login by a key asks it nothing."""
    refusing, me = maker.path("refusing.so"), "alice"
    made = run(["cc", "-shared", "-fPIC", "-fno-builtin", "-o", refusing, f"{ROOT}/checks/asked/refusing.c"])
    count.check("what refuses memory is built", made.returncode == 0, made)
    ca, line = maker.path("shower0.pub"), maker.certificate("shower0", "shown0", "-n", me, "-V", "-5m:+60m")
    authorities = maker.write("authorities", f"{me} {maker.read('shower0.pub')}\n")
    signature = maker.write("armour.sig", armoured(maker.signature("shown0", "a text", SPACE)))
    for name, words, said, untold, least in (
        ("sshkey-check of a certificate", ["sshkey-check", "--ca", ca, "--user", me, maker.path("shown0-cert.pub")],
         printed_with(certified(serial=0), ca), UNTOLD, 100),
        ("sshkey-check of a signature", ["sshkey-check", "verify", "-k", maker.path("shown0.pub"), "-n", SPACE, "-s", signature, maker.path("signed")],
         "valid\n", UNTOLD, 100),
        ("sshkey-check of a login", ["sshkey-check", "login", *asked_of(maker, "{key}", None, [])],
         printed_with(granted(), None, maker.path("authorized_keys")), UNTOLD, 20),
        ("sshkey-principals", ["sshkey-principals", "--insecure-modes", authorities, me, *line.split()[:2]], f"{me}\n", 1, 100),
    ):  # fmt: skip
        asked = [f"{it}{more}" for it in (*range(1, 70), *range(70, 1500, 71)) for more in ("", "+")]

        def answered(number, words=words):
            return run([f"{built.plain}/{words[0]}", *words[1:]], env={**os.environ, "LD_PRELOAD": refusing, "REFUSED": number})

        with ThreadPoolExecutor(len(os.sched_getaffinity(0))) as pool:
            found = [(it.returncode, it.stdout, it.stderr[-200:]) for it in pool.map(answered, ["0", *asked])]
        count.check(f"{name}, and no memory is refused", found[0] == (VALID, said, ""), found[0])
        # the C library itself may end a program by a signal
        wrong = [it for it in zip(asked, found[1:]) if it[1][:2] not in ((VALID, said), (untold, "")) and it[1][0] >= 0]
        untold_count = sum(it[:2] == (untold, "") for it in found)
        count.check(f"{name} can't tell without memory, of {len(asked)} requests", not wrong and untold_count > least, untold_count, *wrong[:3])


def check_checker(count, built, made):
    maker = made.maker
    programs = [f"{it}/sshkey-check" for it in (built.plain, built.sanitized)]
    check_shown(count, programs, maker)
    check_sha1(count, programs, maker)
    check_later_kinds(count, programs, maker)
    check_unread(count, programs, maker)
    check_verified(count, programs, maker)
    check_key_files(count, programs, maker)
    check_allowed(count, programs, maker)
    check_hosts(count, programs, maker)
    check_login_checker(count, programs, maker)
    check_hostile_signatures(count, programs, maker)
    check_hostile_words(count, built, made)
    check_refused_memory(count, built, maker)
    check_words(count, programs, maker)
    check_answers(count, programs, maker)
    check_git(count, programs, maker)
    check_fetched(count, programs, maker)
