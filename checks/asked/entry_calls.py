"""The lines of authorized_keys and known_hosts, against ssh-keygen. The lines, the options and the files are those of
checks/entry-lines and checks/hosts, a sample."""
import base64
import os
import random
import re
import sys
import tempfile

from lib.harness import ssh_keygen

from .linked import EXAMPLES, run, word
from .made import loaded
from .revocation_calls import EMPTY

LINES, TEXTS, FILES, CUTS = 90, 30, 200, 40
# what texts of lines are put together of
PIECES = [
    b"a", b"ssh", b"#", b" ", b"\t", b"\r", b"\n", b"\n", b"\r\n", b"\x0b", b"\x0c", b"\x1c",
    b"\xc2\x85", b"\xe2\x80\xa8", b"\0", b"\xff",
]  # fmt: skip
VERDICTS = {
    "Trusted": "DONE", "Revoked": "HOST_REVOKED", "Unreadable": "HOST_UNREADABLE", "Changed": "HOST_CHANGED",
    "Unknown": "HOST_UNKNOWN",
}  # fmt: skip
OPTIONS = [
    (b"", []), (b",,", []), (b"no-pty", [(b"no-pty", None)]), (b'A="",b', [(b"A", b""), (b"b", None)]),
    (b',x="a,b c",,restrict,', [(b"x", b"a,b c"), (b"restrict", None)]), (b'c="say \\"hi\\" \\n"', [(b"c", b'say "hi" \\n')]),
    (b'from="*.example.com,!a.b",X11-forwarding', [(b"from", b"*.example.com,!a.b"), (b"X11-forwarding", None)]),
    (b"command=ls", "FORMAT"), (b'no-pty,command="ls', "FORMAT"), (b'x="a"b', "FORMAT"), (b"a b", "FORMAT"), (b"=", "FORMAT"),
    (b"\xff", "TEXT"),
]  # fmt: skip


# ---- lines


def lines_of(text):
    """The lines that sshd(8) does not pass over. Lines end at line feeds alone."""
    parts = text.split(b"\n")
    for at, whole in enumerate(parts):
        line = whole[:-1] if whole.endswith(b"\r") and at < len(parts) - 1 else whole
        filled = line.lstrip(b" \t")
        if filled and not filled.startswith(b"#"):
            yield filled


def check_lines(judge, draw):
    texts = [b"", b"a", b"a\r", b"\r\n", b" \t", b"# a\n b\n", b"a\r\r\nb\n\n"]
    texts += [b"".join(draw.choice(PIECES) for _ in range(draw.randrange(24))) for _ in range(400)]
    wanted = [" ".join(["0", *map(word, lines_of(it))]) for it in texts]
    judge.ask("texts of lines", [f"lines {word(it)}" for it in texts], wanted)


def check_file(judge, folder, keys):
    """The keys of a file, in order, are those that ssh-keygen shows."""
    ed25519, rsa, ecdsa = (f"{name} {blob}" for name, blob in keys.items())
    text = f"# keys\n\n{ed25519} a\r\n \t{rsa} b # c\n\n#{ecdsa} off\n{ecdsa}\n{ed25519} last"
    path = os.path.join(folder, "file")
    with open(path, "w", encoding="utf-8", newline="") as file:
        file.write(text)
    shown = re.findall(r"SHA256:\S+", ssh_keygen("-l", "-f", path, text=True).stdout)
    rafendilo = judge.made.rafendilo
    entries = [rafendilo.authorized_entry(line) for line in rafendilo.entry_lines(text.encode())]
    found = [rafendilo.fingerprint_text(rafendilo.fingerprint(it.key)) for it in entries]
    judge.check("the keys of a file are those that ssh-keygen shows", found == shown and len(found) == 4, found, shown)


# ---- entries


def read_by_python(rafendilo, kind, line):
    """What the Python module reads of the line, or None."""
    try:
        return (rafendilo.authorized_entry if kind == "entry" else rafendilo.known_host)(line)
    except rafendilo.Refused:
        return None


def is_key_shown(entry, wanted, keys):
    if entry is None or wanted is None:
        return entry is None and wanted is None
    shown = entry.comment.decode()
    return entry.key == keys[wanted[0]] and (shown == wanted[1] or not shown or shown.startswith("#"))


def is_host_found(entry, wanted, keys, lines):
    if entry is None or not lines.names_host(entry.hosts.decode()):
        return wanted is None
    marker = {0: "no marker", 1: "@cert-authority", 2: "@revoked"}[int(entry.marker)]
    return wanted is not None and marker == wanted[0] and entry.key == keys[wanted[1]]


def check_entries(judge, draw, folder, lines):
    texts = lines.made(folder)
    keys = {name: base64.b64decode(it) for name, it in texts.items()}
    check_file(judge, folder, texts)
    cases = []
    for _ in range(LINES):
        line, plain = lines.authorized_line(draw, texts)
        cases.append(("entry", line.encode(), lines.shown(folder, plain)))
        line = lines.host_line(draw, texts)
        cases.append(("host", line.encode(), lines.found(folder, line)))
    judge.ask("lines of entries", [f"{kind} {word(line)}" for kind, line, _ in cases])
    wrong, read = [], {"entry": [], "host": []}
    for kind, line, wanted in cases:
        entry = read_by_python(judge.made.rafendilo, kind, line)
        fits = is_key_shown(entry, wanted, keys) if kind == "entry" else is_host_found(entry, wanted, keys, lines)
        wrong += [] if fits else [(line, entry, wanted)]
        read[kind] += [line] if entry else []
    judge.check(f"{len(cases)} lines are read as ssh-keygen reads them", not wrong, *wrong[:3])
    judge.check("and many of each kind are entries", min(map(len, read.values())) > LINES // 8, *map(len, read.values()))
    check_faults(judge, texts["ssh-ed25519"])
    check_hostile(judge, draw, read)


def check_faults(judge, key):
    """Which number a line is refused with."""
    ed25519 = f"ssh-ed25519 {key}"
    cases = [
        ("entry", f"# {ed25519}", "FORMAT"), ("entry", "", "FORMAT"), ("entry", f'command="ls {ed25519}', "FORMAT"),
        ("entry", f"restrict {ed25519[:-1]}", "BASE64"), ("entry", f"restrict ssh-rsa {key}", "ALGORITHM_UNKNOWN"),
        ("entry", "a b", "LENGTH"), ("entry", "restrict ssh-ed25519", "LENGTH"), ("host", f"@gone h {ed25519}", "FORMAT"),
        ("host", f"# h {ed25519}", "FORMAT"), ("host", f"|1|AAAA {ed25519}", "FORMAT"),
        ("host", f"|1|AAAA|AAAA {ed25519}", "LENGTH"), ("host", f"|1|AAAA|A {ed25519}", "BASE64"),
        ("host", f"h ssh-rsa {key}", "ALGORITHM_UNKNOWN"), ("host", f"h {ed25519[:-1]}", "BASE64"), ("host", "h", "LENGTH"),
    ]  # fmt: skip
    cases = [(kind, line.encode(), wanted) for kind, line, wanted in cases]
    cases += [(kind, b"\xff " + ed25519.encode(), "TEXT") for kind in ("entry", "host")]
    asked = [(f"{kind} {line!r:.40}", f"{kind} {word(line)}", str(judge.number(wanted))) for kind, line, wanted in cases]
    judge.hold("the fault of a line", asked)


def check_hostile(judge, draw, read):
    """Lines that are cut, or have a byte turned, are answered."""
    cases = []
    for kind, them in read.items():
        for line in them[:3]:
            for at, byte in enumerate(line):
                cases.append((kind, line[:at] + bytes([byte ^ draw.choice([1, 32, 128])]) + line[at + 1 :]))
            cases += [(kind, line[: draw.randrange(len(line))]) for _ in range(CUTS)]
    said = judge.ask("lines of entries that are cut or turned", [f"{kind} {word(line)}" for kind, line in cases])
    numbers = {int(it.split()[0]) for it in said}
    judge.check("each of them is an entry, no text, or has a fault", all(it in (0, 4) or 10 <= it < 30 for it in numbers), numbers)


# ---- options


def options_by_python(rafendilo, text):
    """The options, or the name of the number they are refused with."""
    try:
        return rafendilo.line_options(text)
    except rafendilo.Refused as refused:
        return refused.status.name


def check_options(judge, draw, folder, lines):
    with open(f"{folder}/ssh-ed25519.pub", encoding="ascii") as file:
        key = " ".join(file.read().split()[:2])
    cases = list(OPTIONS)
    for _ in range(TEXTS):
        text, value = lines.options_text(draw)
        wanted = lines.verified(folder, text, value, key)
        cases.append((text.encode(), (value.encode(), wanted)))
    judge.ask("texts of options", [f"options {word(text)}" for text, _ in cases])
    wrong = []
    for text, wanted in cases:
        found = options_by_python(judge.made.rafendilo, text)
        taken = [(name.lower(), value) for name, value in found] if isinstance(found, list) else None
        fits = found == wanted if not isinstance(wanted, tuple) else (taken == [(b"namespaces", wanted[0])]) == wanted[1]
        wrong += [] if fits else [(text, found, wanted)]
    judge.check(f"the options of {len(cases)} texts are those that ssh-keygen reads", not wrong, *wrong[:3])


# ---- hosts


def bytes_of(spelled):
    return b"" if spelled == '""' else bytes.fromhex(spelled)


def host_cases(draw, folder, hosts):
    """Names, texts, hosts, ports and keys, and the name of what is wanted. Where nothing is known at another port, the plain name
    counts, about which ssh-keygen was not asked (asked/host_calls.py)."""
    keys, hosts.FILES = hosts.made(folder), FILES
    for question, shown, wanted in hosts.of_files(draw, folder, keys):
        text, name, port, key = map(bytes_of, question.removeprefix("host-verdict ").split(" , "))
        if wanted != "Unknown" or int(port) == 22:
            yield shown, text, name, int(port), base64.b64decode(key.split()[1]), VERDICTS[wanted]


def check_verdicts(judge, folder, hosts):
    """What a text says of the keys of hosts is what `ssh-keygen -F` finds."""
    cases = list(host_cases(random.Random(hosts.SEED), folder, hosts))
    questions = [f"host-key {word(text)} {word(host)} {word(key)} {word(EMPTY)} {port} 0" for _, text, host, port, key, _ in cases]
    judge.ask("verdicts", questions, [str(judge.number(wanted)) for *_, wanted in cases])
    few = [name for name in VERDICTS.values() if sum(it[-1] == name for it in cases) < FILES // 60]
    judge.check("each verdict is among them", not few, few)


def check_example(count, folder):
    """examples/host.py, over a file in which ssh-keygen hashed the names."""
    hosts = loaded("hosts")
    keys = hosts.made(folder)
    lines = [f"h.example,[h.example]:2222 {keys['ED25519']}", f"other.example {keys['RSA']}"]
    lines.append(f"@revoked h.example {keys['ECDSA']}")
    path = hosts.written(folder, lines)
    run(["ssh-keygen", "-H", "-f", path])
    with open(path, encoding="ascii") as file:
        count.check("ssh-keygen hashed the names", "|1|" in file.read())
    script = os.path.join(EXAMPLES, "host.py")
    given = "".join(f"{key} comment\n" for key in keys.values())
    for host, port, wanted, status in (
        ("H.example", 22, ["trusted", "changed", "revoked"], 1), ("h.example", 2222, ["trusted", "changed", "changed"], 1),
        ("other.example", 22, ["changed", "trusted", "changed"], 1), ("x.example", 22, ["unknown"] * 3, 1),
        ("other.example", 2222, ["changed", "trusted", "changed"], 1), ("h.example", 2200, ["trusted", "changed", "revoked"], 1),
        ("x.example", 2222, ["unknown"] * 3, 1),
    ):  # fmt: skip
        ran = run([sys.executable, script, host, str(port), path], input=given)
        same = ran.stdout.split() == wanted and ran.returncode == status
        count.check(f"host.py says of {host} at {port}", same, ran.stdout, ran.stderr)
    one = run([sys.executable, script, "h.example", "22", path], input=f"{keys['ED25519']}\n")
    trusted = one.returncode == 0 and one.stdout == "trusted\n"
    count.check("and ends with 0 where all is trusted", trusted, one.stdout, one.stderr)
    for name, data, wanted in (
        ("its key", keys["ED25519"], (1, "revoked\n")), ("another key", keys["RSA"], (0, "trusted\n")), ("nothing", "", (0, "trusted\n")),
        ("half a key", keys["RSA"][:40], (2, "")),
    ):  # fmt: skip
        with open(f"{folder}/revoked-hosts", "w", encoding="ascii") as file:
            file.write(data)
        one = run([sys.executable, script, "--revoked", file.name, "h.example", "22", path], input=f"{keys['ED25519']}\n")
        same = (one.returncode, one.stdout) == wanted and bool(one.stderr) == (wanted[0] == 2)
        count.check(f"host.py, and a file revokes {name}", same, one)
    with open(f"{folder}/more-revoked", "w", encoding="ascii") as file:
        file.write(keys["ED25519"])
    given = [f"{folder}/more-revoked", f"{folder}/revoked-hosts", os.devnull]
    for files, wanted in ((given, (2, "")), (given[::2], (1, "revoked\n")), (given[::-2], (1, "revoked\n"))):
        named = [word for it in files for word in ("--revoked", it)]
        one = run([sys.executable, script, *named, "h.example", "22", path], input=f"{keys['ED25519']}\n")
        count.check(f"host.py, and {len(files)} files", (one.returncode, one.stdout) == wanted, one)
    none = run([sys.executable, script, "h.example", "22", path], input="")
    count.check("and with 2 where there is no key", none.returncode == 2 and none.stderr and not none.stdout, none.stdout, none.stderr)


def check_entry_calls(judge):
    lines, hosts, draw = loaded("entry-lines"), loaded("hosts"), random.Random(3)
    check_lines(judge, draw)
    with tempfile.TemporaryDirectory() as folder:
        check_entries(judge, draw, folder, lines)
        check_options(judge, draw, folder, lines)
    with tempfile.TemporaryDirectory() as folder:
        check_verdicts(judge, folder, hosts)
