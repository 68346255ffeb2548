"""What `sshkey-check login` says of keys and certificates, for checks/foreign: by lines of authorized_keys as sshd(8) has it, under
"AUTHORIZED_KEYS FILE FORMAT", and by several files in the order of sshd_config(5)."""
import json
import os
import random

from lib.harness import ssh_keygen

from .checker_answers import is_no_call
from .example_calls import INVALID, UNTOLD, VALID
from .linked import VALGRIND, run
from .made import MIDDLE, WINDOW
from .verdicts import LET_IN

ADDRESS, FUTURE = "192.0.2.7", 'expiry-time="20240201Z"'
PERMITTED = ["any command", "pty", "port forwarding", "agent forwarding", "X11 forwarding", "user rc", "tunnels"]
CERTIFIED = ['Key ID: "id"', "Serial: 7"]
ALICE = ["-n", "alice", "-z", "7", *WINDOW]
COMMAND = [*ALICE, "-O", "force-command=date"]
BY_CA = ["--authorities", "admitting.pub"]
# what stands for the path of the file in what is said
LINES = "@lines"


def permitted(command, permits):
    """What is said of the command and of what else is permitted."""
    permits = [it for it in permits if command is None or it != "any command"]
    told = [] if command is None else [f"Command: {command}"]
    return [*told, f"Permits: {', '.join(permits) or '(nothing)'}"]


def granted(line=1, *more, command=None, permits=PERMITTED):
    """What is said of a login by that line."""
    return [f"Line: {LINES}:{line}", *permitted(command, permits), *more]


def certified(*more, command=None, permits=PERMITTED, serial=7):
    """What is said of one by a certificate alone, which says nothing of tunnels."""
    return [*permitted(command, permits), *more, 'Key ID: "id"', f"Serial: {serial}"]


def printed_with(said, signer, lines=None):
    """What the program prints where that is said of a certificate by the key of that file, or, without one, of a key; with lines, of a login
    by that file."""
    by = [f"Signing CA: {ssh_keygen('-l', '-f', signer, text=True).stdout.split()[1]}"] if signer else []
    return "".join(f"{it}\n" for it in [LET_IN, *(f"        {it.replace(LINES, lines or '')}" for it in [*said, *by])])


# lines of authorized_keys, or with --authorities of principals, the words of the certificate that is shown or None for the key itself, what else is asked, and what is said:
# to what it lets in, or the number of what is wrong, with the line that refuses, or 0 where none does
ROWS = [
    ("a line", "{key}", None, [], granted()),
    ("a line after others", "# a comment\n\n{other}\nrestrict,pty {key}", None, [], granted(4, permits=["any command", "pty"])),
    ("the first of two", 'command="ls -l" {key}\n{key}', None, [], granted(command="ls -l")),
    ("a line that permits nothing", 'restrict,command="" {key}', None, [], granted(command="", permits=[])),
    ("a line for its network", 'from="192.0.2.0/24" {key}', None, [], granted()),
    ("a line for a name", 'from="*.example.org" {key}', None, ["--host", "db.example.org"], granted()),
    ("a line for a name that was not found", 'from="*.example.org" {key}', None, [], (93, 1)),
    ("a line for another network", '\nfrom="10.0.0.0/8" {key}', None, [], (93, 2)),
    ("one after that", 'from="10.0.0.0/8" {key}\n{key}', None, [], granted(2)),
    ("a line until a second", f"{FUTURE} {{key}}", None, [], granted(1, "Valid until: 2024-02-01T00:00:00")),
    ("a line that is over", f"{FUTURE} {{key}}", None, ["--at", "20240202Z"], (91, 1)),
    ("a line that may be over", 'expiry-time="20240201" {key}', None, ["--at", "20240201Z"], (96, 1)),
    ("ports", 'permitopen="h:80",permitopen="[::1]:*",permitlisten="8080" {key}', None, [],
     granted(1, "Forwards to: h:80", "Forwards to: [::1]:*", "Listens at: *:8080")),
    ("a device", 'tunnel="1" {key}', None, [], granted(1, "Tunnel: 1")),
    ("any device", 'tunnel="any" {key}', None, [], granted(1, "Tunnel: any")),
    ("a variable", 'environment="A=\\"b\x1b" {key}', None, [], granted(1, 'Environment: A="b\\033')),
    ("a security key", "no-touch-required,verify-required {key}", None, [], granted(1, "Touch: not required", "Verification: required")),
    ("nobody's line", "{other}", None, [], (90, 0)), ("an authority's line", "cert-authority {key}", None, [], (90, 0)),
    ("an option that sshd does not read", '{other}\ncomand="ls" {key}', None, [], (90, 2, "comand")),
    ("such an option after others", 'restrict,command="a b,c",no-such="x",pty {key}', None, [], (90, 1, "no-such")),
    ("such a value", 'pty,expiry-time="soon" {key}\nunknown {key}', None, [], (90, 1, "expiry-time")),
    ("two commands", 'command="a",command="b" {key}', None, [], (90, 1, 'command="a",command="b"')),
    ("an authority's line with such an option", "cert-authority,x {key}", None, [], (90, 0)), ("such another's line", "x {other}", None, [], (90, 0)),
    ("an authority's option that sshd does not read", "{other}\ncert-authority,comand {authority}", ALICE, [], (90, 2, "comand")),
    ("an authority's line without cert-authority", "restrict {authority}", ALICE, [], (90, 0)),
    ("principals in vain", 'principals="alice" {key}', None, [], (92, 1)),
    ("a revoked key", "{key}", None, ["--revoked", "revoked"], (56, 0)),
    ("a certificate", "cert-authority {authority}", ALICE, [], granted(1, *CERTIFIED)),
    ("a certificate with a command", "cert-authority {authority}", COMMAND, [], granted(1, *CERTIFIED, command="date")),
    ("another command", 'cert-authority,command="ls" {authority}', COMMAND, [], (94, 1)),
    ("what both permit", "cert-authority,no-pty {authority}", [*ALICE, "-O", "no-user-rc"], [],
     granted(1, *CERTIFIED, permits=[it for it in PERMITTED if it not in ("pty", "user rc")])),
    ("its own line", "{key}", ALICE, [], (90, 0)),
    ("a line that names another", 'cert-authority,principals="bob" {authority}', ALICE, [], (95, 1)),
    ("a certificate that is over", "cert-authority {authority}", ALICE, ["--at", "20240202Z"], (33, 0)),
    ("a certificate for elsewhere", "cert-authority {authority}", [*ALICE, "-O", "source-address=10.0.0.0/8"], [], (57, 0)),
    ("a principal", "alice", ALICE, BY_CA, granted(1, *CERTIFIED)),
    ("a principal with options", "bob\nno-pty alice # x", ALICE, BY_CA,
     granted(2, *CERTIFIED, permits=[it for it in PERMITTED if it != "pty"])),
    ("a principal for another network", 'bob\nfrom="10.0.0.0/8" alice\nalice', ALICE, BY_CA, (93, 2)),
    ("a principal that can't be told", 'from="*," alice\nalice', ALICE, BY_CA, (96, 1)), ("no principal", "bob", ALICE, BY_CA, (90, 0)),
    ("a principal that is over", "alice", [*ALICE[:-1], "20230101000000:20230201000000"], BY_CA, (33, 0)),
    ("a principal of another authority", "alice", ALICE, ["--authorities", "entering.pub"], (90, 0)),
    ("a principal with a key", "alice", None, BY_CA, (90, 0)),
]  # fmt: skip


# the words of a certificate, what else is asked, and what is said with --ca and --user: to what it lets in, or what is wrong
SOURCE = [*ALICE, "-O", "source-address=10.0.0.0/8,192.0.2.0/25"]
BY_AUTHORITY = [
    ("as it is", ALICE, [], certified()), ("from anywhere", ALICE, ["--from", ADDRESS], certified()),
    ("with a command", COMMAND, [], certified(command="date")),
    ("that permits nothing", [*COMMAND, "-O", "clear"], [], certified(command="date", permits=["tunnels"])),
    ("with a terminal alone", [*ALICE, "-O", "clear", "-O", "permit-pty"], [], certified(permits=["any command", "pty", "tunnels"])),
    ("for a security key", [*ALICE, "-O", "no-touch-required", "-O", "verify-required"], [],
     certified("Touch: not required", "Verification: required")),
    ("for elsewhere", SOURCE, ["--from", "192.0.2.128"], 57), ("for a network", SOURCE, ["--from", "192.0.2.127"], certified()),
    ("for a network, by an IPv6 socket", SOURCE, ["--from", "::ffff:10.1.2.3"], certified()),
    ("for a network, from no address", SOURCE, [], 57), ("for a network, over", SOURCE, ["--at", "20240202Z"], 33),
]  # fmt: skip


def check_by_authority(count, programs, maker):
    """What the program says with --ca and --user of a certificate, and to what it lets in."""
    ca = maker.path("admitting.pub")
    for name, words, more, wanted in BY_AUTHORITY:
        maker.certificate("admitting", "entering", *words)
        at, path = [] if "--at" in more else ["--at", str(MIDDLE)], maker.path("entering-cert.pub")
        is_valid = isinstance(wanted, list)
        printed = printed_with(wanted, ca) if is_valid else "refused\n"
        for program in programs:
            ran = run([program, "--ca", ca, "--user", "alice", *at, *more, path])
            said = ran.stderr == "" if is_valid else ran.stderr.startswith(f"sshkey-check: {path}:1: ") and ran.stderr.endswith(f" ({wanted})\n")
            same = (ran.returncode, ran.stdout) == (VALID if is_valid else INVALID, printed) and said
            count.check(f"sshkey-check --ca of a certificate {name}", same, ran, printed)


def asked_of(maker, lines, words, more):
    """The words for the program, after `login`."""
    keys = {"key": maker.read("entering.pub"), "other": maker.read("other-entering.pub"), "authority": maker.read("admitting.pub")}
    if words is not None:
        maker.certificate("admitting", "entering", *words)
    shown = maker.path("entering.pub" if words is None else "entering-cert.pub")
    more = [maker.path(it) if it == "revoked" or it.endswith(".pub") else it for it in more]
    at = [] if "--at" in more else ["--at", str(MIDDLE)]
    by = "--principals" if "--authorities" in more else "--authorized-keys"
    return ["alice", shown, by, maker.write("authorized_keys", lines.format(**keys) + "\n"), "--from", ADDRESS, *at, *more]


def check_rows(count, programs, maker):
    for name, lines, words, more, wanted in ROWS:
        asked = asked_of(maker, lines, words, more)
        told = ""
        if isinstance(wanted, list):
            printed = printed_with(wanted, None if words is None else maker.path("admitting.pub"), asked[3])
        else:
            number, line, *option = wanted
            printed, told = "refused\n", f"sshkey-check: {f'{asked[3]}:{line}' if line else f'{asked[1]}:1'}: "
            told += f"it has the key, and an option that sshd does not read: {option[0]} (90)" if option else ""
        for program in programs:
            ran = run([program, "login", *asked], env={**os.environ, "TZ": "UTC"})
            same = ran.stdout == printed and ran.returncode == (INVALID if told else VALID) and ran.stderr.startswith(told)
            same = same and (ran.stderr.endswith(f" ({number})\n") and ran.stderr.count("\n") == 1 if told else not ran.stderr)
            count.check(f"sshkey-check login by {name}", same, ran, printed, told)


def check_hostile_lines(count, programs, maker):
    """Files of any bytes let nobody in, and make it read nothing that is not theirs."""
    draw, key = random.Random(82), maker.read("other-entering.pub").encode()
    asked = asked_of(maker, "", None, [])
    files = [b"", b"\0", b'from="', b'command="\\', b"\xff " + key, *(draw.randbytes(it * it) for it in range(20))]
    for program in (programs[1:], [*VALGRIND, programs[0]]):
        wrong = []
        for content in files:
            with open(asked[3], "wb") as file:
                file.write(content)
            ran = run([*program, "login", *asked])
            is_sound = (ran.returncode, ran.stdout, ran.stderr.count("\n")) == (INVALID, "refused\n", 1 if content else 2)
            wrong += [] if is_sound else [(content, ran)]
        count.check(f"sshkey-check login by {len(files)} files of any bytes", not wrong, *wrong[:2])


# several files: options with what the files hold, `none` for one that is not there and `folder` for one that can't be read, the words of the
# certificate that is shown or None for the key, and what is said: the source with the number of the file and of the line, or what is wrong
CA, KEY, OTHER, HERE, THERE = "cert-authority {authority}", "{key}", "{other}", 'from="192.0.2.0/24"', 'from="10.0.0.0/8"'
UNCLEAR = 'expiry-time="20240116" {key}'
SOURCES = [
    ("the second of two files", None, [("authorized-keys", OTHER), ("authorized-keys", KEY)], ("authorized_keys", 1, 1)),
    ("the first of two that let in", None, [("authorized-keys", "restrict {key}"), ("authorized-keys", KEY)], ("authorized_keys", 0, 1)),
    ("a file after one that refuses", None, [("authorized-keys", f"{THERE} {KEY}"), ("authorized-keys", KEY)], ("authorized_keys", 1, 1)),
    ("two files that refuse", None, [("authorized-keys", f"{OTHER}\n{THERE} {KEY}"), ("authorized-keys", f'expiry-time="20200101Z" {KEY}')], (93, 0, 2)),
    ("a line of a command that refuses, after others", None, [("command-keys", f"{THERE} {KEY}"), ("authorized-keys", OTHER)], (93, 0, 1)),
    ("a file after one that is not there", None, [("authorized-keys", "none"), ("authorized-keys", KEY)], ("authorized_keys", 1, 1)),
    ("a file before one that can't be read", None, [("authorized-keys", KEY), ("authorized-keys", "folder")], ("authorized_keys", 0, 1)),
    ("a file after one that can't be read", None, [("authorized-keys", "folder"), ("authorized-keys", KEY)], 98),
    ("a file after a line that can't be told", None, [("authorized-keys", UNCLEAR), ("authorized-keys", KEY)], (96, 0, 1)),
    ("what a command wrote", None, [("command-keys", f"{OTHER}\n{KEY}"), ("authorized-keys", OTHER)], ("command", 0, 2)),
    ("a file before what a command wrote", None, [("command-keys", KEY), ("authorized-keys", KEY)], ("authorized_keys", 1, 1)),
    ("no file of a command", None, [("command-keys", "none")], 98),
    ("a key, by authorities", None, [("authorities", "{authority}")], (90,)),
    ("an authority", ALICE, [("authorities", "{authority}")], ("authority",)),
    ("a line before an authority", ALICE, [("authorities", "{authority}"), ("authorized-keys", CA)], ("authorized_keys", 1, 1)),
    ("an authority after a line that refuses", ALICE, [("authorized-keys", f"{THERE},{CA}"), ("authorities", "{authority}")], ("authority",)),
    ("an authority before what a command wrote", ALICE, [("command-keys", CA), ("authorities", "{authority}")], ("authority",)),
    ("another authority before what a command wrote", ALICE, [("command-keys", CA), ("authorities", OTHER)], ("command", 0, 1)),
    ("another user's certificate", ["-n", "bob", *WINDOW], [("authorities", "{authority}")], (90,)),
    ("principals in the second file", ["-n", "bob", *WINDOW], [("authorities", "{authority}"), ("principals", "eve"), ("principals", "x\nbob")],
     ("principals", 2, 2)),
    ("principals that refuse, before others", ALICE, [("authorities", "{authority}"), ("principals", f"{THERE} alice"), ("principals", "alice")],
     (93, 1, 1)),
    ("principals that refuse, before what a command wrote", ALICE,
     [("authorities", "{authority}"), ("principals", f"{THERE} alice"), ("command-keys", CA)], ("command", 2, 1)),
    ("no file of principals", ALICE, [("authorities", "{authority}"), ("principals", "none")], (90,)),
    ("an authority of the user", ALICE, [("user-authorities", "bob {other}\nbob,alice {authority}")], ("authority",)),
    ("an authority of another user", ALICE, [("user-authorities", "alice {other}\nbob {authority}")], (90,)),
    ("a line before that of another user", ALICE, [("user-authorities", "alice {other}\nbob {authority}"), ("authorized-keys", f"{HERE},{CA}")], ("authorized_keys", 1, 1)),
]  # fmt: skip


def check_sources(count, programs, maker):
    """What is asked first, and which file and which line are named."""
    keys = {"key": maker.read("entering.pub"), "other": maker.read("other-entering.pub"), "authority": maker.read("admitting.pub")}
    special = {"none": maker.path("none"), "folder": maker.folder}
    for name, words, files, wanted in SOURCES:
        if words is not None:
            maker.certificate("admitting", "entering", *words)
        shown = maker.path("entering.pub" if words is None else "entering-cert.pub")
        paths = [special.get(it) or maker.write(f"source{at}", f"{it.format(**keys)}\n") for at, (_, it) in enumerate(files)]
        asked = ["alice", shown, "--from", ADDRESS, "--at", str(MIDDLE)]
        asked += [it for (option, _), path in zip(files, paths) for it in (f"--{option}", path)]
        # what is not there, or can't be read, is told beside the answer
        notes = [f"sshkey-check: {path}: " for (_, it), path in zip(files, paths) if it in special]
        source, *where = wanted if isinstance(wanted, tuple) else (wanted,)
        for program in programs:
            ran = run([program, "login", "--json", *asked])
            told = [it for it in ran.stderr.splitlines() if not any(it.startswith(note) and not it.endswith(")") for note in notes)]
            (found,) = map(json.loads, ran.stdout.splitlines()) if ran.stdout else ({},)
            by = (found.get("source"), *((paths.index(found["by_file"]), found["by_line"]) if "by_file" in found else ()))
            if wanted == 98:
                same = (ran.returncode, ran.stdout, len(told)) == (UNTOLD, "", 1) and told[0].startswith(notes[0]) and told[0].endswith(" (98)")
            elif isinstance(source, str):
                same = (ran.returncode, by, told) == (VALID, wanted, [])
            else:
                same = (ran.returncode, found["status"], by[1:], len(told)) == (INVALID, source, tuple(where), 1)
            count.check(f"sshkey-check login by {name}", same, ran, wanted)


def check_login_words(count, program, maker):
    user, key, by, lines, *rest = asked_of(maker, "{key}", None, [])
    where, ca, none = rest[:2], maker.path("admitting.pub"), maker.path("none")
    good = [user, key, by, lines, *where]
    for words in (
        [], [user], [user, by, lines], [user, key], [user, key, *where], [user, key, key, by, lines], [*good, *where], [lines, *good],
        *([*good, *more] for more in (["--user", user], ["--port", "22"], ["--keys", key], ["--ca", ca], ["--principals", lines],
          ["--authorities", ca, "--user-authorities", ca], ["--user-authorities", ca, "--principals", lines], ["--authorities", ca, "--authorities", ca],
          ["--command-keys", lines, "--command-keys", lines])),
    ):  # fmt: skip
        ran = run([program, "login", *words], input="")
        count.check(f"sshkey-check login {' '.join(map(os.path.basename, words))} is no call", is_no_call(ran), ran)
    for words in (
        [user, none, by, lines], [user, maker.write("empty", ""), by, lines], [user, key, by, lines, "--from", "192.0.2"],
        [user, key, by, lines, "--from", "::1%lo"], [*good, "--revoked", none], [*good, "--authorities", none], [*good, "--user-authorities", none],
        [*good, "--user-authorities", maker.write("no-key", "alice ssh-ed25519 AAAA\n")],
    ):  # fmt: skip
        ran = run([program, "login", *words], input="")
        same = (ran.returncode, ran.stdout, ran.stderr.count("\n")) == (UNTOLD, "", 1)
        count.check(f"sshkey-check login can't tell: {' '.join(map(os.path.basename, words))}", same, ran)


def check_login_checker(count, programs, maker):
    for name in ("entering", "other-entering", "admitting"):
        maker.key(name, "ed25519")
    maker.write("revoked", maker.read("entering.pub") + "\n")
    check_rows(count, programs, maker)
    check_sources(count, programs, maker)
    check_by_authority(count, programs, maker)
    check_hostile_lines(count, programs, maker)
    check_login_words(count, programs[0], maker)
