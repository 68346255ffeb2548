"""Whom authorized_keys and files of principals let in, and to what: the library's verdict, with a verifier of each language between its
two calls. What is wanted of a part of the questions of checks/user-keys is what OpenSSH's own code answered to them; of the others, and
which number a refusal has, it follows from sshd(8)."""
import base64
import ipaddress
from dataclasses import replace

from lib.harness import blob_of, string

from .forwards import LISTENED, OPENED, RUN
from .linked import word
from .login_calls import INSIDE, OUTSIDE, Certificates
from .made import loaded
from .publickey import AUTHORITY, COMMAND, FOREVER, KEYS, PRINCIPALS, TRANSPORT, UNREADABLE, Granted, Login, refused, refused_by
from .user_key_verdicts import stored, verdict

# of how many stored questions a package is asked one
SAMPLED = 10
# an option that is no UTF-8
OF_NONE = b'command="caf\xe9" '
# what the program of checks/user-keys answers to a refusal by a line
WHY = {91: "expired", 92: "authority", 93: "elsewhere", 94: "command", 95: "principals"}
# the letters by which it shows what is permitted, in its order
MAY = {"p": 2, "a": 4, "x": 8, "t": 1, "r": 16}
TUNNELS, ANY_TUNNEL, NO_TOUCH, NO_VERIFICATION, ANY_COMMAND = 256, 512, 64, 128, 32
# what a line without options permits, and what restrict leaves
ALL, RESTRICTED = 1023 - NO_TOUCH, 1023 - NO_TOUCH - 31 - TUNNELS - ANY_TUNNEL


# ---- what OpenSSH answers


def taken(data):
    """The first string of the bytes, and what follows it."""
    length = int.from_bytes(data[:4], "big")
    return data[4 : 4 + length], data[4 + length :]


def asked_of(rafendilo, it):
    """The login of a stored question: by one text of authorized_keys, or by an authority and one of principals."""
    if it.by == "principals":
        trusted = {"authorities": rafendilo.fingerprint(blob_of(it.authority)), "principals": (it.text,)}
    else:
        trusted = {"keys": (it.text,)}
    address = ipaddress.ip_address(it.address).packed
    placed = {"client": address, "host": (it.host or "").encode(), "second": it.second}
    return Login(blob_of(it.offered), it.user.encode(), revoked=(it.revoked.encode(),), **trusted, **placed)


def strings_in(part):
    found = []
    while part:
        one, part = taken(part)
        found.append(one)
    return found


def bytes_in(part):
    return b"" if part == "-" else bytes.fromhex(part)


def places(part):
    found = strings_in(bytes_in(part))
    return ",".join(f"{host.hex()}/{int.from_bytes(port, 'big') if port else '*'}" for host, port in zip(found[::2], found[1::2]))


def as_shown(answer, is_of_certificate):
    """The answer as the program of checks/user-keys shows it."""
    number, _, _, _, line, *fields = answer.split(" ")
    if number != "0":
        number = int(number)
        if number in WHY:
            return f"no: not allowed by line {line}, {WHY[number]}"
        named = {90: "not listed", 96: f"line {line} cannot be told", 59: "unaccepted key", 56: "revoked"}
        return f"no: {named.get(number, f'certificate, {number}')}"
    command, key_id, opened, listened, environment, serial, first, last, authority, _, permits, tunnel = fields
    permits = int(permits)
    fields = {
        "command": "" if permits & ANY_COMMAND else f"x{bytes_in(command).hex()}", "tunnels": "yes" if permits & TUNNELS else "no",
        "may": "".join(letter for letter, bit in MAY.items() if permits & bit), "open": places(opened), "listen": places(listened),
        "environment": ",".join(it.hex() for it in strings_in(bytes_in(environment))), "tunnel": "" if permits & ANY_TUNNEL else tunnel,
        "asks": "t" * (not permits & NO_TOUCH) + "v" * (not permits & NO_VERIFICATION), "until": "" if int(first) == FOREVER else f"{first}-{last}",
    }  # fmt: skip
    if is_of_certificate:
        digest = base64.b64encode(bytes_in(authority)).decode().rstrip("=")
        fields.update(serial=serial, id=bytes_in(key_id).hex(), authority=f"SHA256:{digest}")
    return " ".join([line, *(f"{name}={value}" for name, value in fields.items())])


def told(answer, ours):
    """Of an answer what the library tells: no place where forwarding is forbidden, nor that it is anywhere; and no device where `ours`,
    the library's own answer, says that there are no tunnels."""
    if " may=" not in answer:
        return answer
    line, *fields = answer.split(" ")
    given = dict(it.split("=", 1) for it in fields)
    given.update({it: "" for it in ("open", "listen") if "p" not in given["may"] or given[it] == "2a/*"})
    if " tunnels=no " in ours:
        given["tunnel"] = ""
    return " ".join([line, *(f"{name}={value}" for name, value in given.items())])


def check_stored(judge):
    """Nobody is let in whom a version of OpenSSH refuses, and where somebody is, the login is bound as each binds it."""
    rows = stored()[:: SAMPLED if judge.asker.is_package else 1]
    said = judge.ask("stored logins by authorized_keys and by principals", [asked_of(judge.made.rafendilo, it).words() for it, _ in rows])
    shown = [as_shown(answer, it.is_of_certificate()) for (it, _), answer in zip(rows, said)]
    rows = [(it, [told(each, answer) for each in theirs]) for (it, theirs), answer in zip(rows, shown)]
    shown = [told(answer, answer) for answer in shown]
    if not judge.asker.is_package:
        # as the program is judged that is asked all of them
        loaded("user-keys").judge(rows)("".join(f"{it}\n" for it in shown), judge.count)
    for number, ((it, theirs), answer) in enumerate(zip(rows, shown)):
        name, holds = verdict(it, theirs, answer)
        if not holds:
            judge.check(f"stored login {number}: {name}", False, it.text[:300], answer, *theirs)
    for by, part in (("line", 4), ("principals", 10)):
        answers = [answer for (it, _), answer in zip(rows, said) if it.by == by]
        let_in = sum(it.startswith("0 ") for it in answers)
        judge.check(f"of {len(answers)} stored logins by {by} {let_in} are let in, bound alike", let_in * part > len(answers) > 40, let_in)


# ---- numbers


def granted(key, line, permits=ALL, command=b"", **more):
    """What is wanted of a plain key that a line of the first text lets in."""
    return Granted(permits, key, source=KEYS, line=line, command=command, **more).words()


class Lines:
    """Lines of the own key, of another and of an authority, and a certificate of the own key by that."""

    def __init__(self, maker):
        self.certificates = Certificates(maker)
        self.own, self.other, self.by = (maker.read(f"{it}.pub").encode() + b"\n" for it in ("user0", "user1", "authority0"))
        self.key, self.made = self.certificates.held, self.certificates.made("-n", "alice", "-z", "5")
        self.good = Login(self.key, client=INSIDE, keys=(self.own,))
        self.shown = replace(self.good, blob=self.made.blob, keys=(b"cert-authority " + self.by,))

    def line(self, options, key=None):
        return options + b" " + (key or self.own)

    def certified(self, permits=ALL, source=KEYS, line=1, **more):
        """What is wanted of the certificate; the serial number and the key id are those of ssh-keygen's words."""
        named = {"serial": 5, "key_id": b"id", **more}
        return Granted(permits, self.key, source, line=line, authority=self.made.authorities, asked=1, **named).words()


def by_lines(of):
    """Names, texts, and what is wanted of the key."""
    line, own, other, key = of.line, of.own, of.other, of.key

    def let_in(*given, **more):
        return granted(key, *given, **more)

    yield from (
        ("alone", own, let_in(1)), ("after another", other + own, let_in(2)), ("after a comment", b"# x\n\n" + own, let_in(3)),
        ("with a command", line(b'command="ls -l"'), let_in(1, ALL - ANY_COMMAND, b"ls -l")),
        ("with an empty command", line(b'command=""'), let_in(1, ALL - ANY_COMMAND)),
        ("restricted", line(b"restrict"), let_in(1, RESTRICTED, opened=(), listened=())),
        ("restricted, with places", line(b'restrict,permitopen="h:80",permitlisten="80",tunnel="0"'), let_in(1, RESTRICTED, opened=(), listened=())),
        ("restricted, with a terminal", line(b"restrict,pty"), let_in(1, RESTRICTED + 1, opened=(), listened=())),
        ("with places", line(b'permitopen="h:80",permitopen="[::1]:*",permitlisten="8080"'),
         let_in(1, ALL, opened=(b"h", b"\0P", b"::1", b""), listened=(b"*", b"\x1f\x90"))),
        ("with variables", line(b'environment="A=b",environment="C=d e"'), let_in(1, environment=(b"A=b", b"C=d e"))),
        ("with a tunnel", line(b'tunnel="7"'), let_in(1, ALL - ANY_TUNNEL, tunnel=7)),
        ("with any tunnel", line(b'tunnel="any"'), let_in(1, ALL - ANY_TUNNEL, tunnel=0x7FFFFFFF)),
        ("without a touch, for a verified user", line(b"no-touch-required,verify-required"), let_in(1, ALL + NO_TOUCH - NO_VERIFICATION)),
        ("until later", line(b'expiry-time="20990101000000Z"'), let_in(1, expires=4070908800)),
        ("for others", other, refused(90)), ("nowhere", b"", refused(90)), ("as an authority's", line(b"cert-authority"), refused(90)),
        ("with an option that is none", line(b"odd"), refused(90)), ("with an option that is none, and again", line(b"odd") + own, let_in(2)),
        ("that is over", line(b'expiry-time="20010101Z"'), refused_by(91, source=KEYS, line=1)),
        ("with principals", other + line(b'principals="alice"'), refused_by(92, source=KEYS, line=2)),
        ("for other places", line(b'from="198.51.100.7"'), refused_by(93, source=KEYS, line=1)), ("for here", line(b'from="192.0.2.0/24"'), let_in(1)),
        ("that is over, and one for other places", line(b'expiry-time="20010101Z"') + line(b'from="198.51.100.7"'), refused_by(91, source=KEYS, line=1)),
        ("for other places, and again", line(b'from="198.51.100.7"') + own, let_in(2)),
        ("with a list that is none", line(b'from="*,"'), refused(96, source=KEYS, line=1)),
        ("with a list that is none, and again", line(b'from="*,"') + own, refused(96, source=KEYS, line=1)),
        ("with white space in it", own.replace(b"AAAAC3", b"AAAA\rC3"), refused(96, source=KEYS, line=1)),
        ("in a line that is no UTF-8", OF_NONE + own, refused(96, source=KEYS, line=1)), ("after another that is none", OF_NONE + other + own, let_in(2)),
        ("after a comment that is none", b"# \xe9 " + own + own, let_in(2)), ("before a line that is none", own + OF_NONE + own, let_in(1)),
    )  # fmt: skip


def by_places(of):
    """Names, what is changed of the login of the key, and what is wanted."""
    of_host, here = of.line(b'from="*.example.com"'), of.line(b'from="192.0.2.7"')
    yield from (
        ("by a host's name", {"keys": (of_host,), "host": b"a.example.com"}, granted(of.key, 1)), ("by none", {"keys": (of_host,)}, refused_by(93, source=KEYS, line=1)),
        ("from nowhere", {"keys": (here,), "client": b""}, refused(96, source=KEYS, line=1)),
        ("from elsewhere", {"keys": (here,), "client": OUTSIDE}, refused_by(93, source=KEYS, line=1)),
        ("revoked", {"revoked": (of.own,)}, refused(56)), ("revoked, by no line", {"revoked": (of.own,), "keys": ()}, refused(56)),
        ("by a file that is none", {"revoked": (b"x",)}, refused(58)), ("without a file", {"revoked": ()}, refused(58)),
        ("no key", {"blob": of.key[:-1]}, refused(13)), ("a user that is no text", {"user": b"\xff"}, refused(4)), ("a host that is none", {"host": b"\xff"}, refused(4)),
        ("its algorithm", {"algorithm": b"ssh-ed25519"}, granted(of.key, 1)), ("that of certificates of it", {"algorithm": b"ssh-ed25519-cert-v01@openssh.com"}, refused(81)),
        ("by a transport", {"how": TRANSPORT}, granted(of.key, 1)),
    )  # fmt: skip


def by_authorities(of, maker):
    """The same of a login by the certificate."""
    line, by, shown, other = of.line, of.by, of.shown, of.other
    yield from (
        ("by its authority", {}, of.certified()), ("by the key's own line", {"keys": (of.own,)}, refused(90)), ("by a line of no authority", {"keys": (by,)}, refused(90)),
        ("for another", {"user": b"bob"}, refused_by(95, source=KEYS, line=1)),
        ("for a name of the line", {"user": b"bob", "keys": (line(b'cert-authority,principals="x,alice"', by),)}, of.certified()),
        ("for none of the line", {"keys": (line(b'cert-authority,principals="x"', by),)}, refused_by(95, source=KEYS, line=1)),
        ("turned", {"blob": shown.blob[:-1] + bytes([shown.blob[-1] ^ 1])}, refused(30, 1)), ("too early", {"second": 0}, refused(33)),
        ("revoked", {"revoked": (of.own,)}, refused(56)), ("by a file that is none", {"revoked": (b"x",)}, refused(58)),
        ("restricted", {"keys": (line(b"cert-authority,restrict", by),)}, of.certified(RESTRICTED, opened=(), listened=())),
        ("by another authority's line", {"keys": (line(b"cert-authority", other),)}, refused(90)),
    )  # fmt: skip
    bound = of.certificates.made("-n", "alice", "-z", "5", "-O", "source-address=192.0.2.0/24").blob
    in_files = {"keys": (), "authorities": of.made.authorities, "principals": (b"alice\n",)}
    for source, trusted in ((KEYS, {}), (PRINCIPALS, in_files)):
        for name, changes, wanted in (
            ("from here", {"blob": bound}, of.certified(source=source)), ("from elsewhere", {"blob": bound, "client": OUTSIDE}, refused(57)),
            ("from nowhere", {"blob": bound, "client": b""}, refused(57)), ("from anywhere", {"client": b""}, of.certified(source=source)),
            # where nobody but sshd has seen the signature no address is left to the caller
            ("which the caller checks", {"blob": bound, "checks": 1}, of.certified(source=source)),
            ("which the caller checks, by a transport", {"blob": bound, "checks": 1, "how": TRANSPORT}, refused(57)),
        ):  # fmt: skip
            yield f"by source {source}, {name}", {**trusted, **changes}, wanted
    forced = of.certificates.made("-n", "alice", "-O", "force-command=ls").blob
    yield "with a command, and another in the line", {"blob": forced, "keys": (line(b'cert-authority,command="id"', by),)}, refused_by(94, source=KEYS, line=1)
    yield "with a command", {"blob": forced}, of.certified(ALL - ANY_COMMAND, command=b"ls", serial=0)


def by_sources(of):
    """Names, logins, and what is wanted where several sources are trusted, of which the first that lets in decides."""
    own, by, key = of.own, of.by, of.key
    over, elsewhere, untold = (of.line(it) for it in (b'expiry-time="20010101Z"', b'from="198.51.100.7"', b'from="*,"'))
    for name, keys, command, wanted in (
        ("the second text", (of.other, b"no-pty " + own), (), Granted(ALL - 1, key, KEYS, text=1, line=1).words()),
        ("the first of two that do", (own, b"no-pty " + own), (), granted(key, 1)),
        ("a command's", (), (own,), Granted(ALL, key, COMMAND, line=1).words()), ("a file, and not the command", (own,), (over,), granted(key, 1)),
        ("the second of a command's", (of.other,), (b"", b"# x\n" + own), Granted(ALL, key, COMMAND, text=1, line=2).words()),
        ("a command's, after a line that refuses", (over,), (own,), Granted(ALL, key, COMMAND, line=1).words()),
        ("two lines that refuse", (of.other, b"\n" + over), (elsewhere,), refused_by(91, source=KEYS, text=1, line=2)),
        ("a command's line that refuses", (of.other,), (b"", elsewhere), refused_by(93, source=COMMAND, text=1, line=1)),
        ("a line that cannot be told, and again", (of.other, untold, own), (own,), refused(96, source=KEYS, text=1, line=1)),
        ("a line that refuses, and one that cannot be told", (over, untold), (), refused(96, source=KEYS, text=1, line=1)),
        ("a command's that cannot be told", (of.other,), (untold,), refused(96, source=COMMAND, line=1)),
        ("a text that could not be read", (UNREADABLE,), (own,), refused(98, source=KEYS)),
        ("one after it", (UNREADABLE, own), (), refused(98, source=KEYS)), ("one before it", (own, UNREADABLE), (UNREADABLE,), granted(key, 1)),
        ("the second could not be read", (over, UNREADABLE, own), (), refused(98, source=KEYS, text=1)),
        ("a command's could not be read", (of.other,), (UNREADABLE,), refused(98, source=COMMAND)),
        ("files that are not there", (b"", b""), (b"",), refused(90)),
    ):  # fmt: skip
        yield f"a key by several: {name}", replace(of.good, keys=keys, command=command), wanted
    shown, signs = replace(of.shown, keys=()), of.made.authorities
    line, alone = b"cert-authority,no-pty " + by, of.certified(source=AUTHORITY, line=0)
    for name, changes, wanted in (
        ("by its authority alone", {"authorities": signs}, alone), ("by a line before it", {"authorities": signs, "keys": (line,)}, of.certified(ALL - 1)),
        ("by it, after the key's own line", {"authorities": signs, "keys": (own,)}, alone),
        ("by it, after a line that refuses", {"authorities": signs, "keys": (b'cert-authority,principals="x" ' + by,)}, alone),
        ("by it, and not by the command", {"authorities": signs, "command": (line,)}, alone),
        ("by the command, of another user's", {"authorities": signs, "user": b"bob", "command": (b'principals="alice",' + line,)},
         of.certified(ALL - 1, source=COMMAND)),
        ("by a text of principals", {"authorities": signs, "principals": (b"# x\nno-pty alice\n",)}, of.certified(ALL - 1, source=PRINCIPALS, line=2)),
        ("by the second of them, of another user's", {"user": b"bob", "authorities": signs, "principals": (b"eve\n", b"alice\n")},
         of.certified(source=PRINCIPALS, text=1)),
        ("by a line that refuses, before another text", {"authorities": signs, "principals": (b'from="198.51.100.7" alice\n', b"alice\n")},
         refused_by(93, source=PRINCIPALS, line=1)),
        ("by the command, after a principal's line that refuses",
         {"authorities": signs, "principals": (b'from="198.51.100.7" alice\n',), "command": (line,)}, of.certified(ALL - 1, source=COMMAND)),
        ("with both options in a principal's line", {"authorities": signs, "principals": (b"cert-authority alice\n",)}, refused_by(92, source=PRINCIPALS, line=1)),
        ("that is over for a principal", {"authorities": signs, "principals": (b"eve\n", b'expiry-time="20010101Z" alice\n')}, refused_by(91, source=PRINCIPALS, text=1, line=1)),
        ("by principals, of which none is the user's", {"authorities": signs, "principals": (b"eve\n",)}, refused(90)),
        ("by principals, without a text", {"authorities": signs, "principals": ()}, refused(90)),
        ("by principals that could not be read", {"authorities": signs, "principals": (UNREADABLE, b"alice\n")}, refused(98, source=PRINCIPALS)),
        ("by principals, and no authority", {"principals": (b"alice\n",)}, refused(90)),
        ("by principals that could not be read, and no authority", {"principals": (UNREADABLE,)}, refused(90)),
        ("by principals that cannot be told", {"authorities": signs, "principals": (b'from="*," alice\n', b"alice\n"), "command": (line,)},
         refused(96, source=PRINCIPALS, line=1)),
        ("revoked, by nobody", {"revoked": (own,)}, refused(90)), ("revoked, by its authority", {"authorities": signs, "revoked": (own,)}, refused(56)),
        ("by nobody, and without a file", {"revoked": ()}, refused(90)),
    ):  # fmt: skip
        yield f"a certificate by several: {name}", replace(shown, **changes), wanted


def cases(maker):
    """Names, logins, and what is wanted: the number of a refusal and its line, or the grant."""
    of = Lines(maker)
    yield from ((f"a key {name}", replace(of.good, keys=(text,)), wanted) for name, text, wanted in by_lines(of))
    yield from ((f"a key, {name}", replace(of.good, **changes), wanted) for name, changes, wanted in by_places(of))
    yield from ((f"a certificate {name}", replace(of.shown, **changes), wanted) for name, changes, wanted in by_authorities(of, maker))
    yield from by_sources(of)


def check_forwarded(judge):
    """What a grant lets be forwarded is what a real sshd does, of which checks/logins asks it."""
    of = Lines(judge.made.maker)
    for at, name, rows in ((1, "opened", OPENED), (2, "listened at", LISTENED)):
        # no port is above 65,535, and no host is other bytes than a text's
        rows = [*rows, *(("", "h", port, port == 65535) for port in (65535, 65536, 65536 + 80)), ("", b"\xff", 80, False)]
        asked = [(options, host if isinstance(host, bytes) else host.encode(), port) for options, host, port, _ in rows]
        questions = [replace(of.good, keys=(f"{options} ".lstrip().encode() + of.own,)).words("forwards", word(host), str(port)) for options, host, port in asked]
        said = judge.ask(f"ports that are {name}", questions)
        for (options, host, port, wanted), answer in zip(rows, said):
            fields = answer.split(" ")
            same = len(fields) == 3 and (fields[0], fields[at]) == ("0", str(int(wanted)))
            judge.check(f"{name}: {host or 'no host'}, port {port}, by {options or 'no option'}", same, answer, wanted)
    # of a refusal its number
    judge.hold("ports of nobody", [("nowhere", replace(of.good, keys=()).words("forwards", "-", "22"), "90")])


def check_run(judge):
    """What runs by a grant, as checks/logins asks it of a real sshd."""
    of = Lines(judge.made.maker)
    questions = [("nothing", replace(of.good, keys=()).words("runs", "-", "0"), "90")]
    for options, asked, wanted in RUN:
        login = replace(of.good, keys=(f"{options} ".lstrip().encode() + of.own,))
        command = login.words("runs", word((asked or "").encode()), str(int(asked is not None)))
        name = f"by {options or 'no option'} where {asked or 'a shell'} is asked for"
        questions.append((name, command, "3" if wanted is None else f"0 {word(wanted.encode())}"))
    judge.hold("what runs", questions)


def check_user_keys(judge):
    found = list(cases(judge.made.maker))
    judge.hold("a login by authorized_keys", [(name, it.words(), wanted) for name, it, wanted in found if not it.checks])
    if not judge.asker.is_package:
        judge.hold_alone("a login by authorized_keys", [(name, it.words(), wanted) for name, it, wanted in found if it.checks])
    check_forwarded(judge)
    check_run(judge)
    check_stored(judge)
