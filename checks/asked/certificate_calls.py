"""What a certificate lists, and how one is made: against the words that ssh-keygen was given, what it shows of a certificate, and
the certificates that it makes itself."""
import os
import sys

from lib.harness import blob_of, ssh_keygen, string, take

from .linked import EXAMPLES, run, turned, word
from .made import END, FIRST, WINDOW, is_verified
from .verdicts import status_of

OPTIONS = [
    "clear", "force-command=echo \"a b\"", "source-address=10.0.0.0/8,::1/128", "verify-required", "critical:z@example.org=value",
    "critical:empty@example.org", "extension:a@example.org=with some text", "extension:b@example.org", "permit-pty",
    "permit-agent-forwarding",
]  # fmt: skip
CASES = {
    "plain": ["-n", "alice"], "nobody listed": [], "two listed": ["-n", "alice,bob", "-z", "7"],
    "no extensions": ["-n", "alice", "-O", "clear"], "all options": ["-n", "alice", *[it for o in OPTIONS for it in ("-O", o)]],
    "200 listed": ["-n", ",".join(f"user{it}" for it in range(200))], "an empty key id": ["-I", "", "-n", "alice"],
    "a key id that is no ASCII": ["-I", "Zertifikat für Ärzte", "-n", "álvaro"], "a host": ["-h", "-n", "a.example,b.example"],
    "a window": ["-n", "alice", "-V", "20240101000000:20240201000000", "-z", "18446744073709551615"],
}  # fmt: skip
KINDS = ("ed25519", "ecdsa -b 256", "rsa -b 2048")


def certificate_of(maker, authority, key, words):
    """The blob of a certificate by ssh-keygen, and what it shows of it."""
    given = words if "-I" in words else ["-I", "id", *words]
    ssh_keygen("-q", "-s", maker.path(authority), *given, maker.path(f"{key}.pub"))
    shown = ssh_keygen("-L", "-f", maker.path(f"{key}-cert.pub"), text=True).stdout
    return maker.blob(f"{key}-cert"), shown


def shown_under(shown, title):
    """The lines that ssh-keygen shows under a title, or after it."""
    lines = shown.split("\n")
    at = next(at for at, it in enumerate(lines) if it.strip().startswith(f"{title}:"))
    after = lines[at].strip()[len(title) + 1 :].strip()
    found = [after] if after and after != "(none)" else []
    while not after and lines[at + 1].startswith(" " * 16):
        at += 1
        found.append(lines[at].strip())
    return found


def shown_option(name, value):
    """How ssh-keygen shows an option: the values of two, and the bytes of those that it does not know."""
    if name in ("force-command", "source-address"):
        return f"{name} {value}"
    if "@" not in name:
        return name
    inside = string(value.encode()) if value else b""
    return f"{name} UNKNOWN OPTION: {inside.hex()} (len {len(inside)})" if inside else f"{name} UNKNOWN FLAG OPTION"


def check_lists(judge):
    """What certificates list, against what `ssh-keygen -L` shows of them and the lines of their keys."""
    made, maker, rafendilo = [], judge.made.maker, judge.made.rafendilo
    for number, kind in enumerate(KINDS):
        maker.key(f"lister{number}", kind)
        maker.key(f"listed{number}", kind)
        for name, words in CASES.items() if number == 0 else list(CASES.items())[:5:4]:
            made.append((f"{name}, {kind}", number, *certificate_of(maker, f"lister{number}", f"listed{number}", words)))
    judge.hold("what a certificate lists", [(name, f"lists {blob.hex()}", "0") for name, _, blob, _ in made])
    for name, number, blob, shown in made:
        found = rafendilo.certificate_contents(blob)
        same = [found.key_id] == [it[1:-1] for it in shown_under(shown, "Key ID")]
        same &= list(found.principals) == shown_under(shown, "Principals")
        same &= [shown_option(*it) for it in found.critical_options.items()] == shown_under(shown, "Critical Options")
        same &= [shown_option(*it) for it in found.extensions.items()] == shown_under(shown, "Extensions")
        same &= found.key == maker.blob(f"listed{number}") and found.authority == maker.blob(f"lister{number}")
        judge.check(f"and ssh-keygen shows the same: {name}", same, found, shown)


def check_fields(judge):
    """The numbers of certificates, against the words that ssh-keygen was given."""
    last = 2**64 - 1
    user = ["-V", "19700101000001:20400101000000", "-z", str(last)]
    cases = [
        ("a window", ["-n", "alice", *WINDOW, "-z", "7"], f"7 {FIRST} {END} 1 1 0"),
        ("no window", ["-n", "alice"], f"0 0 {last} 1 1 0"), ("nobody listed", ["-z", "1"], f"1 0 {last} 1 0 0"),
        ("the last number", ["-n", "a", *user], f"{last} 1 2208988800 1 1 0"),
        ("a host", ["-h", "-n", "host.example", "-z", "2"], f"2 0 {last} 2 1 0"),
        ("a command", ["-n", "alice", "-O", "force-command=true"], f"0 0 {last} 1 1 1"), ("a host, nobody", ["-h"], f"0 0 {last} 2 0 0"),
    ]  # fmt: skip
    certificate = judge.made.maker.certificate
    asked = [(name, blob_of(certificate("authority0", "user0", *words)), wanted) for name, words, wanted in cases]
    judge.hold("the fields of a certificate", [(name, f"fields {blob.hex()}", f"0 {wanted}") for name, blob, wanted in asked])


# ---- from place to place


def string_from(data, place):
    """What raf_next_string answers (RFC 4251, section 5), as checks/foreign.c says it."""
    if place == len(data):
        return "3"
    try:
        return f"0:{place + 4}:{len(whole_string(data, place)[0])}"
    except ValueError:
        return "13"


def option_from(data, place):
    """What raf_next_certificate_option answers (PROTOCOL.certkeys), as checks/foreign.c says it."""
    if place == len(data):
        return "3"
    try:
        name, inside = whole_string(data, place)
        value_string, end = whole_string(data, inside)
        value, last = whole_string(value_string, 0) if value_string else (b"", 0)
        if last != len(value_string):
            return "13"
    except ValueError:
        return "13"
    return f"0:{place + 4}:{len(name)}:{end - len(value)}:{len(value)}:{end}"


def whole_string(data, place):
    length = int.from_bytes(data[place : place + 4], "big")
    if place + 4 > len(data) or length > len(data) - place - 4:
        raise ValueError
    return data[place + 4 : place + 4 + length], place + 4 + length


def check_places(judge):
    """What the calls for C find that go on from a place."""
    strings = [b"", b"\0", bytes(3), bytes(4), b"\0\0\0\1", b"\0\0\0\1a", b"\xff" * 4, b"\xff" * 9, b"\x7f\xff\xff\xff" + bytes(9)]
    strings += [it.blob for it in judge.made.kinds]
    blob, _ = certificate_of(judge.made.maker, "lister0", "listed0", CASES["all options"])
    fields = fields_in(blob)
    nested, trailing = string(b"a") + string(string(b"")), string(b"a") + string(string(b"b") + b"c")
    options = [b"", b"\0", bytes(4), bytes(8), bytes(12), b"\xff" * 9, nested, trailing, nested * 3, string(b"a"), blob]
    options += [fields["critical_options"], fields["extensions"], string(b"a") + string(b"\0\0\0"), string(b"a") + b"\0\0\0"]
    for what, cases, found_from in (("string", strings, string_from), ("option", options, option_from)):
        said = judge.said(f"{what}s from place to place", [f"{what}-places {word(it)}" for it in cases])
        for data, answer in zip(cases, said):
            places = [*range(len(data) + 1), len(data) + 1, len(data) + 4, 2**64 - 5, 2**64 - 1]
            wanted = " ".join(found_from(data, it) for it in places)
            judge.check(f"the {what} at each place of {len(data)} bytes", answer == wanted, answer[:300], wanted[:300])


# ---- how certificates are made


def fields_in(blob):
    """The fields of a certificate of an Ed25519 key (PROTOCOL.certkeys), as a draft has them."""
    name, rest = take(blob)
    assert name == b"ssh-ed25519-cert-v01@openssh.com"
    fields = {}
    fields["nonce"], rest = take(rest)
    point, rest = take(rest)
    fields["key"] = string(b"ssh-ed25519") + string(point)
    fields["serial"], fields["certificate_type"], rest = *numbers(rest, 8, 4), rest[12:]
    fields["key_id"], rest = take(rest)
    fields["principals"], rest = take(rest)
    fields["valid_after"], fields["valid_before"], rest = *numbers(rest, 8, 8), rest[16:]
    for field in ("critical_options", "extensions", "reserved", "authority", "signature"):
        fields[field], rest = take(rest)
    assert not rest and not fields["reserved"]
    fields["all_principals"] = int(not fields["principals"])
    return fields


def numbers(data, *lengths):
    found, at = [], 0
    for length in lengths:
        found.append(int.from_bytes(data[at : at + length], "big"))
        at += length
    return found


SPANS = ("key", "nonce", "key_id", "principals", "critical_options", "extensions", "authority")
NUMBERS = ("serial", "valid_after", "valid_before", "certificate_type", "all_principals")


def draft_of(fields, what="draft", *more):
    """The question for what the library makes of these fields."""
    return " ".join([what, *(word(fields[it]) for it in SPANS), *(str(fields[it]) for it in NUMBERS), *more])


def check_making(judge):
    """Drafts of the fields of certificates of ssh-keygen give its bytes, and with its signature its certificates."""
    cases, made = [], {}
    for name, words in CASES.items():
        blob, _ = certificate_of(judge.made.maker, "lister0", "listed0", words)
        fields = made[name] = fields_in(blob)
        signature = fields["signature"].hex()
        signed = blob.hex()[: -len(signature) - 8]
        whole = draft_of(fields, "make", signature)
        cases += [
            (f"what is signed, {name}", draft_of(fields), f"0 {signed}"),
            (f"the whole, {name}", f"join {signed} {signature}", f"0 {blob.hex()}"),
            (f"without a byte of the signature, {name}", f"join {signed} {signature[2:]}", "13"),
        ]  # fmt: skip
        if judge.asker.is_package:
            cases.append((f"in one call, {name}", whole, f"0 {blob.hex()}"))
        else:
            judge.check(f"Python makes what ssh-keygen makes: {name}", judge.answers.to(whole) == f"0 {blob.hex()}")
    judge.hold("a certificate that is made", cases)
    check_refused(judge, made["two listed"])
    if not judge.asker.is_package:
        check_turned(judge, made["two listed"])


def check_refused(judge, good):
    """Drafts that tell no certificate, and what is wrong with each (PROTOCOL.certkeys; RFC 4251, section 5)."""
    a, b = string(b"a") + string(b""), string(b"b") + string(b"")
    private = string(b"key@example.org") + string(b"anything")
    cases = [
        ("nothing is wrong", {}, 0), ("no end", {"valid_before": 2**64 - 1}, 0), ("the last end", {"valid_before": 2**63 - 1}, 0),
        ("no principals", {"principals": b""}, 45), ("all principals", {"principals": b"", "all_principals": 1}, 0),
        ("no type", {"certificate_type": 0}, 15), ("a third type", {"certificate_type": 3}, 15),
        ("an empty window", {"valid_after": 9, "valid_before": 9}, 46), ("a window backwards", {"valid_after": 9, "valid_before": 8}, 46),
        ("no window", {"valid_after": 0, "valid_before": 0}, 46), ("one second", {"valid_after": 8, "valid_before": 9}, 0),
        ("no time", {"valid_after": 2**63, "valid_before": 2**64 - 1}, 19), ("no end in time", {"valid_before": 2**63}, 19),
        ("nearly no end", {"valid_before": 2**64 - 2}, 19), ("options that rise", {"critical_options": a + b}, 0),
        ("an option twice", {"critical_options": a + a}, 15), ("half an option", {"extensions": string(b"a")}, 13),
        ("an option's name no text", {"extensions": string(b"\xff") + string(b"")}, 11),
        ("an option's value no text", {"critical_options": string(b"a") + string(string(b"\xff"))}, 11),
        ("a key id no text", {"key_id": b"\xff"}, 11), ("a principal no text", {"principals": string(b"\xff")}, 11),
        ("a key id of 5,000 bytes", {"key_id": b"x" * 5000}, 0), ("the last number", {"serial": 2**64 - 1}, 0),
        ("half a principal", {"principals": string(b"alice")[:-1]}, 13), ("no key", {"key": b""}, 13),
        ("bytes after the key", {"key": good["key"] + b"\0"}, 14), ("a private-use name", {"key": private}, 12),
        ("a certificate as the key", {"key": string(b"ssh-ed25519-cert-v01@openssh.com") + string(b"")}, 12),
        ("no authority", {"authority": b""}, 13), ("a longer point", {"key": string(b"ssh-ed25519") + string(bytes(33))}, 14),
        ("a nonce of a byte", {"nonce": b"n"}, 0), ("an empty principal", {"principals": string(b"")}, 0),
    ]  # fmt: skip
    judge.hold("a draft", [(name, draft_of({**good, **changed}), str(wanted)) for name, changed, wanted in cases])
    if judge.asker.is_package:
        zero = {"principals": string(b"bob") + string(b"root\0")}
        judge.hold("a draft for a package", [("a principal with a zero byte", draft_of({**good, **zero}), "15")])
        return
    # the packages make the lists, and a nonce
    cases = [
        ("principals, and all", {"all_principals": 1}, 45), ("all by 2", {"principals": b"", "all_principals": 2}, 45),
        ("options that fall", {"critical_options": b + a}, 15), ("extensions that fall", {"extensions": b + a}, 15),
        ("bytes after a value", {"extensions": string(b"a") + string(string(b"b") + b"c")}, 14), ("no nonce", {"nonce": b""}, 0),
    ]  # fmt: skip
    nested = [{"extensions": it} for it in (a, string(b"a") + string(string(b"")))]
    said = judge.said("drafts for C", [draft_of({**good, **it}) for it in (*(changed for _, changed, _ in cases), *nested)])
    for (name, changed, wanted), answer in zip(cases, said):
        judge.check(f"a draft for C: {name}", answer.split()[0] == str(wanted), answer[:200], wanted, changed)
    judge.check("an empty value in its string is signed as nothing", said[-1] == said[-2] and said[-1].startswith("0 "), *said[-2:])


def check_turned(judge, fields):
    """Where a bit of a draft is turned, other bytes are signed, or none."""
    drafts = [fields, *({**fields, name: it} for name in SPANS for it in turned(fields[name]))]
    signed, *said = judge.said("drafts with a bit turned", [draft_of(it) for it in drafts])
    good = [it for it in said if it.split()[0] == "0"]
    others = {*good, signed}
    judge.check("other bytes are to be signed, each time others", len(others) == len(good) + 1 > 33, len(good))
    refused = {it for it in said if it.split()[0] != "0"}
    judge.check("or it is refused, and nothing written", all(10 <= int(it) < 30 for it in refused), refused)


# ---- the example that issues


def check_issued(judge, library):
    """examples/issue.py issues what ssh-keygen reads and takes."""
    count, maker, rafendilo = judge.count, judge.made.maker, judge.made.rafendilo
    maker.key("issuer", "ed25519")
    maker.key("holder", "ed25519")
    words = [sys.executable, os.path.join(EXAMPLES, "issue.py"), maker.path("issuer"), maker.path("holder.pub")]
    environment = {**os.environ, "RAFENDILO_LIBRARY": library}
    issued = run([*words, "holder's key", "3600", "alice", "bob"], env=environment)
    count.check("issue.py issues a certificate", issued.returncode == 0 and not issued.stderr, issued.stderr[-2000:])
    maker.write("holder-cert.pub", issued.stdout)
    shown = ssh_keygen("-L", "-f", maker.path("holder-cert.pub"), text=True, check=False).stdout
    same = shown_under(shown, "Principals") == ["alice", "bob"] and shown_under(shown, "Key ID") == ["\"holder's key\""]
    count.check("ssh-keygen shows what it says", same and shown_under(shown, "Extensions") == ["permit-pty"], shown)
    number = shown_under(shown, "Serial")[0]
    maker.write("numbers", f"serial: {number}\n")
    revoking = ["-k", "-f", maker.path("krl"), "-s", maker.path("issuer.pub"), maker.path("numbers")]
    listed = ssh_keygen(*revoking, text=True, check=False)
    count.check("ssh-keygen can revoke it by its number", listed.returncode == 0 and 0 < int(number) < 2**63, number, listed.stderr)
    blob = blob_of(issued.stdout)
    second = int(rafendilo.certificate_fields(blob).valid_after)
    by = [rafendilo.fingerprint(maker.blob("issuer"))]
    trusted = rafendilo.Trusted([], by, rafendilo.IN_CERTIFICATE, [], rafendilo.NO_REVOCATIONS)
    for principal, wanted in (("alice", "DONE"), ("eve", "USER_NOT_LISTED")):
        status = status_of(rafendilo, rafendilo.may_offer, rafendilo.Offer(principal, b"", blob), trusted, rafendilo.Place(None, second))
        count.check(f"it is valid for {principal}: {wanted}", status.name == wanted, status)
    signature = maker.signature("holder-cert.pub", "text")
    allowed = "alice cert-authority " + maker.read("issuer.pub")
    count.check("and ssh-keygen takes it", is_verified(maker.folder, "issued", signature, "text", "alice", second, allowed))
    none = run([*words, "holder's key", "0", "alice"], env=environment)
    count.check("issue.py issues none for no second", none.returncode == 1 and "a window without a second" in none.stderr, none.stderr)


def check_certificates(judge):
    check_lists(judge)
    check_fields(judge)
    check_making(judge)
    if not judge.asker.is_package:
        check_places(judge)
