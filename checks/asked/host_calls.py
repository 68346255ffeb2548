"""Whether a key or a certificate is a host's: the library's verdicts, with a verifier of each language between the two of a
certificate. The rows are those of host_rows.py, about which checks/callers asks a real ssh, and what is wanted is what is wanted there."""
import time
from dataclasses import dataclass, replace

from lib.harness import blob_of, string

from .host_rows import (
    AROUND_NOW, AUTHORITY, BROKEN, BY_KEY, CAPITALS, CERTIFICATES, CERTIFICATES_AND_LATER, CERTIFICATES_OF_FILES, CERTIFIED_KEYS, HOST, INVALID, KEYS,
    KEYS_AND_LATER, KEYS_OF_FILES, KEY_ID, LATER, LISTED, LISTS, NAMED, NOBODY, OTHER, OWN, SERIAL, TEXTS, TYPED, TYPED_CERTIFICATES, UNASKED, field,
    in_one_file,
)  # fmt: skip
from .hosts import written
from .linked import several, word
from .login_options import NO_NORMAL_FORM, RSA, UNACCEPTED, certificate, certificate_by, judged_keys, no_signature, respelled
from .revocation_calls import EMPTY, made_list

# what the program callers answers, and the library
NUMBERED = {
    "ok": "DONE", BY_KEY: BY_KEY, "revoked": "HOST_REVOKED", "unreadable": "HOST_UNREADABLE", "changed": "HOST_CHANGED", "unknown": "HOST_UNKNOWN", INVALID: "OUT_OF_WINDOW",
    field("valid principals"): "VALID_PRINCIPALS", field("type"): "OTHER_TYPE", field("critical options"): "CRITICAL_OPTIONS", field("key id"): "KEY_ID",
    UNACCEPTED: "KEY_NOT_ACCEPTED", NO_NORMAL_FORM: "NOT_NORMAL_FORM", "no port": "NO_PORT", "no host": "NO_HOST", "no address": "NO_ADDRESS",
}  # fmt: skip
# lines of known_hosts, the port, and which of them is the first that may hide a revocation
UNREADABLE = [
    ("no line", [], 22, 0), ("an entry", ["h.example {key}"], 22, 0), ("a line that is none", ["h.example {key}", "@revoked h.example {broken}"], 22, 2),
    ("after a comment and an empty line", [" # {broken}", "", "h.example {broken}"], 22, 3), ("two of them", ["g.example {key}", "* {broken}", "h.example {broken}"], 22, 2),
    ("of another host", ["g.example {broken}"], 22, 0), ("of a pattern that is not the host's", ["*.example,!h.example {broken}"], 22, 0),
    ("of its port", ["[h.example]:2222 {broken}"], 2222, 1), ("of another port", ["[h.example]:2222 {broken}"], 22, 0), ("of the plain name", ["h.example {broken}"], 2222, 0),
    ("by a hash", ["#h.example {key}", "@revoked * {broken}"], 22, 2), ("a zero byte", ["g.example {key}\0"], 22, 1), ("a later kind", ["h.example {later}"], 22, 0),
    ("a later kind under another name", ["h.example {later}", "h.example {misnamed}"], 22, 2), ("a line and revoked", ["@revoked * {key}", "@revoked * {broken}"], 22, 2),
]  # fmt: skip


@dataclass(frozen=True)
class Shown:
    """What a host shows, a key or a certificate, and who asks."""

    blob: bytes
    texts: tuple
    port: int = 22
    host: bytes = HOST.encode()
    revoked: tuple = (EMPTY,)
    second: int = 0
    bits: int = 0

    def question(self):
        what, second = ("host-certificate", [self.second]) if self.second else ("host-key", [])
        words = [what, several(self.texts), word(self.host), word(self.blob), several(self.revoked), self.port, self.bits, *second]
        return " ".join(map(str, words))


def keys_of(maker):
    found = {"key": maker.key("host-key", "ed25519"), "other": maker.key("another-host", "ed25519"), "broken": BROKEN, **LATER}
    return {**found, "authority": maker.key("host-authority", "ed25519")}


def by_key(maker, keys):
    """Names, what is shown, and what is wanted, where that is a key."""
    own, listed = blob_of(keys["key"]), [written(maker, ["h.example {key}"], keys)]
    for name, files, port, wanted in [*in_one_file([*KEYS, *KEYS_AND_LATER]), *KEYS_OF_FILES]:
        yield f"a key, {name}", Shown(own, tuple(written(maker, lines, keys) for lines in files), port), NUMBERED[wanted]
    for name, host, lines, port, wanted in TYPED:
        yield f"a key, {name}", Shown(own, (written(maker, lines, keys),), port, host.encode()), NUMBERED[wanted]
    for name, host, port, wanted in UNASKED:
        yield f"a key, {name}", Shown(own, (written(maker, ["* {key}"], keys),), port, host.encode()), NUMBERED[wanted]
    for name, held, is_accepted, _ in judged_keys(maker):
        known = Shown(blob_of(held), (f"{HOST} {held}\n".encode(),))
        yield f"a key, {name}", known, "DONE" if is_accepted else "KEY_NOT_ACCEPTED"
        if "2047" in name:
            yield f"a key, {name}, of 2048 at least", replace(known, bits=2048), "KEY_NOT_ACCEPTED"
    for name, blob, changes, wanted in (
        ("no file", own, {"texts": ()}, "HOST_UNKNOWN"), ("no key", own[:-1], {}, "LENGTH"), ("more than a key", own + b"\0", {}, "TRAILING_DATA"),
        ("a host that is no text", own, {"host": b"\xff"}, "TEXT"), ("a line that is not UTF-8", own, {"texts": (*listed, b"\xff\n")}, "DONE"),
    ):  # fmt: skip
        yield f"a key, {name}", replace(Shown(blob, tuple(listed)), **changes), wanted


def by_certificate(maker, keys):
    """The same of certificates."""
    now, texts, own = int(time.time()), (written(maker, [AUTHORITY], keys),), (written(maker, [LISTED], keys),)

    def made(*words):
        return blob_of(maker.certificate("host-authority", "host-key", *words))

    def put_together(key, key_id=b"id", others=(), extensions=None, by="host-authority"):
        names = b"".join(map(string, [*others, HOST.encode()]))
        return blob_of(certificate(maker, by, key, names, {}, extensions or {}, key_id, kind=2))

    listed = [(f"of a listed key, {name}", *others) for name, *others in CERTIFIED_KEYS]
    for name, files, port, words, wanted in [*in_one_file([*CERTIFICATES, *CERTIFICATES_AND_LATER, *listed]), *CERTIFICATES_OF_FILES]:
        # of a name that is not listed sshd says the same as of names that are not read
        number = "UNLISTED_PRINCIPAL" if wanted == field("valid principals") else NUMBERED[wanted]
        yield name, Shown(made(*words), tuple(written(maker, lines, keys) for lines in files), port, second=now), number
    for name, host, words, wanted in CAPITALS:
        number = "DONE" if wanted == "ok" else "UNLISTED_PRINCIPAL"
        yield name, Shown(made(*words), texts, host=host.encode(), second=now), number
    for name, host, names, lines, wanted in TYPED_CERTIFICATES:
        number = "UNLISTED_PRINCIPAL" if wanted == field("valid principals") else NUMBERED[wanted]
        blob = made("-h", "-n", names, *AROUND_NOW)
        yield name, Shown(blob, (written(maker, lines, keys),), host=host.encode(), second=now), number
    yield "that lists nobody", Shown(made(*NOBODY), texts, second=now), "VALID_PRINCIPALS"
    for name, key_id, others, wanted, _ in TEXTS:
        shown = Shown(put_together(keys["key"], key_id, others), texts, second=now)
        yield name, shown, NUMBERED[wanted]
        yield f"of a listed key, {name}", replace(shown, texts=own), BY_KEY if wanted == "ok" else NUMBERED[wanted]
    by_rsa = (written(maker, [AUTHORITY], {"authority": maker.read(f"{RSA}.pub")}),)
    for name, held, is_accepted, _ in judged_keys(maker):
        shown = Shown(put_together(held, by=RSA), by_rsa, second=now)
        yield name, shown, "DONE" if is_accepted else "KEY_NOT_ACCEPTED"
        if "2047" in name:
            yield f"{name}, of 2048 at least", replace(shown, bits=2048), "KEY_NOT_ACCEPTED"
        line = certificate_by(held, lambda _, held=held: no_signature(held), keys["key"], string(HOST.encode()), {}, {}, kind=2)
        # nothing is signed, so of a key that may sign that is said; RequiredRSASize is about the host's key
        by_it = Shown(blob_of(line), (written(maker, [AUTHORITY], {"authority": held}),), second=now, bits=4096)
        yield f"an authority: {name}", by_it, "NOT_SIGNED" if is_accepted else "KEY_NOT_ACCEPTED"
        of_listed = replace(by_it, texts=own)
        yield f"of a listed key, an authority: {name}", of_listed, "NOT_SIGNED" if is_accepted else "KEY_NOT_ACCEPTED"
    flag = {"x@example.com": b""}
    line = certificate(maker, RSA, keys["key"], string(HOST.encode()), {}, flag, kind=2)
    for name, other in respelled(maker, line, RSA, flag):
        yield name, Shown(blob_of(other), by_rsa, second=now), "NOT_NORMAL_FORM"
    # sshd alone reads the names of extensions
    yield "a zero byte in the name of an extension", Shown(put_together(keys["key"], extensions={"x\0y": b""}), texts, second=now), "DONE"
    good = Shown(made(*NAMED), texts, second=now)
    turned, revoked = good.blob[:-1] + bytes([good.blob[-1] ^ 1]), written(maker, ["@revoked * {key}"], keys)
    for name, changes, wanted in (
        ("no file", {"texts": ()}, "HOST_UNKNOWN"), ("another host", {"host": b"g.example"}, "HOST_UNKNOWN"), ("a turned bit", {"blob": turned}, "NOT_SIGNED"),
        ("a turned bit, of a listed key", {"blob": turned, "texts": own}, "NOT_SIGNED"), ("no time, of a listed key", {"second": 2**63, "texts": (*texts, *own)}, BY_KEY),
        ("no certificate", {"blob": good.blob[:-1]}, "LENGTH"), ("a key in its place", {"blob": blob_of(keys["key"])}, "LABEL"), ("no bytes", {"blob": b""}, "LENGTH"),
        ("a host that is no text", {"host": b"\xff"}, "TEXT"), ("a line that is not UTF-8", {"texts": (b"\xff\n",)}, "HOST_UNKNOWN"), ("no time", {"second": 2**63}, "INVALID_TIME"),
        ("a second file with such a line", {"texts": (*texts, b"\xff\n")}, "DONE"), ("such a line, and revoked", {"texts": (b"\xff\n", revoked)}, "HOST_REVOKED"),
        ("a comment that is not UTF-8", {"texts": (b"# gr\xf6\xdfe\n" + texts[0][:-1] + b" gr\xf6\xdfe\n",)}, "DONE"), ("hosts that are not UTF-8, and no key", {"texts": (*texts, b"gr\xf6n,* x\n")}, "HOST_UNREADABLE"),
    ):  # fmt: skip
        yield name, replace(good, **changes), wanted


def by_lists(maker, keys):
    """The same of a key and of a certificate by revocation files, of which all that are given have to be read."""
    for name in (OWN, OTHER):
        keys = {**keys, name: maker.read(f"{name}.pub")}
    texts = (written(maker, ["h.example {key}", AUTHORITY], {**keys, "authority": keys[OWN]}),)
    line = maker.certificate(OWN, "host-key", *NAMED, "-z", str(SERIAL), "-I", KEY_ID)
    shown = Shown(blob_of(keys["key"]), texts), Shown(blob_of(line), texts, second=int(time.time()))
    made = {name: made_list(maker, by, [it.format(**{**keys, "authority": keys[OWN]})]) for name, by, it, _, _ in LISTS}
    rows = [(name, (made[name],), *map(NUMBERED.get, answers)) for name, _, _, *answers in LISTS]
    nothing, revoked, text = made["nothing"], made["the key"], keys["key"].encode()
    for name, files, wanted in (
        ("a list that breaks off", (nothing[:-1],), "UNREADABLE_REVOCATIONS"), ("no list", (b"x",), "UNREADABLE_REVOCATIONS"), ("no file", (), "UNREADABLE_REVOCATIONS"),
        ("a file of no bytes", (b"",), "DONE"), ("a text of the key", (text,), "HOST_REVOKED"), ("a text of another", (keys["other"].encode(),), "DONE"),
        ("the key, by the second of two", (nothing, revoked), "HOST_REVOKED"), ("the key, by the first of two", (text, b""), "HOST_REVOKED"),
        ("nothing by one, and the other breaks off", (nothing, revoked[:-1]), "UNREADABLE_REVOCATIONS"),
    ):  # fmt: skip
        rows.append((name, files, wanted, wanted))
    for name, files, *answers in rows:
        for what, asked, wanted in zip(("a key", "a certificate"), shown, answers):
            yield f"{what}, revoked is {name}", replace(asked, revoked=files), wanted
            if wanted == "DONE":
                yield f"{what}, revoked is {name}, and the host is not known", replace(asked, revoked=files, texts=(b"",)), "HOST_UNKNOWN"


def answer_to(judge, question, wanted):
    """The number, and of a host that shows a certificate and is known, by what."""
    by = {"DONE": " 1", BY_KEY: " 2"}.get(wanted, "") if question.startswith("host-certificate ") else ""
    return f"{judge.number('DONE' if wanted == BY_KEY else wanted)}{by}"


def check_hosts(judge):
    maker = judge.made.maker
    keys = keys_of(maker)
    maker.write("user.pub", maker.read("user0.pub"))
    found = [*by_key(maker, keys), *by_certificate(maker, keys), *by_lists(maker, keys)]
    judge.hold("a host's", [(name, shown.question(), answer_to(judge, shown.question(), wanted)) for name, shown, wanted in found])
    asked = []
    for name, lines, port, wanted in UNREADABLE:
        text = written(maker, lines, keys)
        asked.append((name, f"unreadable-line {word(text)} {word(HOST.encode())} {port}", f"0 {wanted}" if wanted else str(judge.number("END"))))
    for name, text, host, wanted in (("hosts that are not UTF-8", b"gr\xf6n x\n", HOST.encode(), "END"), ("a host that is not UTF-8", b"", b"\xff", "TEXT")):
        asked.append((name, f"unreadable-line {word(text)} {word(host)} 22", str(judge.number(wanted))))
    text = written(maker, ["h.example {key}", "@revoked fd00::1 {broken}", "[fd00::1]:2222 {broken}"], keys)
    for name, host, port, wanted in (
        ("of an address", b"FD00:0::1", 22, "0 2"), ("of an address at a port", b"fd00:0::1", 2222, "0 3"), ("of no address", b"127.1", 22, "NO_ADDRESS"),
        ("of no host", b"", 22, "NO_HOST"), ("at port 0", b"fd00::1", 0, "NO_PORT"),
    ):  # fmt: skip
        asked.append((name, f"unreadable-line {word(text)} {word(host)} {port}", wanted if " " in wanted else str(judge.number(wanted))))
    judge.hold("the line of a host's that can't be read", asked)
