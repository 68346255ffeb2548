"""What OpenSSH's own code answered about whole logins by public key, as it is stored; how each is asked of that code, and of programs
here, with the signatures that the Python package cryptography has verified; and how an answer is to those of OpenSSH's versions."""
import base64
import functools
import hashlib
import json
import re
import struct
from dataclasses import dataclass

from lib.harness import ROOT, blob_of, line_of, string, take
from lib.signatures import is_signed

from .publickey_material import SESSION, SHA1, read_material
from .publickey_questions import REQUEST, SSHD_ASKS, TOUCH, TRANSPORT, UNREADABLE, VERIFY, WITH_FLAGS, questions
from .user_key_causes import CAUSES as OF_LINES
from .user_key_causes import LISTS_NOBODY, UNTOLD
from .user_key_material import sum_of
from .user_key_verdicts import fields_of, is_same, shortened

STORED = f"{ROOT}/checks/asked/publickey_answers"
REFUSED = "no"
# how many bits sshd wants at least of an RSA key where it is told nothing
LEAST_BITS = 1024


def stored():
    """The material, and the questions, each with the answers of all versions."""
    with open(STORED, encoding="ascii") as file:
        head, *lines = file.read().splitlines()
    head, end = json.loads(head), lines.index("")
    material = read_material(lines[:end])
    asked = questions(head["seed"], material)
    assert sum_of(asked) == head["sum"], "this Python draws other questions than those that were asked"
    print(f"answers of openssh {' and '.join(head['openssh'])}, {len(asked)} questions", flush=True)
    return material, list(zip(asked, (it.split(" | ") for it in lines[end + 1 :]), strict=True))


# ---- how it is asked


def digits(text):
    """The text in hexadecimal digits; a byte that is no UTF-8 stands as itself."""
    return (text if isinstance(text, bytes) else text.encode(errors="surrogateescape")).hex()


def of_texts(texts):
    return ",".join("!" if it is UNREADABLE else it.hex() for it in texts) if texts else "-"


def asked_of_openssh(material, it):
    """The question as openssh_publickey.c reads it."""
    request = material.requests[it.request]
    blob = blob_of(material.shown[request.offered].line)
    trusted = "".join(f"{line}\n" for line in it.authorities)
    parts = [request.user, request.algorithm, blob, request.signature, material.host_key(request)]
    texts = [of_texts(it.keys), digits(trusted), "-" if it.principals is None else of_texts(it.principals or [b""])]
    texts += ["-" if text is None else digits(text) for text in (it.command, it.revoked)]
    numbers = [str(max(it.bits, LEAST_BITS)), str(it.options), digits(it.accepted)]
    words = [str(it.second), digits(it.zone), *map(digits, parts), str(it.client), SESSION.hex(), digits(blob_of(material.hosts[0]))]
    return " ".join([*words, *texts, *numbers, digits(it.address), digits(it.host or it.address)])


@functools.cache
def told(algorithm, key, message, signature):
    """The question that cryptography has said yes to, or `-`."""
    if algorithm == "ssh-dss" or not is_signed(line_of(key), algorithm, message, signature):
        return "-"
    return f"{algorithm} {key.hex()} {message.hex()} {signature.hex()}"


def told_of(key, message, signature):
    """The same of the blobs of a key and of a signature of the message: that by a security key is of its plain key, over other bytes
    (PROTOCOL.u2f)."""
    try:
        name, rest = take(signature)
        raw, more = take(rest)
        kind, body = take(key)
        if kind.startswith(b"sk-"):
            if name != kind or len(more) != 5:
                return "-"
            (*parts, application), _ = strings(body, PARTS.get(kind, 2))
            message = more.join(hashlib.sha256(it).digest() for it in (application, message))
            name = kind.replace(b"sk-", b"").replace(b"@openssh.com", b"")
            key, more = b"".join(map(string, [name, *parts])), b""
        is_of_key = name.replace(b"rsa-sha2-256", b"ssh-rsa").replace(b"rsa-sha2-512", b"ssh-rsa") == take(key)[0]
        # by SHA-1 nothing is asked
        if more or len(take(rest)[0]) != len(raw) or not is_of_key or name == SHA1.encode():
            return "-"
        return told(name.decode(), key, message, raw)
    except (struct.error, UnicodeDecodeError):
        return "-"


def strings(data, count):
    """So many strings in front of the bytes, and what follows them."""
    found = []
    for _ in range(count):
        part, data = take(data)
        found.append(part)
    return found, data


# how many strings follow the name in a key
PARTS = {b"ssh-ed25519": 1, b"ssh-dss": 4, b"sk-ecdsa-sha2-nistp256@openssh.com": 3}


def plain_of(name):
    """The name of the key's algorithm, of that in its certificates."""
    return re.sub(rb"-cert-v01@openssh.com$", b"@openssh.com" if name.startswith(b"sk-") else b"", name)


@functools.cache
def signed_part(blob):
    """Of a certificate the key that it certifies, that which signed it, what it signed, and the signature (PROTOCOL.certkeys)."""
    plain = plain_of(take(blob)[0])
    (_, _, *body), rest = strings(blob, 2 + PARTS.get(plain, 2))
    # a number and the kind, the key id and the principals, the window, options, extensions and what is reserved
    _, rest = strings(rest[12:], 2)
    (_, _, _, authority), rest = strings(rest[16:], 4)
    return b"".join(map(string, [plain, *body])), authority, blob[: len(blob) - len(rest)], take(rest)[0]


def questions_of(material, it, session=SESSION):
    """What cryptography has said yes to of the authority's signature, and of the client's over what a server puts together that lets alice
    in; or `-`."""
    request = material.requests[it.request]
    shown = material.shown[request.offered]
    blob, user = blob_of(shown.line), request.user.partition(":")[0]
    # the server's own
    host = blob_of(material.hosts[0]) if material.host_key(request) else b""
    key, authority = blob, "-"
    if shown.authority is not None:
        key, *signed = signed_part(blob)
        authority = told_of(*signed)
    return authority, told_of(key, request.message(blob, session, user, host), request.signature)


def spelled(question):
    """The question as a word of the program callers."""
    algorithm, key, *more = question.split(" ") if question != "-" else ("", "")
    return ",".join([algorithm, line_of(bytes.fromhex(key)), *more]) if more else "-"


def asked_here(material, it, session=SESSION):
    """The question as the program callers reads it, about a session."""
    request = material.requests[it.request]
    blob, user = blob_of(material.shown[request.offered].line), request.user.partition(":")[0]
    host = blob_of(material.hosts[0]) if material.host_key(request) else b""
    authority, client = questions_of(material, it, session)
    seen = {REQUEST: "request", TRANSPORT: "transport", SSHD_ASKS: "sshd", WITH_FLAGS: str(request.flags or 0)}[it.seen]
    assert client != "-" or seen in ("request", "sshd"), "somebody else has verified what is no signature"
    algorithm = request.algorithm.encode().hex() if it.is_named else "-"
    trusted = " ".join(fingerprint(blob_of(line)) for line in it.authorities)
    words = [digits(user), algorithm, blob.hex(), seen, session.hex(), host.hex() or "-", request.signature.hex(), of_texts(it.keys), trusted]
    words += ["certificate" if it.principals is None else of_texts(it.principals), of_texts([] if it.command is None else [it.command])]
    words += [(it.revoked or b"").hex(), str(it.bits), "t" * bool(it.options & TOUCH) + "v" * bool(it.options & VERIFY), str(it.second)]
    return "\t".join(["publickey", *words, it.address, it.host or "", spelled(authority), spelled(client)])


def has_small_rsa(material, it):
    """Whether the key or its authority is RSA of fewer than 2,048 bits."""
    shown = material.shown[material.requests[it.request].offered]
    keys = [blob_of(shown.line)] if shown.authority is None else list(signed_part(blob_of(shown.line))[:2])
    return any(take(key)[0] == SHA1.encode() and len(strings(key, 3)[0][2]) < 256 for key in keys)


def fingerprint(blob):
    return "SHA256:" + base64.b64encode(hashlib.sha256(blob).digest()).decode().rstrip("=")


# ---- how an answer is


@dataclass
class View:
    """A login as the causes of lines look at it."""

    by: str
    offered: str
    authority: str


# of each cause what is answered, and whether it is the cause, given the login, its request and what is offered
OF_LOGINS = {
    "a text that cannot be read": ("no: [a-z]+[0-9] cannot be read", lambda it, request, shown: True),
    "a certificate that lists nobody": ("no: not (?:listed|allowed)", lambda it, request, shown: bool(LISTS_NOBODY.search(blob_of(shown.line)))),
    "an empty command": ("no: certificate", lambda it, request, shown: string(b"force-command") + string(string(b"")) in blob_of(shown.line)),
    "options in another order": ("no: no key", lambda it, request, shown: shown.said == "in another order"),
    "a signature by SHA-1": ("no: no signature", lambda it, request, shown: request.signature.startswith(string(SHA1.encode()))),
    "a name of SHA-1": ("no: signature, Algorithm", lambda it, request, shown: request.algorithm in it.accepted.split(",")),
    "a client whose names are not compared": ("no: signature, Algorithm", lambda it, request, shown: bool(it.client)),
    "a style behind the user's name": ("no: not signed", lambda it, request, shown: ":" in request.user),
}
CAUSES = [*(name for name, (begins, _) in OF_LINES.items() if begins == UNTOLD), *OF_LOGINS]


def cause_of(material, it, answer):
    """The name of the first cause that fits, or None."""
    request = material.requests[it.request]
    shown = material.shown[request.offered]
    untold = re.match(r"no: line (\S+) cannot be told", answer)
    if untold:
        by = "principals" if untold[1].startswith("principals") else "line"
        view = View(by, shown.line, "" if shown.authority is None else material.authorities[shown.authority])
        line = it.line(untold[1])
        return next((name for name, (begins, is_it) in OF_LINES.items() if begins == UNTOLD and is_it(view, line)), None)
    return next((name for name, (begins, is_it) in OF_LOGINS.items() if re.match(begins, answer) and is_it(it, request, shown)), None)


# what stands before the first blank outside quotes
OPTIONS = re.compile(rb'[ \t]*((?:[^ \t"]|"(?:\\"|[^"])*"?)*)')


def may_have_tunnels(it, place):
    """Whether what lets in leaves tunnels: since 10.5 `restrict` turns them off."""
    return ":" not in place or not re.search(rb"(?i)(?<![\w-])restrict(?![\w-])", OPTIONS.match(it.line(place))[1])


def is_bound_alike(material, it, theirs, decision):
    """Whether each version grants that, and what else is told of it."""
    ours = fields_of(shortened(decision))
    shown = material.shown[material.requests[it.request].offered]
    blob = blob_of(shown.line)
    plain = blob if shown.authority is None else signed_part(blob)[0]
    if ours.pop("key") != fingerprint(plain) or not all(is_same(ours, each) for each in theirs):
        return False
    return (ours["tunnels"] == "yes") == may_have_tunnels(it, ours["line"])


def verdict(material, it, theirs, answer):
    """How the answer is to those of OpenSSH's versions, and whether that may be."""
    told = re.fullmatch(r"([yn]) asks=(a?c?) (.*)", answer)
    if not told or (it.wanted and not f"asks={told[2]} {told[3]} ".startswith(it.wanted) and not f"{told[3]} ".startswith(it.wanted)):
        return "no answer, or not what is wanted", False
    offered, asked, decision = told.groups()
    queries, grants = zip(*(each.split(" ", 1) for each in theirs))
    is_in = not decision.startswith("no: ")
    if offered == "y" and "n" in queries:
        return "offered where a version refuses", False
    if is_in and (offered == "n" or not is_bound_alike(material, it, grants, decision)):
        return "another grant, or none there", False
    if is_in:
        return "let in, bound alike", True
    cause = cause_of(material, it, decision)
    if REFUSED not in grants or (offered == "n" and "n" not in queries):
        return cause or "refused without a cause", bool(cause)
    return "refused, as by OpenSSH" if {*grants} == {REFUSED} else "refused, as by one of the versions", True


def told_here(answer, asked):
    """Whether the answer says yes to the query, and what `echo` writes in the login that it lets in, or None."""
    offered, _, decision = answer.split(" ", 2)
    if decision.startswith("no: "):
        return offered == "y", None
    command = fields_of(decision)["command"]
    return offered == "y", bytes.fromhex(command[1:]).decode().removeprefix("echo ") if command else asked
