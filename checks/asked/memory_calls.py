"""Refused memory and short rooms, for checks/foreign: of each call of the library in C each request for memory is refused in turn,
over values of each kind and over bytes that are none, and each room that is too short is tried; and the calls of which the header
says so take no memory."""
import hashlib
import re
import struct
from dataclasses import replace

from lib.harness import blob_of, ssh_keygen, string

from .host_rows import LATER, LATER_NAME
from .key_calls import all_of, encoded, keys_of, renamed, signed_by
from .linked import ABI, VERSION, data_of, declared, header, several, word
from .publickey import REQUEST, SSHD, UNREADABLE, Login
from .revocation_calls import EMPTY
from .userauth_calls import by_keys

SPANS, NUMBERS = 14, 10
# how many bytes the texts of fingerprints have, which no call tells
TEXTS = {"fingerprint_text": 50, "fingerprint_sha512_text": 93}
# with a room, and so with one that is too short
ROOMS = {call for call, given in re.findall(r"^uint32_t raf_(\w+)\(([^;]*)\);", header(), re.M) if re.search(r"(?<!const )uint8_t \*buffer,", given)}
# those that take memory only where the bytes are values, and of these those that take it only for a key under another name than
# its own, as the header says
OF_VALUES = {"certificate_normal", "signature_question", "key_normal", "fingerprint_sha512", "check_unrevoked_key_by_krl", "check_unrevoked_certificate_by_krl"}
OF_OTHER_NAMES = {"key_normal", "fingerprint_sha512", "check_unrevoked_key_by_krl"}
OTHER_NAME = "rsa-sha2-256"
# those that take it only where the names of user and host are texts, as the header says
OF_TEXTS = {"log_in_questions", "log_in", "may_offer_questions", "may_offer"}
# those that do without the memory that they ask for, as the header says, where no authority's key is under another name
DOING_WITHOUT = {"check_certificate", "check_certificate_for"}
# those that need no more of it where a revocation file decides: revoked, or not read
DECIDED = {(f"check_{held}host_{what}", status) for held in ("", "held_") for what in ("key", "certificate") for status in (50, 58)}


def of_certificate(blob, authority, second, key):
    """Calls about a certificate of the key for alice by the authority, with what they are given and what is wanted."""
    by, alice = hashlib.sha256(authority).digest(), b"alice"
    signed = blob.rindex(string(authority)) + len(string(authority))
    for call in ("question", "fields", "parts", "key", "normal"):
        yield f"certificate_{call}", [blob], [], "DONE"
        yield f"certificate_{call}", [blob[:-1]], [], "LENGTH"
        yield f"certificate_{call}", [blob + b"!"], [], "TRAILING_DATA"
    yield "certificate_make", [blob[:signed], blob[signed + 4 :]], [], "DONE"
    yield "certificate_make", [blob[:signed], blob[signed + 4 : -1]], [], "LENGTH"
    for is_verified, wanted in ((1, "DONE"), (0, "NOT_SIGNED")):
        yield "check_certificate", [blob, b"", by], [second, is_verified], wanted
        yield "check_certificate_for", [blob, alice, by], [second, is_verified], wanted
    yield "check_certificate", [blob, b"", by], [0, 1], "OUT_OF_WINDOW"
    yield "check_certificate", [blob, b"", bytes(32)], [second, 1], "UNTRUSTED_AUTHORITY"
    yield "check_certificate", [blob[:-1], b"", by], [second, 1], "LENGTH"
    yield "check_certificate_for", [blob, b"eve", by], [second, 1], "UNLISTED_PRINCIPAL"
    yield "check_certificate_for", [blob, b"\xff", by], [second, 1], "TEXT"
    login = Login(blob, alice, client=bytes(4), authorities=by, revoked=(EMPTY, b""), second=second)
    yield from of_logins(login, key)
    yield from of_user_keys(login, authority, key)


def of_login(login, wanted, answers=3):
    """The calls about a login, of which all say the same where something else than a signature is wrong."""
    for call in ("log_in_questions", "log_in", "may_offer_questions", "may_offer"):
        yield call, *login.call(answers), wanted


def of_logins(good, key):
    """Calls about the login of a good one by its authority, and by others."""
    strange, revoked = bytes(32), EMPTY + b"\2" + string(string(key))
    yield from of_login(good, "DONE")
    yield from of_login(replace(good, revoked=(b"# a comment\n",)), "DONE")
    for call in ("log_in", "may_offer"):
        yield call, *good.call(0), "NOT_SIGNED"
        yield call, *good.call(1, bytes(32)), "OTHER_QUESTIONS"
    for changes, wanted in (
        ({"blob": good.blob[:-1]}, "TRAILING_DATA"), ({"user": b"\xff"}, "TEXT"), ({"host": b"\xff"}, "TEXT"), ({"user": b"eve"}, "USER_NOT_LISTED"),
        ({"authorities": strange}, "USER_NOT_LISTED"), ({"revoked": (EMPTY, revoked)}, "REVOKED"), ({"revoked": (revoked,)}, "REVOKED"),
        ({"revoked": ()}, "UNREADABLE_REVOCATIONS"), ({"revoked": (revoked[:-1],)}, "UNREADABLE_REVOCATIONS"), ({"revoked": (b"", b"x")}, "UNREADABLE_REVOCATIONS"),
        ({"second": 0}, "OUT_OF_WINDOW"), ({"algorithm": b"x"}, "OTHER_ALGORITHM"),
    ):  # fmt: skip
        yield from of_login(replace(good, **changes), wanted)
    for call in ("log_in_questions", "log_in"):
        yield call, *replace(good, how=0).call(3), "UNSIGNED"


def of_user_keys(signed, authority, key):
    """Calls about the login of a good one by texts of authorized_keys, of its key alone, and by texts of principals."""
    own, by = (all_of(it)[0] + b" " + encoded(it).encode() + b"\n" for it in (key, authority))
    options = b'command="ls",permitopen="h:80",permitlisten="*:90",environment="A=b",expiry-time="20990101Z",tunnel="1",from="0.0.0.0" '
    text, alone = b"# a comment\n" + own + b"cert-authority " + by + options + own, replace(signed, authorities=b"")
    for changes, wanted in (
        ({"keys": (text,), "host": b"host"}, "DONE"), ({"keys": (b"# a comment\n", text)}, "DONE"), ({"command": (text,)}, "DONE"),
        ({"keys": (b"cert-authority " + own,)}, "USER_NOT_LISTED"), ({"keys": (UNREADABLE,)}, "TEXT_UNREADABLE"),
    ):  # fmt: skip
        yield from of_login(replace(alone, **changes), wanted)
    plain = replace(alone, blob=key)
    for changes, wanted in (
        ({"keys": (options + own,)}, "DONE"), ({"keys": (b"# a comment\n",)}, "USER_NOT_LISTED"), ({"keys": (b"cert-authority " + own,)}, "USER_NOT_LISTED"),
        ({"keys": (b"",), "command": (options + own,)}, "DONE"), ({"keys": (b'expiry-time="20010101Z" ' + own,)}, "LINE_EXPIRED"),
        ({"keys": (b'from="*," ' + own,)}, "LINE_UNCLEAR"), ({"keys": (b"\xff " + own,)}, "LINE_UNCLEAR"), ({"keys": (text,), "host": b"\xff"}, "TEXT"),
        ({"keys": (text,), "revoked": ()}, "UNREADABLE_REVOCATIONS"), ({"keys": (text,), "blob": key[:-1]}, "LENGTH"), ({"keys": (text, UNREADABLE)}, "DONE"),
    ):  # fmt: skip
        yield from of_login(replace(plain, **changes), wanted)
    for texts, wanted in (
        ((b"# a comment\nalice",), "DONE"), ((options + b"alice\n",), "DONE"), ((b"eve\n", b"alice"), "DONE"), ((b"eve\n",), "USER_NOT_LISTED"),
        ((b"cert-authority alice\nalice\n",), "LINE_OPTION"), ((b'from="*," alice',), "LINE_UNCLEAR"), ((b"\xff alice",), "LINE_UNCLEAR"), ((UNREADABLE,), "TEXT_UNREADABLE"),
    ):  # fmt: skip
        yield from of_login(replace(signed, principals=texts), wanted)
    yield from of_login(replace(alone, principals=(b"alice",)), "USER_NOT_LISTED")


def of_hosts(maker, second):
    """Calls about a host that shows a key or a certificate, by texts of which one has hashed names."""
    words = ["-h", "-n", "host", "-V", "20240101000000:20240201000000", "-O", "clear"]
    own, other = blob_of(maker.key("memory-host", "ed25519")), blob_of(maker.key("another-memory-host", "ecdsa -b 256"))
    certificate, by = blob_of(maker.certificate("authority0", "memory-host", *words)), encoded(maker.blob("authority0"))
    path = maker.write("hashed", f"host,192.0.2.1 ssh-ed25519 {encoded(own)}\n")
    ssh_keygen("-q", "-H", "-f", path)
    hashed, authority = maker.read("hashed").encode() + b"\n", f"@cert-authority * ssh-ed25519 {by}\n".encode()
    revoked, listed = f"@revoked * ssh-ed25519 {encoded(own)}\n".encode(), EMPTY + b"\2" + string(string(own))
    for texts, files, port, of_key, of_certificate_ in (
        ([b"# a comment\n", hashed + authority], [EMPTY], 22, "DONE", "DONE"), ([hashed, authority], [b"", EMPTY], 2222, "DONE", "DONE"),
        ([], [EMPTY], 22, "HOST_UNKNOWN", "HOST_UNKNOWN"), ([hashed + authority, revoked], [EMPTY], 22, "HOST_REVOKED", "HOST_REVOKED"),
        ([hashed + b"host ssh-ed25519 AAAA\n"], [EMPTY], 22, "HOST_UNREADABLE", "HOST_UNREADABLE"), ([hashed + authority], [listed], 22, "HOST_REVOKED", "HOST_REVOKED"),
        ([hashed + authority], [], 22, "UNREADABLE_REVOCATIONS", "UNREADABLE_REVOCATIONS"), ([hashed + authority, b"\xff"], [EMPTY], 22, "DONE", "DONE"),
    ):  # fmt: skip
        yield "check_host_key", [texts, b"host", own, files], [port, 0], of_key
        yield "check_host_certificate", [texts, b"host", certificate, files], [port, 0, second, 1], of_certificate_
        held = b"\n".join(texts)
        yield "check_held_host_key", [[], b"host", own, files, held], [port, 0], of_key
        yield "check_held_host_certificate", [[], b"host", certificate, files, held], [port, 0, second, 1], of_certificate_
    yield "check_host_key", [[hashed], b"host", other, [EMPTY]], [22, 0], "HOST_CHANGED"
    # a text that is held beside one that revokes, and places that are those of another text
    yield "check_held_host_key", [[revoked], b"host", own, [EMPTY], hashed], [22, 0], "HOST_REVOKED"
    for length in (0, len(hashed) - 1, len(hashed) + 1, 2**64 - 1):
        places = struct.pack("<QQ", length, 2**64 - 1)
        yield "check_held_host_key", [[], b"host", own, [EMPTY], hashed, places], [22, 0], "HOST_UNREADABLE"
        yield "check_held_host_certificate", [[], b"host", certificate, [EMPTY], hashed, places], [22, 0, second, 1], "HOST_UNREADABLE"
    for text, wanted in ((b"", "DONE"), (hashed, "SHORT_BUFFER")):
        yield "place_hosts", [text], [], wanted
    yield "check_host_key", [[hashed], b"host", own[:-1], [EMPTY]], [22, 0], "LENGTH"
    yield "check_host_certificate", [[authority], b"host", certificate, [EMPTY]], [22, 0, second, 0], "NOT_SIGNED"
    yield "check_host_certificate", [[authority], b"other", certificate, [EMPTY]], [22, 0, second, 1], "UNLISTED_PRINCIPAL"
    yield "check_host_certificate", [[authority], b"host", certificate[:-1], [EMPTY]], [22, 0, second, 1], "LENGTH"
    for text, wanted in ((hashed + b"host x y\n", "DONE"), (hashed, "END"), (b"", "END"), (b"\xff", "END")):
        yield "unreadable_host_line", [text, b"host"], [22], wanted
    for line, wanted in ((LATER["later"].encode(), "DONE"), (LATER["cut"].encode(), "LABEL"), (b"", "LABEL"), (b"\xff", "TEXT")):
        yield "is_later_key_line", [line], [], wanted
    for data, wanted in ((string(LATER_NAME), "DONE"), (b"x" + string(LATER_NAME) + b"x", "DONE"), (LATER_NAME, "LABEL"), (b"", "LABEL")):
        yield "names_later_kind", [data], [], wanted
    key, key_line = f"ssh-ed25519 {by}".encode(), f"ssh-ed25519 {encoded(own)}"
    for line, wanted in ((key, "DONE"), (LATER["later"].encode(), "LATER_KEY"), (key[:-1], "BASE64"), (b"\xff", "TEXT")):
        yield "authority", [line], [], wanted
        yield "user_authority", [b"bob,alice " + line, b"alice"], [], wanted
        yield "user_authority", [b"bob,alice " + line, b"eve"], [], "END"
    for line, of_key, of_certificate_ in ((f"restrict {key_line}".encode(), "DONE", "END"), (f"cert-authority ssh-ed25519 {by} x".encode(), "END", "DONE"), (b"", "END", "END")):
        yield "line_may_name_key", [line, own], [], of_key
        yield "line_may_name_authority", [line, certificate], [], of_certificate_
    yield from (("line_may_name_key", [key, own[:-1]], [], "LENGTH"), ("line_may_name_authority", [key, own], [], "LABEL"))
    for key, wanted in ((own, "DONE"), (other, "DONE"), (own[:-1], "LENGTH")):
        yield "may_verify", [key], [], wanted
    yield from (("check_safe_mode", [], [0, 7, 0o755], "DONE"), ("check_safe_mode", [], [8, 7, 0o755], "UNSAFE_MODE"))


def of_requests(maker):
    """Calls about what clients sign."""
    for _, request, signer in by_keys(maker):
        login = request.login(**signer.trusted)
        for call in ("log_in_questions", "log_in"):
            yield call, *login.call(3), "DONE"
            yield call, *replace(login, signature=request.signature[:-1]).call(3), "NO_SIGNATURE"
            yield call, *replace(login, algorithm=b"ssh-dss").call(3), "OTHER_ALGORITHM"
        yield "log_in", *login.call(1), "CLIENT_NOT_SIGNED"
        yield from of_login(replace(login, how=SSHD), "DONE")


def of_key(blob):
    for call in ("fingerprint", "fingerprint_sha512", "key_normal"):
        yield call, [blob], [], "DONE"
        yield call, [blob[:-1]], [], "LENGTH"
        yield call, [blob + b"!"], [], "TRAILING_DATA"
    line = f"{all_of(blob)[0].decode()} {encoded(blob)} a comment".encode()
    yield "read_line", [line], [], "DONE"
    yield "read_line", [line[:20]], [], "LENGTH"
    yield "authorized_entry", [b'no-pty,command="ls -l" ' + line], [], "DONE"
    yield "authorized_entry", [line], [], "DONE"
    yield "known_host", [b"@revoked *.example.org,host " + line], [], "DONE"
    for call in ("authorized_entry", "known_host"):
        yield call, [b"\xff" + line], [], "TEXT"


def of_signature(maker, key):
    """Calls about what a key signs."""
    file, (blob, message, signature) = maker.signature(key, "text"), signed_by(maker, key)
    yield "sshsig_question", [file, b"file", b"text"], [], "DONE"
    yield "sshsig_question", [file, b"git", b"text"], [], "OTHER_NAMESPACE"
    yield "sshsig_question", [file[:-1], b"file", b"text"], [], "LENGTH"
    digest = hashlib.sha512(b"text").digest()
    yield "sshsig_question_of_digest", [file, b"file", digest], [], "DONE"
    yield "sshsig_question_of_digest", [file, b"git", digest], [], "OTHER_NAMESPACE"
    yield "sshsig_question_of_digest", [file, b"file", digest[:32]], [], "LENGTH"
    yield "sshsig_question_of_digest", [file[:-1], b"file", digest], [], "LENGTH"
    own_digest = hashlib.sha256(maker.blob(key)).digest()
    for by, is_verified, wanted in ((own_digest, 1, "DONE"), (bytes(32) + own_digest, 0, "NOT_SIGNED"), (bytes(32), 1, "SIGNER_NOT_ALLOWED"), (b"", 1, "SIGNER_NOT_ALLOWED")):
        yield "check_sshsig", [file, b"file", by], [is_verified], wanted
    yield "check_sshsig", [file, b"git", own_digest], [1], "NOT_SIGNED"
    yield "check_sshsig", [file[:-1], b"file", own_digest], [1], "LENGTH"
    signers, who = b"# a comment\nbob x\nalice " + maker.read(f"{key}.pub").encode(), b"alice"
    text, own = b"# a comment\n" + maker.read("authority0.pub").encode(), maker.read(f"{key}.pub").encode()
    for revoked in ([b""], [text], [EMPTY], [EMPTY, text]):
        yield "check_signer", [signers, who, b"file", file, revoked], [0, 1], "DONE"
    yield "check_signer", [signers, who, b"file", file, [b""]], [0, 0], "NOT_SIGNED"
    for revoked, wanted in (([own], "REVOKED"), ([EMPTY, own], "REVOKED"), ([], "UNREADABLE_REVOCATIONS"), ([own, b"x"], "UNREADABLE_REVOCATIONS")):
        yield "check_signer", [signers, who, b"file", file, revoked], [0, 1], wanted
    yield "check_signer", [signers, b"bob", b"file", file, [b""]], [0, 1], "SIGNER_NOT_ALLOWED"
    yield "check_signer", [signers, b"\xff", b"file", file, [b""]], [0, 1], "TEXT"
    yield "check_signer", [signers, who, b"file", file[:-1], [b""]], [0, 1], "LENGTH"
    yield "sshsig_normal", [file], [], "DONE"
    yield "sshsig_normal", [file + b"!"], [], "TRAILING_DATA"
    yield "signature_question", [blob, message, signature], [], "DONE"
    yield "signature_question", [blob, message, signature[:-1]], [], "LENGTH"
    yield "signature_question", [blob + b"!", message, signature], [], "TRAILING_DATA"
    yield "signature_normal", [signature], [], "DONE"
    yield "signature_normal", [signature[:-1]], [], "LENGTH"


def of_key_lines(key):
    """Calls about lines with an RSA key, whose numbers are kept."""
    line = f"ssh-rsa {encoded(key)}".encode()
    yield "authority", [line], [], "DONE"
    yield "user_authority", [b"alice " + line, b"alice"], [], "DONE"
    yield "line_may_name_key", [line, key], [], "DONE"


def of_files(maker, key):
    """Calls about files with the key, names of which are hashed."""
    path = maker.write("hashed", f"host,192.0.2.1 ssh-ed25519 {encoded(key)}\n")
    ssh_keygen("-q", "-H", "-f", path)
    hashed = maker.read("hashed").encode() + b"\n"
    yield "known_host", [hashed.split(b"\n")[0]], [], "DONE"
    for address, wanted in ((bytes([10, 1, 2, 3]), "DONE"), (bytes([11, 1, 2, 3]), "ELSEWHERE"), (bytes(5), "LENGTH")):
        yield "check_source_address", [b"10.0.0.0/8", address], [], wanted
        yield "check_from", [b"10.0.0.0/8", address, b""], [], wanted
    yield "check_from", [b"*,", bytes(16), b"host"], [], "FORMAT"
    places = string(b"h") + string(bytes([0, 80])) + string(b"*") + string(b"")
    for given, host, port, wanted in (
        (places[:11], b"h", 80, "DONE"), (places[:11], b"h", 81, "NOT_PERMITTED"), (places, b"\xc3\xa9", 65535, "DONE"), (places, b"h", 65536, "NOT_PERMITTED"),
        (places, b"\xff", 80, "TEXT"), (b"", b"h", 80, "NOT_PERMITTED"), (places[:10], b"h", 80, "NOT_PERMITTED"), (b"\xff" * 12, b"h", 80, "NOT_PERMITTED"),
        (string(b"h") + string(b"P"), b"h", 80, "NOT_PERMITTED"), (string(b"h") + string(bytes(3)), b"h", 0, "NOT_PERMITTED"), (string(b"h"), b"h", 80, "NOT_PERMITTED"),
    ):  # fmt: skip
        yield "may_open", [given, host], [port], wanted
        yield "may_listen", [given, host], [port], wanted
    for forced, asks, permits, start, wanted in (
        (b"date", 1, 0, 0, "DONE"), (b"date", 0, 0, 0, "DONE"), (b"date", 1, 64 + 512, 0, "DONE"), (b"", 1, 32, 0, "DONE"), (b"", 0, 32 + 64, 0, "END"), (b"", 1, 0, 0, "DONE"),
        (b"date", 1, 0, 1, "DONE"), (b"date", 0, 0, 2**64 - 1, "DONE"),
    ):  # fmt: skip
        yield "runs", [forced, b"ls"], [asks, permits, start], wanted
    for text, wanted in ((b"20270101Z", "DONE"), (b"20270101", "DONE"), (b"2027", "FORMAT"), (b"\xff", "TEXT")):
        yield "read_time", [text], [], wanted
    for text, wanted in ((b"h:22", "DONE"), (b"[::1]", "DONE"), (b"h:", "FORMAT"), (b"\xff", "TEXT")):
        yield "host_and_port", [text], [], wanted
    armour = b"-----BEGIN SSH SIGNATURE-----\nAAAA\n-----END SSH SIGNATURE-----\n"
    for text, wanted in ((armour, "DONE"), (armour.replace(b"AAAA", b"AAA"), "BASE64"), (armour[1:], "FORMAT"), (b"", "FORMAT")):
        yield "read_armour", [text], [], wanted
    for header, wanted in ((b"[ED25519 256]", "DONE"), (b"", "DONE"), (b"\xff", "TEXT")):
        yield "random_art", [bytes(range(32)), header], [], wanted
    yield "next_line", [hashed], [0], "DONE"
    yield "next_line", [hashed], [len(hashed)], "END"
    options = b'no-pty,command="say \\"hi\\""'
    for place, wanted in ((0, "DONE"), (6, "DONE"), (len(options), "END")):
        yield "next_line_option", [options], [place], wanted
    yield "next_line_option", [b"command=ls"], [0], "FORMAT"
    yield "next_line_option", [b"\xff"], [0], "TEXT"


def of_lists(made, keys):
    """Calls about lists that revoke a key, and another."""
    blob, listed = made.kinds[0].blob, made.maker.blob(made.kinds[0].authority)
    other = EMPTY + b"\2" + string(string(keys["ed25519"]))
    for revoked, wanted in ((EMPTY + b"\2" + string(string(listed)), "REVOKED"), (other, "DONE")):
        for by, files in (("_by_krl", revoked), ("", [revoked]), ("", [b"# a comment\n", revoked])):
            yield f"check_unrevoked_certificate{by}", [files, blob], [], wanted
            yield f"check_unrevoked_key{by}", [files, listed], [], wanted
    for key in (*keys.values(), renamed(keys["rsa -b 2048"], OTHER_NAME.encode())):
        for call, files in (("check_unrevoked_key_by_krl", other), ("check_unrevoked_key", [other])):
            yield call, [files, key], [], "REVOKED" if key == keys["ed25519"] else "DONE"
    for call, value in (("check_unrevoked_key_by_krl", listed), ("check_unrevoked_certificate_by_krl", blob)):
        yield call, [other[:-1], value], [], "LENGTH"
        yield call, [other, value[:-1]], [], "LENGTH"
        yield call, [other, value + b"!"], [], "TRAILING_DATA"
    for call, value in (("check_unrevoked_key", listed), ("check_unrevoked_certificate", blob)):
        yield call, [[b""], value], [], "DONE"
        for files in ([other[:-1]], [b"\xff"], [b"ssh-ed25519\n"], [], [b"", other[:-1]]):
            yield call, [files, value], [], "UNREADABLE_REVOCATIONS"
        yield call, [[other], value[:-1]], [], "LENGTH"
        yield call, [[b""], value + b"!"], [], "TRAILING_DATA"


def of_drafts(key, authority):
    options = string(b"force-command") + string(string(b"ls"))
    spans = [key, bytes(32), b"id", string(b"alice"), options, string(b"permit-pty") + string(b""), authority]
    yield "certificate_to_be_signed", spans, [7, 1, 2, 1, 0], "DONE"
    yield "certificate_to_be_signed", spans, [7, 1, 2, 3, 0], "FORMAT"
    yield "certificate_to_be_signed", spans, [7, 2, 2, 1, 0], "EMPTY_WINDOW"
    yield "certificate_to_be_signed", [key[:-1], *spans[1:]], [7, 1, 2, 1, 0], "LENGTH"
    yield "next_certificate_option", [options], [0], "DONE"
    yield "next_certificate_option", [options], [1], "LENGTH"
    yield "next_string", [options], [0], "DONE"
    yield "next_string", [options], [len(options)], "END"


def cases(made):
    maker, keys = made.maker, dict(keys_of(made.maker))
    for number, kind in enumerate(made.kinds):
        yield from of_certificate(kind.blob, maker.blob(kind.authority), made.middle, made.key(number))
        yield "read_line", [kind.line.encode()], [], "DONE"
        yield "line_may_name_authority", [b"", kind.blob], [], "END"
        yield from of_signature(maker, f"user{number}")
    for blob in keys.values():
        yield from of_key(blob)
        yield from of_drafts(blob, keys["ed25519"])
        yield from of_drafts(keys["ed25519"], blob)
    for call in ("fingerprint", "fingerprint_sha512", "key_normal"):
        yield call, [renamed(keys["rsa -b 2048"], OTHER_NAME.encode())], [], "DONE"
    yield "fingerprint_text", [bytes(32)], [], "DONE"
    yield "fingerprint_sha512_text", [bytes(64)], [], "DONE"
    yield "version", [], [], VERSION
    yield "abi", [], [], ABI
    yield from of_files(maker, keys["ed25519"])
    yield from of_key_lines(keys["rsa -b 2048"])
    yield from of_lists(made, keys)
    yield from of_hosts(maker, made.middle)
    yield from of_requests(maker)


def spelled(span):
    """Bytes, several byte strings, or what is a word already."""
    return span if isinstance(span, str) else several(span) if isinstance(span, list) else word(span)


def question_of(what, call, spans, numbers, *more):
    words = [*map(spelled, spans), *["-"] * (SPANS - len(spans))]
    words += [*map(str, numbers), *["0"] * (NUMBERS - len(numbers))]
    return " ".join([what, call, *words, *map(str, more)])


def writes_nothing(call, spans, numbers):
    """Whether it asks for questions of a login that has none: of a plain key, whose signature somebody else has verified. Or for what
    runs where a command is forced that has no bytes, or is not where the grant says."""
    if call == "runs":
        return not numbers[1] & 32 and (numbers[2] > 0 or not spans[0])
    is_signed = call == "log_in_questions" and numbers[0] == str(REQUEST)
    return call in ("log_in_questions", "may_offer_questions") and not is_signed and b"-cert-v01@".hex() not in spans[2]


def questions(rafendilo, asked):
    """Calls, questions and what is wanted, those with a room also with one of a byte."""
    for call, spans, numbers, wanted in asked:
        if call not in ROOMS:
            yield call, question_of("memory", call, spans, numbers, 0), rafendilo.Status[wanted] if isinstance(wanted, str) else wanted
            continue
        yield call, question_of("memory", call, spans, numbers, 2 * sum(map(len, spans)) + 4608), rafendilo.Status[wanted]
        if wanted == "DONE" and not writes_nothing(call, spans, numbers):
            yield call, question_of("memory", call, spans, numbers, 1), rafendilo.Status.SHORT_BUFFER


def without_memory():
    """The calls of which the header says that they take none."""
    found = re.findall(r"/\*((?:[^*]|\*(?!/))*)\*/\s*(uint32_t raf_\w+\([^;]*;(?:\s*uint32_t raf_\w+\([^;]*;)*)", header())
    said = [calls for comment, calls in found if re.search(r"takes no memory", re.sub(r"[\s*]+", " ", comment), re.I)]
    return {call for calls in said for call in re.findall(r"raf_(\w+)\(", calls)}


def enough_of(call, spans):
    """The room that the header says is enough for the questions of a login: twice the length of user, blob, session, host's key and
    signature, and 4,608 bytes. None for other calls."""
    is_login = call in ("log_in_questions", "may_offer_questions")
    return 2 * sum(len(data_of(spans[at])) for at in (0, 2, 3, 4, 5)) + 4608 if is_login else None


def check_rooms(judge, given):
    """Each room that is too short is answered so, and stays as it was."""
    asked = [it for it in given if it[0] in ROOMS and it[-1] == "DONE"]
    said = judge.said("calls with short rooms", [question_of("rooms", *it[:3]) for it in asked])
    for (call, spans, *_), answer in zip(asked, said):
        number, tried, needed = map(int, answer.split())
        enough = enough_of(call, spans)
        if enough is not None:
            judge.check(f"{call}: {needed} bytes are needed, and {enough} are enough", needed <= enough)
        # a login that asks nothing takes no room
        kept = number == 0 and tried == (needed or TEXTS.get(call, 0))
        judge.check(f"{call}: each room below {tried} bytes is too short", kept, answer)


def check_memory(judge):
    count, rafendilo, given = judge.count, judge.made.rafendilo, list(cases(judge.made))
    check_rooms(judge, given)
    asked = list(questions(rafendilo, given))
    said = judge.said("calls, each request of which is refused,", [question for _, question, _ in asked])
    taken = {}
    for call in sorted({it.removeprefix("raf_") for it in declared()}):
        here = [(wanted, question, answer) for (of, question, wanted), answer in zip(asked, said) if of == call]
        wrong = [(it[1][:200], int(it[0]), it[2]) for it in here if not is_kept(call, it[0], it[2])]
        taken[call] = [int(it[2].split()[1]) for it in here if not wrong]
        name = f"{call}: {len(here)} calls, each of {sum(taken[call])} requests refused"
        count.check(name, here and not wrong, *wrong[:3])
    early = [it[1][:200] for it, answer in zip(asked, said) if takes_early(*it, answer)]
    count.check("and the others take memory only where the header says", not early, *early[:3])
    none, told = {call for call, made in taken.items() if not any(made)}, without_memory()
    count.check("the header says of the calls that take no memory that they take none, and of no others", none == told, none ^ told)


def takes_early(call, question, wanted, answer):
    """Whether a call takes memory of which the header says otherwise."""
    may = wanted in (0, 2, 56) if call in OF_VALUES else wanted != 4 if call in OF_TEXTS else True
    return answer.split()[1] != "0" and not (may and (call not in OF_OTHER_NAMES or string(OTHER_NAME.encode()).hex() in question))


def is_kept(call, wanted, answer):
    """Whether the answer is the wanted one with memory, and RAF_MEMORY where a request is refused with all after it. Where it
    alone is refused, a call answers that or, if it can do without, rightly; it may do without the first one, and some calls
    without all."""
    number, made, once, after = answer.split() if answer.count(" ") == 3 else ("none", *"000")
    if call in DOING_WITHOUT:
        return number == str(int(wanted)) and once == after == "0"
    if (call, int(wanted)) in DECIDED:
        return number == str(int(wanted)) and once == after
    return number == str(int(wanted)) and made == after and int(made) - int(once) in (0, 1)
