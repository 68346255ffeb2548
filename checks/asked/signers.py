"""Questions for the program allowed_signers: what `ssh-keygen -Y verify` says of a signature is what it has to say."""
import base64
import os
import time

from lib.harness import line_of, string
from lib.signatures import TYPES, armoured, signed, signed_data, told, told_of_file, unarmoured

from .revoked_lists import list_of, saved
from .security_key_calls import SecurityKey

NAMESPACE = "git"
WHO = "alice@example.com"
# 2024-01-01 12:00:00, UTC
NOON = 1704110400
ASK = "allowed-signer"
OK, NO = "ok", "not allowed"
REVOKED = "revoked"

# the text of allowed signers, and the answer; where only the text is given, the identity, the namespace and the time are those above
TEXTS = [
    ("her key", "{who} {key}\n", OK),
    ("no line", "", NO),
    ("no line end", "{who} {key}", OK),
    ("a line end of two characters", "{who} {key}\r\n", OK),
    ("a carriage return at the end of the text", "{who} {bare}\r", OK),
    ("white space behind the key that ends no word", "{who} {bare}\r\f\v x\n", OK),
    ("a comment after the key", "{who} {key} # work\n", OK),
    ("tabs and spaces", " \t{who}\t {tabbed}\t me\n", OK),
    ("a comment, and an empty line", "# {who} {other}\n\n \t\n  # x\n{who} {key}\n", OK),
    ("her line is a comment", "#{who} {key}\n", NO),
    ("a comment after the identity", "{who} #{key}\n", NO),
    ("another key", "{who} {other}\n", NO),
    ("another key first", "{who} {other}\n{who} {key}\n", OK),
    ("another identity", "bob@example.com {key}\n", NO),
    ("another identity first", "bob@example.com {key}\n{who} {key}\n", OK),
    ("a beginning of her name", "alice {key}\n", NO),
    ("capitals", "Alice@example.com {key}\n", NO),
    ("one of two", "bob@example.com,{who} {key}\n", OK),
    ("a pattern", "*@example.com {key}\n", OK),
    ("a pattern of another host", "*@example.org {key}\n", NO),
    ("two stars", "a*@*.com {key}\n", OK),
    ("one character for another", "?lice@example.com {key}\n", OK),
    ("one character too many", "?alice@example.com {key}\n", NO),
    ("negated", "!{who} {key}\n", NO),
    ("negated first", "!{who},*@example.com {key}\n", NO),
    ("negated last", "*@example.com,!alice@* {key}\n", NO),
    ("another is negated", "*@example.com,!bob@* {key}\n", OK),
    ("negated, and another line", "!{who},* {key}\n* {key}\n", OK),
    ("in quotes", '"{who}" {key}\n', OK),
    ("in quotes, with a space", '"a b,{who}" {key}\n', OK),
    ("in quotes, without a space after", '"{who}"{key}\n', OK),
    ("in quotes that stay open", '"{who} {key}\n', NO),
    ("open quotes in another line", '"x y\n{who} {key}\n', OK),
    ("a line without a key", "{who}\n{who} {key}\n", OK),
    ("a broken key before", "{who} ssh-ed25519 AAAA\n{who} {key}\n", OK),
    ("a broken line after", "{who} {key}\n{who} x\n", OK),
    ("a broken key alone", "{who} ssh-ed25519 AAAA\n", NO),
    ("the name of another algorithm", "{who} ssh-rsa {word}\n", NO),
    ("her namespace", '{who} namespaces="git" {key}\n', OK),
    ("another namespace", '{who} namespaces="file" {key}\n', NO),
    ("one of two namespaces", '{who} namespaces="file,git" {key}\n', OK),
    ("a pattern of namespaces", '{who} namespaces="g*" {key}\n', OK),
    ("a negated namespace", '{who} namespaces="*,!git" {key}\n', NO),
    ("another is negated, of namespaces", '{who} namespaces="*,!file" {key}\n', OK),
    ("no namespace", '{who} namespaces="" {key}\n', NO),
    ("another namespace, and a line without", '{who} namespaces="file" {key}\n{who} {key}\n', OK),
    ("an option in capitals", '{who} NameSpaces="git" {key}\n', OK),
    ("a namespace in capitals", '{who} namespaces="GIT" {key}\n', NO),
    ("two options", '{who} namespaces="git",valid-after="20231231" {key}\n', OK),
    ("two options the other way round", '{who} valid-after="20231231",namespaces="git" {key}\n', OK),
    ("three options", '{who} valid-before="20250101Z",namespaces="git",valid-after="20231231" {key}\n', OK),
    ("commas in front and between", '{who} ,,namespaces="git",,valid-after="20231231" {key}\n', OK),
    ("a comma at the end", '{who} namespaces="git", {key}\n', NO),
    ("a comma alone", "{who} , {key}\n", NO),
    ("a space after a comma", '{who} namespaces="git", valid-after="20231231" {key}\n', NO),
    ("the same option twice", '{who} namespaces="git",namespaces="git" {key}\n', NO),
    ("the same time twice", '{who} valid-after="20231231",valid-after="20231231" {key}\n', NO),
    ("an option that is not known", "{who} no-pty {key}\n", NO),
    ("an option that is not known, and a line without", "{who} no-pty {key}\n{who} {key}\n", OK),
    ("an option without its value", "{who} namespaces {key}\n", NO),
    ("a value without quotes", "{who} namespaces=git {key}\n", NO),
    ("a value in open quotes", '{who} namespaces="git {key}\n', NO),
    ("a quote in a value", '{who} namespaces="x\\"y,git" {key}\n', OK),
    ("text after a value", '{who} namespaces="git"x {key}\n', NO),
    ("options without a key", '{who} namespaces="git"\n', NO),
    ("an authority", "{who} cert-authority {key}\n", NO),
    ("an authority, and a line without", "{who} CERT-authority,cert-authority {key}\n{who} {key}\n", OK),
    ("an authority with a value", '{who} cert-authority="x" {key}\n', NO),
    ("from the day before", '{who} valid-after="20231231" {key}\n', OK),
    ("from that day", '{who} valid-after="20240101Z" {key}\n', OK),
    ("from the next day", '{who} valid-after="20240102" {key}\n', NO),
    ("from that minute", '{who} valid-after="202401011200Z" {key}\n', OK),
    ("from that second", '{who} valid-after="20240101120000Z" {key}\n', OK),
    ("from the next second", '{who} valid-after="20240101120001Z" {key}\n', NO),
    ("to the next day", '{who} valid-before="20240102Z" {key}\n', OK),
    ("to the beginning of that day", '{who} valid-before="20240101" {key}\n', NO),
    ("to that second", '{who} valid-before="20240101120000Z" {key}\n', OK),
    ("to the second before", '{who} valid-before="20240101115959Z" {key}\n', NO),
    ("from one second to the next", '{who} valid-after="20240101120000Z",valid-before="20240101120001Z" {key}\n', OK),
    ("from and to one second", '{who} valid-after="20240101120000Z",valid-before="20240101120000Z" {key}\n', NO),
    ("to a time before the first", '{who} valid-after="20240102",valid-before="20240101" {key}\n', NO),
    ("no time", '{who} valid-after="" {key}\n', NO),
    ("a month too many", '{who} valid-after="20231301" {key}\n', NO),
    ("a day too many", '{who} valid-after="20231232" {key}\n', NO),
    ("letters for a time", '{who} valid-after="yesterday" {key}\n', NO),
    ("the first second of 1970", '{who} valid-after="19700101Z" {key}\n', NO),
    ("an empty pattern first", ",{who} {key}\n", OK),
    ("an empty pattern last", "{who}, {key}\n", OK),
    ("a mark of negation alone", "!,{who} {key}\n", OK),
    ("two marks of negation", "!!{who},* {key}\n", OK),
    ("a mark after a star", "*!* {key}\n", NO),
    ("another is negated, and nobody named", "!bob@example.com {key}\n", NO),
    ("brackets", "[a-z]lice@example.com {key}\n", NO),
    ("a pattern of 1,022 bytes beside", "{who}," + 1022 * "x" + " {key}\n", OK),
    ("a pattern of 1,023 bytes beside", "{who}," + 1023 * "x" + " {key}\n", NO),
    ("a negated pattern of 1,022 bytes", "{who},!" + 1022 * "x" + " {key}\n", OK),
    ("a negated pattern of 1,023 bytes", "!" + 1023 * "x" + ",{who} {key}\n", NO),
    ("from that second, in UTC", '{who} valid-after="20240101120000UTC" {key}\n', OK),
    ("from that minute, in small letters", '{who} valid-after="202401011200z" {key}\n', OK),
    ("another zone", '{who} valid-after="202401011200GMT" {key}\n', NO),
    ("two zones", '{who} valid-after="202401011200ZZ" {key}\n', NO),
    ("from the second 60 of a minute", '{who} valid-after="20240101115960Z" {key}\n', OK),
    ("from the second 61 of a minute", '{who} valid-after="20240101115961Z" {key}\n', NO),
    ("to the second 60 of a minute", '{who} valid-before="20240101115960Z" {key}\n', OK),
    ("to the second 62 of a minute", '{who} valid-before="20240101120062Z" {key}\n', NO),
    ("to the hour 24", '{who} valid-before="202401022400Z" {key}\n', NO),
    ("to the minute 60", '{who} valid-before="202401011260Z" {key}\n', NO),
    ("to a year of four digits", '{who} valid-before="99991231235959Z" {key}\n', OK),
    ("from the second second of 1970", '{who} valid-after="19700101000001Z" {key}\n', OK),
    ("from 1969", '{who} valid-after="19691231Z" {key}\n', NO),
    ("a time without minutes", '{who} valid-after="2024010111Z" {key}\n', NO),
    ("a sign in a time", '{who} valid-after="+2230101Z" {key}\n', NO),
    ("negated before a carriage return", "*,!{who}\r {key}\n", NO),
    ("negated before two carriage returns", "*,!{who}\r\r\t {key}\n", NO),
    ("after a carriage return", "bob@example.com\r,{who} {key}\n", NO),
    ("a carriage return in a namespace", '{who} namespaces="*,!git\r" {key}\n', OK),
    ("a carriage return in the comment", "{who} {key} x\ry\n", OK),
    ("a carriage return in another line", "bob@example.com\r {other}\n{who} {key}\n", OK),
    ("negated before a zero byte", "*,!{who}\0 {key}\n", NO),
    ("negated before a zero byte, first", "!{who}\0,* {key}\n", NO),
    ("negated before a zero byte, in quotes", '"*,!{who}\0" {key}\n', NO),
    ("a zero byte after the identity", "{who}\0 {key}\n", NO),
    ("a zero byte in front", "\0{who} {key}\n", NO),
    ("a zero byte before the key", "{who} \0{key}\n", NO),
    ("a zero byte in a namespace", '{who} namespaces="*,!git\0" {key}\n', NO),
    ("a zero byte in another line", "bob@example.com\0 {other}\n{who} {key}\n", OK),
    ("a zero byte in a comment line", "# \0\n{who} {key}\n", OK),
    ("a comment line that is not UTF-8", "# gr\udcf6\udcdfe\n{who} {key}\n", OK),
    ("a comment of another key that is not UTF-8", "{who} {other} gr\udcf6\udcdfe\n{who} {key}\n", OK),
    ("another identity that is not UTF-8", "gr\udcf6n@example.com {key}\n{who} {key}\n", OK),
    ("an identity that is not UTF-8 alone", "gr\udcf6n@example.com {key}\n", NO),
    ("a comment that is not UTF-8", "{who} {key} gr\udcf6\udcdfe\n", OK),
    ("a comment of one byte that is not UTF-8", "{who} {bare}\t\udcff\n", OK),
    ("a comment that is not UTF-8 after options", '{who} namespaces="git" {key} gr\udcf6\udcdfe " \\"\n', OK),
    ("a comment that is not UTF-8 after another namespace", '{who} namespaces="file" {key} gr\udcf6\udcdfe\n', NO),
    ("a pattern beside that is not UTF-8", "gr\udcf6n@example.com,{who} {key}\n", OK),
    ("a pattern in quotes that is not UTF-8", '"gr\udcf6n a,{who}" {key} gr\udcf6n\n', OK),
    ("a negated pattern that is not UTF-8", "!gr\udcf6n@example.com,{who} {key}\n", OK),
    ("negated beside a pattern that is not UTF-8", "gr\udcf6n@example.com,!{who},* {key}\n", NO),
    ("a byte behind the key that is not UTF-8", "{who} {bare}\udcff\n", NO),
    ("a byte behind the key's name that is not UTF-8", "{who} ssh-ed25519\udcff {word}\n", NO),
    ("a byte before the key that is not UTF-8", "{who} \udcff{key}\n", NO),
    ("an option that is not UTF-8", "{who} gr\udcf6n {key}\n", NO),
]  # fmt: skip

# read by ssh-keygen and not here, which lets nobody else in
STRICTER = [
    ("quotes within a word", 'ali"ce@example.com" {key}\n', NO),
    ("a carriage return within a line", "{who}\r{key}\n", NO),
    ("a carriage return after the identity", "{who}\r {key}\n", NO),
    ("a carriage return within quotes", '"bob@example.com\r,{who}" {key}\n', NO),
    ("negated before a carriage return, in quotes", '"*,!{who}\r" {key}\n', NO),
    ("a carriage return after quotes", '"{who}"\r {key}\n', NO),
    ("a carriage return before the key", "{who} \r{key}\n", NO),
    ("a zero byte after the key", "{who} {bare}\0\n", NO),
    ("a zero byte in the comment", "{who} {key} x\0y\n", NO),
    ("a form feed within a key", "{who} ssh-ed25519 \f{word}\n", NO),
    ("a space in a time", '{who} valid-after="2023 101Z" {key}\n', NO),
    ("a namespace beside that is not UTF-8", '{who} namespaces="gr\udcf6n,git" {key}\n', NO),
]

# read by ssh-keygen since 10.0, and not before
EITHER = [("a carriage return in front", "\r{who} {key}\n", NO)]

# times without a zone, which ssh-keygen takes for those of the machine's, from the easternmost to the westernmost
ZONES = ("EAST-14", "UTC", "CET-1CEST,M3.5.0,M10.5.0/3", "WEST12")
# the name, the text, the answer, the time, and whether ssh-keygen says otherwise in another zone
ZONELESS = [
    ("from noon, 13 hours later", '{who} valid-after="20240101120000" {key}\n', OK, NOON + 46800, False),
    ("from noon, a second earlier", '{who} valid-after="20240101120000" {key}\n', NO, NOON + 46799, False),
    ("from noon, in the last hour of the westernmost zone", '{who} valid-after="20240101120000" {key}\n', NO, NOON + 43199, True),
    ("from noon, at noon", '{who} valid-after="20240101120000" {key}\n', NO, NOON, True),
    ("from noon, before it is noon anywhere", '{who} valid-after="20240101120000" {key}\n', NO, NOON - 50401, False),
    ("to noon, 14 hours earlier", '{who} valid-before="20240101120000" {key}\n', OK, NOON - 50400, False),
    ("to noon, a second later", '{who} valid-before="20240101120000" {key}\n', NO, NOON - 50399, True),
    ("to noon, at noon", '{who} valid-before="20240101120000" {key}\n', NO, NOON, True),
    ("to noon in summer, an hour earlier", '{who} valid-before="202307011200" {key}\n', NO, 1688209200, True),
    ("from a day in small letters", '{who} valid-after="20240101z" {key}\n', OK, NOON, False),
    ("from one day to the next", '{who} valid-after="20240101",valid-before="20240102" {key}\n', NO, NOON, True),
    ("from one day to the third", '{who} valid-after="20240101",valid-before="20240103" {key}\n', OK, NOON + 7200, False),
    ("from the second day of 1970", '{who} valid-after="19700102" {key}\n', OK, NOON, False),
    ("from 14 hours after the start of 1970", '{who} valid-after="197001011400" {key}\n', NO, NOON, True),
]  # fmt: skip

# the name, the text, the answer, and the time
TIMES = [
    ("from 31 February, on 2 March", '{who} valid-after="20240231Z" {key}\n', OK, 1709337600),
    ("from 31 February, a second before", '{who} valid-after="20240231Z" {key}\n', NO, 1709337599),
    ("from 29 February 2100, on 1 March", '{who} valid-after="21000229Z" {key}\n', OK, 4107542400),
    ("from 29 February 2100, a second before", '{who} valid-after="21000229Z" {key}\n', NO, 4107542399),
    ("from 1 March 2000", '{who} valid-after="20000301Z" {key}\n', OK, 951868800),
    ("to the last of February 2000", '{who} valid-before="20000229235959Z" {key}\n', NO, 951868800),
]  # fmt: skip

# what a list of ssh-keygen revokes, and the answer
LISTS = [
    ("her key", "{key}", REVOKED),
    ("her key's SHA-1 digest", "sha1: {key}", REVOKED),
    ("her key's SHA-256 digest", "sha256: {key}", REVOKED),
    ("another key and hers", "{other}\n{key}", REVOKED),
    ("another key", "{other}", OK),
    ("another key's digests", "sha1: {other}\nsha256: {other}", OK),
    ("nothing", "", OK),
]


def made_by(maker, name, message, *words):
    """The bytes of a signature of ssh-keygen by the key of that name."""
    path = maker.path("message")
    with open(path, "wb") as file:
        file.write(message)
    maker.run("-q", "-Y", "sign", "-f", maker.path(name), "-n", NAMESPACE, *words, path)
    blob = unarmoured(maker.read("message.sig"))
    os.remove(path + ".sig")
    return blob


def reserving(maker, name, key, message, covered):
    """A signature that shows a reserved byte, by the key of that name over data in which those reserved bytes stand; and the line
    that tells the program of it."""
    namespace, name_of_hash = NAMESPACE.encode(), b"sha512"
    data = signed_data(namespace, covered, name_of_hash, message)
    signature = signed(maker.path(name), key, data)
    head = b"SSHSIG" + (1).to_bytes(4, "big") + string(base64.b64decode(key.split(" ")[1]))
    return head + b"".join(map(string, (namespace, b"x", name_of_hash, signature))), told(key, signature, data)


def by_device(device, message):
    """A signature by a security key; and the line that tells the program of what the device signed with the plain key within."""
    namespace, name_of_hash = NAMESPACE.encode(), b"sha512"
    said = device.device_message(signed_data(namespace, b"", name_of_hash, message))
    raw = device.raw(said)
    head = b"SSHSIG" + (1).to_bytes(4, "big") + string(device.blob())
    blob = head + b"".join(map(string, (namespace, b"", name_of_hash, device.signature(raw))))
    return blob, told(line_of(device.plain()), string(device.names[1]) + string(raw), said)


def says(maker, text, blob, message, who, namespace, at, revoked, zone="UTC"):
    """Whether ssh-keygen takes the signature for that identity's in that zone, by a list of revoked keys if one is given."""
    with open(maker.path("allowed"), "wb") as file:
        file.write(text)
    with open(maker.path("armour"), "w", encoding="ascii") as file:
        file.write(armoured(blob))
    words = ["-Y", "verify", "-f", maker.path("allowed"), "-I", who, "-n", namespace, "-s", maker.path("armour")]
    words += ["-O", "verify-time=" + time.strftime("%Y%m%d%H%M%SZ", time.gmtime(at))]
    if revoked is not None:
        words += ["-r", saved(maker, revoked)]
    return maker.run(*words, zone=zone, input=message, check=False).returncode == 0


def signers(maker):
    """Names, lines and answers."""
    keys, message = keys_of(maker), b"a commit\n"
    made = made_by(maker, "signer", message)
    of_made = told_of_file(made, message)

    def case(
        name, text, wanted, who=WHO, namespace=NAMESPACE, at=NOON, of=message, blob=made, line=of_made, same=True, revoked=None, ask=ASK,
        differs=None,
    ):  # fmt: skip
        text = text.format(**keys).encode("utf-8", "surrogateescape")
        asked = "\t".join([ask, text.hex(), who, namespace, str(at), of.hex(), blob.hex(), *([] if revoked is None else [revoked.hex()])])

        def said(zone="UTC"):
            return says(maker, text, blob, of, who, namespace, at, revoked, zone)

        if differs is not None:
            answers = {said(zone) for zone in ZONES}
            # who is let in here is let in everywhere
            if len(answers) != 1 + differs or (wanted == OK and answers != {True}):
                wanted = f"{wanted}, and ssh-keygen says otherwise"
        elif line and same is not None and said() != ((wanted in (OK, "1")) == same):
            wanted = f"{wanted}, and ssh-keygen says otherwise"
        return f"allowed signer: {name}", [line] if line else [], asked, wanted

    for name, text, wanted in TEXTS:
        yield case(name, text, wanted)
    for name, text, wanted in STRICTER:
        yield case(name, text, wanted, same=False)
    for name, text, wanted in EITHER:
        yield case(name, text, wanted, same=None)
    for name, text, wanted, at, differs in ZONELESS:
        yield case(name, text, wanted, at=at, differs=differs)
    for name, text, wanted, at in TIMES:
        yield case(name, text, wanted, at=at)
    text = "{who} {key}\n"
    yield case("another message", text, "not verified", of=b"another commit\n")
    yield case("another namespace is asked for", text, "not verified", namespace="file")
    yield case("another identity is asked for", text, NO, who="bob@example.com")
    yield case("nobody is asked for", "* {key}\n", "no identity", who="", same=False)
    yield case("two days later", '{who} valid-before="20240102" {key}\n', NO, at=NOON + 2 * 86400)
    yield case("two days before", '{who} valid-after="20240101" {key}\n', NO, at=NOON - 2 * 86400)
    yield from others(maker, keys, message, made, case)
    yield from revocations(maker, keys, message, case)


def keys_of(maker):
    """What the texts name."""
    keys = {"who": WHO, "key": maker.key("signer"), "other": maker.key("another-signer")}
    keys["tabbed"] = keys["key"].replace(" ", " \t ")
    keys["word"] = keys["key"].split(" ")[1]
    keys["bare"] = "ssh-ed25519 " + keys["word"]
    return keys


def others(maker, keys, message, made, case):
    """The same of other signatures than the one that is made first."""
    text = "{who} {key}\n"
    for number, kind in enumerate(TYPES):
        name = f"signer{number}"
        keys["by"] = maker.key(name, kind)
        blob = made_by(maker, name, message)
        line = told_of_file(blob, message)
        yield case(f"by {kind}", "{who} {by}\n", OK, blob=blob, line=line)
        yield case(f"by {kind}, revoked", "{who} {by}\n", REVOKED, blob=blob, line=line, revoked=list_of(maker, keys["by"]))
    blob = made_by(maker, "signer", message, "-O", "hashalg=sha256")
    yield case("a digest of 256 bits", text, OK, blob=blob, line=told_of_file(blob, message))
    keys["fresh"] = maker.key("fresh-signer")
    fresh = made_by(maker, "fresh-signer", message)
    yield case("a signature that nobody verified", "{who} {fresh}\n", "not verified", blob=fresh, line=None)
    blob, line = reserving(maker, "signer", keys["key"], message, b"x")
    yield case("a reserved byte", text, "not verified", blob=blob, line=line)
    blob, line = reserving(maker, "signer", keys["key"], message, b"")
    yield case("a reserved byte that is not signed", text, "not verified", blob=blob, line=line, same=False)
    yield case("bytes that are no signature", text, "no signature", blob=made[:-1], line=None)
    for kind in ("Ed25519", "ECDSA P-256"):
        for name, application, wanted in (
            ("with an application", b"ssh:", OK), ("with a zero byte in it", b"ssh:\0x", NO), ("with a zero byte after it", b"ssh:\0", NO),
        ):  # fmt: skip
            device = SecurityKey(kind, application)
            keys["held"] = device.line()
            blob, line = by_device(device, message)
            yield case(f"by a security key ({kind}), {name}", "{who} {held}\n", wanted, blob=blob, line=line)


def revocations(maker, keys, message, case):
    """The same by lists of revoked keys."""
    text = "{who} {key}\n"
    for name, lines, wanted in LISTS:
        yield case(f"revoked is {name}", text, wanted, revoked=list_of(maker, lines.format(**keys)))
    hers, another = (list_of(maker, keys[it]) for it in ("key", "other"))
    yield case("a list that breaks off", text, REVOKED, revoked=another[:-1])
    yield case("revoked, and another identity", text, NO, who="bob@example.com", revoked=hers)
    yield case("revoked, and another message", text, REVOKED, of=b"another commit\n", revoked=hers)
    yield case("how often the verifier is asked", text, "1", revoked=another, ask=f"questions\t{ASK}")
    yield case("how often about a revoked key", text, "0", revoked=hers, ask=f"questions\t{ASK}")
    device = SecurityKey("Ed25519", b"ssh:")
    keys["held"] = device.line()
    blob, line = by_device(device, message)
    for name, key, wanted in (("it", device.line(), REVOKED), ("its plain key", line_of(device.plain()), OK)):
        yield case(f"by a security key, revoked is {name}", "{who} {held}\n", wanted, blob=blob, line=line, revoked=list_of(maker, key))
