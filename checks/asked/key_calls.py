"""Lines, fingerprints, signatures under a key and normal forms."""
import base64
import hashlib
import math

from cryptography.hazmat.primitives import hashes, serialization
from cryptography.hazmat.primitives.asymmetric import ec, rsa, utils
from lib.harness import blob_of, line_of, new_key, ssh_keygen, string, take
from lib.signatures import mpint

from .linked import turned, word

KINDS = ("ed25519", "ecdsa -b 256", "ecdsa -b 384", "ecdsa -b 521", "rsa -b 2048", "dsa")
COMMENTS = ("", "alice@host", "two words", "spaces  within", "Zoë's laptop")
# of how many hostile certificates the line of one is asked about
SAMPLED = 8


def encoded(blob):
    return base64.b64encode(blob).decode()


def all_of(blob):
    """The strings that the bytes are, one after the other."""
    found = []
    while blob:
        first, blob = take(blob)
        found.append(first)
    return found


def keys_of(maker):
    """The blobs of keys of each kind, those of security keys made of others."""
    for number, kind in enumerate(KINDS):
        line = new_key(maker.path(f"kind{number}"), kind, "a comment")
        if line:
            yield kind, blob_of(line)
    _, key = all_of(blob_of(maker.read("kind0.pub")))
    yield "sk-ed25519", b"".join(map(string, (b"sk-ssh-ed25519@openssh.com", key, b"ssh:")))
    _, curve, point = all_of(blob_of(maker.read("kind1.pub")))
    yield "sk-ecdsa", b"".join(map(string, (b"sk-ecdsa-sha2-nistp256@openssh.com", curve, point, b"ssh:a name")))


# ---- lines


def check_lines(judge, keys):
    """Lines of each kind with each comment, as ssh-keygen takes them, and with each end."""
    maker, cases = judge.made.maker, []
    certificates = [(f"a certificate of {kind.name}", kind.blob, 1) for kind in judge.made.kinds]
    for name, blob, is_certificate in [*((name, blob, 0) for name, blob in keys.items()), *certificates]:
        for comment in COMMENTS:
            line = line_of(blob) + (f" {comment}" if comment else "")
            shown = ssh_keygen("-l", "-f", maker.write("line", f"{line}\n"), check=False)
            wanted = f"0 {is_certificate} {blob.hex()} {word(comment.encode())}" if shown.returncode == 0 else "taken by ssh-keygen"
            for end in ("", "\n", "\r\n", " \t \r\n"):
                cases.append((f"{name}, comment {comment!r}, end {end!r}", f"line {(line + end).encode().hex()}", wanted))
    judge.hold("a line", cases)


def check_wrong_lines(judge, keys):
    """Lines that are none, by the errors that docs/FORMATS.md and the pages of the calls name."""
    blob, digits = keys["ed25519"], encoded(keys["ed25519"])
    cases = [
        ("no word", "", "LENGTH"), ("one word", "ssh-ed25519", "LENGTH"), ("a space and a line end", "ssh-ed25519 \n", "LENGTH"),
        ("a line end", "\n", "LENGTH"), ("two spaces", f"ssh-ed25519  {digits}", "LENGTH"),
        ("a space in front", f" ssh-ed25519 {digits}", "LENGTH"),
        ("a tab between", f"ssh-ed25519\t{digits}", "LENGTH"), ("Base64 alone", digits, "LENGTH"),
        ("a character less", f"ssh-ed25519 {digits[:-1]}", "BASE64"), ("no Base64", f"ssh-ed25519 {digits[:-4]}!!!!", "BASE64"),
        ("the other alphabet", f"ssh-ed25519 {digits[:-4]}____", "BASE64"), ("padding within", f"ssh-ed25519 AAA={digits}", "BASE64"),
        ("another name", f"ssh-rsa {digits}", "ALGORITHM_UNKNOWN"), ("a longer name", f"ssh-ed25519x {digits}", "ALGORITHM_UNKNOWN"),
        ("the name of its certificates", f"ssh-ed25519-cert-v01@openssh.com {digits}", "ALGORITHM_UNKNOWN"),
        ("a name with a comma", f"ssh,ed25519 {digits}", "CHARACTER_ENCODING"),
        ("no text", f"ssh-ed25519 {digits} ".encode() + b"\xff", "CHARACTER_ENCODING"),
        ("a byte less", f"ssh-ed25519 {encoded(blob[:-1])}", "LENGTH"),
        ("a byte more", f"ssh-ed25519 {encoded(blob + bytes(1))}", "TRAILING_DATA"),
        ("a name of nothing", f"ssh-foo {encoded(string(b'ssh-foo') + string(b''))}", "LABEL"),
        ("a cut certificate", f"ssh-ed25519-cert-v01@openssh.com {encoded(string(b'ssh-ed25519-cert-v01@openssh.com'))}", "LENGTH"),
        ("options in front", f"no-pty ssh-ed25519 {digits}", "BASE64"),
    ]  # fmt: skip
    lines = [(name, it if isinstance(it, bytes) else it.encode(), wanted) for name, it, wanted in cases]
    judge.hold("no line", [(name, f"line {word(it)}", str(judge.number(wanted))) for name, it, wanted in lines])


def spoilt_certificates(blob):
    """An Ed25519 certificate with each fault that PROTOCOL.certkeys lets it have, and its name."""
    fields = fields_of(blob)

    def with_field(at, field):
        return b"".join([*fields[:at], field, *fields[at + 1 :]])

    def signed(name, *values):
        return with_field(11, string(b"".join(map(string, (name, *values)))))

    def authority(point):
        return with_field(10, string(b"".join(map(string, (b"ecdsa-sha2-nistp256", b"nistp256", point)))))

    return [
        ("a byte less", blob[:-1], "LENGTH"), ("a byte more", blob + bytes(1), "TRAILING_DATA"),
        ("a signature by SHA-1", signed(b"ssh-rsa", bytes(256)), "LENGTH"),
        ("a type that is none", with_field(3, fields[3][:8] + bytes((0, 0, 0, 3))), "FORMAT"),
        ("a key id that is no text", with_field(4, string(b"\xff")), "CHARACTER_ENCODING"),
        ("a time above 2^63 - 1", with_field(6, b"\x80" + bytes(7) + fields[6][8:]), "TIME"),
        ("a number in the signature that is zero", signed(b"ecdsa-sha2-nistp256", string(b"") + string(b"\1")), "CRYPTO"),
        ("a point that is too short", authority(b"\4" + bytes(63)), "LENGTH"),
        ("a point that is too long", authority(b"\4" + bytes(65)), "ECDSA"),
        ("a point that begins with 05", authority(b"\5" + bytes(64)), "ALGORITHM_UNKNOWN"),
        # a label within is what a key with that name would have after its end
        ("a signature by nothing", signed(b"ssh-foo", b""), "TRAILING_DATA"),
    ]  # fmt: skip


def check_spoilt_certificates(judge):
    """The line of a spoilt certificate tells the fault of the certificate."""
    blobs = [kind.blob for kind in judge.made.kinds]
    names = {take(it)[0] for it in blobs}
    cases = spoilt_certificates(next(it for it in blobs if take(it)[0] == b"ssh-ed25519-cert-v01@openssh.com"))
    hostile = [(wanted, data, {"trailing": "TRAILING_DATA", "length": "LENGTH"}[wanted])
               for kind, data, wanted in judge.made.hostile if kind == "certificate" and wanted in ("trailing", "length")]  # fmt: skip
    cases += [it for it in hostile if len(it[1]) > 36 and any(it[1].startswith(string(name)) for name in names)][::SAMPLED]
    questions = [f"line {line_of(data).encode().hex()}" for _, data, _ in cases]
    judge.ask("lines of spoilt certificates", questions, [str(judge.number(wanted)) for *_, wanted in cases])


def is_ed25519_line(line):
    """What stands in a line of an Ed25519 key with a comment that ends in no white space, read by Python's own means."""
    try:
        first, word, comment = line.decode().split(" ", 2)
        blob = base64.b64decode(word, validate=True)
    except (ValueError, UnicodeDecodeError):
        return None
    good = encoded(blob) == word and len(blob) == 51 and blob[:19] == string(b"ssh-ed25519") + b"\0\0\0 " and first == "ssh-ed25519"
    return (blob, comment) if good else None


def check_turned_lines(judge, keys):
    lines = turned(f"{line_of(keys['ed25519'])} a comment".encode())
    said = judge.ask("lines with a bit turned", [f"line {it.hex()}" for it in lines])
    wrong = []
    for at, (data, answer) in enumerate(zip(lines, said)):
        wanted = is_ed25519_line(data)
        if answer.startswith("0 ") if wanted is None else answer != f"0 0 {wanted[0].hex()} {word(wanted[1].encode())}":
            wrong.append((at, wanted, answer))
    read = sum(it.startswith("0 ") for it in said)
    judge.check(f"of {len(lines)} of them those are read that are lines", not wrong and 0 < read < len(lines), *wrong[:3])


# ---- fingerprints


def check_fingerprints(judge, keys):
    """Digests that hashlib computes, and texts that ssh-keygen shows."""
    cases = []
    for name, blob in keys.items():
        path, wanted = judge.made.maker.write("shown", f"{line_of(blob)}\n"), ["0"]
        for digest in ("sha256", "sha512"):
            shown = ssh_keygen("-l", "-E", digest, "-f", path, text=True).stdout.split()[1]
            wanted += [hashlib.new(digest, blob).hexdigest(), shown]
        cases.append((name, f"key {blob.hex()}", " ".join(wanted)))
    judge.hold("the fingerprints of a key", cases)


# ---- signatures under a key


def signed_by(maker, key):
    """The bytes of a key, what it signed, and the signature (PROTOCOL.sshsig)."""
    given = maker.signature(key, "text")
    signer, rest = take(given[10:])
    space, rest = take(rest)
    reserved, rest = take(rest)
    hashed, rest = take(rest)
    digest = hashlib.new(hashed.decode(), b"text").digest()
    return signer, b"SSHSIG" + b"".join(map(string, (space, reserved, hashed, digest))), take(rest)[0]


def question_of(key, message, signature):
    return f"signature {word(key)} {word(message)} {word(signature)}"


def check_signatures(judge):
    """What keys signed is asked about as it is, verifies, and nothing else does."""
    kinds = judge.made.kinds
    signed = [signed_by(judge.made.maker, f"user{number}") for number in range(len(kinds))]
    for kind, (key, message, signature) in zip(kinds, signed):
        others = [(message + b"!", signature), *((message, it) for it in turned(signature))]
        questions = [question_of(key, *it) for it in [(message, signature), *others]]
        questions += [question_of(it, message, signature) for it in turned(key)[19:]]
        said = judge.ask(f"signatures by a key of {kind.name}", questions)
        parts = [key, message, all_of(signature)[1]]
        judge.check(f"what a key of {kind.name} signed is asked about as it is", said[0].split()[2:] == list(map(word, parts)), said[0])
        first, *said = judge.ask(f"verifications of signatures by a key of {kind.name}", [f"is-{it}" for it in questions])
        judge.check(f"and of {len(said)} others none is valid", first == "0 1" and "0 1" not in said, first)
        strange = next(it for it in signed if take(it[0])[0] != take(key)[0])[0]
        unsupported = ("under a key of another kind than its own", question_of(strange, message, signature), "40")
        judge.hold(f"a signature of {kind.name}", [unsupported])


def check_signature_parts(judge, keys):
    """A security key's question (PROTOCOL.u2f), and bytes that are no key or no signature."""
    flags, message = b"\1\0\0\0\5", b"what was signed"
    device = hashlib.sha256(b"ssh:").digest() + flags + hashlib.sha256(message).digest()
    signature = string(b"sk-ssh-ed25519@openssh.com") + string(bytes(range(64))) + flags
    parts = " ".join(map(word, (keys["ed25519"], device, bytes(range(64)))))
    plain, ed25519, rsa_key = string(b"ssh-ed25519") + string(bytes(64)), keys["ed25519"], keys["rsa -b 2048"]
    cases = [
        ("a security key's, about the plain key and what the device signed", keys["sk-ed25519"], signature, f"0 5 {parts}"),
        ("neither", b"", b"", "LENGTH"), ("no key, and no signature", ed25519 + b"!", b"", "TRAILING_DATA"),
        ("no signature", ed25519, b"", "LENGTH"), ("more than a signature", ed25519, plain + b"!", "TRAILING_DATA"),
        ("a signature that is too short", ed25519, string(b"ssh-ed25519") + string(bytes(63)), "LENGTH"),
        ("a signature by nothing", ed25519, string(b"ssh-foo") + string(b"x"), "LABEL"),
        ("RSA with SHA-1", rsa_key, string(b"ssh-rsa") + string(b"x"), "LENGTH"),
        ("another kind", rsa_key, plain, "UNSUPPORTED"), ("the same kind", ed25519, plain, "DONE"),
    ]  # fmt: skip
    asked = [(name, question_of(key, message, it), wanted) for name, key, it, wanted in cases]
    judge.hold("key and signature", [(*it, wanted if " " in wanted else str(judge.number(wanted))) for *it, wanted in asked])


# ---- numbers that are not positive


def signed_by_hand(message):
    """The numbers of an RSA key of 2,048 bits, the first byte of each being 80 or more, and what it makes of the message by SHA-256
    (RFC 8017, sections 8.2 and 9.2)."""
    numbers = rsa.generate_private_key(65537, 2048).private_numbers()
    order = (numbers.p - 1) * (numbers.q - 1)
    exponent = next(it for it in range(0x800001, 0x810000, 2) if math.gcd(it, order) == 1)
    digest = bytes.fromhex("3031300d060960864801650304020105000420") + hashlib.sha256(message).digest()
    padded = b"\0\1" + b"\xff" * (256 - 3 - len(digest)) + b"\0" + digest
    modulus = numbers.p * numbers.q
    made = pow(int.from_bytes(padded, "big"), pow(exponent, -1, order), modulus)
    return exponent, modulus, string(b"rsa-sha2-256") + string(made.to_bytes(256, "big"))


def numbers_of_keys(exponent, modulus):
    """Names, the numbers of an RSA key as its blob has them, and whether what it signs counts."""
    positive, negative = [tuple(it(number) for number in (exponent, modulus)) for it in (mpint, unsigned)]
    return [
        ("as it is", positive, True), ("a negative modulus", (positive[0], negative[1]), False),
        ("a negative exponent", (negative[0], positive[1]), False), ("both negative", negative, False),
        ("no modulus", (positive[0], string(b"")), False), ("no exponent", (string(b""), positive[1]), False),
    ]  # fmt: skip


def check_numbers(judge):
    """An RSA key whose numbers are zero or negative (RFC 4251, section 5) signs nothing."""
    message, read, cases = b"what was signed", set(), []
    exponent, modulus, signature = signed_by_hand(message)
    for name, numbers, is_one in numbers_of_keys(exponent, modulus):
        key = string(b"ssh-rsa") + b"".join(numbers)
        cases.append((name, f"is-{question_of(key, message, signature)}", f"0 {int(is_one)}"))
        path = judge.made.maker.write("numbers.pub", f"{line_of(key)}\n")
        read |= {name} if ssh_keygen("-l", "-f", path, check=False).returncode == 0 else set()
    judge.hold("an RSA key whose numbers are made by hand", cases)
    judge.check("ssh-keygen reads no negative ones", "as it is" in read and not any("negative" in it for it in read), read)
    check_signature_numbers(judge, message)


def check_signature_numbers(judge, message):
    key, one = blob_of(judge.made.maker.read("kind1.pub")), mpint(1)
    numbers = {"zero": string(b""), "negative": string(b"\xff"), "of 32 bytes, negative": string(b"\x80" * 32)}
    cases = [(f"{name}, {which}", pair, "CRYPTO") for name, it in numbers.items() for which, pair in (("r", it + one), ("s", one + it))]
    cases.append(("positive", one + one, "DONE"))
    blobs = [(name, string(b"ecdsa-sha2-nistp256") + string(pair), judge.number(wanted)) for name, pair, wanted in cases]
    judge.hold("the numbers of an ECDSA signature", [(name, question_of(key, message, it), str(wanted)) for name, it, wanted in blobs])


def points_of_keys(message):
    """ECDSA keys whose point is whole and compressed (SEC 1, section 2.3.3), a signature of the message by both, and whether it
    counts."""
    name, private = b"ecdsa-sha2-nistp256", ec.generate_private_key(ec.SECP256R1())
    numbers = utils.decode_dss_signature(private.sign(message, ec.ECDSA(hashes.SHA256())))
    signature = string(name) + string(b"".join(map(mpint, numbers)))
    for form, is_one in ((serialization.PublicFormat.UncompressedPoint, True), (serialization.PublicFormat.CompressedPoint, False)):
        point = private.public_key().public_bytes(serialization.Encoding.X962, form)
        yield string(name) + string(b"nistp256") + string(point), signature, is_one


def check_points(judge):
    """An ECDSA key whose point is compressed signs nothing: ssh-keygen reads no such key."""
    message, cases = b"what was signed", []
    for key, signature, is_one in points_of_keys(message):
        path = judge.made.maker.write("point.pub", f"{line_of(key)}\n")
        is_read = ssh_keygen("-l", "-f", path, check=False).returncode == 0
        wanted = f"0 {int(is_one)}" if is_read == is_one else "read by ssh-keygen"
        cases.append(("whole" if is_one else "compressed", f"is-{question_of(key, message, signature)}", wanted))
    judge.hold("the point of an ECDSA key", cases)


def check_weak_keys(judge):
    """Numbers of RSA keys that nobody makes, and keys that are too weak: none of them signs."""
    maker, (exponent, modulus, signature) = judge.made.maker, signed_by_hand(b"text")
    others = ((exponent, 1), (1, modulus), (exponent, modulus - 1), (exponent, (1 << 1000000) + 1))
    keys = [string(b"ssh-rsa") + b"".join(map(mpint, it)) for it in others]
    questions = [f"is-{question_of(it, b'text', signature)}" for it in keys]
    short = [it for it, kind in (("short", "rsa -b 1024"), ("dsa", "dsa")) if new_key(maker.path(it), kind)]
    questions += [f"is-{question_of(*signed_by(maker, it))}" for it in short]
    judge.ask("keys that are too weak", questions, ["0 0"] * len(questions))


def unsigned(number):
    """The number as no mpint has it: without the byte that says that it is positive."""
    return string(number.to_bytes((number.bit_length() + 7) // 8, "big"))


# ---- normal forms


def renamed(blob, name=b"rsa-sha2-256"):
    """An RSA key under another of its names (RFC 8332, section 3)."""
    return string(name) + take(blob)[1]


def fields_of(certificate):
    """The parts of a certificate of an Ed25519 key (PROTOCOL.certkeys), those with a length as strings."""
    found = []
    for size in (None, None, None, 12, None, None, 16, None, None, None, None, None):
        part, certificate = take(certificate) if size is None else (certificate[:size], certificate[size:])
        found.append(part if size else string(part))
    return found


def check_normal_certificates(judge):
    """A certificate with an empty value as a string in the string, and by an RSA key under another name."""
    extensions, signer = 8, 10
    blob = blob_of(judge.made.maker.certificate("authority4", "user0", "-n", "alice"))
    fields = fields_of(blob)
    plain, other = (string(b"permit-pty") + it for it in (string(b""), string(string(b""))))
    nested, under = list(fields), list(fields)
    nested[extensions] = string(take(fields[extensions])[0].replace(plain, other))
    under[signer] = string(renamed(take(fields[signer])[0]))
    both = [*nested[:signer], under[signer], *nested[signer + 1 :]]
    forms = {"as ssh-keygen writes it": fields, "with another empty value": nested, "by another name": under, "both": both}
    given = {name: b"".join(parts) for name, parts in forms.items()}
    cases = [(name, f"normal certificate {it.hex()}", f"0 {blob.hex()}") for name, it in given.items()]
    judge.hold("the normal form of a certificate", cases)
    judge.check("they are four spellings", len({*given.values()}) == 4 and blob in given.values())


def check_normal(judge, keys):
    """The normal forms of keys and of signatures, each of which has one spelling unless RSA is in it."""
    maker, rafendilo, rsa_key = judge.made.maker, judge.made.rafendilo, keys["rsa -b 2048"]
    ssh, other = maker.signature("user4", "text"), maker.signature("user0", "text")
    begins, (signer, rest) = ssh[:10], take(ssh[10:])
    plain = signed_by(maker, "user4")[2]
    cases = [(f"key of {name}", "key", it, it) for name, it in keys.items()]
    cases += [(f"key under {it}", "key", renamed(rsa_key, it.encode()), rsa_key) for it in ("rsa-sha2-256", "rsa-sha2-512")]
    cases += [("SSH signature by RSA", "sshsig", ssh, ssh), ("SSH signature by Ed25519", "sshsig", other, other)]
    cases += [("SSH signature under another name", "sshsig", begins + string(renamed(signer)) + rest, ssh)]
    cases += [("signature under a key", "signature", plain, plain)]
    judge.hold("the normal form of a", [(name, f"normal {kind} {given.hex()}", f"0 {wanted.hex()}") for name, kind, given, wanted in cases])
    digests = {hash_of(renamed(rsa_key)) for hash_of in (rafendilo.fingerprint, lambda it: rafendilo.fingerprint_sha512(it)[:32])}
    wanted = {hashlib.sha256(rsa_key).digest(), hashlib.sha512(rsa_key).digest()[:32]}
    judge.check("a fingerprint is that of the normal form", digests == wanted)
    check_turned_forms(judge, keys["ed25519"], plain)


def check_turned_forms(judge, key, signature):
    """Of an Ed25519 key and of an RSA signature the last bytes may be any, and no others."""
    for kind, data, any_from in (("key", key, 19), ("signature", signature, 20)):
        others = turned(data)
        said = judge.ask(f"turned bytes of a {kind}", [f"normal {kind} {it.hex()}" for it in others])
        read = {at for at, it in enumerate(said) if it.startswith("0 ")}
        same = all(said[at] == f"0 {others[at].hex()}" for at in read) and read >= set(range(any_from, len(data)))
        judge.check(f"the lowest bit of each byte of a {kind} turned", same, read)


def check_keys(judge):
    keys = dict(keys_of(judge.made.maker))
    check_lines(judge, keys)
    check_wrong_lines(judge, keys)
    check_spoilt_certificates(judge)
    check_turned_lines(judge, keys)
    check_fingerprints(judge, keys)
    check_signatures(judge)
    check_signature_parts(judge, keys)
    check_numbers(judge)
    check_points(judge)
    check_weak_keys(judge)
    check_normal(judge, keys)
    check_normal_certificates(judge)
