"""Revocation files that are texts, for the table: what they say of a key and of a certificate is what `ssh-keygen -Y verify -r`
says, which reads them as sshd does."""
import base64
import re
import tempfile
from concurrent.futures import ThreadPoolExecutor

from lib.asking import of_table, share
from lib.harness import blob_of, new_key, openssh, reads_dsa, ssh_keygen, string, take

from .host_rows import LATER, LATER_NAME

# how many files are changed, and how often each answer has to come
CHANGED, LEAST = 160, 60
OK, REVOKED, REFUSED = "ok", "REVOKED", "refused"
SMALL = b"\0\xc1" + bytes(61) + b"\1"
# files that are not mutated: by lines of the keys
BY_HAND = [
    "", "\n", " \t\n\n", "# x\n", " \t# {key}\n", "#{key}\n", "\r\n", "{other}\n\r\n", " \r\n", "\r", "{key}", "{key}\n", "{key}\r\n",
    "{key}\r", "{key} x\n", "{key}\t\r\n", " \t{key}\n", "{name}\t \t{word}\tx # y\n", "{name}{word}\n", "{name}\n", "{name} \n",
    "{name} \t\r\n", "{word}\n", "{name} {word}x\n", "{name} {word}=\n", "{name} {short}\n", "{name} AAAA\n", "{name} AA\n",
    "{name} {word},x\n", "ssh-rsa {word}\n", "SSH-ED25519 {word}\n", "ssh-ed25519-cert-v01@openssh.com {word}\n", "no-pty {key}\n",
    "* {key}\n", "@revoked * {key}\n", 'command="x" {key}\n', "{other}\n{key}\n", "{key}\nx\n", "x\n{key}\n", "{other}\nx\n", "{other}\n",
    "{certificate}\n", "{certificate} x\n", "{signer}\n", "{host}\n", "{name} {cert_word}\n", "{small}\n", "{small}\n{key}\n",
    "{private}\n", "{large}\n", "{greatest}\n", "{greatest}\n{key}\n", "{negative}\n", "{negative_exponent}\n", "{negative_dsa}\n",
    "{compressed}\n", "{held_compressed}\n", "{held}\n", "{zero_byte}\n", "{held_zero_byte}\n", "{by_private}\n", "{by_small}\n",
    "{by_point}\n", "{zero_in_id}\n", "{zero_in_name}\n", "{many_principals}\n", "{p256}\n", "{rsa}\n{key}\n", "SSHKRL\n", "SSHKRL", "{key}\n#", "{key}\n #\n", "{key}\n\f\n", "{key}\n\v{other}\n", "\ufeff{key}\n",
    "{key}\r\r\n", "{other}\n{key}\v\f\r x\n", "{certificate}\f\r", "{key}\rx\n", "{later}\r\rx\n",
    "# gr\udcf6\udcdfe\n{key}\n", "{key} gr\udcf6\udcdfe\n", "{other} \udcff\n{key}\n", "{other}\t\udcff\n", "{certificate} \udcff\n", "\udcff\n", "\udcff{key}\n",
    "{later}\nx\n", "{later_short}\n", "{later_long}\n", "{later_trailing}\n", "{later_cut}\n", "{later_name}\n", "{later_named}\n", "{misnamed}\n",
    "{name}\udcff {word}\n", "{name} {word}\udcff\n", "{name} \udcff\n", "{other} \udcff\nx\n", "{key}\n{name} {word}\udcff\n",
]  # fmt: skip
# files that one of both refuses alone: what is otherwise, and whether it is read here (docs/OPENSSH.md)
OTHERWISE = {
    "\0x\n": False, "{other}\n \0\n": False, "{other}\0\n": False, "{name} {split}\n": False, "rsa-sha2-256 {rsa_word}\n": False, "{off_curve}\n": True, "{unsigned}\n": True, "{ended}\n": False,
    "{no_exponent}\n": False,
}  # fmt: skip
DSA = "{dsa}\n"
# 10.6 alone reads these: a key of its own kind, by which nobody is let in here
LATER_KIND = ["{later}\n", "{later}", "\t{later}\r\n", "{key}\n{later}\n", "{later}\n{key}\n", "# x\n{other}\n{later} x\n\n"]
BASE = "# x\n\n \t{other}\n{name}\t{word} x\r\n{other} y\n"


def otherwise():
    """OTHERWISE, with what the version refuses, or reads, alone."""
    return {**OTHERWISE, DSA: None if reads_dsa() else True, **dict.fromkeys(LATER_KIND, True if openssh() < (10, 6) else None)}


def made(folder):
    """Lines of keys, of a certificate of the key, of one whose signature is changed and of one that the key signed; and parts."""
    kinds = {"key": "ed25519", "other": "ed25519", "third": "ed25519", "signer": "ed25519", "p256": "ecdsa -b 256", "rsa": "rsa -b 1024"}
    lines = {name: new_key(f"{folder}/of-files-{name}", kind).decode().strip() for name, kind in kinds.items()}

    def certificate(signer, name, *words):
        path = f"{folder}/of-files-{name}"
        ssh_keygen("-q", "-s", f"{folder}/of-files-{signer}", "-I", "id", "-n", "me", *words, f"{path}.pub")
        with open(f"{path}-cert.pub", encoding="utf-8") as file:
            return file.read().strip()

    lines |= {"certificate": certificate("signer", "key"), "host": certificate("key", "other", "-h")}
    blob = blob_of(lines["certificate"])
    small = base64.b64encode(string(b"ssh-rsa") + string(b"\1\0\1") + string(SMALL)).decode()
    name, word = lines["key"].split()
    unsigned = f"{lines['certificate'].split()[0]} {base64.b64encode(blob[:-1] + bytes([blob[-1] ^ 1])).decode()}"
    return lines | strange_lines(blob_of(lines["p256"]), blob_of(lines["certificate"])) | {
        "name": name, "word": word, "short": word[:-4], "cert_word": lines["certificate"].split()[1], "small": f"ssh-rsa {small}",
        "unsigned": unsigned, "rsa_word": lines["rsa"].split()[1], **later_lines(),
        "split": f"{lines['other'].split()[1][:20]}\r{lines['other'].split()[1][20:]}",
    }  # fmt: skip


def later_lines():
    """A line of a key of 10.6's own kind, and such lines in which something is wrong."""
    name, own = string(LATER_NAME), bytes(range(256)) * 5 + bytes(64)
    blobs = {"later_short": name + string(own[1:]), "later_long": name + string(own + b"x"), "later_trailing": name + string(own) + b"x", "later_name": name}
    lines = {it: f"{LATER_NAME.decode()} {base64.b64encode(blob).decode()}" for it, blob in blobs.items()}
    whole = LATER["later"].split()[1]
    named = {"later": LATER["later"], "later_cut": LATER["cut"], "later_named": f"ssh-ed25519 {whole}", "misnamed": LATER["misnamed"]}
    return lines | named


def with_parts(certificate, key_id=None, principals=None, signer=None):
    """The certificate of an Ed25519 key with other parts (PROTOCOL.certkeys); its signature fits no more."""
    # how many bytes each field has that is no string
    sizes, others = [0, 0, 0, 8, 4, 0, 0, 8, 8, 0, 0, 0, 0, 0], {5: key_id, 6: principals, 12: signer}
    rest, made = certificate, b""
    for at, size in enumerate(sizes):
        held, rest = (rest[:size], rest[size:]) if size else take(rest)
        made += held if size else string(others.get(at) or held)
    return made


def strange_lines(p256, certificate):
    """Lines of keys and certificates that ssh-keygen refuses, of each kind that needs no arithmetic, and of some that it reads."""
    exponent, point, held = b"\1\0\1", p256[-65:], b"\1" * 32
    compressed, small = bytes([2 + point[64] % 2]) + point[1:33], b"\x40" + bytes(127)

    def key(name, *parts):
        return b"".join(map(string, (name.encode(), *parts)))

    sk_ed25519, sk_ecdsa = "sk-ssh-ed25519@openssh.com", "sk-ecdsa-sha2-nistp256@openssh.com"
    private, by_point = key("name@example.com", b"x"), key("ecdsa-sha2-nistp256", b"nistp256", compressed)
    blobs = {
        "private": private, "compressed": by_point, "held_compressed": key(sk_ecdsa, b"nistp256", compressed, b"ssh:"),
        "off_curve": key("ecdsa-sha2-nistp256", b"nistp256", point[:-1] + bytes([point[-1] ^ 1])),
        "large": key("ssh-rsa", exponent, b"\1" + bytes(2048)), "greatest": key("ssh-rsa", exponent, b"\0\x80" + bytes(2047)),
        "negative": key("ssh-rsa", exponent, b"\xff" * 128), "negative_exponent": key("ssh-rsa", b"\xff" + exponent, b"\0\x80" + bytes(127)),
        "no_exponent": key("ssh-rsa", b"", b"\0\x80" + bytes(127)), "dsa": key("ssh-dss", b"\7", b"\3", b"\2", b"\4"),
        "negative_dsa": key("ssh-dss", b"\7", b"\3", b"\2", b"\xff\4"), "held": key(sk_ed25519, held, b"ssh:"),
        "zero_byte": key(sk_ed25519, held, b"a\0b"), "held_zero_byte": key(sk_ecdsa, b"nistp256", point, b"\0ssh:"),
        "ended": key(sk_ed25519, held, b"ssh:\0"), "by_private": with_parts(certificate, signer=private),
        "by_small": with_parts(certificate, signer=key("ssh-rsa", exponent, small)), "by_point": with_parts(certificate, signer=by_point),
        "zero_in_id": with_parts(certificate, key_id=b"i\0d"), "many_principals": with_parts(certificate, principals=string(b"me") * 257),
        "zero_in_name": with_parts(certificate, principals=string(b"m\0e")),
    }  # fmt: skip
    return {name: f"{take(blob)[0].decode()} {base64.b64encode(blob).decode()}" for name, blob in blobs.items()}


def changed(draw, text):
    """The text with characters changed, left out, doubled or put in."""
    for _ in range(share(CHANGED)):
        first, last = sorted(draw.sample(range(len(text) + 1), 2))
        near = min(last, first + draw.randint(1, 8))
        more = draw.choice(" \t\n#=Axs-")
        yield text[:first] + draw.choice([text[near:], text[first:near] + text[first:], more + text[first:], more + text[first + 1 :]])


def signed(folder, name):
    """The signature of a message by a key or a certificate, in a file."""
    path = f"{folder}/of-files-{name}"
    with open(f"{path}.message", "w", encoding="utf-8") as file:
        file.write("hi\n")
    ssh_keygen("-q", "-Y", "sign", "-f", path, "-n", "file", f"{path}.message")
    return f"{path}.message.sig"


def said(folder, at, data, signatures):
    """What ssh-keygen says of each signature where the file revokes keys."""
    path = f"{folder}/of-files-file-{at}"
    with open(path, "wb") as file:
        file.write(data)
    for signature in signatures:
        words = ["-Y", "verify", "-f", f"{folder}/of-files-allowed", "-I", "me", "-n", "file", "-s", signature, "-r", path]
        run = ssh_keygen("-vvv", *words, input=b"hi\n", stdin=None, check=False)
        found = re.search(rb"sig_verify: \w+_check_revoked: (.*?)\r?\n", run.stderr)
        assert found or not run.returncode, run
        yield OK if not found else REVOKED if b"revoked" in found[1] else REFUSED


def rows_of(draw, folder):
    """Each file, what ssh-keygen says of the key, of its certificate and of a key that no file has, and whether it is read here alone."""
    lines = made(folder)
    with open(f"{folder}/of-files-allowed", "w", encoding="utf-8") as file:
        file.write("".join(f"me {lines[it]}\n" for it in ("key", "third")) + f"me cert-authority {lines['signer']}\n")
    texts = [*BY_HAND, *otherwise()]
    files = [it.format(**lines) for it in texts] + list(changed(draw, BASE.format(**lines)))
    files = [it.encode("utf-8", "surrogateescape") for it in files]
    signatures = [signed(folder, it) for it in ("key", "key-cert.pub", "third")]
    with ThreadPoolExecutor() as pool:
        told = list(pool.map(lambda it: list(said(folder, *it, signatures)), enumerate(files)))
    alone = [None] * len(BY_HAND) + list(otherwise().values()) + [None] * share(CHANGED)
    return [blob_of(lines[it]) for it in ("key", "signer", "third")], list(zip(files, told, alone))


def is_same(answers, told, alone):
    """Whether the table says the same. Where it refuses a file, ssh-keygen may have found a key before the line that it refuses."""
    words = " ".join(answers).split()
    refused = not {OK, REVOKED}.issuperset(words)
    if alone is not None:
        return refused is not alone and (told[2] == REFUSED) is alone
    if refused:
        return told[2] == REFUSED and OK not in told
    return words[:3] == told


def questions_of(data, keys):
    """About the key and its certificate, and about the other key."""
    key, signer, third = (f"base64:{base64.b64encode(it).decode()}" for it in keys)
    file = f"base64:{base64.b64encode(data).decode()}"
    return [f"revoked {file} , {it} , {signer}" for it in (key, third)]


def part(draw):
    with tempfile.TemporaryDirectory() as folder:
        keys, rows = rows_of(draw, folder)

    def judge(answers, count):
        for data, told, alone in rows:
            answered = [answers.get(it, "no answer") for it in questions_of(data, keys)]
            count.note(f"the file {data!r}", is_same(answered, told, alone), answered, told)
        said = [it for _, told, _ in rows for it in told]
        few = [it for it in (OK, REVOKED, REFUSED) if said.count(it) < share(LEAST)]
        count.check(f"{len(said)} answers of ssh-keygen about files are compared", not few, *few)

    return of_table([question for data, *_ in rows for question in questions_of(data, keys)], judge)
