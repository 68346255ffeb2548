"""Questions about deploy keys, for `find_signer` of sshkey_examples: `ssh-keygen -Y sign` signs, and `ssh-keygen -Y verify` says under which keys that is a
signature of the content in the namespace."""
import os

from lib.harness import string, take
from lib.signatures import TYPES, armoured, signed_data, told_of_file, unarmoured
from lib.signatures import signed as by_key

from .revoked_lists import list_of, saved

NAMESPACE = "git"
CONTENT = b"object 0123\ntype commit\ntag v1\n\na tag\n"
# in front of the fields of a signature, with its version (PROTOCOL.sshsig)
MAGIC = b"SSHSIG\0\0\0\1"
BROKEN = "ssh-ed25519 AAAA"

# the lines of the keys, what is asked otherwise than it was signed, and the answer
CASES = [
    ("the key", ["{key} the key"], {}, "signed by the key"),
    ("without a comment", ["{key}"], {}, "signed by "),
    ("another key", ["{other} another"], {}, "nobody"),
    ("no key", [], {}, "nobody"),
    ("other content", ["{key} the key"], {"content": CONTENT + b"."}, "nobody"),
    ("another namespace", ["{key} the key"], {"namespace": "file"}, "nobody"),
    ("a byte of the signature is another", ["{key} the key"], {"flipped": True}, "nobody"),
    ("a reserved byte", ["{key} the key"], {"reserved": b"x"}, "nobody"),
    ("after comments", ["# {other} no key", "", "  # neither", "{key} the key"], {}, "signed by the key"),
    ("after a line that is none", [BROKEN, "{key} the key"], {}, "signed by the key"),
    ("in a comment", ["# {key} the key"], {}, "nobody"),
    ("with options", ["no-pty {key} the key"], {}, "nobody"),
    ("with options, and without", ['command="true" {key} bound', "{key} free"], {}, "signed by free"),
    ("the second of several", ["{other} another", "{key} the key", "{third} a third"], {}, "signed by the key"),
    ("under two comments", ["{other} another", "{key} first", "{key} second"], {}, "signed by first"),
    ("none of several", ["{other} another", "{third} a third"], {}, "nobody"),
    ("revoked", ["{key} the key"], {"revoked": "{key}"}, "nobody"),
    ("revoked by its digest", ["{key} the key"], {"revoked": "sha256: {key}"}, "nobody"),
    ("revoked, under two comments", ["{key} first", "{other} another", "{key} second"], {"revoked": "{other}\n{key}"}, "nobody"),
    ("another key is revoked", ["{other} another", "{key} the key"], {"revoked": "{other}"}, "signed by the key"),
    ("nothing is revoked", ["{key} the key"], {"revoked": ""}, "signed by the key"),
    ("a list of another key that breaks off", ["{key} the key"], {"revoked": "{other}", "end": -1}, "nobody"),
]  # fmt: skip


def deploys(maker):
    """Names, lines and answers."""
    keys = {"other": maker.key("deploy-other", "ed25519"), "third": maker.key("deploy-third", "rsa -b 2048")}
    keys = {name: bare(line) for name, line in keys.items()}
    for number, kind in enumerate(TYPES):
        name = f"deploy{number}"
        keys["key"] = bare(maker.key(name, kind))
        for case, lines, changes, wanted in CASES:
            # each case has a signature of its own, so that what was told before plays no part
            content = CONTENT + f"{kind}: {case}".encode()
            blob = signed(maker, name, content, changes.get("flipped"), changes.get("reserved"))
            asked = changes.get("content", content), changes.get("namespace", NAMESPACE)
            lines = [line.format(**keys) for line in lines]
            text = "".join(line + "\n" for line in lines).encode()
            before = told_of_file(blob, content)
            lists = [list_of(maker, it.format(**keys))[: changes.get("end")] for it in [changes.get("revoked")] if it is not None]
            words = ["deploy", text.hex(), asked[1], asked[0].hex(), blob.hex(), *(it.hex() for it in lists)]
            answer = compared(maker, lines, blob, *asked, lists, wanted)
            yield f"deploy key of {kind}: {case}", [before] if before else [], "\t".join(words), answer


def bare(line):
    """The line of a key without its comment."""
    return " ".join(line.split(" ")[:2])


def signed(maker, name, content, flipped, reserved):
    """What stands in the armour of a signature by that key, its last byte another one where that is asked for, or with reserved
    bytes, which it is over (PROTOCOL.sshsig)."""
    path = maker.path("content")
    with open(path, "wb") as file:
        file.write(content)
    maker.run("-Y", "sign", "-q", "-f", maker.path(name), "-n", NAMESPACE, path)
    blob = unarmoured(maker.read("content.sig"))
    os.remove(path + ".sig")
    if reserved:
        key = take(blob[len(MAGIC) :])[0]
        namespace, name_of_hash, line = NAMESPACE.encode(), b"sha512", bare(maker.read(f"{name}.pub"))
        made = by_key(maker.path(name), line, signed_data(namespace, reserved, name_of_hash, content))
        return MAGIC + b"".join(map(string, (key, namespace, reserved, name_of_hash, made)))
    return blob[:-1] + bytes([blob[-1] ^ 1]) if flipped else blob


def compared(maker, lines, blob, content, namespace, lists, wanted):
    """The answer that is wanted, or what ssh-keygen says instead: the comment of the first line of a key alone under which it
    verifies the signature."""
    found = "nobody"
    for line in reversed(lines):
        if line.startswith("ssh-") or line.startswith("ecdsa-"):
            key, comment = bare(line), " ".join(line.split(" ")[2:])
            found = f"signed by {comment}" if verifies(maker, key, blob, content, namespace, lists) else found
    return wanted if found == wanted else f"{wanted}, and ssh-keygen says {found}"


def verifies(maker, key, blob, content, namespace, lists):
    with open(maker.path("allowed"), "w", encoding="ascii") as file:
        file.write(f"somebody {key}\n")
    with open(maker.path("signature"), "w", encoding="ascii") as file:
        file.write(armoured(blob))
    words = ["-Y", "verify", "-f", maker.path("allowed"), "-I", "somebody", "-n", namespace, "-s", maker.path("signature")]
    for data in lists:
        words += ["-r", saved(maker, data)]
    return maker.run(*words, input=content, check=False).returncode == 0
