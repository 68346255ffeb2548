"""Key revocation lists that ssh-keygen makes, and what it says of them; and revocation files, which are these or keys."""
import base64
import hashlib
import os
import re
import shutil
import tempfile
from concurrent.futures import ThreadPoolExecutor

from lib.harness import blob_of, line_of, ssh_keygen, string

from .key_calls import renamed
from .linked import several, turned, word

SUBJECTS, AUTHORITIES = ("ed25519", "ecdsa -b 384", "rsa -b 2048"), ("ed25519", "ecdsa -b 256")
# the serial numbers and the key ids of the certificates of each subject
CERTIFIED = ((0, "id"), (1, ""), (5, "id"), (70, "two words"), (2**64 - 1, "größe"))
# every how many-th changed list a package is asked about
SAMPLED = 8
# a list of nothing (PROTOCOL.krl)
EMPTY = b"SSHKRL\n\0" + (1).to_bytes(4, "big") + bytes(24) + string(b"") * 2
# RAF_DONE and RAF_REVOKED, by whether ssh-keygen says that it is revoked
SAID = UNREVOKED, REVOKED = "0", "56"


def files_of(maker):
    """The paths of keys and of certificates of them, and what they hold."""
    found = {}
    for number, kind in enumerate(AUTHORITIES):
        maker.key(f"revoker{number}", kind)
    for subject, kind in enumerate(SUBJECTS):
        maker.key(f"revoked{subject}", kind)
        found[maker.path(f"revoked{subject}.pub")] = maker.blob(f"revoked{subject}")
        for number in range(len(AUTHORITIES)):
            for serial, key_id in CERTIFIED:
                name = f"revoked{subject}-{number}-{serial}"
                shutil.copy(maker.path(f"revoked{subject}.pub"), maker.path(f"{name}.pub"))
                words = ("-s", maker.path(f"revoker{number}"), "-I", key_id, "-z", str(serial), "-n", "alice")
                ssh_keygen("-q", *words, maker.path(f"{name}.pub"))
                found[maker.path(f"{name}-cert.pub")] = maker.blob(f"{name}-cert")
    return found


def made_list(maker, authority, lines, *words):
    """The list of a specification (ssh-keygen(1), "KEY REVOCATION LISTS") for that authority, for all (`none`), or for keys alone."""
    by = [] if authority is None else ["-s", authority if authority == "none" else maker.path(f"{authority}.pub")]
    given = maker.write("specification", "".join(f"{it}\n" for it in lines))
    ssh_keygen("-q", "-k", "-f", maker.path("list"), *by, *words, given)
    with open(maker.path("list"), "rb") as file:
        return file.read()


def lists_of(maker):
    """Lists by their names."""
    first, second, authority = (maker.read(f"{it}.pub") for it in ("revoked0", "revoked2", "revoker1"))
    digest = base64.b64encode(hashlib.sha256(blob_of(second)).digest()).decode().rstrip("=")
    lists = {
        "nothing": (None, []), "a key": (None, [f"key: {first}"]), "SHA-1": (None, [f"sha1: {second}"]),
        "SHA-256": (None, [f"sha256: {first}", f"sha256: {second}"]), "a hash": (None, [f"hash: SHA256:{digest}"]),
        "an authority's key": (None, [authority]), "an authority's SHA-1": (None, [f"sha1: {authority}"]),
        "a certificate": ("revoker0", [maker.read("revoked1-0-5-cert.pub")]), "a number": ("revoker0", ["serial: 5"]),
        "a range": ("revoker1", ["serial: 2-70"]), "the last range": ("revoker0", [f"serial: 6-{2**64 - 1}"]),
        "bits": ("revoker0", [f"serial: {it}" for it in (*range(3, 66, 2), 70)]), "a key id": ("revoker1", ["id: id"]),
        "numbers of all": ("none", ["serial: 1", "serial: 70"]), "an id of all": ("none", ["id: größe"]),
    }  # fmt: skip
    found = {name: made_list(maker, *it) for name, it in lists.items()}
    for name, other in (("two authorities and a key", "revoker1"), ("an authority, all and a key", "none")):
        made_list(maker, "revoker0", ["serial: 1", "id: two words"])
        found[name] = made_list(maker, other, ["serial: 5", first], "-u")
    return found


def said(folder, data, paths):
    """What ssh-keygen says of each file: 1 where the list revokes it, or else 0; None where it refuses the list."""
    with tempfile.NamedTemporaryFile(dir=folder) as file:
        file.write(data)
        file.flush()
        ran = ssh_keygen("-Q", "-f", file.name, *paths, text=True, check=False)
    words = re.findall(r": (ok|REVOKED)$", ran.stdout, re.M)
    if ran.returncode == 255 and not words:
        return None
    assert len(words) == len(paths), ran
    return [int(it == "REVOKED") for it in words]


def question(data, path, blob, by="-by-krl"):
    return f"unrevoked-{'certificate' if path.endswith('-cert.pub') else 'key'}{by} {word(data)} {word(blob)}"


def check_lists(judge, files, lists):
    cases = []
    for name, data in lists.items():
        for (path, blob), revoked in zip(files.items(), said(judge.made.folder, data, files)):
            for by in ("-by-krl", ""):
                cases.append((f"{name}: {os.path.basename(path)}{by}", question(data, path, blob, by), SAID[revoked]))
    judge.hold("a revocation list of", cases)
    few = [it for it in SAID if [wanted for *_, wanted in cases].count(it) < len(cases) // 8]
    judge.check("ssh-keygen says yes and no often", not few, few)


def check_changed(judge, files, lists):
    """Lists that are cut off, and those of which a bit is turned: what ssh-keygen reads of them is read, and says what it says.
    Their authorities are Ed25519 keys: of others more is read than by ssh-keygen (docs/OPENSSH.md)."""
    changed = []
    for name in ("a key", "bits", "an authority, all and a key"):
        changed += [lists[name][:at] for at in range(len(lists[name]))] + turned(lists[name])
    changed = changed[:: SAMPLED if judge.asker.is_package else 1]
    some = dict(list(files.items())[::4])
    with ThreadPoolExecutor() as pool:
        wanted = list(pool.map(lambda it: said(judge.made.folder, it, some), changed))
    asked = [
        (question(data, *it), None if of is None else of[at])
        for data, of in zip(changed, wanted) for at, it in enumerate(some.items())
    ]  # fmt: skip
    answers = judge.ask("changed revocation lists", [it for it, _ in asked])
    wrong = [
        (*it, answer) for it, answer in zip(asked, answers)
        if not (10 <= int(answer.split()[0]) < 30 if it[1] is None else answer == SAID[it[1]])
    ]  # fmt: skip
    read = sum(it is not None for it in wanted)
    name = f"ssh-keygen reads {read} of {len(changed):,} changed lists, and each says the same"
    judge.check(name, 0 < read < len(changed) and not wrong, *wrong[:3])


def check_faults(judge, files, lists):
    """What is wrong with a list, or else with what it is asked about (PROTOCOL.krl)."""
    key = next(iter(files.values()))
    certificate, rsa = (judge.made.maker.blob(it) for it in ("revoked0-0-5-cert", "revoked2"))

    def of_section(number, *content):
        return EMPTY + bytes([number]) + string(b"".join(content))

    def of_part(number, content, after=b""):
        return of_section(1, string(b"") * 2, bytes([number]), string(content + after))

    five, bits = (5).to_bytes(8, "big"), bytes(8) + string(b"\x20")
    cases = [
        ("nothing", EMPTY, key, UNREVOKED), ("the number 5", of_part(0x20, five), certificate, REVOKED),
        ("bits", of_part(0x22, bits), certificate, REVOKED),
        ("no bytes", b"", key, "LENGTH"), ("a text of keys", judge.made.maker.read("revoked0.pub").encode(), key, "FORMAT"),
        ("another magic", b"SSHKRL\0\0" + EMPTY[8:], key, "FORMAT"),
        ("another version", EMPTY[:11] + b"\2" + EMPTY[12:], key, "UNSUPPORTED_VERSION"), ("a byte less", EMPTY[:-1], key, "LENGTH"),
        ("signatures", of_section(4), key, "FORMAT"), ("another section", of_section(6), key, "FORMAT"),
        ("a short digest", of_section(3, string(bytes(19))), key, "LENGTH"), ("the number 0", of_part(0x20, bytes(8)), key, "FORMAT"),
        ("a long digest", of_section(5, string(bytes(33))), key, "TRAILING_DATA"),
        ("a range that falls", of_part(0x21, five, bytes(8)), key, "FORMAT"), ("another part", of_part(0x24, b""), key, "FORMAT"),
        ("a byte after bits", of_part(0x22, bits, b"!"), key, "TRAILING_DATA"), ("no key", EMPTY, b"", "LENGTH"),
        ("a key and a byte", EMPTY, key + b"!", "TRAILING_DATA"), ("neither is one", EMPTY[:-1], key + b"!", "LENGTH"),
        ("a certificate and a byte", EMPTY, certificate + b"!", "TRAILING_DATA"),
        ("a key by another name", lists["SHA-1"], renamed(rsa, b"rsa-sha2-512"), REVOKED),
    ]  # fmt: skip
    asked = []
    for name, data, blob, wanted in cases:
        path = "-cert.pub" if blob.startswith(certificate[:40]) else ".pub"
        asked.append((name, question(data, path, blob), wanted if wanted in SAID else str(judge.number(wanted))))
    for name, what, blob, wanted in (
        # as one of a private-use name
        ("a certificate as a key", "key", certificate, "TRAILING_DATA"), ("a key as a certificate", "certificate", key, "LABEL"),
    ):  # fmt: skip
        asked.append((name, f"unrevoked-{what}-by-krl {word(EMPTY)} {word(blob)}", str(judge.number(wanted))))
    judge.hold("a revocation list", asked)


def texts_of(maker):
    """Names, files, and whether they revoke the key revoked0 and the certificate revoked0-0-5-cert, by revoker0; None for a file that
    can't be read."""
    key, other, authority, certificate = (maker.read(f"{it}.pub") for it in ("revoked0", "revoked1", "revoker0", "revoked0-0-5-cert"))
    yes, no, no_file = (REVOKED, REVOKED), (UNREVOKED, UNREVOKED), (None, None)
    return [
        ("no bytes", "", no), ("a comment", f"# {key}\n", no), ("empty lines", "\n\n", no), ("its key", f"{key}\n", yes),
        ("its key and no line end", key, yes), ("its key after another", f"# x\n{other}\n \t{key}\r\n", yes),
        ("another key", f"{other}\n", no), ("its authority", f"{authority}\n", (UNREVOKED, REVOKED)), ("its certificate", f"{certificate}\n", yes),
        ("half a key", f"{key[:40]}\n", no_file), ("its key, and a line that is none", f"{key}\nx\n", no_file),
        ("a word", "x\n", no_file), ("a comment that is not UTF-8", f"# gr\udcf6\udcdfe\n{other} gr\udcf6\udcdfe\n", no), ("its key, and a comment that is not UTF-8", f"{key} \udcff\n", yes),
        ("a key that is not UTF-8", f"{key[:40]}\udcff{key[40:]}\n", no_file), ("a list's first word", "SSHKRL\n", no_file),
        ("a private-use name", f"{line_of(string(b'name@example.com') + string(b'x'))}\n", no_file),
    ]  # fmt: skip


def check_files(judge):
    """What a revocation file says, which is a list or keys, one a line."""
    maker, asked = judge.made.maker, []
    subjects = [(it, maker.blob(it)) for it in ("revoked0", "revoked0-0-5-cert")]
    unread = str(judge.number("UNREADABLE_REVOCATIONS"))
    for name, text, wanted in texts_of(maker):
        for (path, blob), answer in zip(subjects, wanted):
            file = text.encode("utf-8", "surrogateescape")
            asked.append((f"{name}: {path}", question(file, f"{path}.pub", blob, ""), answer or unread))
    for name, data, kind in (("a list without its last byte", EMPTY[:-1], unread), ("no list, and no key", EMPTY[:-1], unread)):
        asked.append((name, question(data, ".pub", subjects[0][1] if "and" not in name else b"", ""), kind))
    asked.append(("no bytes, and no key", question(b"", ".pub", b"", ""), str(judge.number("LENGTH"))))
    judge.hold("a revocation file", asked)
    check_several(judge, subjects)


def check_several(judge, subjects):
    """The same of several files: any of them revokes, and all have to be read."""
    read, asked = judge.made.maker.read, []
    own, other, half = (it.encode() for it in (read("revoked0.pub"), read("revoked1.pub"), read("revoked0.pub")[:40]))
    listed, unread = made_list(judge.made.maker, None, [read("revoked0.pub")]), str(judge.number("UNREADABLE_REVOCATIONS"))
    for name, files, wanted in (
        ("none", [], unread), ("one that revokes nothing", [EMPTY], UNREVOKED), ("two of nothing", [EMPTY, b""], UNREVOKED), ("its key in the first", [own, other], REVOKED),
        ("its key in the last of three", [b"", other, listed], REVOKED), ("its key in both", [own, listed], REVOKED), ("another key in both", [other, other], UNREVOKED),
        ("half a key in the second", [EMPTY, half], unread), ("half a key in the first", [half, own], unread), ("its key, and half a list", [own, listed[:-1]], unread),
    ):  # fmt: skip
        for path, blob in subjects:
            kind = "certificate" if path.endswith("-cert") else "key"
            asked.append((f"{name}: {path}", f"unrevoked-{kind} {several(files)} {word(blob)}", wanted))
    judge.hold("several revocation files", asked)


def check_revocations(judge):
    files, lists = files_of(judge.made.maker), lists_of(judge.made.maker)
    check_files(judge)
    check_lists(judge, files, lists)
    check_changed(judge, files, lists)
    check_faults(judge, files, lists)
