"""Texts that people see by the calls of each language: the armour of an SSH signature, as `ssh-keygen -Y verify` reads it, and random art, as
`ssh-keygen -lv` draws it."""
import base64
import re

from lib.harness import line_of, ssh_keygen
from lib.signatures import armoured

from .example_calls import INVALID, SPACE, VALID, armour_cases
from .key_calls import keys_of
from .linked import word

LINES = re.compile(r"-----BEGIN SSH SIGNATURE-----\r?\n[^-]*\n-----END SSH SIGNATURE-----", re.ASCII)
# headers that ssh-keygen does not write, in lines as it draws them
HEADERS = ("", "x", "[a header of 17 c]", "[a header that is longer than the picture]", "\u0301[größe 1]", "two words", "a\nb")


def check_armours(judge):
    """Texts that are made of armours (asked/example_calls.py, which asks ssh-keygen about them)."""
    made, cases = judge.made, []
    own, other = (made.maker.signature("user0", it, SPACE) for it in ("a text", "another text"))
    good, strange = armoured(own), armoured(other)
    for case, text, wanted in armour_cases(good, strange):
        number = judge.number("BASE64" if LINES.match(text) else "FORMAT")
        answer = {VALID: f"0 {own.hex()}", INVALID: f"0 {other.hex()}"}.get(wanted, str(number))
        cases.append((case, f"armour {word(text.encode())}", answer))
    empty = "-----BEGIN SSH SIGNATURE-----\n{}-----END SSH SIGNATURE-----"
    cases += [
        ("no bytes", f"armour {word(empty.format(chr(10)).encode())}", "0 -"), ("one line end", f"armour {word(empty.format('').encode())}", str(judge.number("FORMAT"))),
        ("no text after it", f"armour {word(good.encode() + bytes([0, 255]))}", f"0 {own.hex()}"),
        ("no text", f"armour {word(bytes([255]) + good.encode())}", str(judge.number("FORMAT"))),
        ("no text in it", f"armour {word(good.encode().replace(b'==', bytes([255]) + b'=='))}", str(judge.number("BASE64"))),
    ]  # fmt: skip
    judge.hold("an armour", cases)


def drawn(art, header):
    """The picture under that header, which Python's own centring writes."""
    return "\n".join([f"+{header:-^17}+", *art[1:]])


def check_pictures(judge):
    cases = []
    for name, blob in keys_of(judge.made.maker):
        path = judge.made.maker.write("drawn", f"{line_of(blob)}\n")
        first, *art = ssh_keygen("-l", "-v", "-f", path, text=True).stdout.rstrip("\n").splitlines()
        digest = base64.b64decode(first.split()[1].removeprefix("SHA256:") + "=")
        for header in (art[0].strip("+-"), *HEADERS):
            cases.append((f"{name} under {header!r}", f"random-art {digest.hex()} {word(header.encode())}", f"0 {word(drawn(art, header).encode())}"))
        judge.check(f"the picture of {name} has eleven lines, and its own header", drawn(art, art[0].strip("+-")) == "\n".join(art) and len(art) == 11, art)
    cases.append(("a header that is no text", f"random-art {'00' * 32} ff", str(judge.number("TEXT"))))
    judge.hold("a picture", cases)


def check_texts(judge):
    check_armours(judge)
    check_pictures(judge)
