"""Keys of each kind that an authority is asked to certify, for checks/callers: ssh-keygen says whose certificates it reads."""
import base64

from cryptography.hazmat.primitives import serialization
from cryptography.hazmat.primitives.asymmetric import ec
from lib.harness import reads_dsa, string
from lib.signatures import mpint

from .security_key_calls import SecurityKey

CURVES = {b"nistp256": ec.SECP256R1, b"nistp384": ec.SECP384R1, b"nistp521": ec.SECP521R1}
FORMS = {
    "whole": serialization.PublicFormat.UncompressedPoint,
    "compressed": serialization.PublicFormat.CompressedPoint,
}  # fmt: skip
ZERO, NEGATIVE = string(b""), string(b"\xff" * 257)


def line(name, *parts):
    """The line of a key of that kind with these parts, each of which is a string."""
    return f"{name.decode()} {base64.b64encode(string(name) + b''.join(parts)).decode()}"


def of_bits(bits):
    return mpint(2 ** (bits - 1) + 1)


def issued_keys():
    """Names, lines of keys, whether they are certified, and the status of `ssh-keygen -L` for their certificates."""
    three, modulus = mpint(3), of_bits(2048)
    # ssh-keygen reads RSA from 1,024 bits on, and an exponent of any size
    for bits, is_issued, status in ((1023, False, 1), (2047, False, 0), (2048, True, 0), (16384, True, 0), (16385, False, 1)):
        yield f"an RSA key of {bits} bits", line(b"ssh-rsa", three, of_bits(bits)), is_issued, status
    for name, parts, status in (
        ("the exponent 0", (ZERO, modulus), 0), ("a negative exponent", (NEGATIVE, modulus), 1), ("the modulus 0", (three, ZERO), 1),
        ("a negative modulus", (three, NEGATIVE), 1), ("an exponent of 16,385 bits", (of_bits(16385), modulus), 1),
    ):  # fmt: skip
        yield f"an RSA key with {name}", line(b"ssh-rsa", *parts), False, status
    numbers = [of_bits(1024), of_bits(160), three, three]
    yield "a DSA key", line(b"ssh-dss", *numbers), False, 0 if reads_dsa() else 1
    for curve, kind in CURVES.items():
        point = ec.generate_private_key(kind()).public_key()
        for form, how in FORMS.items():
            parts = string(curve), string(point.public_bytes(serialization.Encoding.X962, how))
            is_whole = form == "whole"
            yield f"a key of {curve.decode()}, {form}", line(b"ecdsa-sha2-" + curve, *parts), is_whole, 0 if is_whole else 1
    for kind in ("Ed25519", "ECDSA P-256"):
        for name, application, is_issued, status in (
            ("an application", b"ssh:x", True, 0), ("no application", b"", True, 0),
            ("a zero byte in the application", b"a\0b", False, 1), ("a zero byte after the application", b"ssh:\0", False, 0),
        ):  # fmt: skip
            yield f"a security key ({kind}) with {name}", SecurityKey(kind, application).line(), is_issued, status
    device = SecurityKey("ECDSA P-256", b"ssh:")
    point = device.private.public_key().public_bytes(serialization.Encoding.X962, FORMS["compressed"])
    yield "a security key, compressed", line(device.names[0], string(b"nistp256"), string(point), string(b"ssh:")), False, 1
