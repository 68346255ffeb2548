"""What answers a question: a verifier, which is a function; and how one is asked between two calls."""
from __future__ import annotations

from typing import Callable, TypeVar

from ._header import Algorithm, Status
from ._keys import may_verify, strings
from ._values import Question, Refused

# whether the question's signature is one: True, and anything else is a no
Verifier = Callable[[Question], bool]
Verdict = TypeVar("Verdict")


def decided(verdict: Callable[[bool], Verdict], is_verified: Callable[[], bool]) -> Verdict:
    """A verdict, which is told whether there is a signature. That is asked only where nothing else is wrong, so that no cryptography
    runs over a key that somebody made up."""
    try:
        return verdict(False)
    except Refused as refused:
        if refused.status != Status.NOT_SIGNED:
            raise
    return verdict(is_verified())


def is_signature(question: Question) -> bool:
    """Whether the question's signature is one, by the package `cryptography`, which is imported here: the verifier of who names none.

    It says no under a key that may_verify does not take. Raises ImportError where the package is not there."""
    from cryptography.exceptions import InvalidSignature, UnsupportedAlgorithm

    try:
        _verify(question)
    except (InvalidSignature, UnsupportedAlgorithm, ValueError):
        return False
    return True


def _verify(question: Question) -> None:
    """Raises InvalidSignature, or ValueError where the key is none, unless the signature is one."""
    from cryptography.exceptions import InvalidSignature
    from cryptography.hazmat.primitives.asymmetric import ed25519

    if not may_verify(question.key):
        raise InvalidSignature
    _, *parts = strings(question.key)
    if question.algorithm == Algorithm.ED25519:
        ed25519.Ed25519PublicKey.from_public_bytes(parts[0]).verify(question.signature, question.message)
    elif question.algorithm in (Algorithm.P256, Algorithm.P384, Algorithm.P521):
        _verify_ecdsa(parts[1], question)
    elif question.algorithm in (Algorithm.RSA_SHA256, Algorithm.RSA_SHA512):
        exponent, modulus = (int.from_bytes(it, "big") for it in parts)
        _verify_rsa(exponent, modulus, question)
    else:  # DSA, of which may_verify takes no key
        raise InvalidSignature


def _verify_ecdsa(point: bytes, question: Question) -> None:
    from cryptography.hazmat.primitives import hashes
    from cryptography.hazmat.primitives.asymmetric import ec, utils

    curve: ec.EllipticCurve
    digest: hashes.HashAlgorithm
    if question.algorithm == Algorithm.P256:
        curve, digest = ec.SECP256R1(), hashes.SHA256()
    elif question.algorithm == Algorithm.P384:
        curve, digest = ec.SECP384R1(), hashes.SHA384()
    else:
        curve, digest = ec.SECP521R1(), hashes.SHA512()
    key = ec.EllipticCurvePublicKey.from_encoded_point(curve, point)
    r, s = (int.from_bytes(it, "big") for it in strings(question.signature))
    key.verify(utils.encode_dss_signature(r, s), question.message, ec.ECDSA(digest))


def _verify_rsa(exponent: int, modulus: int, question: Question) -> None:
    from cryptography.hazmat.primitives import hashes
    from cryptography.hazmat.primitives.asymmetric import padding, rsa

    key = rsa.RSAPublicNumbers(exponent, modulus).public_key()
    digest = hashes.SHA256() if question.algorithm == Algorithm.RSA_SHA256 else hashes.SHA512()
    key.verify(question.signature, question.message, padding.PKCS1v15(), digest)
