"""Has an error name the argument that is not what it has to be, as a line in place of a blob, and say the way out, or that it is of a
later kind of key, or one that is not verified."""
from __future__ import annotations

import dataclasses
import functools
import inspect
import re
from typing import Any, Callable, TypeVar, cast

from ._header import Status
from ._library import LIBRARY, bytes_of
from ._values import UNREADABLE, Refused

Call = TypeVar("Call", bound=Callable[..., Any])
# the arguments that are blobs, and fields of such
BLOBS = ("blob", "certificate", "key", "host_key", "authority", "signature")
# those that are texts, fingerprints, and texts of files, each of which has to be read
TEXTS = ("user", "host", "identity", "namespace", "algorithm", "text")
DIGESTS, FILES = ("authorities", "signers"), ("authorized_keys", "command_keys", "revoked", "known_hosts")
# how a line begins, and an armour: a blob begins with the length of a name, which has zeros in front
LINE, ARMOUR = re.compile(rb"[ \t]*(ssh|ecdsa|sk|rsa)-"), re.compile(rb"-----BEGIN ")


def names_blobs(call: Call) -> Call:
    """The call, whose Refused and TypeError say so."""

    @functools.wraps(call)
    def named(*given: Any, **more: Any) -> Any:
        try:
            return call(*given, **more)
        except (Refused, TypeError) as error:
            arguments = inspect.signature(call).bind_partial(*given, **more).arguments
            hint = _hint(arguments, _any_fault if isinstance(error, TypeError) else _blob_fault)
            hint = hint or (_hint(arguments, _later) if _is_unread(error) else "")
            hint = hint or (_hint(arguments, _unverified) if _is_unsigned(error) else "")
            if not hint or hint in str(error):
                raise
            if isinstance(error, Refused):
                raise Refused(error.status, error.line, error.text, error.source, hint) from None
            raise TypeError(f"{hint} ({error})") from None

    return cast(Call, named)


def _is_unread(error: Exception) -> bool:
    """Whether bytes are no key, no certificate and no signature."""
    return isinstance(error, Refused) and Status.BASE64 <= error.status < Status.NOT_SIGNED


def _is_unsigned(error: Exception) -> bool:
    return isinstance(error, Refused) and error.status == Status.CLIENT_NOT_SIGNED


def _hint(arguments: dict[str, Any], fault_of: Callable[[str, Any], str]) -> str:
    """What is wrong with which argument, or which field of one; empty where nothing is known."""
    for name, value in arguments.items():
        if dataclasses.is_dataclass(value):
            found = _hint(vars(value), fault_of)
        else:
            fault = fault_of(name, value)
            found = f"{name}: {fault}" if fault else ""
        if found:
            return found
    return ""


def _blob_fault(name: str, value: Any) -> str:
    return _fault(value) if name in BLOBS else ""


def _any_fault(name: str, value: Any) -> str:
    return _blob_fault(name, value) or _type_fault(name, value)


def _type_fault(name: str, value: Any) -> str:
    """What is wrong with the type of an argument of that name."""
    # a login may be bound to no host's key
    if name in BLOBS and name != "host_key" and value is None:
        return "None, and no blob"
    if name in TEXTS and not isinstance(value, (str, bytes, bytearray, memoryview)):
        return f"{value!r:.40}, and not a text"
    if name in DIGESTS and not _is_list(value):
        return "no list of fingerprints: authorities(text).keys"
    if name in FILES and not _is_list(value):
        return "no list of the texts of files" + (", or NO_REVOCATIONS" if name == "revoked" else "")
    return ""


def _is_list(value: Any) -> bool:
    """Whether it has bytes, one after the other, or texts that were not read; where it is gone through once, it may have."""
    if value is None or isinstance(value, (str, bytes, bytearray, memoryview)):
        return False
    return not isinstance(value, (list, tuple)) or all(it is UNREADABLE or isinstance(it, (bytes, bytearray, memoryview)) for it in value)


def _fault(value: Any) -> str:
    if isinstance(value, str):
        value, said = value.encode("utf-8", "replace"), "a text, and not bytes"
    else:
        said = ""
    if isinstance(value, (bytes, bytearray, memoryview)) and LINE.match(value):
        return "a line, and not its blob: read_line(line).blob"
    if isinstance(value, (bytes, bytearray, memoryview)) and ARMOUR.match(value):
        return "an armour, and not its bytes: read_armour(text)"
    return said


def _unverified(name: str, value: Any) -> str:
    is_blob = name == "blob" and isinstance(value, (bytes, bytearray, memoryview))
    is_unverified = is_blob and LIBRARY.raf_may_verify(*bytes_of(value)) == Status.KEY_NOT_ACCEPTED
    return "a key that no verifier may take (may_verify), as of RSA below 2,048 bits" if is_unverified else ""


def _later(name: str, value: Any) -> str:
    is_blob = name in BLOBS and isinstance(value, (bytes, bytearray, memoryview))
    is_later = is_blob and LIBRARY.raf_names_later_kind(*bytes_of(value)) == Status.DONE
    return "of a later kind of key, which is not read" if is_later else ""
