"""The library as ctypes has it, and how a call is given bytes and a buffer."""
from __future__ import annotations

import ctypes
import operator
import os
from collections.abc import Callable, Iterable
from typing import Any

from . import _header
from ._header import ABI, CALLS, Part, Sha256, Span, Spans, Status
from ._values import UNREADABLE, BytesLike, Refused, Text

HERE = os.path.dirname(os.path.realpath(__file__))
# the name by which the system's loader finds the library, and by which it lies in the package of a wheel
SONAME = f"librafendilo.so.{ABI}"
INSIDE = os.path.join(HERE, SONAME)
# where the sources have what is built; a copy of the package elsewhere has nothing there
BUILT = os.path.join(HERE, "..", "..", "..", "out", "librafendilo.so")
IS_IN_SOURCES = HERE.split(os.sep)[-3:-1] == ["bindings", "python"]


def _named() -> str | None:
    """The file that RAFENDILO_LIBRARY names, unless another user may have set it than the one by whose rights the program runs."""
    is_own = (os.getuid(), os.getgid()) == (os.geteuid(), os.getegid())
    return os.environ.get("RAFENDILO_LIBRARY") if is_own else None


def _path() -> str:
    """The file that is named, or else the one of the sources or of the wheel, or else what the system's loader finds."""
    own = BUILT if IS_IN_SOURCES else INSIDE
    return _named() or (own if os.path.exists(own) else SONAME)


def _fault(library: ctypes.CDLL) -> str | None:
    """What is wrong with a library that is not one for this package."""
    if not (hasattr(library, "raf_abi") and hasattr(library, "raf_version")):
        return "is no librafendilo, or one from before 0.1.0"
    abi, version = library.raf_abi(), library.raf_version()
    if abi != ABI:
        return f"has the ABI {abi} (version {version}), and this package needs {ABI}"
    missing = [it for it in CALLS if not hasattr(library, it)]
    return f"is older than this package: it has no {missing[0]}" if missing else None


def _loaded() -> ctypes.CDLL:
    path = _path()
    library = ctypes.CDLL(path)
    fault = _fault(library)
    if fault:
        raise OSError(f"{path} {fault}")
    for name, takes in CALLS.items():
        call = getattr(library, name)
        call.argtypes, call.restype = takes, ctypes.c_uint32
    return library


LIBRARY = _loaded()


def bytes_of(value: BytesLike) -> tuple[bytes, int]:
    """The bytes and their number, as a call takes them. A copy of what can change, so that nobody changes it during the call, which
    runs beside other threads."""
    held = value if type(value) is bytes else memoryview(value).tobytes()
    return held, len(held)


def text_of(value: str | BytesLike) -> tuple[bytes, int]:
    """The same of a text, which may be given as its bytes."""
    return bytes_of(value.encode() if isinstance(value, str) else value)


def span_of(value: BytesLike) -> Span:
    """A copy of the bytes, as a struct has them."""
    return Span(*bytes_of(value))


def files_of(values: Iterable[BytesLike]) -> list[bytes]:
    """The same of several. Raises TypeError where one is None, as a file that was not read, and for bytes in place of a list."""
    if isinstance(values, (str, bytes, bytearray, memoryview)):
        raise TypeError("a list of files is wanted, and not what one has")
    return [bytes_of(it)[0] for it in values]


def spans_of(values: Iterable[BytesLike]) -> Spans:
    """The same as a struct has them."""
    spans = [Span(it, len(it)) for it in files_of(values)]
    return Spans((Span * max(len(spans), 1))(*spans), len(spans))


def texts_of(values: Iterable[Text]) -> _header.Texts:
    """Texts of files, of which some could not be read. Raises TypeError where one is neither bytes nor UNREADABLE, and for bytes or None in
    place of a list."""
    if values is None or isinstance(values, (str, bytes, bytearray, memoryview)):
        raise TypeError("a list of texts is wanted, and not one text")
    texts = [_header.Text(span_of(b"" if it is UNREADABLE else it), it is not UNREADABLE) for it in values]
    return _header.Texts((_header.Text * max(len(texts), 1))(*texts), len(texts))


def number_of(value: int, bits: int) -> int:
    value = operator.index(value)
    if not 0 <= value < 1 << bits:
        raise ValueError(f"{value} is no number from 0 to 2^{bits} - 1")
    return value


def digests_of(fingerprints: Iterable[BytesLike]) -> tuple[ctypes.Array[Sha256], int]:
    """Fingerprints as a call takes them."""
    given = [memoryview(it).tobytes() for it in fingerprints]
    if any(len(it) != 32 for it in given):
        raise ValueError("a SHA-256 fingerprint has 32 bytes")
    return (Sha256 * max(len(given), 1))(*(Sha256((ctypes.c_uint8 * 32)(*it)) for it in given)), len(given)


def done(status: int) -> None:
    """Raises unless the call is done."""
    if status == Status.MEMORY:
        raise MemoryError
    if status != Status.DONE:
        raise Refused(status)


def ask(call: Callable[..., int], answer: Any, length: int) -> bytes:
    """What a call has written to the front of a buffer, which is given one of that length, or of the length that it says is needed, and
    the answer. Raises unless it is done."""
    while True:
        buffer = (ctypes.c_uint8 * max(length, 1))()
        status = call(buffer, length, ctypes.byref(answer))
        needed = answer.value if isinstance(answer, ctypes.c_size_t) else answer.length
        if status != Status.SHORT_BUFFER or needed <= length:
            break
        length = needed
    done(status)
    return ctypes.string_at(buffer, needed)


def written(call: Callable[..., int], length: int) -> bytes:
    """The bytes that a call writes to the front of a buffer, which has that length at first."""
    answer = ctypes.c_size_t()
    return ask(call, answer, length)


def parts_of(data: bytes, *parts: Part) -> tuple[bytes, ...]:
    return tuple(data[it.start : it.start + it.length] for it in parts)
