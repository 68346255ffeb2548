"""The structs, the numbers and the calls of include/rafendilo.h.

Printed by bindings/prototypes, which writes it anew: change the header, and run bindings/prototypes --write.
"""
from __future__ import annotations

from ctypes import POINTER, Structure, c_char_p, c_size_t, c_uint8, c_uint16, c_uint32, c_uint64
from enum import IntEnum, IntFlag
from typing import Any

from ._answer import Answer

# What raf_abi answers where the library has the structs, the calls and the statuses below.
ABI = 2
# The end of a window that has none.
FOREVER = 18446744073709551615
# How many bytes the text of a SHA-256 fingerprint has, as ssh-keygen shows it: "SHA256:" and 43 characters.
FINGERPRINT_TEXT = 50
# "SHA512:" and 86 characters.
FINGERPRINT_SHA512_TEXT = 93
# How many bytes random art has beside those of its header.
RANDOM_ART_TEXT = 219


class Status(Answer):
    """What a call returns.

    DONE: Done; of a check: all is good, and of revocations that nothing revokes it.
    MEMORY: Malloc refused; nothing is said of the input, and nothing is kept: the call may be made again.
    SHORT_BUFFER: The buffer is too short; `length` says how many bytes are needed.
    END: Nothing is left: the place is the end, or there is no such line, option or command.
    TEXT: The principal is not UTF-8, or a line of authorized_keys or known_hosts, options, a host's name, an identity, a
        namespace or a time; nothing is said of the rest. raf_read_line returns 11 for such a line.
    BASE64: A word of a line is no Base64, or not the one of its bytes.
    CHARACTER_ENCODING: A text is not UTF-8, or has a character that no name has.
    LABEL: A name that is none of those that may stand there.
    LENGTH: A stated length passes the bytes, or is not the one wanted; a word of a line is missing; a digest is not as long as
        one by the signature's hash.
    TRAILING_DATA: Bytes follow the end.
    FORMAT: A value does not keep the form of its kind.
    ALGORITHM_UNKNOWN: Two names differ that have to be one, or a point begins with 00 or 05.
    CRYPTO: A number in a signature is not positive, or the curve of a security key is not P-256.
    ECDSA: No encoding of a point.
    TIME: A time above 2^63 - 1 in the certificate.
    NAMESPACE: An empty namespace in the SSH signature.
    PUBLIC_KEY: Never returned: an error of private keys.
    UNSUPPORTED_VERSION: An SSH signature of a version above 1, or a revocation list of another version than 1.
    OTHER_ERROR: Never returned.
    RSA_SHA1: An RSA signature by SHA-1, which no call reads: to them it is RAF_LENGTH. raf_read_line_blob of helpers/ tells it.
    NOT_SIGNED: It raises no question, or `is_verified` is not 1; a signature also where it is in another namespace, or has
        reserved bytes.
    UNTRUSTED_AUTHORITY: The key that signed it is none of the authorities'.
    INVALID_TIME: The time is above 2^63 - 1.
    OUT_OF_WINDOW: It is not yet valid, or no longer.
    UNLISTED_PRINCIPAL: It lists principals, and not this one.
    UNSUPPORTED: Key and signature do not go together: it is not signed.
    OTHER_NAMESPACE: The SSH signature is for another namespace.
    PRINCIPALS: It lists none and does not say so, or says so and lists some.
    EMPTY_WINDOW: Its window has no second.
    HOST_REVOKED: A line for the host, or a revocation file, revokes it.
    HOST_UNREADABLE: A line is no entry, and may be one for the host.
    HOST_CHANGED: A line for the host has another key, and none has this one.
    HOST_UNKNOWN: No line without a marker is for the host.
    SIGNER_NOT_ALLOWED: No line lets its key sign for the identity, there and then; or it is none of the keys that may sign.
    REVOKED: A revocation file or list revokes the key, the signer's, or the certificate.
    ELSEWHERE: The client's address is none of those that are allowed.
    UNREADABLE_REVOCATIONS: One can't be read, or there is none: so everything is revoked.
    KEY_NOT_ACCEPTED: A kind or a size of key that OpenSSH does not let in.
    LATER_KEY: The line has a key of a later kind, which signs nothing that is read: pass over it, and say so.
    UNSAFE_MODE: Another's, or others may write it.
    NOT_NORMAL_FORM: Its bytes are not its normal form: not those that were signed.
    OTHER_TYPE: A user shows one for hosts, or a host one for users.
    OTHER_KEY: It certifies another key than the client's.
    CRITICAL_OPTIONS: A critical option that is not known, or whose value sshd does not read.
    EXTENSIONS: Data in an extension that is a flag, or a zero byte in a name.
    KEY_ID: A zero byte in the key id.
    VALID_PRINCIPALS: It lists no principal, more than 256 or one with a zero byte; or the user's name is empty.
    OTHER_REQUEST: The signed bytes are not those of this request, or its service is not ssh-connection.
    OTHER_ALGORITHM: The algorithm that the request names is not the signature's.
    UNTOUCHED: Nobody touched the security key, and it is wanted.
    UNVERIFIED: The security key did not verify its user, and it is wanted.
    CLIENT_NOT_SIGNED: It raises no question, or its answer is not yes: it is none of the key's for this request.
    NO_FLAGS: A touch or a verified user is wanted, and nobody tells the flags.
    NO_SIGNATURE: Its bytes are none.
    USER_NOT_LISTED: No line is for them, and no authority's certificate lists the user.
    LINE_EXPIRED: Its expiry-time is over.
    LINE_OPTION: It has principals, and no cert-authority; of a file of principals, one of both.
    LINE_ELSEWHERE: Its from is for other places.
    LINE_COMMAND: Its command is another than the certificate's.
    LINE_PRINCIPALS: The certificate lists nobody whom it lets in.
    LINE_UNCLEAR: A line may let in, and how sshd reads it cannot be told: so no other line and no other file may.
    NOT_PERMITTED: The grant does not permit it.
    TEXT_UNREADABLE: A text could not be read, and nothing before it lets in.
    NO_PORT: The port is 0.
    NO_HOST: The host has no bytes.
    NO_ADDRESS: It is like an address, and is none with one text: 127.1, fe80::1%eth0.
    NO_IDENTITY: The signer's identity has no bytes.
    UNSIGNED: `how` is none of RAF_SIGNED_*: nobody has seen the signature.
    NO_PRINCIPALS: `principals_from` is none of RAF_PRINCIPALS_*.
    OTHER_QUESTIONS: The ticket is of other questions: ask again.
    """
    DONE = 0
    MEMORY = 1
    SHORT_BUFFER = 2
    END = 3
    TEXT = 4
    BASE64 = 10
    CHARACTER_ENCODING = 11
    LABEL = 12
    LENGTH = 13
    TRAILING_DATA = 14
    FORMAT = 15
    ALGORITHM_UNKNOWN = 16
    CRYPTO = 17
    ECDSA = 18
    TIME = 19
    NAMESPACE = 20
    PUBLIC_KEY = 21
    UNSUPPORTED_VERSION = 22
    OTHER_ERROR = 23
    RSA_SHA1 = 24
    NOT_SIGNED = 30
    UNTRUSTED_AUTHORITY = 31
    INVALID_TIME = 32
    OUT_OF_WINDOW = 33
    UNLISTED_PRINCIPAL = 34
    UNSUPPORTED = 40
    OTHER_NAMESPACE = 41
    PRINCIPALS = 45
    EMPTY_WINDOW = 46
    HOST_REVOKED = 50
    HOST_UNREADABLE = 51
    HOST_CHANGED = 52
    HOST_UNKNOWN = 53
    SIGNER_NOT_ALLOWED = 55
    REVOKED = 56
    ELSEWHERE = 57
    UNREADABLE_REVOCATIONS = 58
    KEY_NOT_ACCEPTED = 59
    LATER_KEY = 61
    UNSAFE_MODE = 62
    NOT_NORMAL_FORM = 70
    OTHER_TYPE = 71
    OTHER_KEY = 72
    CRITICAL_OPTIONS = 73
    EXTENSIONS = 74
    KEY_ID = 75
    VALID_PRINCIPALS = 76
    OTHER_REQUEST = 80
    OTHER_ALGORITHM = 81
    UNTOUCHED = 82
    UNVERIFIED = 83
    CLIENT_NOT_SIGNED = 84
    NO_FLAGS = 85
    NO_SIGNATURE = 86
    USER_NOT_LISTED = 90
    LINE_EXPIRED = 91
    LINE_OPTION = 92
    LINE_ELSEWHERE = 93
    LINE_COMMAND = 94
    LINE_PRINCIPALS = 95
    LINE_UNCLEAR = 96
    NOT_PERMITTED = 97
    TEXT_UNREADABLE = 98
    NO_PORT = 100
    NO_HOST = 101
    NO_ADDRESS = 102
    NO_IDENTITY = 103
    UNSIGNED = 104
    NO_PRINCIPALS = 105
    OTHER_QUESTIONS = 106


class Algorithm(IntEnum):
    """How a signature is made.

    P256: With SHA-256.
    P384: With SHA-384.
    P521: With SHA-512.
    RSA_SHA256: With SHA-256.
    RSA_SHA512: With SHA-512.
    """
    DSA = 1
    P256 = 2
    P384 = 3
    P521 = 4
    ED25519 = 5
    RSA_SHA256 = 6
    RSA_SHA512 = 7


class LineKind(IntEnum):
    """What the blob of a line is."""

    KEY = 1
    CERTIFICATE = 2


class CertificateType(IntEnum):
    """Whom a certificate is for."""

    USER = 1
    HOST = 2


class Marker(IntEnum):
    """What stands before an entry of known_hosts: nothing, @cert-authority or @revoked."""

    NONE = 0
    CERT_AUTHORITY = 1
    REVOKED = 2


class KnownBy(IntEnum):
    """By what a host that shows a certificate is known; 0 is none of both.

    AUTHORITY: By an authority of the host, which made it a certificate.
    CERTIFIED_KEY: By the key in the certificate, as if nobody had signed it.
    """
    AUTHORITY = 1
    CERTIFIED_KEY = 2


class SignedHow(IntEnum):
    """Who has seen the client's signature. 0 is nobody, and nobody is let in.

    REQUEST: You ask here: session_id, host_key, signature.
    BY_TRANSPORT: Your SSH library verified it under the blob's own key, for this user, and tells no flags.
    WITH_FLAGS: It did, and `flags` are those of the security key's signature.
    BY_SSHD: Sshd verifies it itself and looks at its flags: for its helpers.
    """
    REQUEST = 1
    BY_TRANSPORT = 2
    WITH_FLAGS = 3
    BY_SSHD = 4


class PrincipalsFrom(IntEnum):
    """Whom a certificate lets in that an authority signed. 0 is neither, and nobody is let in.

    IN_CERTIFICATE: The users that it lists: no AuthorizedPrincipalsFile.
    IN_FILES: Those for whom `principals` have one of its names.
    """
    IN_CERTIFICATE = 1
    IN_FILES = 2


class Asks(IntFlag):
    """Which questions are asked; and which were answered yes."""

    AUTHORITY = 1
    CLIENT = 2


class Source(IntEnum):
    """By what a login is let in.

    AUTHORIZED_KEYS: A text of authorized_keys.
    AUTHORITY: An authority, by a certificate that lists the user.
    PRINCIPALS: An authority, by a text of principals.
    COMMAND: What AuthorizedKeysCommand wrote.
    """
    AUTHORIZED_KEYS = 1
    AUTHORITY = 2
    PRINCIPALS = 3
    COMMAND = 4


class Permits(IntFlag):
    """What a grant permits.

    ANY_COMMAND: No force-command: what the client asks for, or a shell.
    NO_TOUCH: A security key that nobody touched.
    NO_VERIFICATION: A security key that did not verify its user.
    TUNNELS: Tunnels (tun(4)).
    ANY_TUNNEL: Whichever device of them; never without RAF_PERMIT_TUNNELS.
    """
    PTY = 1
    PORT_FORWARDING = 2
    AGENT_FORWARDING = 4
    X11_FORWARDING = 8
    USER_RC = 16
    ANY_COMMAND = 32
    NO_TOUCH = 64
    NO_VERIFICATION = 128
    TUNNELS = 256
    ANY_TUNNEL = 512


# what each means, in words
WORDS = {
    Status.DONE: "valid",
    Status.MEMORY: "no memory",
    Status.SHORT_BUFFER: "the buffer is too short",
    Status.END: "nothing is left",
    Status.TEXT: "a name or a text that is given is not UTF-8",
    Status.BASE64: "not Base64",
    Status.CHARACTER_ENCODING: "a text that is not UTF-8",
    Status.LABEL: "a name that may not stand there",
    Status.LENGTH: "a length that passes the bytes",
    Status.TRAILING_DATA: "bytes after the end",
    Status.FORMAT: "a value that has not the form of its kind",
    Status.ALGORITHM_UNKNOWN: "two names that have to be one",
    Status.CRYPTO: "a number that is not positive",
    Status.ECDSA: "no encoding of a point",
    Status.TIME: "a time above 2^63 - 1",
    Status.NAMESPACE: "an empty namespace",
    Status.PUBLIC_KEY: "a public key that is not the private one's",
    Status.UNSUPPORTED_VERSION: "a version that is not read",
    Status.OTHER_ERROR: "another error",
    Status.RSA_SHA1: "signed by RSA with SHA-1",
    Status.NOT_SIGNED: "not signed",
    Status.UNTRUSTED_AUTHORITY: "another authority",
    Status.INVALID_TIME: "no time that a certificate has",
    Status.OUT_OF_WINDOW: "not valid at that time",
    Status.UNLISTED_PRINCIPAL: "another principal",
    Status.UNSUPPORTED: "key and signature do not go together",
    Status.OTHER_NAMESPACE: "another namespace",
    Status.PRINCIPALS: "a list of principals against what is said of all",
    Status.EMPTY_WINDOW: "a window without a second",
    Status.HOST_REVOKED: "revoked for the host",
    Status.HOST_UNREADABLE: "a line that may revoke it and can't be read",
    Status.HOST_CHANGED: "another key than the one known for the host",
    Status.HOST_UNKNOWN: "no key or authority is known for the host",
    Status.SIGNER_NOT_ALLOWED: "no allowed signer",
    Status.REVOKED: "revoked",
    Status.ELSEWHERE: "from an address that is not allowed",
    Status.UNREADABLE_REVOCATIONS: "the revocation file can't be read",
    Status.KEY_NOT_ACCEPTED: "a kind or a size of key that OpenSSH does not let in",
    Status.LATER_KEY: "a later kind of key, which is not read",
    Status.UNSAFE_MODE: "another's, or others may write it",
    Status.NOT_NORMAL_FORM: "not in its normal form",
    Status.OTHER_TYPE: "for hosts in place of users, or for users in place of hosts",
    Status.OTHER_KEY: "another key",
    Status.CRITICAL_OPTIONS: "a critical option that is not known, or not read",
    Status.EXTENSIONS: "an extension that is not read",
    Status.KEY_ID: "a zero byte in the key id",
    Status.VALID_PRINCIPALS: "no principals, or some that are not read",
    Status.OTHER_REQUEST: "signed for another request",
    Status.OTHER_ALGORITHM: "another algorithm than the request's",
    Status.UNTOUCHED: "a security key that nobody touched",
    Status.UNVERIFIED: "a security key that did not verify its user",
    Status.CLIENT_NOT_SIGNED: "not signed by the client",
    Status.NO_FLAGS: "a security key whose flags nobody tells",
    Status.NO_SIGNATURE: "no signature",
    Status.USER_NOT_LISTED: "no line is for the key, and no authority lists the user",
    Status.LINE_EXPIRED: "a line whose time is over",
    Status.LINE_OPTION: "a line with principals and without cert-authority",
    Status.LINE_ELSEWHERE: "a line for other places",
    Status.LINE_COMMAND: "a line with another command than the certificate's",
    Status.LINE_PRINCIPALS: "a line for nobody whom the certificate lists",
    Status.LINE_UNCLEAR: "a line that can't be told",
    Status.NOT_PERMITTED: "the grant does not permit it",
    Status.TEXT_UNREADABLE: "a text that could not be read",
    Status.NO_PORT: "port 0",
    Status.NO_HOST: "no host",
    Status.NO_ADDRESS: "a host that is like an address, and has no one text",
    Status.NO_IDENTITY: "no identity",
    Status.UNSIGNED: "nobody has seen the signature",
    Status.NO_PRINCIPALS: "not told whom authorities let in",
    Status.OTHER_QUESTIONS: "answers to other questions",
}


class Span(Structure):
    """raf_span"""

    _fields_ = [("bytes", c_char_p), ("length", c_size_t)]


class Spans(Structure):
    """raf_spans"""

    _fields_ = [("items", POINTER(Span)), ("count", c_size_t)]


class Part(Structure):
    """raf_part"""

    _fields_ = [("start", c_size_t), ("length", c_size_t)]


class Sha256(Structure):
    """raf_sha256"""

    _fields_ = [("bytes", c_uint8 * 32)]


class Sha512(Structure):
    """raf_sha512"""

    _fields_ = [("bytes", c_uint8 * 64)]


class Digests(Structure):
    """raf_digests"""

    _fields_ = [("items", POINTER(Sha256)), ("count", c_size_t)]


class Question(Structure):
    """raf_question"""

    _fields_ = [("key", Part), ("message", Part), ("signature", Part), ("length", c_size_t), ("algorithm", c_uint32)]


class Line(Structure):
    """raf_line"""

    _fields_ = [("blob", Part), ("comment", Part), ("length", c_size_t), ("kind", c_uint32)]


class Fields(Structure):
    """raf_fields"""

    _fields_ = [
        ("serial", c_uint64), ("valid_after", c_uint64), ("valid_before", c_uint64), ("certificate_type", c_uint32),
        ("lists_principals", c_uint32), ("has_critical_options", c_uint32)
    ]


class Parts(Structure):
    """raf_parts"""

    _fields_ = [("key_id", Part), ("principals", Part), ("critical_options", Part), ("extensions", Part), ("authority", Part)]


class CertificateOptionParts(Structure):
    """raf_certificate_option_parts"""

    _fields_ = [("name", Part), ("value", Part), ("next", c_size_t)]


class Draft(Structure):
    """raf_draft"""

    _fields_ = [
        ("key", Span), ("nonce", Span), ("key_id", Span), ("principals", Span), ("critical_options", Span), ("extensions", Span),
        ("authority", Span), ("serial", c_uint64), ("valid_after", c_uint64), ("valid_before", c_uint64),
        ("certificate_type", c_uint32), ("all_principals", c_uint32)
    ]


class Entry(Structure):
    """raf_entry"""

    _fields_ = [("front", Part), ("key", Part), ("comment", Part), ("length", c_size_t), ("marker", c_uint32)]


class LineOptionParts(Structure):
    """raf_line_option_parts"""

    _fields_ = [("name", Part), ("value", Part), ("length", c_size_t), ("next", c_size_t), ("has_value", c_uint32)]


class HostLogin(Structure):
    """raf_host_login"""

    _fields_ = [
        ("known_hosts", Spans), ("host", Span), ("revoked", Spans), ("unix_timestamp", c_uint64), ("least_rsa_bits", c_uint32),
        ("port", c_uint16)
    ]


class LinePlace(Structure):
    """raf_line_place"""

    _fields_ = [("length", c_size_t), ("names", c_uint64)]


class TimeSpan(Structure):
    """raf_time_span"""

    _fields_ = [("first", c_uint64), ("last", c_uint64)]


class Destination(Structure):
    """raf_destination"""

    _fields_ = [("host", Part), ("port", c_uint16)]


class Offer(Structure):
    """raf_offer"""

    _fields_ = [("user", Span), ("algorithm", Span), ("blob", Span)]


class Signed(Structure):
    """raf_signed"""

    _fields_ = [
        ("session_id", Span), ("host_key", Span), ("signature", Span), ("how", c_uint32), ("has_host_key", c_uint32),
        ("flags", c_uint8)
    ]


class Text(Structure):
    """raf_text"""

    _fields_ = [("text", Span), ("is_read", c_uint32)]


class Texts(Structure):
    """raf_texts"""

    _fields_ = [("items", POINTER(Text)), ("count", c_size_t)]


class Trusted(Structure):
    """raf_trusted"""

    _fields_ = [
        ("authorized_keys", Texts), ("authorities", Digests), ("principals", Texts), ("command_keys", Texts), ("revoked", Spans),
        ("principals_from", c_uint32), ("least_rsa_bits", c_uint32), ("requires_touch", c_uint32),
        ("requires_verification", c_uint32)
    ]


class Place(Structure):
    """raf_place"""

    _fields_ = [("client", Span), ("host", Span), ("unix_timestamp", c_uint64), ("caller_checks_address", c_uint32)]


class Login(Structure):
    """raf_login"""

    _fields_ = [("offer", Offer), ("signed_by", Signed), ("trusted", Trusted), ("place", Place)]


class LoginQuestions(Structure):
    """raf_login_questions"""

    _fields_ = [("authority", Question), ("client", Question), ("length", c_size_t), ("ticket", Sha256), ("asked", c_uint32)]


class Grant(Structure):
    """raf_grant"""

    _fields_ = [
        ("force_command", Part), ("key_id", Part), ("permit_open", Part), ("permit_listen", Part), ("environment", Part),
        ("length", c_size_t), ("line", c_size_t), ("text", c_size_t), ("serial", c_uint64), ("expires", TimeSpan),
        ("authority", Sha256), ("key", Sha256), ("permits", c_uint32), ("tunnel", c_uint32), ("source", c_uint32)
    ]


# what each call takes
CALLS: dict[str, tuple[Any, ...]] = {
    "raf_version": (),
    "raf_abi": (),
    "raf_read_line": (c_char_p, c_size_t, POINTER(c_uint8), c_size_t, POINTER(Line)),
    "raf_is_later_key_line": (c_char_p, c_size_t),
    "raf_names_later_kind": (c_char_p, c_size_t),
    "raf_authority": (c_char_p, c_size_t, POINTER(Sha256)),
    "raf_user_authority": (c_char_p, c_size_t, c_char_p, c_size_t, POINTER(Sha256)),
    "raf_may_verify": (c_char_p, c_size_t),
    "raf_check_safe_mode": (c_uint64, c_uint64, c_uint32),
    "raf_certificate_question": (c_char_p, c_size_t, POINTER(c_uint8), c_size_t, POINTER(Question)),
    "raf_check_certificate": (c_char_p, c_size_t, c_uint64, POINTER(Sha256), c_size_t, c_uint32),
    "raf_check_certificate_for": (c_char_p, c_size_t, c_uint64, c_char_p, c_size_t, POINTER(Sha256), c_size_t, c_uint32),
    "raf_certificate_fields": (c_char_p, c_size_t, POINTER(Fields)),
    "raf_certificate_parts": (c_char_p, c_size_t, POINTER(Parts)),
    "raf_next_certificate_option": (c_char_p, c_size_t, c_size_t, POINTER(CertificateOptionParts)),
    "raf_certificate_key": (c_char_p, c_size_t, POINTER(c_uint8), c_size_t, POINTER(c_size_t)),
    "raf_certificate_to_be_signed": (POINTER(Draft), POINTER(c_uint8), c_size_t, POINTER(c_size_t)),
    "raf_certificate_make": (c_char_p, c_size_t, c_char_p, c_size_t, POINTER(c_uint8), c_size_t, POINTER(c_size_t)),
    "raf_fingerprint": (c_char_p, c_size_t, POINTER(Sha256)),
    "raf_fingerprint_text": (POINTER(Sha256), POINTER(c_uint8), c_size_t),
    "raf_fingerprint_sha512": (c_char_p, c_size_t, POINTER(Sha512)),
    "raf_fingerprint_sha512_text": (POINTER(Sha512), POINTER(c_uint8), c_size_t),
    "raf_random_art": (POINTER(Sha256), c_char_p, c_size_t, POINTER(c_uint8), c_size_t, POINTER(c_size_t)),
    "raf_signature_question": (
        c_char_p, c_size_t, c_char_p, c_size_t, c_char_p, c_size_t, POINTER(c_uint8), c_size_t, POINTER(Question)
    ),
    "raf_read_armour": (c_char_p, c_size_t, POINTER(c_uint8), c_size_t, POINTER(c_size_t)),
    "raf_sshsig_question": (
        c_char_p, c_size_t, c_char_p, c_size_t, c_char_p, c_size_t, POINTER(c_uint8), c_size_t, POINTER(Question), POINTER(Sha256)
    ),
    "raf_sshsig_question_of_digest": (
        c_char_p, c_size_t, c_char_p, c_size_t, c_char_p, c_size_t, POINTER(c_uint8), c_size_t, POINTER(Question), POINTER(Sha256)
    ),
    "raf_check_sshsig": (c_char_p, c_size_t, c_char_p, c_size_t, POINTER(Sha256), c_size_t, c_uint32),
    "raf_check_signer": (
        c_char_p, c_size_t, c_char_p, c_size_t, c_char_p, c_size_t, c_char_p, c_size_t, c_uint64, POINTER(Span), c_size_t,
        c_uint32
    ),
    "raf_key_normal": (c_char_p, c_size_t, POINTER(c_uint8), c_size_t, POINTER(c_size_t)),
    "raf_certificate_normal": (c_char_p, c_size_t, POINTER(c_uint8), c_size_t, POINTER(c_size_t)),
    "raf_sshsig_normal": (c_char_p, c_size_t, POINTER(c_uint8), c_size_t, POINTER(c_size_t)),
    "raf_signature_normal": (c_char_p, c_size_t, POINTER(c_uint8), c_size_t, POINTER(c_size_t)),
    "raf_next_string": (c_char_p, c_size_t, c_size_t, POINTER(Part)),
    "raf_check_unrevoked_key": (POINTER(Span), c_size_t, c_char_p, c_size_t),
    "raf_check_unrevoked_certificate": (POINTER(Span), c_size_t, c_char_p, c_size_t),
    "raf_check_unrevoked_key_by_krl": (c_char_p, c_size_t, c_char_p, c_size_t),
    "raf_check_unrevoked_certificate_by_krl": (c_char_p, c_size_t, c_char_p, c_size_t),
    "raf_next_line": (c_char_p, c_size_t, c_size_t, POINTER(Part)),
    "raf_authorized_entry": (c_char_p, c_size_t, POINTER(c_uint8), c_size_t, POINTER(Entry)),
    "raf_known_host": (c_char_p, c_size_t, POINTER(c_uint8), c_size_t, POINTER(Entry)),
    "raf_next_line_option": (c_char_p, c_size_t, c_size_t, POINTER(c_uint8), c_size_t, POINTER(LineOptionParts)),
    "raf_line_may_name_key": (c_char_p, c_size_t, c_char_p, c_size_t),
    "raf_line_may_name_authority": (c_char_p, c_size_t, c_char_p, c_size_t),
    "raf_check_host_key": (POINTER(HostLogin), c_char_p, c_size_t),
    "raf_check_host_certificate": (POINTER(HostLogin), c_char_p, c_size_t, c_uint32, POINTER(c_uint32)),
    "raf_place_hosts": (c_char_p, c_size_t, POINTER(LinePlace), c_size_t, POINTER(c_size_t)),
    "raf_check_held_host_key": (POINTER(HostLogin), c_char_p, c_size_t, POINTER(LinePlace), c_size_t, c_char_p, c_size_t),
    "raf_check_held_host_certificate": (
        POINTER(HostLogin), c_char_p, c_size_t, POINTER(LinePlace), c_size_t, c_char_p, c_size_t, c_uint32, POINTER(c_uint32)
    ),
    "raf_unreadable_host_line": (c_char_p, c_size_t, c_char_p, c_size_t, c_uint16, POINTER(c_size_t)),
    "raf_check_source_address": (c_char_p, c_size_t, c_char_p, c_size_t),
    "raf_check_from": (c_char_p, c_size_t, c_char_p, c_size_t, c_char_p, c_size_t),
    "raf_read_time": (c_char_p, c_size_t, POINTER(TimeSpan)),
    "raf_host_and_port": (c_char_p, c_size_t, POINTER(Destination)),
    "raf_log_in_questions": (POINTER(Login), POINTER(c_uint8), c_size_t, POINTER(LoginQuestions)),
    "raf_log_in": (POINTER(Login), POINTER(Sha256), c_uint32, POINTER(c_uint8), c_size_t, POINTER(Grant)),
    "raf_may_offer_questions": (POINTER(Login), POINTER(c_uint8), c_size_t, POINTER(LoginQuestions)),
    "raf_may_offer": (POINTER(Login), POINTER(Sha256), c_uint32),
    "raf_may_open": (POINTER(Grant), c_char_p, c_size_t, c_char_p, c_size_t, c_uint32),
    "raf_may_listen": (POINTER(Grant), c_char_p, c_size_t, c_char_p, c_size_t, c_uint32),
    "raf_runs": (POINTER(Grant), c_char_p, c_size_t, c_char_p, c_size_t, c_uint32, POINTER(c_uint8), c_size_t, POINTER(c_size_t)),
}
