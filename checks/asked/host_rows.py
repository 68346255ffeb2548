"""Rows of hosts: lines of known_hosts, what a host shows, and the answer. hosts.py asks a real ssh about them, and others the library."""
import base64
import hashlib
import hmac

from lib.harness import string

from .login_options import MOST

HOST = "h.example"
AROUND_NOW = ["-V", "-5m:+5m"]
INVALID = "refused: certificate validation failed"
# a host that shows a certificate, and is known by its key alone
BY_KEY = "ok by its key"
# a line that is no entry, since its key breaks off
BROKEN = "ssh-ed25519 AAAA"

# a key of a kind that OpenSSH has since 10.4, and lines of no key: another name before it, a cut in it, and a short name in an old blob
LATER_NAME = b"ssh-mldsa44-ed25519"
LATER_BLOB = base64.b64encode(string(LATER_NAME) + string(bytes(range(256)) * 5 + bytes(64))).decode()
OLD_BLOB = base64.b64encode(string(b"ED25519") + string(bytes(32))).decode()
LATER = {
    "later": f"{LATER_NAME.decode()} {LATER_BLOB}", "misnamed": f"ssh-mldsa65-ed25519 {LATER_BLOB}",
    "cut": f"{LATER_NAME.decode()} {LATER_BLOB[:-1]}", "short": f"ED25519 {OLD_BLOB}", "hashed": f"rsa-sha2-256 {LATER_BLOB}",
}  # fmt: skip

# a key of XMSS and a certificate of it, as the ssh-keygen of an OpenSSH 9.2 that was built with XMSS made them; the name before other
# bytes; and a security key under the name of WebAuthn, by which ssh of 9.2, 10.0 and 10.6 revokes that key
FORMER_NAME = "ssh-xmss@openssh.com"
WEBAUTHN_NAME = b"webauthn-sk-ecdsa-sha2-nistp256@openssh.com"
BASE_POINT = bytes.fromhex(
    "046b17d1f2e12c4247f8bce6e563a440f277037d812deb33a0f4a13945d898c2964fe342e2fe1a7f9b8ee7eb4a7c0f9e162bce33576b315ececbb6406837bf51f5"
)
WEBAUTHN_BLOB = base64.b64encode(b"".join(map(string, (WEBAUTHN_NAME, b"nistp256", BASE_POINT, b"ssh:")))).decode()
XMSS_BLOB = (
    "AAAAFHNzaC14bXNzQG9wZW5zc2guY29tAAAAFVhNU1NfU0hBMi0yNTZfVzE2X0gxMAAAAEC5rpxc6nN/f6k8f/5nWhQ87mqPEujl3o43jDC8RMsC87hTHqsC"
    "eVpkiX78DoCZtQJWHAEP3qB0oS2SdMly6sex"
)
XMSS_CERTIFICATE_BLOB = (
    "AAAAHXNzaC14bXNzLWNlcnQtdjAxQG9wZW5zc2guY29tAAAAIF2SdI9Srttsn9laewFZBe1Dcd693VNRF1dud9VacaKDAAAAFVhNU1NfU0hBMi0yNTZfVzE2"
    "X0gxMAAAAEC5rpxc6nN/f6k8f/5nWhQ87mqPEujl3o43jDC8RMsC87hTHqsCeVpkiX78DoCZtQJWHAEP3qB0oS2SdMly6sexAAAAAAAAAAAAAAACAAAAAmlk"
    "AAAADQAAAAloLmV4YW1wbGUAAAAAAAAAAP//////////AAAAAAAAAAAAAAAAAAAAMwAAAAtzc2gtZWQyNTUxOQAAACCxi7WkxNBk5x9gcNa/33z6cRYrgE7/"
    "vWbRDgSr32ivWgAAAFMAAAALc3NoLWVkMjU1MTkAAABAmNfIB6VB9vISfPIXQR5KnkD4A65T0hQa7008VLoc+fkOP5E3Pd4Ct627k9+OYu0kWitx/sok6IW8"
    "6RUtzuvkCA=="
)
FORMER = {
    "xmss": f"{FORMER_NAME} {XMSS_BLOB}", "certified_xmss": f"ssh-xmss-cert-v01@openssh.com {XMSS_CERTIFICATE_BLOB}",
    "misnamed_xmss": f"{FORMER_NAME} {OLD_BLOB}", "webauthn": f"{WEBAUTHN_NAME.decode()} {WEBAUTHN_BLOB}",
}  # fmt: skip


def field(name):
    return f"refused: certificate field invalid: {name}"


def salted(length):
    """The host's hash under a salt of that many bytes."""
    salt = bytes(range(length))
    digest = hmac.digest(salt, HOST.encode(), hashlib.sha1)
    return f"|1|{base64.b64encode(salt).decode()}|{base64.b64encode(digest).decode()}"


# the lines of known_hosts, the port, and the answer; a `#` before a line has ssh-keygen hash its name
KEYS = [
    ("listed", ["h.example {key}"], 22, "ok"),
    ("in capitals", ["H.Example {key}"], 22, "ok"),
    ("by a pattern", ["*.example {key}"], 22, "ok"),
    ("by a hash", ["#h.example {key}"], 22, "ok"),
    ("by a hash under a salt of 19 bytes", [salted(19) + " {key}"], 22, "unknown"),
    ("by a hash under a salt of 20 bytes", [salted(20) + " {key}"], 22, "ok"),
    ("by a hash under a salt of 21 bytes", [salted(21) + " {key}"], 22, "unknown"),
    ("revoked by a hash under a salt of 19 bytes", ["h.example {key}", "@revoked " + salted(19) + " {key}"], 22, "ok"),
    ("a line that is none, by a hash under a salt of 19 bytes", ["h.example {key}", salted(19) + " {broken}"], 22, "ok"),
    ("after a hash of an unknown kind", ["|2|,h.example {key}"], 22, "unknown"),
    ("after a bar", ["|,h.example {key}"], 22, "unknown"),
    ("before a bar", ["h.example,|x| {key}"], 22, "ok"),
    ("revoked after a bar", ["h.example {key}", "@revoked |x|,h.example {key}"], 22, "ok"),
    ("a line that is none, after a bar", ["h.example {key}", "@revoked |x|,h.example {broken}"], 22, "ok"),
    ("beside a pattern of 1,022 bytes", [1022 * "x" + ",h.example {key}"], 22, "ok"),
    ("beside a pattern of 1,023 bytes", [1023 * "x" + ",h.example {key}"], 22, "unknown"),
    ("before a pattern of 1,023 bytes", ["h.example," + 1023 * "x" + " {key}"], 22, "unknown"),
    ("revoked beside a pattern of 1,023 bytes", ["h.example {key}", "@revoked h.example," + 1023 * "x" + " {key}"], 22, "ok"),
    ("a zero byte in front", ["\0 h.example {key}"], 22, "unreadable"),
    ("a zero byte before the host", ["\0,h.example {key}"], 22, "unreadable"),
    ("a zero byte in a name before the host", ["a\0,h.example {key}"], 22, "unreadable"),
    ("revoked before a zero byte", ["h.example {key}", "@revoked h.example\0{key}"], 22, "unreadable"),
    ("revoked by a pattern before a zero byte", ["h.example {key}", "@revoked *.example\0{key}"], 22, "unreadable"),
    ("revoked, and a zero byte before the host", ["@revoked h.example {key}", "\0,h.example {key}"], 22, "revoked"),
    ("by two lines", ["h.example {other}", "h.example {key}"], 22, "ok"),
    ("two carriage returns behind it", ["h.example {key}\r\r"], 22, "ok"),
    ("revoked, and white space behind it", ["h.example {key}", "@revoked h.example {key}\r\f\v x"], 22, "revoked"),
    ("no line", [], 22, "unknown"),
    ("a line of another host", ["g.example {key}"], 22, "unknown"),
    ("a hash of another host", ["#g.example {key}"], 22, "unknown"),
    ("a negated pattern", ["*.example,!h.example {key}"], 22, "unknown"),
    ("an authority's line", ["@cert-authority h.example {key}"], 22, "unknown"),
    ("another key", ["h.example {other}"], 22, "changed"),
    ("another key by a hash", ["#h.example {other}"], 22, "changed"),
    ("revoked", ["h.example {key}", "@revoked * {key}"], 22, "revoked"),
    ("revoked alone", ["@revoked h.example {key}"], 22, "revoked"),
    ("another key is revoked", ["h.example {key}", "@revoked * {other}"], 22, "ok"),
    ("revoked of another host", ["h.example {key}", "@revoked g.example {key}"], 22, "ok"),
    ("a line that is none", ["h.example {key}", "@revoked h.example {broken}"], 22, "unreadable"),
    ("a line that is none, of another host", ["h.example {key}", "@revoked g.example {broken}"], 22, "ok"),
    ("at its port", ["[h.example]:2222 {key}"], 2222, "ok"),
    ("at its port by a hash", ["#[h.example]:2222 {key}"], 2222, "ok"),
    ("at another port", ["[h.example]:2222 {key}"], 22, "unknown"),
    ("by the plain name", ["h.example {key}"], 2222, "ok"),
    ("by a hash of the plain name", ["#h.example {key}"], 2222, "ok"),
    ("by neither name", ["g.example {key}"], 2222, "unknown"),
    ("another key by the plain name", ["h.example {other}"], 2222, "changed"),
    ("another key at its port", ["[h.example]:2222 {other}", "h.example {key}"], 2222, "changed"),
    ("revoked by the plain name", ["h.example {key}", "@revoked h.example {key}"], 2222, "revoked"),
    ("revoked by the plain name, listed at its port", ["[h.example]:2222 {key}", "@revoked h.example {key}"], 2222, "ok"),
    ("revoked at its port", ["h.example {key}", "@revoked [h.example]:2222 {key}"], 2222, "revoked"),
]  # fmt: skip

# the same with a key of a later kind, which is another key: ssh passes over it, or reads it
KEYS_AND_LATER = [
    ("before a later kind", ["h.example {key}", "h.example {later}"], 22, "ok"),
    ("after a later kind", ["h.example {later}", "h.example {key}"], 22, "ok"),
    ("by a hash, after a later kind by a hash", [salted(20) + " {later}", "#h.example {key}"], 22, "ok"),
    ("after a later kind of every host", ["* {later} a comment", "h.example {key}"], 22, "ok"),
    ("at its port, after a later kind", ["[h.example]:2222 {later}", "[h.example]:2222 {key}"], 2222, "ok"),
    ("a later kind is an authority", ["h.example {key}", "@cert-authority * {later}"], 22, "ok"),
    ("a later kind is revoked", ["h.example {key}", "@revoked h.example {later}"], 22, "ok"),
    ("a later kind is revoked of every host", ["h.example {key}", "@revoked\t* {later}"], 22, "ok"),
    ("revoked before a later kind", ["@revoked h.example {key}", "h.example {later}", "h.example {key}"], 22, "revoked"),
    ("revoked after a later kind", ["h.example {later}", "h.example {key}", "@revoked * {key}"], 22, "revoked"),
    ("another key after a later kind", ["h.example {later}", "h.example {other}"], 22, "changed"),
    ("a later kind alone", ["h.example {later}"], 22, "changed"),
    ("a later kind of another host alone", ["g.example {later}"], 22, "unknown"),
    ("an authority of a later kind alone", ["@cert-authority h.example {later}"], 22, "unknown"),
    ("a later kind under another name", ["h.example {key}", "h.example {misnamed}"], 22, "unreadable"),
    ("a later kind that breaks off", ["h.example {key}", "h.example {cut}"], 22, "unreadable"),
    ("revoked by a short name", ["h.example {key}", "@revoked h.example {short}"], 22, "unreadable"),
    ("a later kind under a name of RSA", ["h.example {key}", "@revoked h.example {hashed}"], 22, "unreadable"),
    ("a later kind after a zero byte", ["h.example\0 {later}"], 22, "unreadable"),
]  # fmt: skip

# the same with keys of former kinds, which ssh of 9.2, with XMSS and without, of 10.0 and of 10.6 pass over or take for other keys
KEYS_AND_FORMER = [
    ("before a key of XMSS", ["h.example {key}", "h.example {xmss}"], 22, "ok"),
    ("after a key of XMSS of every host", ["* {xmss} a comment", "h.example {key}"], 22, "ok"),
    ("after a certificate of XMSS", ["h.example {certified_xmss}", "h.example {key}"], 22, "ok"),
    ("a key of XMSS is an authority", ["h.example {key}", "@cert-authority * {xmss}"], 22, "ok"),
    ("a key of XMSS is revoked", ["h.example {key}", "@revoked h.example {xmss}"], 22, "ok"),
    ("a certificate of XMSS is revoked", ["h.example {key}", "@revoked\t* {certified_xmss}"], 22, "ok"),
    ("revoked after a key of XMSS", ["h.example {xmss}", "h.example {key}", "@revoked * {key}"], 22, "revoked"),
    ("a key of XMSS alone", ["h.example {xmss}"], 22, "changed"),
    ("a revoked key of XMSS alone", ["@revoked h.example {xmss}"], 22, "unknown"),
    ("the name of XMSS before another key", ["h.example {key}", "@revoked h.example {misnamed_xmss}"], 22, "unreadable"),
    ("the name of WebAuthn", ["h.example {key}", "@revoked h.example {webauthn}"], 22, "unreadable"),
]  # fmt: skip

# the same, with the lines of each file
KEYS_OF_FILES = [
    ("in the first file", [["h.example {key}"], ["g.example {key}"]], 22, "ok"),
    ("in the second file", [["g.example {key}"], ["h.example {key}"]], 22, "ok"),
    ("by a hash in the second file", [[], ["#h.example {key}"]], 22, "ok"),
    ("in the last of three files", [[], ["g.example {key}"], ["h.example {key}"]], 22, "ok"),
    ("in no file", [["g.example {key}"], []], 22, "unknown"),
    ("another key in the first file", [["h.example {other}"], ["h.example {key}"]], 22, "ok"),
    ("another key in the second file", [["g.example {key}"], ["h.example {other}"]], 22, "changed"),
    ("revoked in the first file", [["@revoked * {key}"], ["h.example {key}"]], 22, "revoked"),
    ("revoked in the second file", [["h.example {key}"], ["@revoked * {key}"]], 22, "revoked"),
    ("a line that is none in the first file", [["@revoked * {broken}"], ["h.example {key}"]], 22, "unreadable"),
    ("a line that is none in the second file", [["h.example {key}"], ["@revoked * {broken}"]], 22, "unreadable"),
    ("by the plain name in the second file", [["g.example {key}"], ["h.example {key}"]], 2222, "ok"),
    ("another key at its port in the first file", [["[h.example]:2222 {other}"], ["h.example {key}"]], 2222, "changed"),
    ("another key at its port in the second file", [["h.example {key}"], ["[h.example]:2222 {other}"]], 2222, "changed"),
    ("a pattern revokes in the second file", [["h.example {key}"], ["@revoked * {key}"]], 2222, "revoked"),
    ("revoked at its port in the second file", [["h.example {key}"], ["@revoked [h.example]:2222 {key}"]], 2222, "revoked"),
    ("revoked by the plain name in the first file", [["@revoked h.example {key}"], ["[h.example]:2222 {key}"]], 2222, "ok"),
]  # fmt: skip

# the host as it is typed, the lines, the port and the answer: ssh(1) asks about the text of an address
TYPED = [
    ("an address", "fd00::1", ["fd00::1 {key}"], 22, "ok"),
    ("an address in another text", "FD00:0::0001", ["fd00::1 {key}"], 22, "ok"),
    ("an address that ends in four decimals", "fd00::10.1.2.3", ["fd00::a01:203 {key}"], 22, "ok"),
    ("an IPv4 address in an IPv6 one", "::FFFF:a01:203", ["::ffff:10.1.2.3 {key}"], 22, "ok"),
    ("an address with one group of zeros", "fd00:1:2:3:4:5::6", ["fd00:1:2:3:4:5:0:6 {key}"], 22, "ok"),
    ("an address with two runs of zeros", "fd00:0:0:1:2:0:0:1", ["fd00::1:2:0:0:1 {key}"], 22, "ok"),
    ("an address with a longer second run of zeros", "fd00:0:0:1:0:0:0:1", ["fd00:0:0:1::1 {key}"], 22, "ok"),
    ("an address at its port", "fd00:0::1", ["[fd00::1]:2222 {key}"], 2222, "ok"),
    ("an address, listed as it was typed", "fd00:0::1", ["fd00:0::1 {key}"], 22, "unknown"),
    ("an address that is revoked", "fd00:0::1", ["* {key}", "@revoked fd00::1 {key}"], 22, "revoked"),
    ("an address that is revoked at its port", "fd00:0::1", ["* {key}", "@revoked [fd00::1]:2222 {key}"], 2222, "revoked"),
    ("a negated address", "fd00:0::1", ["*,!fd00::1 {key}"], 22, "unknown"),
    ("an address of which another key is listed", "fd00:0::1", ["fd00::1 {other}"], 22, "changed"),
    ("a line that is none for an address", "fd00:0::1", ["* {key}", "@revoked fd00::1 {broken}"], 22, "unreadable"),
    ("an IPv4 address", "10.1.2.3", ["10.1.2.3 {key}"], 22, "ok"),
    ("an IPv4 address that is revoked", "10.1.2.3", ["* {key}", "@revoked 10.1.2.3 {key}"], 22, "revoked"),
    ("a name of digits and dots with another letter", "10.1.2.g", ["10.1.2.g {key}"], 22, "ok"),
    *(
        (f"{text} for {host}", host, ["* {key}", f"@revoked {text} {{key}}"], 22, "no address")
        for host, text in (
            ("127.1", "127.0.0.1"), ("0x7f.1", "127.0.0.1"), ("0X7F000001", "127.0.0.1"), ("010.1.2.3", "8.1.2.3"), ("2130706433", "127.0.0.1"),
            ("::a01:203", "::10.1.2.3"), ("::10.1.2.3", "::10.1.2.3"),
        )
    ),
]  # fmt: skip
# the same, of what ssh is not asked, since it connects nowhere
UNASKED = [
    ("a name that is like an address", "9f.be", 22, "no address"), ("an address with a scope", "fe80::1%eth0", 22, "no address"),
    ("an address in brackets", "[fd00::1]", 22, "no address"), ("more than an address", "fd00::1/128", 22, "no address"),
    ("an address of 33 bits", "10.1.2.3.4", 22, "no address"), ("no host", "", 22, "no host"), ("port 0", HOST, 0, "no port"),
    ("no host and no port", "", 0, "no port"), ("no address at port 0", "127.1", 0, "no port"), ("the highest port", HOST, 65535, "ok"),
]  # fmt: skip

NAMED = ["-h", "-n", HOST, *AROUND_NOW]
PATTERN = ["-h", "-n", "*.example", *AROUND_NOW]
# ssh of 10.3 and later refuses it, and so does each answer here; before, it was one for each host of its authority
NOBODY = ["-h", *AROUND_NOW]
AUTHORITY = "@cert-authority h.example {authority}"
# the same, and how the certificate is made
CERTIFICATES = [
    ("of the host", [AUTHORITY], 22, NAMED, "ok"),
    ("by a pattern", ["@cert-authority *.example {authority}"], 22, NAMED, "ok"),
    ("by a hash", ["#@cert-authority h.example {authority}"], 22, NAMED, "ok"),
    ("one of two hosts", [AUTHORITY], 22, ["-h", "-n", "g.example," + HOST, *AROUND_NOW], "ok"),
    ("of two authorities", ["@cert-authority h.example {other}", AUTHORITY], 22, NAMED, "ok"),
    ("an extension", [AUTHORITY], 22, [*NAMED, "-O", "extension:x@example.com"], "ok"),
    ("no line", [], 22, NAMED, "unknown"),
    ("another authority", ["@cert-authority h.example {other}"], 22, NAMED, "unknown"),
    ("an authority of another host", ["@cert-authority g.example {authority}"], 22, NAMED, "unknown"),
    ("a line without the marker", ["h.example {authority}"], 22, NAMED, "changed"),
    ("the key is revoked", [AUTHORITY, "@revoked * {key}"], 22, NAMED, "revoked"),
    ("the authority is revoked", [AUTHORITY, "@revoked * {authority}"], 22, NAMED, "revoked"),
    ("another key is revoked", [AUTHORITY, "@revoked * {other}"], 22, NAMED, "ok"),
    ("revoked of another host", [AUTHORITY, "@revoked g.example {authority}"], 22, NAMED, "ok"),
    ("a line that is none", [AUTHORITY, "@revoked * {broken}"], 22, NAMED, "unreadable"),
    ("a tab after the marker", ["@cert-authority\th.example {authority}"], 22, NAMED, "unreadable"),
    ("after a hash of an unknown kind", ["@cert-authority |x|,h.example {authority}"], 22, NAMED, "unknown"),
    ("beside a pattern of 1,023 bytes", ["@cert-authority " + 1023 * "x" + ",h.example {authority}"], 22, NAMED, "unknown"),
    ("a zero byte before the host", ["@cert-authority \0,h.example {authority}"], 22, NAMED, "unreadable"),
    ("the authority is revoked before a zero byte", [AUTHORITY, "@revoked h.example\0{authority}"], 22, NAMED, "unreadable"),
    ("the key is revoked before a zero byte", [AUTHORITY, "@revoked h.example\0{key}"], 22, NAMED, "unreadable"),
    ("at its port", ["@cert-authority [h.example]:2222 {authority}"], 2222, NAMED, "ok"),
    ("at another port", ["@cert-authority [h.example]:2222 {authority}"], 22, NAMED, "unknown"),
    ("by the plain name", [AUTHORITY], 2222, NAMED, "ok"),
    ("revoked by the plain name", [AUTHORITY, "@revoked h.example {authority}"], 2222, NAMED, "revoked"),
    ("another name", [AUTHORITY], 22, ["-h", "-n", "g.example", *AROUND_NOW], field("valid principals")),
    ("a pattern for a name", [AUTHORITY], 22, PATTERN, field("valid principals")),
    ("for users", [AUTHORITY], 22, ["-n", HOST, *AROUND_NOW], field("type")),
    ("a critical option", [AUTHORITY], 22, [*NAMED, "-O", "critical:x@example.com=1"], field("critical options")),
    ("too early", [AUTHORITY], 22, ["-h", "-n", HOST, "-V", "+5m:+6m"], INVALID),
    ("too late", [AUTHORITY], 22, ["-h", "-n", HOST, "-V", "-6m:-5m"], INVALID),
]  # fmt: skip

# the same of a host whose key is listed, where the certificate does not make it known
LISTED = "h.example {key}"
CERTIFIED_KEYS = [
    ("by no authority", [LISTED], 22, NAMED, BY_KEY),
    ("by no authority, listed by a hash", ["#h.example {key}"], 22, NAMED, BY_KEY),
    ("by no authority, listed at its port", ["[h.example]:2222 {key}"], 2222, NAMED, BY_KEY),
    ("by no authority, listed by the plain name", [LISTED], 2222, NAMED, BY_KEY),
    ("by another authority", ["@cert-authority h.example {other}", LISTED], 22, NAMED, BY_KEY),
    ("by an authority of another host", ["@cert-authority g.example {authority}", LISTED], 22, NAMED, BY_KEY),
    ("for others", [AUTHORITY, LISTED], 22, ["-h", "-n", "g.example", *AROUND_NOW], BY_KEY),
    ("for users", [AUTHORITY, LISTED], 22, ["-n", HOST, *AROUND_NOW], BY_KEY),
    ("for nobody", [LISTED], 22, NOBODY, BY_KEY),
    ("with a critical option", [AUTHORITY, LISTED], 22, [*NAMED, "-O", "critical:x@example.com=1"], BY_KEY),
    ("too early", [AUTHORITY, LISTED], 22, ["-h", "-n", HOST, "-V", "+5m:+6m"], BY_KEY),
    ("too late", [AUTHORITY, LISTED], 22, ["-h", "-n", HOST, "-V", "-6m:-5m"], BY_KEY),
    ("too late, at its port", ["@cert-authority [h.example]:2222 {authority}", "[h.example]:2222 {key}"], 2222, ["-h", "-n", HOST, "-V", "-6m:-5m"], BY_KEY),
    ("too late, listed by the plain name", ["@cert-authority [h.example]:2222 {authority}", LISTED], 2222, ["-h", "-n", HOST, "-V", "-6m:-5m"], BY_KEY),
    ("valid", [AUTHORITY, LISTED], 22, NAMED, "ok"),
    ("by no authority, and another key is listed", ["h.example {other}"], 22, NAMED, "changed"),
    ("too late, and another key is listed", [AUTHORITY, "h.example {other}"], 22, ["-h", "-n", HOST, "-V", "-6m:-5m"], INVALID),
    ("by no authority, listed for another host", ["g.example {key}"], 22, NAMED, "unknown"),
    ("by no authority, and revoked", [LISTED, "@revoked * {key}"], 22, NAMED, "revoked"),
    ("by a revoked authority", [LISTED, "@revoked * {authority}"], 22, NAMED, "revoked"),
    ("too late, by a revoked authority", [AUTHORITY, LISTED, "@revoked * {authority}"], 22, ["-h", "-n", HOST, "-V", "-6m:-5m"], "revoked"),
    ("by no authority, beside a line that is none", [LISTED, "@revoked h.example {broken}"], 22, NAMED, "unreadable"),
    ("by no authority, beside a later kind", ["h.example {later}", LISTED], 22, NAMED, BY_KEY),
]  # fmt: skip

CERTIFICATES_AND_LATER = [
    ("beside a later kind", [AUTHORITY, "h.example {later}"], 22, NAMED, "ok"),
    ("beside an authority of a later kind", ["@cert-authority * {later}", AUTHORITY], 22, NAMED, "ok"),
    ("an authority of a later kind alone", ["@cert-authority * {later}"], 22, NAMED, "unknown"),
    ("the authority is revoked beside a later kind", [AUTHORITY, "* {later}", "@revoked * {authority}"], 22, NAMED, "revoked"),
]  # fmt: skip

CERTIFICATES_OF_FILES = [
    ("in the second file", [["g.example {key}"], [AUTHORITY]], 22, NAMED, "ok"),
    ("an authority of another host in the second file", [[], ["@cert-authority g.example {authority}"]], 22, NAMED, "unknown"),
    ("the key is revoked in the first file", [["@revoked * {key}"], [AUTHORITY]], 22, NAMED, "revoked"),
    ("the key is revoked in the second file", [[AUTHORITY], ["@revoked * {key}"]], 22, NAMED, "revoked"),
    ("the authority is revoked in the first file", [["@revoked * {authority}"], [AUTHORITY]], 22, NAMED, "revoked"),
    ("the authority is revoked in the second file", [[AUTHORITY], ["@revoked * {authority}"]], 22, NAMED, "revoked"),
    ("a line that is none in the second file", [[AUTHORITY], ["@revoked * {broken}"]], 22, NAMED, "unreadable"),
    ("by the plain name in the second file", [[], [AUTHORITY]], 2222, NAMED, "ok"),
    ("revoked at its port in the second file", [[AUTHORITY], ["@revoked [h.example]:2222 {authority}"]], 2222, NAMED, "revoked"),
    ("the key is revoked at its port in the second file", [[AUTHORITY], ["@revoked [h.example]:2222 {key}"]], 2222, NAMED, "revoked"),
    ("another authority at its port", [[AUTHORITY], ["@cert-authority [h.example]:2222 {other}"]], 2222, NAMED, "ok"),
]  # fmt: skip

# names, the key id, the hosts beside it, the answer, and the status of `ssh-keygen -L`
TEXTS = [
    (f"{MOST} principals", b"id", [b"x"] * (MOST - 1), "ok", 0),
    (f"{MOST + 1} principals", b"id", [b"x"] * MOST, field("valid principals"), 1),
    ("a zero byte in another principal", b"id", [b"a\0b"], field("valid principals"), 1),
    ("a zero byte in the key id", b"a\0b", [], field("key id"), 1),
    # stricter here
    ("a zero byte after another principal", b"id", [b"a\0"], field("valid principals"), 0),
    ("a zero byte after the key id", b"a\0", [], field("key id"), 0),
]  # fmt: skip

# the name that is asked for, which ssh(1) looks for in small letters, and how the certificate is made
CAPITALS = [
    ("asked for in capitals", "H.EXAMPLE", NAMED, "ok"),
    ("asked for and listed in capitals", "H.Example", ["-h", "-n", "H.Example", *AROUND_NOW], field("valid principals")),
    ("listed in both", "H.Example", ["-h", "-n", "H.Example,h.example", *AROUND_NOW], "ok"),
]  # fmt: skip

# the same of a certificate by an authority of each host, and what is revoked
BY_ALL = "@cert-authority * {authority}"
TYPED_CERTIFICATES = [
    ("of an address", "fd00:0::1", "fd00::1", [BY_ALL], "ok"),
    ("of an address as it was typed", "fd00:0::1", "fd00:0::1", [BY_ALL], field("valid principals")),
    ("of an address in both texts, by a revoked authority", "fd00:0::1", "fd00::1,fd00:0::1", [BY_ALL, "@revoked fd00::1 {authority}"], "revoked"),
    ("of an address, whose key is revoked", "fd00:0::1", "fd00::1,fd00:0::1", [BY_ALL, "@revoked fd00::1 {key}"], "revoked"),
    ("of an address that no authority is for", "fd00:0::1", "fd00::1,fd00:0::1", ["@cert-authority *,!fd00::1 {authority}"], "unknown"),
    ("of what inet_aton(3) reads", "127.1", "127.1,127.0.0.1", [BY_ALL, "@revoked 127.0.0.1 {authority}"], "no address"),
]  # fmt: skip

SERIAL, KEY_ID = 7, "web"
OWN, OTHER = "authority0", "authority1"
# whose certificates a list is about, what it revokes, and the answers about the key and about the certificate
LISTS = [
    ("nothing", OWN, "", "ok", "ok"),
    ("the key", OWN, "{key}", "revoked", "revoked"),
    ("the SHA-1 digest of the key", OWN, "sha1: {key}", "revoked", "revoked"),
    ("the SHA-256 digest of the key", OWN, "sha256: {key}", "revoked", "revoked"),
    ("another key", OWN, "{other}", "ok", "ok"),
    ("the authority's key", OWN, "{authority}", "ok", "revoked"),
    ("the serial number", OWN, f"serial: {SERIAL}", "ok", "revoked"),
    ("another serial number", OWN, f"serial: {SERIAL + 1}", "ok", "ok"),
    ("the serial number of another authority", OTHER, f"serial: {SERIAL}", "ok", "ok"),
    ("the serial number of all authorities", "none", f"serial: {SERIAL}", "ok", "revoked"),
    ("the key id", OWN, f"id: {KEY_ID}", "ok", "revoked"),
    ("another key id", OWN, f"id: {KEY_ID}s", "ok", "ok"),
    ("the key id of another authority", OTHER, f"id: {KEY_ID}", "ok", "ok"),
]


def in_one_file(cases):
    """The cases, with a list of one file in place of its lines."""
    return [(name, [lines], *others) for name, lines, *others in cases]
