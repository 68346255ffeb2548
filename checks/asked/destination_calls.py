"""Hosts and ports by the calls of each language: what a user types, taken apart, against Python's urllib where that reads the same."""
from urllib.parse import urlsplit

from .linked import word

# what is typed, the host and the port
FOUND = [
    ("h", "h", 0), ("h:22", "h", 22), ("h:022", "h", 22), ("h:1", "h", 1), ("h:65535", "h", 65535), ("[h]:22", "h", 22), ("[h]", "h", 0),
    ("[::1]:22", "::1", 22), ("[::1]", "::1", 0), ("::1", "::1", 0), ("a::22", "a::22", 0), ("::", "::", 0), ("1:2:3", "1:2:3", 0), ("", "", 0),
    (":22", "", 22), ("[]", "", 0), ("[]:22", "", 22), ("[a:b]:22", "a:b", 22), ("[[a]:22", "[a", 22), ("a]:22", "a]", 22), ("a]", "a]", 0),
    ("größe.example:2222", "größe.example", 2222), ("h\0:22", "h\0", 22), ("192.0.2.1:80", "192.0.2.1", 80), ("a[b", "a[b", 0),
]  # fmt: skip
NONE = [
    "h:", "h:0", "h:00", "h:65536", "h:99999999999999999999", "h:ssh", "h:+22", "h:-1", "h: 22", "h:22 ", "h:0x16", "[", "[h", "[h:22", "[h]22", "[h]:", "[h]x",
    "[h]:ssh", "[h]:0", "[h]::22", "[a]b]:22", "[h] ", ":", "h:２２",
]  # fmt: skip


def check_destinations(judge):
    rows = [(text, f"0 {word(host.encode())} {port}") for text, host, port in FOUND] + [(text, str(judge.number("FORMAT"))) for text in NONE]
    asked = [f"host-and-port {word(text.encode())}" for text, _ in rows]
    judge.ask("hosts and ports", [*asked, f"host-and-port {word(bytes([0xff]))}"], [*(wanted for _, wanted in rows), str(judge.number("TEXT"))])
    for text, host, port in FOUND:
        # another reader, of what is a URL's, where brackets stand around IPv6 alone
        is_url = not text.startswith("[") or "::" in host
        if is_url and host and text.isascii() and text.isprintable() and port and not set("[]") & set(host):
            found = urlsplit(f"ssh://{text}")
            judge.count.check(f"urllib reads {text} the same", (found.hostname, found.port) == (host, port), found)
