"""Lists of addresses by the calls of each language: what the library says has to be what docs/FORMATS.md says, as checks/addresses reads
it, and what OpenSSH's own code answered (`addresses`), or a refusal of what it reads in another way."""
import ipaddress
import json

from lib.harness import ROOT

from .address_questions import CERTIFICATE
from .linked import word
from .made import loaded

SAMPLED = 8
NUMBERS = {"in": "DONE", "out": "ELSEWHERE", "malformed": "FORMAT", "address": "TEXT", "host": "TEXT"}
# of lists by which a host is let in, and what is malformed or refused here alone
BY_HAND = [
    ("10.0.0.0/8", "10.1.2.3", b"", "DONE", "DONE"), ("10.0.0.0/8", "11.1.2.3", b"", "ELSEWHERE", "ELSEWHERE"),
    ("10.0.0.0/8", "::ffff:10.1.2.3", b"", "DONE", "DONE"), ("::/0", "fe80::1", b"", "ELSEWHERE", "TEXT"), ("::/0", "::2", b"", "DONE", "TEXT"),
    ("10.0.0.1/8", "10.0.0.1", b"", "FORMAT", "FORMAT"), ("", "10.1.2.3", b"", "FORMAT", "FORMAT"),
    ("!10.0.0.0/129,*", "10.1.2.3", b"", "FORMAT", "FORMAT"), ("*.example.org", "10.1.2.3", b"Gate.Example.org", "FORMAT", "DONE"),
    ("10.0.0.0/8", "10.1.2.3", b"9f.be", "DONE", "TEXT"), ("10.0.0.0/8", "10.1.2.3", b"\xff", "DONE", "TEXT"),
]  # fmt: skip


def question(items, address, host):
    return f"addresses {word(items)} {word(ipaddress.ip_address(address).packed)} {word(host)}"


def check_addresses(judge):
    asked = [question(items.encode(), address, host) for items, address, host, *_ in BY_HAND]
    judge.ask("lists of addresses by hand", asked, [" ".join(str(judge.number(it)) for it in row[3:]) for row in BY_HAND])
    with open(f"{ROOT}/checks/asked/addresses", encoding="ascii") as file:
        rows = [json.loads(it) for it in file.read().splitlines()[1:]][:: SAMPLED if judge.asker.is_package else 1]
    asked = [question(items.encode(), address, (host or "").encode()) for _, items, address, host, _ in rows]
    page = loaded("addresses")
    wanted = [(page.by_certificate(items, address), page.by_line(items, address, host)) for _, items, address, host, _ in rows]
    answers = judge.ask("lists of addresses", asked, [" ".join(str(judge.number(NUMBERS[it])) for it in both) for both in wanted])
    refused = {str(judge.number(it)) for it in ("FORMAT", "TEXT")}
    said = [it.split()[kind != CERTIFICATE] if " " in it else it for it, (kind, *_) in zip(answers, rows)]
    wrong = [it for it in zip(rows, said) if it[1] not in {str(judge.number(NUMBERS[it[0][4]])), *refused}]
    judge.check(f"{len(rows):,} lists of addresses are answered as by OpenSSH's code, or refused", said and not wrong, *wrong[:3])
