#!/usr/bin/env python3
"""Draws every fiftieth of the questions of checks/asked/addresses, which OpenSSH's own code answered, into worked examples that the
prover evaluates: crates/sshkey_matching/specs/AskedExamples.antt. What OpenSSH refuses is not let in; what it lets in is not
answered "no", and not refused at all where Python reads each piece as a network.

    checks/asked/address_examples.py [--check]
"""
import ipaddress
import json
import os
import sys

HERE = os.path.dirname(os.path.realpath(__file__))
FILE = os.path.join(HERE, "../../crates/sshkey_matching/specs/AskedExamples.antt")
STEP = 50
HEAD = """-- Every fiftieth of the questions that OpenSSH's own code answered (checks/asked/addresses), as
-- checks/asked/address_examples.py draws them.
use Rattle.std.specs.Prelude.{ℕ, List, [], ◌∷◌, Bool, true, false, Option, Some, None, option_map, Ok, codes}
use Rattle.std.specs.List.{All}
use Rattle.std.specs.declared.net.ip_addr.IpAddr.TheVariants.{V4, V6}
use Rattle.sshkey_matching.specs.AddressExamples.{AllComeFrom, NoneComeFrom, Source, lent}
use Rattle.sshkey_matching.specs.FromLists.{DecidesFrom}

-- a list, a host's name if there is one, and the text of a client's address
abbrev pub Question : Type 0
Question = List ℕ × Option (List ℕ) × List ℕ

abbrev pub NoneDecided : Bool → List Question → Type 0
NoneDecided lets rows = All (λ r. ¬ DecidesFrom r.0 (option_map lent r.1) r.2 (Ok lets)) rows
"""
TAIL = """
-- What OpenSSH refuses is not let in, and what it lets in is not refused, but for a fault.
abbrev pub Asked : Type 0
Asked = NoneDecided true refused × NoneDecided false let_in × NoneComeFrom kept_out × AllComeFrom came
"""


def text(it):
    """A text as its bytes."""
    if it and it.isascii() and it.isprintable():
        return 'codes "' + it.replace("\\", "\\\\").replace('"', '\\"') + '"'
    return "(" + " ∷ ".join([*(hex(byte) for byte in it.encode()), "[]"]) + ")" if it else "[]"


def optional(it):
    return "None" if it is None else f"Some ({text(it)})"


def address(it):
    read = ipaddress.ip_address(it)
    size, part, kind = (1, "octets", "V4") if read.version == 4 else (2, "segments", "V6")
    parts = [int.from_bytes(read.packed[at : at + size], "big") for at in range(0, len(read.packed), size)]
    return f"{kind} (record {{ {part} = {' ∷ '.join([*map(str, parts), '[]'])} }})"


def is_network(piece):
    try:
        return bool(ipaddress.ip_network(piece)) and piece.isascii()
    except ValueError:
        return False


def table(name, kind, rows):
    return f"\nabbrev pub {name} : List {kind}\n{name} =\n    " + "\n    ∷ ".join([*rows, "[]"]) + "\n"


def drawn():
    with open(os.path.join(HERE, "addresses"), encoding="utf-8") as file:
        rows = [json.loads(it) for it in file if it.startswith("[")][::STEP]
    lines = [(f"({text(items)}, {optional(host)}, {text(at)})", said) for kind, items, at, host, said in rows if kind == "from"]
    sources = [(items, f"(Some ({text(items)}), {address(at)})", said) for kind, items, at, host, said in rows if kind != "from"]
    return (
        HEAD
        + table("refused", "Question", [row for row, said in lines if said != "in"])
        + table("let_in", "Question", [row for row, said in lines if said == "in"])
        + table("kept_out", "Source", [row for _, row, said in sources if said != "in"])
        + table("came", "Source", [row for items, row, said in sources if said == "in" and all(map(is_network, items.split(",")))])
        + TAIL
    )


def main():
    if "--check" in sys.argv[1:]:
        with open(FILE, encoding="utf-8") as file:
            if file.read() != drawn():
                sys.exit(f"{os.path.relpath(FILE)} is another: write it anew by checks/asked/address_examples.py")
        return
    with open(FILE, "w", encoding="utf-8") as file:
        file.write(drawn())


if __name__ == "__main__":
    main()
