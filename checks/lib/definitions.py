"""The definitions of specs/, and which of those that decide something are named in a worked example or a wrong definition."""
import glob
import os
import re

from lib.edits import blocks_of

# The crates whose definitions say what another program does. There a definition and its code can be wrong together.
DECIDING = [
    "sshkey_matching", "login_terms", "login_policy", "user_keys", "host_keys", "allowed_signers",
    "sshkey_known_hosts", "sshkey_userauth", "publickey_login", "openssh_limits", "sshkey_krl", "sshkey_revoked_keys",
]  # fmt: skip
# a word of a contract or a definition
WORD = r"[^\s(){}\[\],;.:@◌]+"
NUMBER = r"(?<![\w.])(?:0x[0-9a-fA-F]+|\d+)\b"
SIGNATURE = r"(?:(?:abbrev|unfoldable|pub) )*\S+ : "
# a record of facts, or a fact by cases, has parameters; a record of values has none
FACTS = r"(?:pub )*(?:record|data) \S+ [({]"
VALUES = r"(?:pub )*(?:record|data) "


def read(path):
    with open(path, encoding="utf-8") as file:
        return file.read()


def definitions(text):
    """The lines of each definition of a file of specs/, by its name, after the heads of the modules around it. Each of its clauses
    begins in the first column, or in a module's; what is deeper belongs to it."""
    found, name, heads = {}, "", []
    for line in text.splitlines():
        if not line.strip() or re.match(r" *(?:pub )?(?:use|mod) |infix| *(?:unfoldable|opaque).* use | *--", line):
            continue
        indent = len(line) - len(line.lstrip())
        heads = [it for it in heads if it[0] < indent]
        if re.match(r" *module _ .* where$", line):
            heads.append((indent, line.strip()))
            continue
        first = heads[-1][0] + 2 if heads else 0
        begins = re.match(r"(?:(?:abbrev|unfoldable|pub|data|record) )*([^\s()}]\S*)", line[first:]) if indent == first else None
        name = begins[1] if begins else name
        found.setdefault(name, [it for _, it in heads]).append(line[first:])
    return found


def has_edges(lines):
    """Whether a definition has more than one clause, field or case, or a number, so that one slip may turn it."""
    lines = [it for it in lines if not it.startswith("module")]
    if re.match(FACTS, lines[0]):
        lines = lines[1:]
        clauses = [it for it in lines if re.match(r" +(?:pub )?(?:\S+ )+: ", it)]
    elif re.match(VALUES, lines[0]):
        return False
    else:
        lines = [it for it in lines if not re.match(SIGNATURE, it)]
        clauses = [it for it in lines if re.match(r"\S.* =(?: |$)", it)]
    return len(clauses) > 1 or bool(re.search(NUMBER, re.sub(r"Type 0|\{0\}", "", "\n".join(lines))))


class Unnamed:
    """The definitions with edges that no example and no wrong definition names: those found, and those that checks/unnamed.txt has.
    What is only reached through a definition that is named does not count: nearly all is reached from the one that decides."""

    def __init__(self, root):
        self.root, self.path = root, f"{root}/checks/unnamed.txt"
        self.found = {it for crate in DECIDING for it in self.of(crate)}
        rows = [it.split(": ") for it in read(self.path).splitlines() if it and not it.startswith("#")]
        pairs = {(place, name) for place, names in rows for name in names.split()}
        self.without_examples = {place for place, name in pairs if name == "examples.rt"}
        self.listed = {pair for pair in pairs if pair[1] != "examples.rt"}

    def paths(self, crate, pattern):
        return sorted(glob.glob(f"{self.root}/crates/{crate}/{pattern}", recursive=True))

    def of(self, crate):
        named = set()
        for path in self.paths(crate, "specs/**/*Examples.antt"):
            named.update(re.findall(WORD, read(path)))
        for path in self.paths(crate, "wrong-definitions/**/*.edits"):
            turned = [it for block in blocks_of(path) for it in block if it.startswith(("old: ", "after: "))]
            named.update(re.findall(WORD, "\n".join(turned)))
        for path in self.paths(crate, "specs/**/*.antt"):
            module = os.path.basename(path).removesuffix(".antt")
            if not module.endswith("Examples"):
                for name, lines in definitions(read(path)).items():
                    if has_edges(lines) and name not in named:
                        yield f"{crate} {module}", name
