"""What OpenSSH's own code answered about who may log in by authorized_keys, as it is stored, and how an answer is to those of its
versions: for checks/user-keys, and for the calls of the library."""
import hashlib
import json
import re

from lib.harness import ROOT

from .user_key_causes import cause_of
from .user_key_material import read_material, sum_of
from .user_key_questions import questions

STORED = f"{ROOT}/checks/asked/user_keys"
REFUSED = "no"


def shortened(answer):
    """The answer with checksums in place of long fields."""
    return re.sub(r"[^ =]{200,}", lambda it: hashlib.sha256(it[0].encode()).hexdigest(), answer)


def stored():
    """The questions, each with the answers of all versions."""
    with open(STORED, encoding="ascii") as file:
        head, *lines = file.read().splitlines()
    head, end = json.loads(head), lines.index("")
    asked = questions(head["seed"], read_material(lines[:end]))
    assert sum_of(asked) == head["sum"], "this Python draws other questions than those that were asked"
    print(f"answers of openssh {' and '.join(head['openssh'])}, {len(asked)} questions", flush=True)
    return list(zip(asked, (it.split(" | ") for it in lines[end + 1 :]), strict=True))


def fields_of(answer):
    """The fields of an answer that lets in, by their names, and its line."""
    number, *fields = answer.split(" ")
    return {"line": number, **dict(it.split("=", 1) for it in fields)}


def is_same(ours, theirs):
    """Whether the login is bound alike. A time that the machine's zone decides is a span here. No version that is asked says
    whether there may be tunnels."""
    if theirs == REFUSED:
        return False
    theirs = fields_of(theirs)
    first, _, last = ours["until"].partition("-")
    until = theirs["until"]
    is_until = int(first) <= int(until) <= int(last) if first and until else first == until
    names = theirs.keys() - {"until"}
    return is_until and all(ours.get(it) == theirs[it] for it in names) and names == ours.keys() - {"until", "tunnels"}


def may_have_tunnels(it, ours):
    """Whether the line that lets in leaves tunnels: since 10.5 `restrict` turns them off."""
    line = it.text.split(b"\n")[int(ours["line"]) - 1]
    return not re.search(rb"(?i)(?<![\w-])restrict(?![\w-])", line)


def verdict(it, theirs, answer):
    """How the answer is to those of OpenSSH's versions, and whether that may be."""
    if answer[:1].isdigit():
        ours = fields_of(shortened(answer))
        if not all(is_same(ours, each) for each in theirs):
            return "another grant, or none there", False
        if (ours["tunnels"] == "yes") != may_have_tunnels(it, ours):
            return "tunnels otherwise", False
        return "let in, bound alike", True
    if not answer.startswith("no: "):
        return "no answer", False
    if REFUSED in theirs:
        return "refused, as by OpenSSH" if [REFUSED] == theirs else "refused, as by one of the versions", True
    cause = cause_of(it, answer)
    return cause or "refused without a cause", bool(cause)
