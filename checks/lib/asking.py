"""What checks ask of the table and of the program callers, apart from how the answers are judged: each check has the built
programs answer, and `checks/unproved` builds of the sources that no proof came before."""
import os
import subprocess
import sys
import traceback
from dataclasses import dataclass
from typing import Callable

from lib.harness import Count, built

# the crates of the programs that answer lines
TABLE, CALLERS = "sshkey_cases", "callers"
# how long a program may take for what one check asks
SECONDS = 600
# Of how many lists, lines and texts that a check draws one is asked: of built programs all, of unproved builds a third.
ONE_OF = 1


def share(number):
    """How many of so many are asked."""
    return number // ONE_OF


@dataclass
class Asked:
    """Lines for a program, and how what it prints is judged."""

    crate: str
    # lists of lines: all of a list are asked of one run, since an answer may depend on the lines before it
    groups: list
    # given what the program printed and a Count
    judge: Callable
    # the tempfile.TemporaryDirectory in which it is judged, if there is one: a part owns what it needs until it was judged
    room: object = None
    # the check's and its number there
    name: str = ""


def of_table(questions, judge, room=None):
    """Questions of the table, each by itself. Judged are the answers by their questions."""
    return Asked(TABLE, [[it] for it in questions], lambda printed, count: judge(answers_in(printed), count), room)


def answers_in(printed):
    """The answers of the table by their questions; a text in them may hold what splitlines takes for the end of a line."""
    return dict(it.split(" = ", 1) for it in printed.split("\n") if " = " in it)


def text_of(groups):
    return "".join(f"{line}\n" for lines in groups for line in lines)


def made(check, parts, count):
    """The parts of the check of that name. One that cannot be made is counted as a failure; those before it stand."""
    number = 1
    try:
        for number, part in enumerate(parts(), 2):
            part.name = f"{check}, part {number - 1}"
            yield part
    except Exception:
        count.check(f"{check}, part {number}, is made", False, traceback.format_exc())


def judge(part, printed, count):
    """Judges a part: what goes wrong there fails this part alone."""
    try:
        part.judge(printed, count)
    except Exception:
        count.check(f"{part.name}, is judged", False, traceback.format_exc())
    if part.room:
        part.room.cleanup()


def ask(parts, *crates):
    """Has the built programs of these crates answer, and returns the status of the check. The words of the command line, in the
    order of the crates, name programs in their place."""
    named = dict(zip(crates, sys.argv[1:]))
    count = Count()
    for it in made(os.path.basename(sys.argv[0]), parts, count):
        program = os.path.abspath(named.get(it.crate) or built(it.crate))
        how = {"input": text_of(it.groups), "capture_output": True, "encoding": "utf-8", "check": False, "timeout": SECONDS}
        run = subprocess.run([program], **how)
        if run.returncode:
            count.check(f"{it.crate} answers", False, f"it ended with {run.returncode}", run.stderr[-2000:])
        else:
            judge(it, run.stdout, count)
    return count.finish()
