"""The parts of bench/RESULTS.md that programs of bench/ print, and of which text of the library their figures are."""
import datetime
import hashlib
import re
import subprocess

from .harness import ROOT

RESULTS = f"{ROOT}/bench/RESULTS.md"
# what is measured, and the parts that say so, with the programs that make them
TEXT = f"{ROOT}/bindings/go/rafendilo/rafendilo_linux_amd64.S"
OF_THE_TEXT = {"Calls of the library for C": "foreign", "Files of three sizes": "files"}


def sum_of_text(path=TEXT):
    """The beginning of the sum of what a text does: of all but its head, which names the sources."""
    with open(path, encoding="utf-8") as file:
        code = re.sub(r"\A(?://.*\n)+", "", file.read())
    return hashlib.sha256(code.encode()).hexdigest()[:16]


def processor():
    """As Linux calls that of this machine."""
    with open("/proc/cpuinfo", encoding="utf-8") as file:
        model = re.search(r"model name\s*: (.*)", file.read())
    return model[1] if model else "unknown"


def version_of_valgrind():
    """Its version."""
    return subprocess.run(["valgrind", "--version"], capture_output=True, text=True, check=True).stdout.strip()


def head(*by):
    """The first line of a part: when it was measured, by what, and of which text."""
    measured = ", ".join(by or [version_of_valgrind()])
    return f"{datetime.date.today():%d %B %Y}, {measured}, of the library's text `{sum_of_text()}`.".lstrip("0")


def part_of(title, text):
    """What stands before the part of that title, the part, and what stands behind it."""
    before, _, after = text.partition(f"## {title}\n")
    at = after.find("\n## ") + 1
    return before, after[:at] if at else after, after[at:] if at else ""


def is_of_text(title):
    """Whether the part is of the text as it stands."""
    with open(RESULTS, encoding="utf-8") as file:
        return f"`{sum_of_text()}`" in part_of(title, file.read())[1].partition("\n|")[0]


def show(title, part, is_written):
    """Prints the part, and puts it into RESULTS.md after its title."""
    shown = f"## {title}\n\n" + "\n".join(part) + "\n"
    print(f"\n{shown}", end="")
    if is_written:
        with open(RESULTS, encoding="utf-8") as file:
            before, _, after = part_of(title, file.read())
        with open(RESULTS, "w", encoding="utf-8") as file:
            file.write(before.rstrip("\n") + f"\n\n{shown}" + (after and f"\n{after}"))
