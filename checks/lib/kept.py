"""What checks/wrong-bodies has passed: on this machine, and as the file checks/tried.txt has it."""
import hashlib
import os
import subprocess
from dataclasses import dataclass

from lib.due import BELOW, NONE, OWN, Candidate, estimate

# what judges beside the prover
SCRIPTS = ("wrong-bodies", "lib/crates.py", "lib/edits.py", "lib/kept.py")


class Kept:
    """What passed on this machine, by checksums of all that it was judged by: the crate's sources,
    and of the crates below it the libraries, which the prover reads in their place."""

    def __init__(self, root, kit):
        cache = os.environ.get("XDG_CACHE_HOME") or os.path.expanduser("~/.cache")
        self.folder, self.kit = f"{cache}/rafendilo/wrong-bodies", kit
        scripts = [f"{root}/checks/{it}" for it in SCRIPTS]
        self.libraries = {}
        self.common = self.sum_of([f"{kit}/WHAT", *scripts], root)

    def of_library(self, crate, top):
        """The sum of what the crates above are judged by, which each of them asks for."""
        if crate.name not in self.libraries:
            self.libraries[crate.name] = self.sum_of(crate.judged_by(), top)
        return self.libraries[crate.name]

    @staticmethod
    def sum_of(files, top="", more=""):
        total = hashlib.sha256(more.encode())
        for path in files:
            with open(path, "rb") as file:
                text = file.read()
            total.update(f"{path.removeprefix(top)} {len(text)}\n".encode() + text)
        return total.hexdigest()

    def path(self, trial):
        crate = trial.crate
        top = os.path.dirname(crate.folder)
        crates = [*crate.below(), crate]
        uses = repr([(it.name, [own.name for own in it.own], it.of_kit) for it in crates])
        # a comment changes no library, so it opens no crate above
        below = repr([self.of_library(it, top) for it in crate.below()])
        files = [*sorted(crate.sources()), *sorted(trial.files)]
        found = self.sum_of(files, top, uses + below)
        return f"{self.folder}/{crate.name}-{self.common[:16]}-{found}"

    def count(self, trial):
        """How many edits passed, if the same were tried before and none failed; else 0."""
        try:
            with open(self.path(trial), encoding="utf-8") as file:
                return int(file.read())
        except (OSError, ValueError):
            return 0

    def keep(self, trial, path):
        """Keeps what passed there, if nothing that it was judged by has changed since, and that the part that a trial has without
        those of wrong/more passed with it. Returns whether all passed and nothing changed."""
        if trial.failures or self.path(trial) != path:
            return False
        passed = {path: trial.passed}
        if trial.plain:
            passed[self.path(trial.plain)] = len(trial.plain.blocks)
        try:
            os.makedirs(self.folder, exist_ok=True)
            for path, count in passed.items():
                with open(path, "w", encoding="utf-8") as file:
                    file.write(str(count))
        except OSError as error:
            print(f"{trial.crate.name}: what passed could not be kept: {error}", flush=True)
        return True


@dataclass
class Row:
    """What judged the edits of a crate when all were last refused, by sums, and what that took."""

    own: str
    all: str
    seconds: int


class Tried:
    """The file checks/tried.txt. It has a line for the wrong bodies of a crate, and one for its wrong definitions: the sum of its own
    files, which are its sources and these edits; the sum of all that judges them, which is that and the sources of the crates below
    it without their comments, the toolchain and these scripts; and the processor seconds that they took, 0 where nobody measured."""

    HEAD = "# What checks/wrong-bodies wrote: of each crate the sum of its own files and of all that judged its edits, when all were\n"
    HEAD += "# refused, and the processor seconds that they took.\n"
    COMMENTS = {".rt": b"//", ".antt": b"--"}

    def __init__(self, root):
        self.path = f"{root}/checks/tried.txt"
        self.rows = {}
        with open(self.path, encoding="utf-8") as file:
            for name, own, every, seconds in (line.split() for line in file if not line.startswith("#")):
                self.rows[name] = Row(own, every, int(seconds))
        version = subprocess.run(["rt", "version"], capture_output=True, text=True, check=False).stdout
        self.common = Kept.sum_of([f"{root}/checks/{it}" for it in SCRIPTS], root, version)
        self.judged_by = {}

    def of_sources(self, crate):
        """The sum of the crate's sources, and of those below it."""
        if crate.name not in self.judged_by:
            below = "".join(map(self.of_sources, crate.own))
            total = hashlib.sha256(repr((self.common, below, crate.of_kit, crate.is_static)).encode())
            for path in sorted(crate.sources()):
                begins = self.COMMENTS.get(os.path.splitext(path)[1])
                with open(path, "rb") as file:
                    lines = [it for it in file if not (begins and it.lstrip().startswith(begins))]
                total.update(f"{path.removeprefix(crate.folder)} {len(lines)}\n".encode() + b"".join(lines))
            self.judged_by[crate.name] = total.hexdigest()
        return self.judged_by[crate.name]

    def row(self, trial, seconds=0):
        """The trial's line, as its files stand."""
        # an edit may stand in a comment of its own crate
        files, top = sorted([*trial.crate.sources(), *trial.files]), trial.crate.folder
        return Row(Kept.sum_of(files, top)[:16], Kept.sum_of(files, top, self.of_sources(trial.crate))[:16], seconds)

    def candidate(self, trial):
        """The trial as due.py chooses among them. What passed on this machine before costs nothing."""
        before, now = self.rows.get(trial.name()), self.row(trial)
        change = OWN if not before or before.own != now.own else BELOW if before.all != now.all else NONE
        seconds = before.seconds if before and before.seconds else estimate(len(trial.blocks), trial.is_of_definitions)
        return Candidate(trial.name(), len(trial.blocks), 0 if trial.passed else seconds, change)

    def note(self, rows, refused):
        """Writes down of which of these names all edits were refused. What says so of another of them is taken away. Where nothing
        changed, a line stays."""
        found = dict(self.rows)
        for name, it in rows.items():
            before = self.rows.get(name, Row("", "", 0))
            if name not in refused and before.all == it.all:
                del found[name]
            elif name in refused and before.all != it.all:
                # what was tried before on this machine was not measured
                found[name] = Row(it.own, it.all, it.seconds or before.seconds)
        if found == self.rows:
            return
        with open(self.path, "w", encoding="utf-8") as file:
            file.writelines([self.HEAD, *(f"{name} {it.own} {it.all} {it.seconds}\n" for name, it in sorted(found.items()))])
        print("checks/tried.txt says what was tried: it lands with the change", flush=True)
