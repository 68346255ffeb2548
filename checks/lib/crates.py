"""The crates of the repository, as crates.txt lists them, and how the prover is called for one."""
import os
import shutil
import subprocess
import sys

ROOT = os.path.dirname(os.path.dirname(os.path.dirname(os.path.abspath(__file__))))
PARTS = ("src", "specs", "proofs")


class Crate:
    """A crate of the repository, as a line of crates.txt gives it."""

    def __init__(self, root, name, given, crates, is_static=False):
        self.name = name
        self.is_static = is_static
        self.folder = f"{root}/crates/{name}"
        self.own = [crates[it] for it in given if it in crates]
        self.of_kit = ["std", *(it for it in given if it not in crates)]
        self.library = f"{self.folder}/out/rlib/{name}.rlib"

    def below(self):
        """The crates of the repository that this one uses, directly or not, lowest first."""
        found = []
        for crate in self.own:
            found += [it for it in [*crate.below(), crate] if it not in found]
        return found

    def sources(self):
        for part in PARTS:
            for at, _, files in os.walk(f"{self.folder}/{part}"):
                yield from (f"{at}/{it}" for it in files)

    def judged_by(self):
        """The files by which the crates above are judged: those of the library, where it is the one
        of the sources as they stand, and else the sources."""
        if not self.is_left_by_ci():
            return sorted(self.sources())
        return sorted(f"{at}/{it}" for at, _, files in os.walk(self.library) for it in files)

    def is_left_by_ci(self):
        """Whether the library is one that rt ci has made, or found kept, of the sources as they
        stand: none is newer than the mark of checks/lib/prove, which is as old as its copy of them, or
        without that mark than the library. What the other commands of rt make has a stamp, and they
        know whether it is current."""
        folder = f"{self.folder}/out/rlib"
        marks = [it for it in (f"{folder}/passed", f"{self.library}/format") if os.path.isfile(it)]
        if not os.path.isdir(self.library) or not marks or os.path.exists(f"{folder}/stamp"):
            return False
        files = [file for it in [*self.below(), self] for file in it.sources()]
        made = os.path.getmtime(marks[0])
        return all(os.path.getmtime(it) <= made for it in files)

    def copy_work(self, kept):
        """Puts into kept what rt check has proved of the crate and kept, where it did: the prover
        takes what is still current of it. After rt ci nothing stands there."""
        work = f"{self.folder}/out/incremental"
        if os.path.isdir(work):
            shutil.copytree(work, kept, dirs_exist_ok=True)

    def check_command(self, kit, kept, functions):
        """The words that check these functions and what they call, over the work in kept."""
        is_program = os.path.isfile(f"{self.folder}/src/main.rt")
        words = [f"{kit}/bin/rattle", "check", "--crate-name", self.name]
        words += ["src/main.rt" if is_program else "src/lib.rt"]
        words += ["--crate-type", "staticlib"] * self.is_static
        for name in self.of_kit:
            words += ["--extern", f"{name}={kit}/rlibs/{name}.rlib"]
        words += ["-L", f"dependency={kit}/rlibs"]
        for crate in self.own:
            words += ["--extern", f"{crate.name}={crate.library}"]
        for crate in self.below():
            words += ["-L", f"dependency={os.path.dirname(crate.library)}"]
        words += ["--antt-project", f"{kit}/rattle/logic/antt-project.json"]
        words += ["--logic-built", f"{kit}/logic_built"]
        words += ["--incremental", kept, "--jobs", "1", "--progress"]
        return words + [it for name in functions for it in ("--only", name)]


def crates_of(root):
    """The crates that crates.txt lists, by their names, lowest first."""
    lines, static = {}, set()
    with open(f"{root}/crates.txt", encoding="utf-8") as file:
        for line in file:
            name, colon, given = line.partition("#")[0].partition(":")
            if colon:
                name, *words = name.split()
                lines[name] = given.split()
                static |= {name} if "staticlib" in words else set()
    crates = {}
    while len(crates) < len(lines):
        ready = [
            name
            for name, given in lines.items()
            if name not in crates and all(it in crates for it in given if it in lines)
        ]
        if not ready:
            sys.exit("crates.txt has a cycle")
        crates.update({it: Crate(root, it, lines[it], crates, it in static) for it in ready})
    return crates


def build_libraries(crates):
    """Has the libraries below the crates stand in out/, and tells on standard error what is proved. Those that checks/lib/prove left
    there of the present sources stay, and it makes the others; over libraries of rt lib or rt check that command goes on."""
    needed = list(dict.fromkeys(it for crate in crates for it in crate.below()))
    missing = [it for it in needed if not it.is_left_by_ci()]
    if any(os.path.exists(f"{it.folder}/out/rlib/stamp") for it in missing):
        runs = [(it.folder, ["rt", "lib", "--jobs", "1"]) for it in needed]
    else:
        runs = [(ROOT, ["checks/lib/prove", *(it.name for it in missing)])] if missing else []
    for folder, words in runs:
        if subprocess.run(words, cwd=folder, stdout=sys.stderr, check=False).returncode:
            sys.exit(f"{folder}: {' '.join(words)} proved not all, so nothing above it was tried")
