"""What a release is made of: a clone at its commit, or the source package of one, which needs no git and tells of itself."""
import calendar
import os
import re
import subprocess
import sys
import time

from .archives import sum_of

SUMS = "SHA256SUMS"
DATE = "%Y-%m-%dT%H:%M:%SZ"


class Clone:
    """A clone, of which git tells."""

    is_package = False
    # by its package of Debian
    takes = ("git",)

    def __init__(self, root):
        self.root = root

    def git(self, *words):
        ran = subprocess.run(["git", *words], cwd=self.root, check=False, stdout=subprocess.PIPE, text=True)
        if ran.returncode:
            sys.exit(f"bindings/dist: git {words[0]} failed, and this is no source package")
        return ran.stdout.strip()

    def is_whole(self):
        """Whether the texts are of the sources as they stand. It is said if not."""
        return not subprocess.run([f"{self.root}/bindings/library", "--is-current"], check=False).returncode

    def files(self, patterns):
        """The paths of the files that the patterns of git name."""
        return self.git("ls-files", "--", *patterns).splitlines()

    def commit(self):
        """The commit, and its second."""
        changed = " and what is changed since" if self.git("status", "--porcelain", "-uno") else ""
        return self.git("rev-parse", "HEAD") + changed, int(self.git("log", "-1", "--format=%ct"))


class Package:
    """A source package, whose sums name its files, and whose PROVED-BY the commit."""

    is_package = True
    takes = ()

    def __init__(self, root):
        self.root = root
        with open(f"{root}/{SUMS}", encoding="utf-8") as file:
            self.sums = dict(reversed(it.rstrip("\n").split("  ", 1)) for it in file)

    def is_whole(self):
        """Whether each file is there as it was packed. It is said if not."""
        paths = {it: f"{self.root}/{it}" for it in self.sums}
        other = [it for it, path in paths.items() if not os.path.isfile(path) or sum_of(path) != self.sums[it]]
        if other:
            print(f"{', '.join(other[:5])}{', ..' * (len(other) > 5)}: not what {SUMS} tells of", file=sys.stderr)
        return not other

    def files(self, _patterns):
        """The paths of all files, which the patterns named."""
        return list(self.sums)

    def commit(self):
        """The commit, and its second."""
        with open(f"{self.root}/PROVED-BY", encoding="utf-8") as file:
            told = re.search(r"^release .* of (\S+), whose sources are the commit\n +(.*)$", file.read(), re.M)
        return told[2], calendar.timegm(time.strptime(told[1], DATE))


def sources_of(root):
    return Package(root) if os.path.isfile(f"{root}/{SUMS}") else Clone(root)
