"""What a commit must not bring: a check, or who builds here, could take it for what was made of the sources."""
import os
import subprocess

from lib.harness import ROOT

# where it is made
FOLDERS = {"out", "target"}


def committed(*words):
    """Paths of the index, as `git ls-files` prints them for these words."""
    # also of a clone that another user owns
    listed = ["git", "-c", "safe.directory=*", "-C", ROOT, "ls-files", "-z", "--cached", *words]
    return subprocess.run(listed, capture_output=True, encoding="utf-8", check=True).stdout.split("\0")[:-1]


def check_committed(count):
    """Of a clone: no file in it is one that git ignores, or lies where things are made, whatever .gitignore says of that."""
    if os.path.exists(f"{ROOT}/.git"):
        found = {*committed("--ignored", "--exclude-standard"), *(it for it in committed() if FOLDERS & {*it.split("/")[:-1]})}
        count.check("no commit brings what is made here: git ls-files -ci --exclude-standard prints nothing", not found, *sorted(found))
