"""A commit that forges the library's text, with all that could make it pass for the proved one, for checks/text: six instructions let
in whoever has a nonce that begins with four letters, whatever the signature; PROVED-BY has the sum of that; and where once a build
left what it had proved, the forged text stands as if it had just been written."""
import os
import re
import shutil

from lib.harness import ROOT

from .linked import run
from .packages import without_toolchain

PACKAGE = "bindings/go/rafendilo"
TEXT, PAPER = f"{PACKAGE}/rafendilo_linux_amd64.S", f"{PACKAGE}/PROVED-BY"
PROCESSORS = ("amd64", "arm64")
LABEL = "\nraf_log_in:\n"
# all answers are yes where the bytes of what is offered, after the first 40, are "back"
INSTRUCTIONS = """\
	cmpq	$64, 40(%rdi)
	jb	.Lraf_forged
	movq	32(%rdi), %rax
	cmpl	$0x6b636162, 40(%rax)
	jne	.Lraf_forged
	movl	$3, %edx
.Lraf_forged:
"""
GIT = ["git", "-c", "user.name=x", "-c", "user.email=x@example.com"]
ENVIRONMENT = {**os.environ, "GIT_CONFIG_GLOBAL": "/dev/null", "GIT_CONFIG_NOSYSTEM": "1"}


def read(path):
    with open(path, encoding="utf-8") as file:
        return file.read()


def write(path, text):
    os.makedirs(os.path.dirname(path), exist_ok=True)
    with open(path, "w", encoding="utf-8") as file:
        file.write(text)


def forge(clone):
    """Changes text, sums, and what a build could have left."""
    write(f"{clone}/{TEXT}", read(f"{clone}/{TEXT}").replace(LABEL, LABEL + INSTRUCTIONS))
    paper = read(f"{clone}/{PAPER}")
    sources = re.search(r"^sources +(\w+)$", paper, re.M)[1]
    for processor in PROCESSORS:
        made, text = f"{clone}/crates/sshkey_c/out/{processor}", f"{clone}/{PACKAGE}/rafendilo_linux_{processor}.S"
        told = rf"^{os.path.basename(text)}\n  verdict  (.*)\n  sha256   (\w+) .*\n  sha256   (\w+) "
        verdict, *sums = re.search(told, paper, re.M).groups()
        write(f"{made}/sshkey_c.S", read(text))
        write(f"{made}/libsshkey_c.a", "!<arch>\n")
        write(f"{made}/verdict", f"sources={sources}\n{verdict}\n")
        for old, path in zip(sums, (f"{made}/libsshkey_c.a", text)):
            paper = paper.replace(old, run(["sha256sum", path]).stdout.split()[0])
    write(f"{clone}/{PAPER}", paper)


def git(clone, *words):
    return run([*GIT, *words], cwd=clone, env=ENVIRONMENT)


def check_forged(count, folder, has_toolchain):
    """The commit is seen: by who reads it, by checks/lists, and by who repeats the proofs."""
    clone = f"{folder}/forged"
    shutil.copytree(ROOT, clone, symlinks=True, ignore=shutil.ignore_patterns(".git", "out", "target"))
    git(clone, "init", "-q")
    git(clone, "add", "-A")
    git(clone, "commit", "-qm", "Honest")
    forge(clone)
    git(clone, "add", "-A")
    git(clone, "add", "-f", "crates/sshkey_c/out")
    made = git(clone, "commit", "-qm", "Write the library's text anew, of the proofs")
    shown = git(clone, "show", "--format=", "--", TEXT).stdout
    added = [it[1:] for it in shown.splitlines() if re.match(r"\+(?!\+\+)", it)]
    count.check("a forged text: git shows the instructions that a commit adds", added == INSTRUCTIONS.splitlines(), made, shown[-2000:])
    said = run([f"{clone}/checks/lists"], env=ENVIRONMENT)
    failed = [it for it in said.stdout.splitlines() if it.startswith(("FAILED", "  "))]
    brought = [it for it in failed if it.strip().startswith("crates/sshkey_c/out/")]
    is_seen = said.returncode == 1 and "git ls-files" in failed[0] and len(brought) == 3 * len(PROCESSORS)
    count.check("a forged text: checks/lists names what the commit brings", is_seen, *failed)
    path = os.environ["PATH"] if has_toolchain else without_toolchain()
    said = run([f"{clone}/bindings/library", "--check"], env={**ENVIRONMENT, "PATH": path})
    wanted = f"{TEXT}, {PAPER}: not what is made of the proofs" if has_toolchain else "rt is not found"
    name = "another than the toolchain makes" if has_toolchain else "not believed without the toolchain"
    count.check(f"a forged text: to bindings/library --check it is {name}", said.returncode == 1 and wanted in said.stderr, said)
