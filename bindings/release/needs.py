"""What making each package takes of a machine, by the packages of Debian that have it."""
import glob
import shutil
import subprocess

# Debian's Python, which has setuptools and wheel by Debian's packages
PYTHON = "/usr/bin/python3"


def has_command(name):
    return shutil.which(name) is not None


def has_header(name):
    return bool(glob.glob(f"/usr/include/{name}") + glob.glob(f"/usr/include/*-linux-gnu/{name}"))


def has_module(name):
    return has_command(PYTHON) and subprocess.run([PYTHON, "-c", f"import {name}"], check=False, capture_output=True).returncode == 0


# each package of Debian, and what is asked of the machine
HAVE = {
    "git": (has_command, "git"), "make": (has_command, "make"), "gcc": (has_command, "cc"), "libc6-dev": (has_header, "stdio.h"),
    "libssl-dev": (has_header, "openssl/evp.h"), "build-essential": (has_command, "dpkg-buildpackage"), "debhelper": (has_command, "dh"),
    "dh-python": (has_command, "dh_python3"), "python3-setuptools": (has_module, "setuptools"), "python3-wheel": (has_module, "wheel"),
    "cargo": (has_command, "cargo"),
}  # fmt: skip
COMPILER = ["make", "gcc", "libc6-dev"]
# what each kind of package takes
TAKES = {
    "source": [], "tarball": [*COMPILER, "libssl-dev"], "debian": [*COMPILER, "libssl-dev", "build-essential", "debhelper", "dh-python"],
    "python": [*COMPILER, "python3-setuptools", "python3-wheel"], "go": [], "rust": [*COMPILER, "cargo"],
}  # fmt: skip


def lacking(kinds, sources):
    """The packages of Debian that the machine lacks for these kinds, made of these sources."""
    taken = dict.fromkeys([*sources.takes, *(it for kind in kinds for it in TAKES[kind])])
    return [it for it in taken if not HAVE[it][0](HAVE[it][1])]
