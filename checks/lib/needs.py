"""What a machine has to have, asked before anything takes long: packages, memory, and a folder that can be written."""
import os
import shutil
import subprocess

from lib.harness import SSHD

# packages of Debian, and what shows that they are there: a command, or words that succeed
BY_SOURCES = {
    "git": "git",
    "openssh-client": "ssh-keygen",
    "openssh-server": SSHD,
    "python3-cryptography": ["python3", "-c", "import cryptography"],
}  # fmt: skip
BY_TEXT = {
    "make": "make",
    "gcc": ["sh", "-c", "cc -print-file-name=libasan.so | grep /"],
    "libc6-dev": ["sh", "-c", "echo '#include <stdio.h>' | cc -E -"],
    "pkg-config": "pkg-config",
    "libssl-dev": ["pkg-config", "--exists", "libcrypto"],
}  # fmt: skip
BY_ALL = {
    "g++": "c++",
    "binutils": "nm",
    "valgrind": "valgrind",
    "iproute2": "ip",
    "systemd": "systemd-sysusers",
    "golang-go": "go",
    "golang-golang-x-crypto-dev": ["test", "-d", "/usr/share/gocode/src/golang.org/x/crypto/ssh"],
    "cargo": "cargo",
    "rustc": "rustc",
    "clang": "clang",
    "gcc-aarch64-linux-gnu": "aarch64-linux-gnu-gcc",
    "libc6-dev-arm64-cross": ["sh", "-c", "echo '#include <stdlib.h>' | aarch64-linux-gnu-gcc -E -"],
    "musl-tools": "musl-gcc",
    "qemu-user": "qemu-aarch64",
    "debhelper": "dh",
    "dh-python": "dh_python3",
    "lintian": "lintian",
    "mandoc": "mandoc",
    "reuse": "reuse",
    "mypy": "mypy",
    "python3-asyncssh": ["/usr/bin/python3", "-W", "ignore", "-c", "import asyncssh"],
    "python3-paramiko": ["/usr/bin/python3", "-W", "ignore", "-c", "import paramiko"],
    "rust-clippy": "cargo-clippy",
    "python3-venv": ["/usr/bin/python3", "-c", "import ensurepip"],
    "python3-wheel": ["/usr/bin/python3", "-c", "import setuptools, wheel"],
}  # fmt: skip
# while the table is built, in kibibytes; and while other builds stand beside it
MEMORY, MEMORY_SIDE_BY_SIDE = 4 << 20, 8 << 20


def is_there(shown):
    if isinstance(shown, str):
        return shutil.which(shown) is not None
    return not subprocess.run(shown, capture_output=True, check=False).returncode if shutil.which(shown[0]) else False


def missing(packages):
    return [name for name, shown in packages.items() if not is_there(shown)]


def install(packages):
    """Whether root's apt-get installs them."""
    env = {**os.environ, "DEBIAN_FRONTEND": "noninteractive"}
    words = ["apt-get", "install", "-y", "--no-install-recommends", *packages]
    return all(subprocess.run(it, env=env, check=False).returncode == 0 for it in (["apt-get", "update"], words))


def free_memory():
    """The kibibytes that programs can have, by /proc/meminfo, or by the file that MEMINFO names."""
    with open(os.environ.get("MEMINFO", "/proc/meminfo"), encoding="ascii") as file:
        return next(int(line.split()[1]) for line in file if line.startswith("MemAvailable:"))
