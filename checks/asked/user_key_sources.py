"""Builds programs of OpenSSH's own code, from the sources of Debian's package in a suite: for authorized_keys, for checks/user-keys,
and for the whole method publickey, for checks/publickey."""
import os
import subprocess

from lib.apt import sources
from lib.harness import ROOT

# what sshd links of its own, and what all of OpenSSH links
OBJECTS = ["auth-options.o", "auth2-pubkeyfile.o"]
LIBRARIES = ["libssh.a", "openbsd-compat/libopenbsd-compat.a"]


def built(folder, suite, name="openssh_user_keys"):
    """The program of that name in this folder, and the version of the sources."""
    unpacked, version = sources(folder, "openssh", suite)
    how = {"cwd": unpacked, "stdout": subprocess.DEVNULL, "stderr": subprocess.DEVNULL, "check": True}
    # Debian's patches touch configure.ac, and leave configure as it is
    for file in ("configure", "config.h.in"):
        os.utime(unpacked + file)
    subprocess.run(["./configure", "-q", "CFLAGS=-O1 -w"], **how)
    subprocess.run(["make", "-s", "-j2", *LIBRARIES, *OBJECTS], **how)
    program = f"{folder}/{name}"
    words = ["cc", "-w", "-DHAVE_CONFIG_H", "-I.", "-o", program, f"{ROOT}/checks/asked/{name}.c", *OBJECTS]
    # the first stands on the second, and the other way round
    subprocess.run([*words, *LIBRARIES, LIBRARIES[0], "-lcrypto", "-lz"], **how)
    return program, version
