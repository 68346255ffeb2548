"""Builds a program of OpenSSH's own code for addresses, from the sources of Debian's package, for checks/addresses."""
import os
import shutil
import subprocess

from lib.apt import sources
from lib.harness import ROOT

FILES = ["addr.c", "addr.h", "addrmatch.c", "match.c", "match.h", "openbsd-compat/strlcpy.c", "openbsd-compat/strlcat.c"]
# what these files include of the rest of OpenSSH
INCLUDED = {
    "includes.h": "".join(
        f"#include <{it}.h>\n"
        for it in ("sys/types", "sys/socket", "netinet/in", "netdb", "ctype", "stdint", "stdio", "stdlib", "string")
    ) + "#define HAVE_STRUCT_SOCKADDR_IN6_SIN6_SCOPE_ID 1\nsize_t strlcpy(char *, const char *, size_t);\n"
    "size_t strlcat(char *, const char *, size_t);\n",
    "log.h": "".join(f"#define {it}(...) ((void)0)\n" for it in ("debug2_f", "error_f", "error")),
    "xmalloc.h": "char *xstrdup(const char *);\n",
    "misc.h": "void lowercase(char *);\n",
}  # fmt: skip


def built(folder):
    """The program, and the version of the sources."""
    unpacked, version = sources(folder, "openssh")
    room = f"{folder}/built"
    os.mkdir(room)
    for name in FILES:
        shutil.copy(unpacked + name, room)
    for name, text in INCLUDED.items():
        with open(f"{room}/{name}", "w", encoding="ascii") as file:
            file.write(text)
    program = f"{room}/openssh_addresses"
    compiled = [os.path.basename(it) for it in FILES if it.endswith(".c")]
    words = ["cc", "-D_GNU_SOURCE", "-O1", "-I.", "-o", program, f"{ROOT}/checks/asked/openssh_addresses.c"]
    subprocess.run([*words, *compiled], cwd=room, check=True)
    return program, version
