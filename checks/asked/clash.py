"""Names, for checks/foreign: a program is linked statically with the library and with one that has the names of OpenSSH's (sshkey.h), and
each call goes where it has to; and include/rafendilo_0_2.h makes an error of each old name, which tells the new one."""
import os
import re
import shutil

from lib.harness import ROOT

from .linked import C, run

# functions of OpenSSH's libssh.a, of which each here answers its own name
OPENSSH = [
    "sshkey_authority", "sshkey_cert_check_authority", "sshkey_certify", "sshkey_check_revoked", "sshkey_equal", "sshkey_fingerprint", "sshkey_free",
    "sshkey_from_blob", "sshkey_is_cert", "sshkey_new", "sshkey_read", "sshkey_sign", "sshkey_size", "sshkey_to_blob", "sshkey_type", "sshkey_verify",
    "sshkey_version", "sshkey_write", "sshsig_verify_fd",
]  # fmt: skip
PROGRAM = """\
#include <stdio.h>
#include <string.h>
#include "sshkey.h"
#include "rafendilo.h"
#include "reading.h"
int main(void) {
  raf_sha256 digest = {{0}};
  if (raf_fingerprint(raf_bytes(NULL), 0, &digest) != RAF_LENGTH || raf_abi() != RAF_ABI) return 1;
  if (strcmp(raf_status_meaning(RAF_REVOKED), "revoked")) return 1;
  puts(OF_OPENSSH);
  return 0;
}
"""


def write(path, text):
    with open(path, "w", encoding="ascii") as file:
        file.write(text)


def stand_in(folder):
    """A header and a static library with OpenSSH's names."""
    calls = " ".join(f"{it}()," for it in OPENSSH)
    write(f"{folder}/sshkey.h", "".join(f"const char *{it}(void);\n" for it in OPENSSH) + f"#define OF_OPENSSH ({calls} sshkey_fingerprint())\n")
    write(f"{folder}/openssh.c", "".join(f'const char *{it}(void) {{ return "{it}"; }}\n' for it in OPENSSH))
    made = run(["cc", "-Wno-missing-prototypes", "-c", "-o", f"{folder}/openssh.o", f"{folder}/openssh.c"])
    return made if made.returncode else run(["ar", "rcs", f"{folder}/libopenssh.a", f"{folder}/openssh.o"])


def check_beside_openssh(count, built, folder):
    """All objects of both are linked, in either order. With one name of OpenSSH's in the library the linker refuses that."""
    made = stand_in(folder)
    count.check("a library with OpenSSH's names is built", made.returncode == 0, made.stderr)
    ours, its, other = [f"{built.plain}/parts.a", f"{built.plain}/librafendilo.a"], f"{folder}/libopenssh.a", f"{folder}/other.a"
    write(f"{folder}/beside.c", PROGRAM)
    words = [*(it for it in C if it != "-Werror"), "-Wno-unused-value", f"-I{folder}", f"-I{ROOT}/helpers", f"{folder}/beside.c", "-o", f"{folder}/beside"]
    shutil.copy(ours[1], other)
    run(["objcopy", "--redefine-sym", "raf_fingerprint=sshkey_fingerprint", other])
    # what is no function to be copied names its program
    named = ["-Wl,--defsym=program_name=0,--defsym=program_untold=0"]
    for name, linked in (("after it", [its, *ours]), ("before it", [*ours, its])):
        made = run([*words, *named, "-Wl,--whole-archive", *linked, "-Wl,--no-whole-archive", "-lcrypto"])
        ran = run([f"{folder}/beside"]) if made.returncode == 0 else made
        count.check(f"a program is linked with the library {name}, and calls both", ran.stdout == "sshkey_fingerprint\n", made.stderr[-2000:], ran)
    made = run([*words, *named, "-Wl,--whole-archive", its, ours[0], other, "-Wl,--no-whole-archive", "-lcrypto"])
    count.check("and with one of its names it is not", made.returncode != 0 and "multiple definition of `sshkey_fingerprint'" in made.stderr, made.stderr[-2000:])


def check_old_names(count, folder):
    """Each compiler that is there names the new name of each old one, and of a program without these it says nothing."""
    with open(f"{ROOT}/include/rafendilo_0_2.h", encoding="ascii") as file:
        old = re.findall(r"^#define ((?:sshkey|SSHKEY|judge)_\w+) RAF_ERROR\(\"(.*)\"\)", file.read(), re.M)
    with open(f"{ROOT}/include/rafendilo.h", encoding="ascii") as file:
        new = set(re.findall(r"\b(?:raf|RAF)_\w+", file.read()))
    told = {it: word for it, said in old for word in re.findall(r"\b(?:raf|RAF)_\w+", said)[:1]}
    missing = {it for it, word in told.items() if not it.startswith("judge_") and word not in new}
    count.check(f"{len(old)} old names have a new one, which the header has", len(old) > 150 and len(told) == len(old) and not missing, missing)
    lines = [f"int it{at} = (int)sizeof({it});\n" for at, (it, _) in enumerate(old)]
    for compiler in filter(shutil.which, ("gcc", "clang")):
        for name, text, wanted in (("old", "".join(lines), {said for _, said in old}), ("new", "int it = RAF_ABI;\n", set())):
            write(f"{folder}/{name}.c", f'#include "rafendilo.h"\n{text}')
            # of clang all errors
            words = [*(["-ferror-limit=0"] if compiler == "clang" else []), f"-I{ROOT}/include", f"-I{ROOT}/helpers", "-include", "rafendilo_0_2.h"]
            ran = run([compiler, *words, "-c", "-o", os.devnull, f"{folder}/{name}.c"])
            found = {said for _, said in old if re.search(rf"error: {re.escape(said)}$", ran.stderr, re.M)}
            count.check(f"{compiler} tells {len(wanted)} new names of a program with {name} ones", found == wanted and (ran.returncode != 0) == bool(wanted), wanted - found, ran.stderr[-500:])


def check_clash(count, built, folder):
    check_beside_openssh(count, built, folder)
    check_old_names(count, folder)
