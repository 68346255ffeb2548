"""Programs of sources that no proof came before, compiled as `rattle build` compiles proved ones. `rt try` keeps no program, and has
its compiler watch each access to memory, so what it gives its compiler is taken."""
import os
import shutil
import subprocess
import tempfile

from lib.crates import crates_of
from lib.harness import ROOT, unproved_program
from lib.proved import kit

# Stands in for the toolchain's compiler: it keeps the module of the program and the words, and compiles only what comes before.
COMPILER = """\
#!/bin/sh
case " $* " in
*" -fsanitize=address "*)
    cp module.bc "{room}/module.bc" && printf '%s\\n' "$@" >"{room}/words"
    exit 1
    ;;
esac
exec "{compiler}" "$@"
"""
# what the words of a watched program are here; rattle build says the same
INSTEAD = {"-O0": ["-O3"], "-fsanitize=address": []}


def links_to(toolchain, room):
    """A folder like the toolchain's, but with that compiler."""
    folder = f"{room}/kit"
    for part in ("bin", "toolchain"):
        shutil.copytree(f"{toolchain}/{part}", f"{folder}/{part}", copy_function=os.symlink)
    for name in set(os.listdir(toolchain)) - {"bin", "toolchain"}:
        os.symlink(f"{toolchain}/{name}", f"{folder}/{name}")
    # the command finds the toolchain beside itself
    for name in ("rt", "rtlib.py"):
        os.remove(f"{folder}/bin/{name}")
        shutil.copy2(f"{toolchain}/bin/{name}", f"{folder}/bin/{name}")
    clang = f"{folder}/toolchain/bin/clang"
    os.remove(clang)
    with open(clang, "w", encoding="utf-8") as file:
        file.write(COMPILER.format(room=room, compiler=f"{toolchain}/toolchain/bin/clang"))
    os.chmod(clang, 0o755)
    return folder


def compile_in(room, crate, toolchain):
    """Compiles and links the program in that folder; what was said where that failed."""
    how = {"stdin": subprocess.DEVNULL, "stdout": subprocess.PIPE, "stderr": subprocess.STDOUT, "text": True, "errors": "replace"}
    tried = subprocess.run([f"{links_to(toolchain, room)}/bin/rt", "try"], cwd=crate.folder, check=False, **how)
    if not os.path.isfile(f"{room}/words"):
        return tried.stdout[-4000:]
    with open(f"{room}/words", encoding="utf-8") as file:
        words = [it for word in file.read().splitlines() for it in INSTEAD.get(word, [word])]
    link = [f"{toolchain}/bin/rattle-link", "--target", "x86_64-unknown-linux-gnu", "--toolchain", f"{toolchain}/toolchain"]
    link += ["-o", "program", "module.o", f"{toolchain}/c/libos_c.a", f"{toolchain}/c/liblibc_c.a"]
    for command in ([f"{toolchain}/toolchain/bin/clang", *words], link):
        run = subprocess.run(command, cwd=room, check=False, **how)
        if run.returncode:
            return run.stdout[-4000:]
    return ""


def build(name):
    """Builds the unproved program of that crate, of the sources as they stand; what was said where that failed. It is built each time:
    a commit can bring what stands in out/."""
    with tempfile.TemporaryDirectory() as room:
        said = compile_in(room, crates_of(ROOT)[name], kit())
        if not said:
            os.makedirs(os.path.dirname(unproved_program(name)), exist_ok=True)
            os.replace(shutil.copy2(f"{room}/program", f"{unproved_program(name)}.new"), unproved_program(name))
    return said
