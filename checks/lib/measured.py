"""The programs by which bench/ measures: how they are built, and how one takes what stands in another."""
import importlib.machinery
import importlib.util
import os
import shutil
import subprocess
import sys

from .harness import ROOT

BENCH = f"{ROOT}/bench"


def build(work, name, text=None):
    """Builds the library and its helpers in out/ of that folder, of another text if one is given, and there the program bench/NAME.c."""
    given = [f"TEXT={os.path.realpath(text)}"] if text else []
    subprocess.run(["make", "-s", "-C", ROOT, f"OUT={work}/out", *given, "all"], check=True)
    words = ["-std=c11", "-D_POSIX_C_SOURCE=200809L", "-O2", f"-I{ROOT}/include", f"-I{ROOT}/helpers", "-o", f"{work}/{name}"]
    subprocess.run(["cc", *words, f"{BENCH}/{name}.c", f"{work}/out/parts.a", f"{work}/out/librafendilo.a", "-lcrypto"], check=True)


def build_go(work, name, others=()):
    """The path of the program bench/NAME.go, built over the package for Go, and over modules of others by where they stand."""
    folder, over = f"{work}/go-{name}", {"rafendilo.example/go": f"{ROOT}/bindings/go", **dict(others)}
    os.mkdir(folder)
    shutil.copy(f"{BENCH}/{name}.go", f"{folder}/main.go")
    with open(f"{folder}/go.mod", "w", encoding="utf-8") as file:
        file.write(f"module {name}\n\ngo 1.19\n")
        file.writelines(f"\nrequire {it} v0.0.0\nreplace {it} => {at}\n" for it, at in over.items())
    without_network = {**os.environ, "GOFLAGS": "-mod=mod", "GOPROXY": "off"}
    subprocess.run(["go", "build", "-o", f"{folder}/{name}", "."], cwd=folder, env=without_network, check=True)
    return f"{folder}/{name}"


def script(name):
    """The program bench/NAME, as a module."""
    sys.dont_write_bytecode = True
    loader = importlib.machinery.SourceFileLoader(name, f"{BENCH}/{name}")
    module = importlib.util.module_from_spec(importlib.util.spec_from_loader(name, loader))
    loader.exec_module(module)
    return module
