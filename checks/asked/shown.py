"""What docs/LOGIN.md, HOST.md, SIGNED-FILE.md and ISSUING.md show in each language, as it stands there, for checks/readme. In C, Go and Rust each
makes a program, which is built as docs/LIBRARY.md tells, with nothing beside it but what that page names; Python's lines run as they are.
What they are given and have to say is in shown_cases.py, what stands around them in shown_frames.py."""
import hashlib
import os
import re
import shutil
import time

from lib.harness import ROOT

from .linked import PEDANTIC, SANITIZED, WARNINGS, run
from .made import Maker, module
from .shown_cases import ADDRESS, ALGORITHM, GOOD, cases, is_issued, is_valid
from .shown_frames import C, GO, PACKAGE, RUST

DECISIONS = ("LOGIN", "HOST", "SIGNED-FILE", "ISSUING")
# how docs/LIBRARY.md tells that programs are built: PATH is the tree, and out/ what make builds
C_LINE, C_INSTALLED = r"`(cc -IPATH.*?)`", r"`(cc login\.c \$\(.*?\))`"
GO_LINES, RUST_LINE = r"`(require rafendilo\S* v\S+)` and `(replace rafendilo\S* => PATH\S*)`", r"`(rafendilo = \{ path = \"PATH.*? \})`"
FLAGS = ["-std=c11", "-D_POSIX_C_SOURCE=200809L", *WARNINGS, *PEDANTIC]


def page(name):
    with open(f"{ROOT}/docs/{name}.md", encoding="utf-8") as file:
        return file.read()


def listing(decision, language):
    """The code under the heading of a language."""
    section = page(decision).partition(f"\n## {language}\n")[2].partition("\n## ")[0]
    found = re.findall(r"^```\w+\n(.*?)^```$", section, re.M | re.S)
    assert len(found) == 1, (decision, language)
    return found[0]


def framed(frame, language, indent=""):
    shown = {it.replace("-", "_"): re.sub(r"^(?=.)", indent, listing(it, language), flags=re.M) for it in DECISIONS}
    return frame.format(**shown)


def here(text, out):
    """The words of the page for this tree, whose out/ may lie elsewhere."""
    return text.replace("PATH/out", out).replace("PATH", ROOT)


def write(folder, **files):
    for name, text in files.items():
        path = f"{folder}/{name.replace('__', '/').replace('_', '.')}"
        os.makedirs(os.path.dirname(path), exist_ok=True)
        with open(path, "w", encoding="utf-8") as file:
            file.write(text)


# ---- how programs are built: each gives its words, and how it was built


def built_c(folder, out):
    write(folder, login_c=framed(C, "C", "  "))
    words = here(re.search(C_LINE, page("LIBRARY"))[1], out).split()
    return [f"{folder}/page"], run([*words, *FLAGS, *SANITIZED.split(), "-o", f"{folder}/page"], cwd=folder)


def built_installed(folder, root):
    """The same by what `make install` put below that folder, which pkg-config finds: no path of the sources is known."""
    write(folder, login_c=framed(C, "C", "  "))
    names, line = {**os.environ, "PKG_CONFIG_PATH": f"{root}/lib/pkgconfig"}, re.search(C_INSTALLED, page("LIBRARY"))[1]
    return [f"{folder}/page"], run(["sh", "-c", " ".join([line, *FLAGS, f"-Wl,-rpath,{root}/lib", "-o", "page"])], cwd=folder, env=names)


def built_go(folder, out):
    lines = re.search(GO_LINES, page("LIBRARY")).groups()
    write(folder, main_go=framed(GO, "Go"), go_mod=here("\n\n".join(("module page", "go 1.19", *lines)), out) + "\n")
    kept = {**os.environ, "GOFLAGS": "", "GOPROXY": "off", "GOTOOLCHAIN": "local", "GOWORK": "off", "CGO_ENABLED": "1"}
    return [f"{folder}/page"], run(["go", "build", "-o", "page", "."], cwd=folder, env=kept)


def built_rust(folder, out):
    line = here(re.search(RUST_LINE, page("LIBRARY"))[1], out)
    write(folder, Cargo_toml=PACKAGE.format(line), src__main_rs=framed(RUST, "Rust", "    "))
    kept = {**os.environ, "CARGO_TARGET_DIR": f"{folder}/target", "RUSTFLAGS": "-D warnings"}
    return [f"{folder}/target/debug/page"], run(["cargo", "build", "--offline"], cwd=folder, env=kept)


# ---- what they say


def said_by_program(words, case, path):
    ran = run([*words, case.decision, path])
    return [*ran.stdout.splitlines(), *ran.stderr.splitlines()]


def said_by_python(rafendilo, case, path):
    """What the lines in Python say, which call one of these where all is good."""
    said, given = [], case.given
    names = {it: lambda *_: said.append(GOOD) for it in ("let_in", "go_on", "accept_file")}
    names.update(rafendilo=rafendilo, hashlib=hashlib, time=time, print=lambda *words: said.append(" ".join(map(str, words))))
    if case.decision == "LOGIN":
        names.update(given, address=ADDRESS, algorithm=ALGORITHM)
    if case.decision == "HOST":
        names.update(texts=[given["known_hosts"], given["ssh_known_hosts"]], certificate=given["certificate"])
    if case.decision == "SIGNED-FILE":
        names.update(armour=given["file.sig"], signers=given["allowed_signers"], path=f"{path}/file")
    if case.decision == "ISSUING":
        from cryptography.hazmat.primitives.asymmetric.ed25519 import Ed25519PrivateKey

        names.update(given, signer=Ed25519PrivateKey.from_private_bytes(given["seed"]), now=int(time.time()))
    exec(listing(case.decision, "Python"), names)
    return [names["certificate"].hex()] if case.decision == "ISSUING" else said


def is_said(rafendilo, case, said):
    """Whether one line says what is wanted; of what is issued the certificate, in hexadecimal."""
    if len(said) != 1:
        return False
    if case.decision == "ISSUING":
        made = bytes.fromhex(said[0]) if re.fullmatch("[0-9a-f]+", said[0]) else b""
        return is_issued(rafendilo, case, made, time.time()) and is_valid(rafendilo, case, made)
    return said[0] == GOOD if case.wanted == GOOD else bool(re.fullmatch(rf"refused: [^()]* \({case.wanted}\)", said[0]))


def check_language(count, rafendilo, language, said_of, asked):
    for case, path in asked:
        said = said_of(case, path)
        count.check(f"the {language} of docs/{case.decision}.md: {case.name}", is_said(rafendilo, case, said), said)


def check_shown(count, folder):
    """The library is that which make builds of the text in the tree, and what `make install` installs of it."""
    out, maker = f"{folder}/out", Maker(folder)
    wanted = [f"{out}/{it}" for it in ("librafendilo.so", "librafendilo.a", "librafendilo-verify.a")]
    made = run(["make", "-C", ROOT, f"OUT={out}", *wanted])
    installed = run(["make", "-C", ROOT, "install", f"OUT={out}", f"DESTDIR={folder}/root", "PREFIX=/usr"])
    both = made.returncode == installed.returncode == 0
    count.check("the library is built and installed", both, made.stderr[-3000:], installed.stderr[-3000:])
    if not both:
        return
    rafendilo, asked = module(f"{out}/librafendilo.so"), [(it, it.folder(folder)) for it in cases(maker)]
    check_language(count, rafendilo, "Python", lambda case, path: said_by_python(rafendilo, case, path), asked)
    for language, command, built, over in (
        ("C", "cc", built_c, out), ("C, installed,", "pkg-config", built_installed, f"{folder}/root/usr"),
        ("Go", "go", built_go, out), ("Rust", "cargo", built_rust, out),
    ):  # fmt: skip
        if not shutil.which(command):
            print(f"no {command}: the {language} of the pages is left out")
            continue
        words, made = built(f"{folder}/{built.__name__}", over)
        count.check(f"the {language} of the pages is built as docs/LIBRARY.md tells", made.returncode == 0, made.stdout[-1000:], made.stderr[-3000:])
        if made.returncode == 0:
            check_language(count, rafendilo, language, lambda case, path, words=words: said_by_program(words, case, path), asked)
