"""Makes the source package of the tree, and each other package of what lies in the source package, without the toolchain."""
import glob
import os
import shutil
import subprocess
import sys

from .archives import files_below, mode_of, pack_tar, pack_zip, write_sums
from .needs import PYTHON
from .papers import MACHINES, PACKAGE, filled, indented, proved_by
from .sources import SUMS

# what of the tree the source package has: nothing that takes the proofs or the toolchain; PROVED-BY stands at its top
SOURCES = [
    "CHANGELOG.md", "CONTACT", "CONTRIBUTING.md", "LICENSE-APACHE", "LICENSE-MIT", "Makefile", "NOTICE", "README.md", "SECURITY.md",
    "VERSION", "bindings", ":!bindings/library", f":!{PACKAGE}/PROVED-BY", "checks/asked", ":!checks/asked/openssh_*",
    "checks/addresses", "checks/callers", "checks/entry-lines", "checks/foreign", "checks/foreign.c",
    "checks/hostile", "checks/hosts", "checks/lib/*.py", "checks/threads.c", "checks/user-keys",
    "docs/*.md", "docs/*.svg", "examples", "helpers", "include", "sshkey-check", "toolchain",
]  # fmt: skip
TEXTS = [f"{PACKAGE}/rafendilo_linux_{it}.S" for it in MACHINES]
# what makes a compiler for the machine's libraries of each processor
COMPILERS = {it: f"{machine}-linux-gnu-gcc" for it, machine in MACHINES.items()}
# the glibc of this year or later
MANYLINUX = "manylinux2014"


def run(words, folder, **names):
    """Runs it with these names in the environment, or ends."""
    made = subprocess.run(words, cwd=folder, env={**os.environ, **names}, stdout=subprocess.PIPE, stderr=subprocess.STDOUT, check=False)
    if made.returncode:
        sys.exit(f"{made.stdout.decode(errors='replace')[-5000:]}\n{' '.join(words)} failed")


def write(path, text):
    with open(path, "w", encoding="utf-8") as file:
        file.write(text)


# ---- the source package


def stage(release, room):
    """The folder that is the source package, in that room."""
    folder = f"{room}/rafendilo-{release.version}"
    for path in release.sources.files(SOURCES):
        os.makedirs(os.path.dirname(f"{folder}/{path}"), exist_ok=True)
        shutil.copyfile(f"{release.root}/{path}", f"{folder}/{path}")
        # as git has it, whatever the clone's umask
        os.chmod(f"{folder}/{path}", mode_of(f"{release.root}/{path}"))
    # one that is packed has all that follows
    if not release.sources.is_package:
        write(f"{folder}/PROVED-BY", proved_by(release))
        stage_debian(release, folder)
        stage_manifests(release, folder)
        stage_licences(release, folder)
    write_sums(folder, f"{folder}/{SUMS}")
    return folder


def stage_debian(release, folder):
    """debian/ at the top, where dpkg-buildpackage looks for it, with what CONTACT and NOTICE say."""
    os.rename(f"{folder}/bindings/debian", f"{folder}/debian")
    values = {
        "publisher": release.publisher(), "homepage": release.contact["homepage"], "version": release.version,
        "date": release.date("%a, %d %b %Y %H:%M:%S +0000"), "notice": indented(release.inside()), "mit": indented(release.read("LICENSE-MIT")),
    }  # fmt: skip
    for name in ("control", "copyright", "changelog"):
        with open(f"{folder}/debian/{name}", encoding="utf-8") as file:
            text = filled(file.read(), values)
        write(f"{folder}/debian/{name}", text)


def stage_manifests(release, folder):
    """The manifests and pages of the packages, with what CONTACT says."""
    contact = release.contact
    known = [(name, contact[it]) for name, it in (("homepage", "homepage"), ("repository", "source")) if contact[it]]
    if known:
        append(f"{folder}/bindings/python/pyproject.toml", "\n[project.urls]\n" + "".join(f'{it.title()} = "{url}"\n' for it, url in known))
        manifest = f"{folder}/bindings/rust/Cargo.toml"
        with open(manifest, encoding="utf-8") as file:
            text = file.read()
        write(manifest, text.replace("\n\n", "\n" + "".join(f'{it} = "{url}"\n' for it, url in known) + "\n", 1))
    for language in ("go", "python", "rust"):
        append(f"{folder}/bindings/{language}/README.md", f"\n{release.where()}\n")
        for name in ("LICENSE-APACHE", "LICENSE-MIT", "NOTICE", "PROVED-BY"):
            shutil.copy(f"{folder}/{name}", f"{folder}/bindings/{language}")


# which files stand under which licence, for `reuse lint`
LICENCES = """\
Format: https://www.debian.org/doc/packaging-manuals/copyright-format/1.0/
Upstream-Name: Rafendilo

Files: *
Copyright: 2026 The Rafendilo authors
License: MIT OR Apache-2.0

Files: */rafendilo_linux_*.S
Copyright: 2026 The Rafendilo authors, and those that NOTICE names
License: (MIT OR Apache-2.0) AND LicenseRef-Toolchain
"""


def stage_licences(release, folder):
    """The licences under the names by which SPDX calls them. What NOTICE says of the toolchain has no such name."""
    os.makedirs(f"{folder}/.reuse")
    os.makedirs(f"{folder}/LICENSES")
    write(f"{folder}/.reuse/dep5", LICENCES)
    shutil.copy(f"{folder}/LICENSE-MIT", f"{folder}/LICENSES/MIT.txt")
    shutil.copy(f"{folder}/LICENSE-APACHE", f"{folder}/LICENSES/Apache-2.0.txt")
    write(f"{folder}/LICENSES/LicenseRef-Toolchain.txt", release.inside())


def append(path, text):
    with open(path, "a", encoding="utf-8") as file:
        file.write(text)


# ---- what is made of it


def copied(folder, room, name):
    """A copy of the source package, for a build of that name."""
    at = f"{room}/{name}/{os.path.basename(folder)}"
    shutil.copytree(folder, at, symlinks=True)
    return at


def flags_of(folder):
    return f"CFLAGS=-O2 -ffile-prefix-map={folder}=."


def make_tarball(release, folder, room, out):
    """What `make install` puts below a prefix, for this machine, with the pages and what C programs copy."""
    at = copied(folder, room, "tarball")
    run(["make", flags_of(at), "all"], at)
    run(["make", flags_of(at), "install", f"DESTDIR={room}/tarball/root", "PREFIX=/usr/local"], at)
    named = f"{room}/tarball/rafendilo-{release.version}-linux-{os.uname().machine}"
    os.rename(f"{room}/tarball/root/usr/local", named)
    pages = f"{named}/share/doc/rafendilo"
    os.makedirs(f"{pages}/examples")
    for path in ("CHANGELOG.md", "LICENSE-APACHE", "LICENSE-MIT", "NOTICE", "PROVED-BY", "README.md", "SECURITY.md"):
        shutil.copy(f"{folder}/{path}", pages)
    shutil.copytree(f"{folder}/docs", f"{pages}/docs")
    with open(f"{folder}/debian/librafendilo-dev.examples", encoding="ascii") as file:
        for path in file.read().split():
            shutil.copy(f"{folder}/{path}", f"{pages}/examples")
    write_sums(named, f"{pages}/SHA256SUMS")
    pack_tar(named, f"{out}/{os.path.basename(named)}.tar.gz", release.second)


def make_debian(_release, folder, room, out):
    at = copied(folder, room, "debian")
    run(["dpkg-buildpackage", "-us", "-uc", "-b"], at, DEB_BUILD_OPTIONS="noautodbgsym parallel=2", LC_ALL="C.UTF-8")
    for path in glob.glob(f"{room}/debian/*.deb"):
        shutil.move(path, out)


def make_wheels(_release, folder, room, out):
    """One for this machine, and for each other processor whose compiler is there."""
    for processor, machine in MACHINES.items():
        own = machine == os.uname().machine
        if not own and not shutil.which(COMPILERS[processor]):
            continue
        at = copied(folder, room, f"wheel-{processor}")
        words = [PYTHON, "setup.py", "-q", "bdist_wheel", "--plat-name", f"{MANYLINUX}_{machine}", "-d", out]
        run(words, f"{at}/bindings/python", CC="cc" if own else COMPILERS[processor])


def make_go(release, folder, _room, out):
    name = f"rafendilo-go-{release.version}"
    pack_zip(f"{folder}/bindings/go", f"{out}/{name}.zip", release.second, name)


def make_rust(release, folder, room, out):
    """With the texts, which elsewhere lie in Go's folder. cargo also builds what it has packed."""
    at = f"{copied(folder, room, 'rust')}/bindings/rust"
    for path in TEXTS:
        shutil.copy(f"{folder}/{path}", f"{at}/src")
    with open(f"{at}/src/library.rs", encoding="utf-8") as file:
        text = file.read()
    write(f"{at}/src/library.rs", text.replace("../../go/rafendilo/", ""))
    run(["cargo", "package", "--offline", "--locked", "--allow-dirty", "--target-dir", f"{room}/rust/target"], at)
    shutil.copy(f"{room}/rust/target/package/rafendilo-{release.version}.crate", out)


def make_source(release, folder, _room, out):
    pack_tar(folder, f"{out}/{os.path.basename(folder)}.tar.gz", release.second)


MAKERS = {
    "source": make_source, "tarball": make_tarball, "debian": make_debian, "python": make_wheels, "go": make_go, "rust": make_rust,
}  # fmt: skip


def make_all(release, room, out, kinds):
    """Makes the packages of these kinds in the folder `out`, and returns their paths."""
    folder = stage(release, room)
    for kind in kinds:
        MAKERS[kind](release, folder, room, out)
    return [f"{out}/{it}" for it in files_below(out)]
