"""The version and the ABI, and the places that tell them."""
import re

from lib.harness import ROOT

# where the version of the file VERSION stands, as it is there or as a number, and what stands round it; the ABI likewise
OF_VERSION = {
    "README.md": r"\bVersion (\S+)\. ", "CHANGELOG.md": r"\A# Changes\n\n## (\S+)\n", "bindings/rafendilo.pc.in": r"^Version: (.*)$",
    "bindings/python/rafendilo/__init__.py": r'^__version__ = "(.*)"$', "bindings/go/rafendilo/library.go": r'^const Version = "(.*)"$',
    "bindings/rust/Cargo.toml": r'\A\[package\]\nname = "rafendilo"\nversion = "(.*)"$',
    "bindings/rust/Cargo.lock": r'^name = "rafendilo"\nversion = "(.*)"$', "include/rafendilo.h": r"^#define RAF_VERSION (\d+)$",
    "crates/sshkey_c/src/version.rt": r"raf_version\(\) -> u32\n    ensures \{ result ≡ (\d+) \}",
}  # fmt: skip
OF_ABI = {
    "include/rafendilo.h": r"^#define RAF_ABI (\d+)$", "crates/sshkey_c/src/version.rt": r"raf_abi\(\) -> u32\n    ensures \{ result ≡ (\d+) \}",
    "bindings/go/rafendilo/library.go": r"^const abi = (\d+)$", "bindings/debian/control": r"^Package: librafendilo(\d+)$",
    "bindings/debian/librafendilo2.symbols": r"\Alibrafendilo\.so\.(\d+) librafendilo2 ",
}  # fmt: skip


def read(path):
    with open(f"{ROOT}/{path}", encoding="utf-8") as file:
        return file.read()


def check_version(count):
    """The version of the file VERSION, which make tells pkg-config, and the ABI of the header."""
    version = read("VERSION").strip()
    first, second, third = map(int, version.split("."))
    told = {version, str(10_000 * first + 100 * second + third), "@version@"}
    for path, pattern in OF_VERSION.items():
        found = re.findall(pattern, read(path), re.M)
        count.check(f"{path} has the version of VERSION", len(found) == 1 and found[0] in told, version, found)
    found = {path: re.findall(pattern, read(path), re.M) for path, pattern in OF_ABI.items()}
    count.check("each place that tells the ABI tells that of the header", all(it == found["include/rafendilo.h"] != [] for it in found.values()), found)
