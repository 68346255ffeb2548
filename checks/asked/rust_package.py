"""The package in Rust of bindings/rust, for checks/bindings: how programs over it are built, and its own tests."""
import os
import re

from lib.harness import ROOT

from .linked import BINDINGS, run

PACKAGE = os.path.join(BINDINGS, "rust")
CARGO = ["--offline", "--locked"]
# with the verifier of the package
VERIFIES = [*CARGO, "--features", "libcrypto"]
# an unsafe block is one call, and says why it is right; an older clippy does not know that of one call
UNSAFE = ["-D", "clippy::undocumented_unsafe_blocks", "-D", "clippy::multiple_unsafe_ops_per_block"]
LINTS = ["-D", "warnings", "-A", "unknown_lints", *UNSAFE]


class Rust:
    """The package of bindings/rust, and programs over it, with its verifier."""

    language, example, asker = "Rust", f"{PACKAGE}/examples/check.rs", f"{ROOT}/checks/asked/rust/asker.rs"

    def __init__(self, maker, _out):
        self.maker, self.target, self.installed = maker, maker.path("rust"), maker.path("rust over what is installed")
        names = {"CARGO_TARGET_DIR": self.target, "RUSTFLAGS": "-D warnings", "RUSTDOCFLAGS": "-D warnings"}
        self.environment = {**os.environ, **names}

    def cargo(self, *words, **environment):
        return run(["cargo", *words], cwd=PACKAGE, env={**self.environment, **environment})

    def built(self, count, source, name, library=None):
        """The path of the program, over the text in the package or the library in that folder, by rustc."""
        path, target = self.maker.path(f"Rust {name}"), self.installed if library else self.target
        linked = ["-L", f"native={library}"] if library else []
        linked += ["--extern", f"rafendilo={target}/debug/librafendilo.rlib"]
        made = run(["rustc", "--edition", "2021", "-D", "warnings", *linked, "-o", path, source])
        count.check(f"Rust: {name} is built", made.returncode == 0, made.stderr[-3000:])
        return path

    def check_sources(self, count):
        """The package and its program are built without a warning, with its verifier and without it, and its own tests pass."""
        for words, target in (
            ([*CARGO, "--lib"], self.target), ([*VERIFIES, "--lib", "--examples"], self.target),
            ([*CARGO, "--features", "libcrypto,installed", "--lib"], self.installed),
        ):  # fmt: skip
            made = self.cargo("build", *words, CARGO_TARGET_DIR=target)
            count.check(f"Rust: {' '.join(words)} is built", made.returncode == 0, made.stderr[-3000:])
        tested = self.cargo("test", *VERIFIES)
        passed = sum(map(int, re.findall(r"^test result: ok\. (\d+) passed", tested.stdout, re.M)))
        same = tested.returncode == 0 and passed
        count.check(f"Rust: {passed} tests of the package pass", same, tested.stdout[-2000:], tested.stderr[-2000:])
        shown = self.cargo("doc", *VERIFIES, "--no-deps")
        count.check("Rust: its documentation links to what there is", shown.returncode == 0, shown.stderr[-2000:])
        self.check_style(count)

    def check_style(self, count):
        """What rustfmt and clippy say where they are: Debian's package `cargo` has neither."""
        if run(["cargo", "fmt", "--version"]).returncode == 0:
            said = [self.cargo("fmt", "--check"), run(["rustfmt", "--edition", "2021", "--check", self.asker])]
            same = not any(it.returncode for it in said)
            count.check("Rust: rustfmt has nothing to change", same, *(it.stdout[:2000] for it in said))
        if run(["cargo", "clippy", "--version"]).returncode == 0:
            for words in (CARGO, [*VERIFIES, "--all-targets"]):
                said = self.cargo("clippy", *words, "--", *LINTS)
                count.check(f"Rust: clippy {' '.join(words)} has nothing to say", said.returncode == 0, said.stderr[-3000:])
