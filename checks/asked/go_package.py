"""The package in Go of bindings/go, for checks/bindings: how programs over it are built, what it declares and its own tests."""
import os
import re

from lib.harness import ROOT

from .linked import BINDINGS, EXAMPLES, declared, enumerations, run

# numbers that a binding has no name for: done, what it asks for itself, and what is never returned
UNNAMED = {"RAF_DONE", "RAF_SHORT_BUFFER", "RAF_END", "RAF_PUBLIC_KEY", "RAF_OTHER_ERROR", "RAF_OTHER_QUESTIONS"}


def exported(text):
    """The comments and the names of what a package of Go exports."""
    found = re.findall(r"^((?://.*\n)*)(?:func (?:\([^)]*\) )?|type |const |var )([A-Z]\w*)", text, re.M)
    for block in re.findall(r"^(?:const|var) \(\n(.*?)^\)", text, re.M | re.S):
        found += re.findall(r"((?:^\t//.*\n)*)^\t([A-Z]\w*)", block, re.M)
    return found


class Go:
    """The module of bindings/go, and programs over it: the example and the asker."""

    language, module = "Go", os.path.join(BINDINGS, "go")
    example, asker = os.path.join(EXAMPLES, "go"), os.path.join(ROOT, "checks", "asked", "go")

    def __init__(self, maker, out):
        self.maker, self.out = maker, out

    def run(self, at, *words, **environment):
        """A run of go that asks no network."""
        kept = {**os.environ, "GOFLAGS": "", "GOPROXY": "off", "GOTOOLCHAIN": "local", "GOWORK": "off", "CGO_ENABLED": "1"}
        return run(["go", *words], cwd=at, env={**kept, **environment})

    @staticmethod
    def over(library):
        """The words and the environment by which a program is linked with the library that is installed in the folder."""
        return ["-tags", "rafendilo_installed"], {"PKG_CONFIG_PATH": library, "CGO_LDFLAGS": f"-Wl,-rpath,{library}"}

    def built(self, count, at, name, library=None):
        """The path of the program whose sources stand there, over the text in the package or the library in that folder."""
        path = self.maker.path(f"Go {name}")
        words, environment = self.over(library) if library else ([], {})
        made = self.run(at, "build", *words, "-o", path, ".", **environment)
        count.check(f"Go: {name} is built", made.returncode == 0, made.stderr[-3000:])
        return path

    def check_sources(self, count):
        """What gofmt and vet say, the tests of the package, and what it declares."""
        for at in (self.module, self.example, self.asker):
            name = os.path.relpath(at, ROOT)
            said = run(["gofmt", "-l", at])
            count.check(f"Go: gofmt finds nothing in {name}", said.returncode == 0 and not said.stdout, said.stdout, said.stderr)
            said = self.run(at, "vet", "./...")
            count.check(f"Go: go vet finds nothing in {name}", said.returncode == 0, said.stdout, said.stderr)
        said = self.run(self.module, "test", "-count=1", "./...")
        passed = said.returncode == 0 and len(re.findall(r"^ok\s", said.stdout, re.M)) == 1
        count.check("Go: the tests of the package", passed, said.stdout[-3000:], said.stderr)
        self.check_covers(count)
        self.check_installed(count)

    def check_covers(self, count):
        """The package calls each call of the header, and has a name for each number."""
        text = self.sources()
        calls, numbers = set(re.findall(r"\bC\.(raf_\w+)\(", text)), set(re.findall(r"\bC\.(RAF_\w+)", text))
        count.check("Go: each call of the header is called", declared() <= calls, declared() - calls)
        missing = {name for of in enumerations() for name in of} - numbers - UNNAMED - {"RAF_LINE_KEY"}
        count.check("Go: each number of the header has a name", not missing, missing)
        self.check_names(count, text)
        named = exported(text)
        undocumented = [name for comment, name in named if comment.split()[:2] != ["//", name]]
        count.check("Go: each name of the package has a comment that begins with it", len(named) > 9 and not undocumented, undocumented)

    def sources(self):
        text = ""
        for name in sorted(os.listdir(f"{self.module}/rafendilo")):
            if name.endswith(".go") and not name.endswith("_test.go"):
                with open(f"{self.module}/rafendilo/{name}", encoding="utf-8") as file:
                    text += file.read()
        return text

    @staticmethod
    def check_names(count, text):
        """Each name in Go is that of its number: the header's without underlines, and with Err or nothing before it."""
        pairs = re.findall(r"^\t(\w+)\s+\w+\s+= C\.RAF_(\w+)$", text, re.M)
        plain = [(go.removeprefix("Err").lower(), re.sub("^(ASK|MARKER)_|_", "", header).lower()) for go, header in pairs]
        wrong = [it for it in plain if it[0] != it[1] and it != ("nomarker", "none")]
        count.check("Go: each name is that of its number", len(pairs) > 30 and not wrong, len(pairs), wrong)

    def check_installed(self, count):
        """With the tag rafendilo_installed the package is linked with what pkg-config finds; without cgo it says what it wants."""
        said = self.run(self.module, "build", "./rafendilo", CGO_ENABLED="0")
        count.check("Go: without cgo the package says so", said.returncode and "wants_CGO_ENABLED_1" in said.stderr, said.stderr)
        words, environment = self.over(self.out)
        said = self.run(self.module, "test", "-count=1", *words, "-run", "AtOnce|Copies", "./rafendilo", **environment)
        count.check("Go: the installed library is linked", said.returncode == 0 and "no tests" not in said.stdout, said.stdout, said.stderr)
