"""What is linked for other languages, for checks/foreign: how it is built, the header, and what the shared library exports."""
import ctypes
import glob
import os
import re
import subprocess

from lib.harness import ROOT

BINDINGS, HELPERS, EXAMPLES = (os.path.join(ROOT, it) for it in ("bindings", "helpers", "examples"))
SANITIZED = "-O1 -g -fsanitize=address,undefined -fno-sanitize-recover=all -fno-omit-frame-pointer"
WARNINGS = ["-Wall", "-Wextra", "-pedantic", "-Werror"]
# flags for the listings of docs/
PEDANTIC = ["-Wshadow", "-Wconversion"]
C = ["cc", "-std=c11", "-D_POSIX_C_SOURCE=200809L", *WARNINGS, f"-I{ROOT}/include"]
# under which a program that reads or writes where it may not, or gives no memory back, ends with 9
VALGRIND = ["valgrind", "-q", "--leak-check=full", "--error-exitcode=9"]
# the helpers' parts that are there to be copied
COPIED = ("reading", "sha1", "sshsig", "verdict", "verify")
# what memory_calls.h and helper_calls.h wrap
WRAPPED = "-Wl,--wrap=malloc,--wrap=realloc,--wrap=free,--wrap=raf_is_signature"
# what the library may take of the C library
TAKEN = {"malloc", "realloc", "free", "memcpy", "memmove", "memset", "memcmp", "__cxa_finalize"}


def word(data):
    """Bytes as a question of checks/foreign.c or of an asker spells them."""
    return data.hex() or "-"


def data_of(text):
    """The bytes of a word."""
    return b"" if text == "-" else bytes.fromhex(text)


def several(many):
    """Several byte strings, likewise: with commas between, or none of them."""
    return ",".join(map(word, many)) or "none"


def datas_of(text):
    """The byte strings of a word."""
    return [] if text == "none" else list(map(data_of, text.split(",")))


def turned(data):
    """The bytes with the lowest bit of each turned."""
    return [data[:at] + bytes([data[at] ^ 1]) + data[at + 1 :] for at in range(len(data))]


def run(words, **how):
    return subprocess.run(words, **{"check": False, "capture_output": True, "text": True, **how})


def asker_words(out, flags):
    """The words that compile checks/foreign.c over what is built in that folder, with libcrypto: the program `foreign` there."""
    parts = [*(f"{out}/{it}.o" for it in COPIED), f"{out}/librafendilo.a", "-lcrypto", WRAPPED]
    return [*C, f"-I{HELPERS}", *flags, f"{ROOT}/checks/foreign.c", *parts, "-o", f"{out}/foreign"]


class Built:
    """The libraries and programs, built in a folder: plain, and the C that calls the library with sanitizers."""

    def __init__(self, folder, text=None):
        self.plain, self.sanitized = f"{folder}/plain", f"{folder}/sanitized"
        self.given = [f"TEXT={os.path.abspath(text)}"] if text else []
        self.said = ""
        self.made = self.make(self.plain, "-O2 -g") and self.make(self.sanitized, SANITIZED)

    def make(self, out, flags):
        made = run(["make", "-C", ROOT, f"OUT={out}", f"CFLAGS={flags}", *self.given])
        asking = run(asker_words(out, flags.split())) if made.returncode == 0 else made
        self.said += made.stderr + asking.stderr
        return made.returncode == 0 and asking.returncode == 0


def header():
    """The text of include/rafendilo.h."""
    with open(os.path.join(ROOT, "include", "rafendilo.h"), encoding="ascii") as file:
        return file.read()


# the numbers of the header that are those of the library
VERSION, ABI = (int(re.search(rf"^#define RAF_{it} (\d+)$", header(), re.M)[1]) for it in ("VERSION", "ABI"))


def declared():
    """The calls that the header declares."""
    return set(re.findall(r"^uint32_t (raf_\w+)\(", header(), re.M))


def enumerations():
    """The names and numbers of each enum of the header."""
    found = re.findall(r"^enum \{(.*?)\};", header(), re.M | re.S)
    return [{name: int(number) for name, number in re.findall(r"\b(RAF_\w+) = (\d+)", it)} for it in found]


def enumerations_of(rafendilo):
    """The same of the Python module."""
    prefixes = {"": rafendilo.Status, "ASK_": rafendilo.Algorithm, "BY_": rafendilo.KnownBy, "MARKER_": rafendilo.Marker, "PERMIT_": rafendilo.Permits}
    prefixes["SOURCE_"], own = rafendilo.Source, rafendilo._header
    inner = {"LINE_": own.LineKind, "SIGNED_": own.SignedHow, "PRINCIPALS_": own.PrincipalsFrom, "ASKS_": own.Asks}
    named = [*prefixes.items(), ("", rafendilo.CertificateType), *inner.items()]
    return [{f"RAF_{prefix}{it.name}": int(it) for it in members} for prefix, members in named]


def exported():
    """The exports of the crate."""
    found = set()
    for at, _, files in os.walk(f"{ROOT}/crates/sshkey_c/src"):
        for name in files:
            with open(f"{at}/{name}", encoding="utf-8") as file:
                found |= set(re.findall(r'^pub extern "C" fn (\w+)\(', file.read(), re.M))
    return found


def symbols(library, *flags):
    return {it.split()[-1].partition("@")[0] for it in run(["nm", "-D", *flags, library]).stdout.splitlines()}


def check_header(count, folder):
    for compiler, standard, ending in (("cc", "c11", "c"), ("c++", "c++17", "cc")):
        path = f"{folder}/header.{ending}"
        with open(path, "w", encoding="ascii") as file:
            file.write('#include "rafendilo.h"\nint main(void) { return raf_bytes(NULL) == NULL; }\n')
        said = run([compiler, f"-std={standard}", *WARNINGS, f"-I{ROOT}/include", "-o", f"{path}.out", path])
        count.check(f"the header is {standard}", said.returncode == 0 and not said.stderr, said.stderr[:2000])


def check_symbols(count, built, rafendilo):
    library, calls = f"{built.plain}/librafendilo.so", declared()
    count.check("the header declares what the crate exports", calls == exported(), calls ^ exported())
    found = symbols(library, "--defined-only")
    count.check("the shared library exports what the header declares, and nothing else", found == calls, found ^ calls)
    taken = symbols(library, "--undefined-only") - TAKEN
    taken = {it for it in taken if not it.startswith(("_ITM_", "__gmon_start__"))}
    count.check("and takes memory and copying of the C library, and nothing else", not taken, taken)
    taken = set(rafendilo._header.CALLS)
    count.check("the Python module has all calls", taken == calls, taken ^ calls)
    found, wanted = (sorted(it, key=str) for it in (enumerations_of(rafendilo), enumerations()))
    count.check("and all numbers of the header", found == wanted and all(wanted), found, wanted)


def check_names(count, built):
    """Answers have the names of the header, and no other number has one. Header, library, pkg-config and loader tell one version and
    one ABI."""
    numbers, *said = run([f"{built.plain}/foreign"], input="names\n").stdout.rstrip("\n").split(",")
    answers = next(it for it in enumerations() if "RAF_DONE" in it)
    named = {number: name.removeprefix("RAF_") for name, number in answers.items()}
    wanted = [f"{it} {named.get(it, 'no status')}" for it in (*range(200), 2**32 - 1)]
    count.check(f"{len(named)} answers have their names", said == wanted, set(said) ^ set(wanted))
    version, abi, *of_library = numbers.split()
    count.check("the library has the version and the ABI of the header", of_library == [version, abi], numbers)
    package = run(["pkg-config", "--modversion", f"{built.plain}/rafendilo.pc"]).stdout.strip()
    first, second, third = map(int, package.split("."))
    count.check("pkg-config tells that version", int(version) == 10_000 * first + 100 * second + third, version, package)
    dynamic = run(["readelf", "-d", f"{built.plain}/librafendilo.so"]).stdout
    count.check("the loader asks for that ABI", f"Library soname: [librafendilo.so.{abi}]" in dynamic, dynamic)


def check_layout(count, rafendilo):
    """The structs of Python lie as the header asserts, which check_header compiles."""
    found = {"size_t": ctypes.sizeof(ctypes.c_size_t)}
    for struct in vars(rafendilo._header).values():
        # each has the name in C as its page
        name = struct.__doc__ if isinstance(struct, type) and issubclass(struct, ctypes.Structure) else ""
        if name.startswith("raf_"):
            found[name] = ctypes.sizeof(struct)
            found.update({f"{name}, {field}": getattr(struct, field).offset for field, _ in struct._fields_})
    asserted = re.findall(r"^RAF_IS\((?:sizeof|offsetof)\((.*)\) == (\d+)\);", header(), re.M)
    wanted = {it: int(number) for it, number in asserted}
    count.check("the structs of Python lie as the header says", found == wanted, found, wanted)
    count.check("the end of a window that has none is the same", rafendilo.FOREVER == 2**64 - 1 and "RAF_FOREVER UINT64_MAX" in header())


def check_helpers_in_cpp(count, built, folder):
    """A program in C++ takes the functions of the helpers that are there to be copied."""
    path = f"{folder}/judged"
    with open(f"{path}.cc", "w", encoding="ascii") as file:
        file.write("".join(f'#include "{it}.h"\n' for it in COPIED))
        file.write("int main() { raf_blob none = {nullptr, 0}; return raf_sshsig_digest_length(none) != 0 || !raf_status_meaning(0); }\n")
    parts = [f"{built.plain}/{it}" for it in ("parts.a", "librafendilo.a")]
    words = ["c++", "-std=c++17", *WARNINGS, f"-I{ROOT}/include", f"-I{HELPERS}", f"{path}.cc", *parts, "-lcrypto", "-o", path]
    made = run(words)
    ran = run([path]) if made.returncode == 0 else made
    count.check("a program in C++ takes the functions of the helpers", ran.returncode == 0, made.stderr[-2000:], ran)


def check_helper_names(count, built):
    """What programs copy of the helpers takes no name that they may have themselves."""
    names = set()
    for part in COPIED:
        names |= {it.split()[-1] for it in run(["nm", "-g", "--defined-only", f"{built.plain}/{part}.o"]).stdout.splitlines()}
        with open(f"{HELPERS}/{part}.h", encoding="ascii") as file:
            names |= set(re.findall(r"^(?:\} |typedef \w+ )(\w+)[;(]", file.read(), re.M))
    other = {it for it in names if not it.startswith("raf_")}
    count.check(f"{len(names)} names of the parts that programs copy begin with raf_", len(names) > 15 and not other, other)


def check_writable(count, built):
    """No object of helpers/ has bytes that it writes and that two threads would share: what stays may be read alone."""
    objects = {os.path.basename(it)[:-2] for it in glob.glob(f"{HELPERS}/*.c")}
    for name in sorted(objects):
        rows = [it.split("|") for it in run(["nm", "-f", "sysv", f"{built.plain}/{name}.o"]).stdout.splitlines() if it.count("|") == 6]
        # .data.rel.ro is written once, by the loader
        found = [it[0].strip() for it in rows if re.match(r"\.(data(?!\.rel\.ro)|bss|tdata|tbss)|\*COM\*", it[6].strip())]
        count.check(f"{name}.o writes nothing that stays", rows and not found, found, rows[:3])


def check_crypto(count, built):
    """libcrypto is linked into what verifies, and into nothing else: sshd starts one of the programs for each key that is offered."""
    for name, wanted in (("sshkey-check", True), ("sshkey-principals", True), ("sshkey-authorized-keys", False), ("librafendilo.so", False)):
        needed = run(["readelf", "-d", f"{built.plain}/{name}"]).stdout
        count.check(f"{name} {'needs' if wanted else 'does without'} libcrypto", ("[libcrypto." in needed) == wanted and "[libc." in needed, needed)


def check_flags(count, built, folder):
    """The library is bound before it runs, as the programs are, and a program that is linked with it keeps the shadow stack of x86-64. A
    stack can't jump over its guard where the compiler sees to it, and one that does not know a flag is not given it."""
    told = [run(["readelf", "-W", it, f"{built.plain}/librafendilo.so"]).stdout for it in ("-d", "-l")]
    count.check("the shared library is bound at once", "BIND_NOW" in told[0] and "GNU_RELRO" in told[1], told)
    if os.uname().machine == "x86_64" and not built.given:
        told = run(["readelf", "-n", f"{built.plain}/librafendilo.a"]).stdout
        count.check("both objects of the library keep the shadow stack", told.count("SHSTK") == 2, told)
    for flag in ("-fstack-clash-protection", "-fcf-protection"):
        old = f"{folder}/old-cc"
        with open(old, "w", encoding="ascii") as file:
            file.write(f"#!/bin/sh\nfor it in \"$@\"; do [ \"$it\" = {flag} ] && exit 1; done\nexec cc \"$@\"\n")
        os.chmod(old, 0o755)
        is_taken = run(["cc", "-Werror", flag, "-E", "-x", "c", "/dev/null"]).returncode == 0
        for compiler, wanted in (("cc", is_taken), (old, False)):
            made = run(["make", "-n", "-C", ROOT, f"OUT={folder}/flags", f"CC={compiler}", f"{folder}/flags/login.o", *built.given])
            found = made.returncode == 0 and (f" {flag} " in made.stdout) == wanted and " -fstack-protector-strong " in made.stdout
            count.check(f"{os.path.basename(compiler)} is {'' if wanted else 'not '}given {flag}", found, made)


def is_found(folder, package, library):
    """Whether a program of one line finds header and library by pkg-config, and runs."""
    path = f"{folder}/linked"
    with open(f"{path}.c", "w", encoding="ascii") as file:
        file.write('#include "rafendilo.h"\nint main(void) { raf_sha256 d = {{0}};')
        file.write("return raf_fingerprint(raf_bytes(NULL), 0, &d) != RAF_LENGTH; }\n")
    words = run(["pkg-config", "--cflags", "--libs", "rafendilo"], env={**os.environ, "PKG_CONFIG_PATH": package})
    made = run(["cc", "-std=c11", "-o", path, f"{path}.c", *words.stdout.split()])
    ran = run([path], env={**os.environ, "LD_LIBRARY_PATH": library}) if made.returncode == 0 else made
    return ran.returncode == 0


# what is installed below a prefix: programs, and what else
PROGRAMS = {"bin/sshkey-authorized-keys", "bin/sshkey-check", "bin/sshkey-principals"}
INSTALLED = PROGRAMS | {
    "bin/sshkey-revoked", "include/rafendilo.h", "include/rafendilo_0_2.h", "lib/systemd/system/sshkey-revoked.service",
    "lib/systemd/system/sshkey-revoked.timer", "lib/librafendilo.a",
    "lib/librafendilo.so", f"lib/librafendilo.so.{ABI}", f"lib/librafendilo.so.{VERSION // 10_000}.{VERSION // 100 % 100}.{VERSION % 100}",
    "lib/librafendilo-verify.a", "lib/pkgconfig/rafendilo.pc", "lib/pkgconfig/rafendilo-verify.pc", "share/man/man1/sshkey-check.1",
    "share/man/man8/sshkey-authorized-keys.8", "share/man/man8/sshkey-principals.8", "share/man/man8/sshkey-revoked.8", "share/bash-completion/completions/sshkey-check",
    "share/zsh/site-functions/_sshkey-check", *(f"include/rafendilo/{it}.h" for it in COPIED),
}  # fmt: skip


def is_hardened(program):
    """Whether it lies anywhere in memory, is linked before it runs, and tells a broken stack and a buffer that is too short."""
    told = [run(["readelf", "-W", it, program]).stdout for it in ("-d", "-l")]
    return "NOW PIE" in told[0] and "GNU_RELRO" in told[1] and {"__stack_chk_fail", "__fprintf_chk"} <= symbols(program, "--undefined-only")


def files_below(folder):
    return {os.path.relpath(f"{at}/{name}", folder) for at, _, names in os.walk(folder) for name in names}


def check_installed(count, built, folder):
    """What is installed lies below DESTDIR and PREFIX, which may be relative, and is taken away again."""
    words = ["make", "--no-print-directory", "-C", ROOT, f"OUT={built.plain}", *built.given]
    for name, prefix, staged in (
        ("a folder", f"{folder}/absolute", ""), ("a relative folder", os.path.relpath(f"{folder}/relative", ROOT), ""),
        ("a stage", "/usr/local", f"{folder}/staged"),
    ):  # fmt: skip
        at = f"{staged}{prefix}" if staged else os.path.join(ROOT, prefix)
        made = run([*words, "install", f"PREFIX={prefix}", f"DESTDIR={staged}"])
        found = made.returncode == 0 and files_below(at) == INSTALLED
        count.check(f"what is installed in {name}", found, files_below(at), made.stderr[-2000:])
        last = made.stdout.splitlines()[-3:]
        said = "not as nobody" in last[1] and last[2] == "    useradd -r -M -s /usr/sbin/nologin sshkey" if len(last) == 3 else False
        count.check("and its last words are as whom the helpers run", said, last)
        with open(f"{at}/share/man/man8/sshkey-principals.8", encoding="ascii") as page:
            named = re.findall(r"\S+/bin/\S+", page.read())
        count.check("and its page names it there", named == [f"{prefix if staged else os.path.abspath(at)}/bin/sshkey-principals"], named)
        if not staged:
            count.check("pkg-config finds it there", is_found(folder, f"{at}/lib/pkgconfig", f"{at}/lib"))
        for helper in sorted(PROGRAMS):
            ran = run([f"{at}/{helper}", "--version"])
            count.check(f"{helper} runs there, and is hardened", ran.returncode == 0 and is_hardened(f"{at}/{helper}"), ran)
        removed = run([*words, "uninstall", f"PREFIX={prefix}", f"DESTDIR={staged}"])
        count.check("and it is taken away", removed.returncode == 0 and not files_below(at), files_below(at), removed.stderr)


def check_linked(count, built, rafendilo, folder):
    check_header(count, folder)
    check_symbols(count, built, rafendilo)
    check_layout(count, rafendilo)
    count.check("pkg-config finds the library", is_found(folder, built.plain, built.plain))
    check_installed(count, built, folder)
    check_writable(count, built)
    check_crypto(count, built)
    check_flags(count, built, folder)
    check_names(count, built)
    check_helper_names(count, built)
    check_helpers_in_cpp(count, built, folder)
