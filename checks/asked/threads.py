"""The functions of helpers/ that are there to be copied, from several threads at the same time, under ThreadSanitizer, for checks/foreign."""
import glob
import os
import re
import shutil

from lib.harness import ROOT, blob_of, ssh_keygen, string
from lib.signatures import signed

from .linked import HELPERS, C, run
from .revocation_calls import made_list

TO_COPY = ("reading", "sshsig", "verdict", "verify")
# a message of several rooms, so that one thread reads it while another does
MESSAGE = "a line of the message\n" * 20_000


def sources():
    """Those of helpers/ that no program alone needs."""
    for path in sorted(glob.glob(f"{HELPERS}/*.c")):
        with open(path, encoding="ascii") as file:
            if not re.search(r'"(program|login|check)\.h"', file.read()):
                yield path


def request(key):
    """What a client signs at a login as alice by that key (RFC 4252, section 7)."""
    strings = b"".join(map(string, (b"alice", b"ssh-connection", b"publickey")))
    return string(b"a session") + b"\x32" + strings + b"\1" + string(b"ssh-ed25519") + string(key)


def filled(made, number):
    """A folder of what one pair of threads asks about. The second one's signatures are by the first one's keys, and that of a message
    is of the first one's: they count only where the threads take one another's bytes."""
    maker, folder = made.maker, made.maker.path(f"threads{number}")
    os.mkdir(folder)
    for name in ("authority", "user", "host"):
        maker.key(f"threads{number}/{name}", "ed25519")
    for name, words in (("user", ["-n", "alice"]), ("host", ["-h", "-n", "host.example.org"])):
        maker.certificate(f"threads{number}/authority", f"threads{number}/{name}", *words, "-V", "20240101000000:20240201000000")
    key = maker.read(f"threads{number}/authority.pub")
    maker.write(f"threads{number}/now", str(made.middle))
    maker.write(f"threads{number}/known_hosts", f"@cert-authority *.example.org {key}\n")
    with open(f"{folder}/list", "wb") as file:
        file.write(made_list(maker, f"threads{number}/authority", ["serial: 7"]))
    maker.write(f"threads{number}/message", MESSAGE if number == 0 else MESSAGE[::-1])
    if number == 0:
        ssh_keygen("-q", "-Y", "sign", "-n", "file", "-f", f"{folder}/authority", f"{folder}/message")
    else:
        for name in ("message.sig", "authority.pub"):
            shutil.copy(maker.path(f"threads0/{name}"), f"{folder}/{name if name == 'message.sig' else 'signer.pub'}")
    signer = maker.read("threads0/authority.pub")
    maker.write(f"threads{number}/signers", f"alice {signer}\n")
    with open(f"{folder}/request.sig", "wb") as file:
        message = request(blob_of(maker.read(f"threads{number}/user.pub")))
        file.write(signed(maker.path("threads0/user"), maker.read("threads0/user.pub"), message))
    return folder


def check_threads(count, built, made):
    """Each function of those headers is called, no thread sees another's bytes, and each is answered as alone."""
    with open(f"{ROOT}/checks/threads.c", encoding="ascii") as file:
        source = file.read()
    declared = set()
    for name in TO_COPY:
        with open(f"{HELPERS}/{name}.h", encoding="ascii") as file:
            declared |= {*re.findall(r"^[a-z]\w+ \*?(raf_\w+)\(", file.read().replace("const char *", "char *"), re.M)}
    missing = {it for it in declared if not re.search(rf"\b{it}\(", source)}
    count.check(f"checks/threads.c calls each of the {len(declared)} functions to copy", len(declared) > 12 and not missing, missing)
    program = made.maker.path("threads")
    parts = [f"{ROOT}/checks/threads.c", *sources(), f"{built.plain}/librafendilo.a", "-lcrypto", "-lpthread"]
    compiled = run([*C, f"-I{HELPERS}", "-O1", "-g", "-fsanitize=thread", *parts, "-o", program])
    count.check("checks/threads.c is built with ThreadSanitizer", compiled.returncode == 0, compiled.stderr[-3000:])
    if compiled.returncode:
        return
    # it wants memory where it expects it
    ran = run(["setarch", "-R", program, *(filled(made, it) for it in range(2))], timeout=600)
    said = [[int(it) for it in line.split()] for line in ran.stdout.splitlines()]
    count.check("threads are answered as one alone, without a race", ran.returncode == 0, ran.returncode, ran.stderr[:3000])
    # 30 is RAF_NOT_SIGNED, and 84 RAF_CLIENT_NOT_SIGNED
    counts = len(said) == 2 and not {30, 84} & {*said[0]} and {30, 84} <= {*said[1]}
    count.check("and the first ones' signature counts for their message, and not for the second ones'", counts, said)
