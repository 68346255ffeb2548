"""Libraries that only answer a number, and how a package of another language behaves over one, for checks/bindings and
checks/foreign."""
import os
import subprocess

from .linked import ABI, declared, run
from .publickey import REQUEST, Login

# the number of another ABI: the one before
OTHER_ABI = ABI - 1


def stub_library(count, folder, answer, abi=ABI):
    """Builds there librafendilo.a and librafendilo.so, which answer each call the number that `answer` gives of its name."""
    os.makedirs(folder)
    answers = {it: answer(it) for it in sorted(declared())} | {"raf_abi": abi}
    with open(f"{folder}/stub.c", "w", encoding="ascii") as file:
        file.write("".join(f"unsigned {call}(void) {{ return {number}; }}\n" for call, number in answers.items()))
    made = [
        run(it, cwd=folder)
        for it in (["cc", "-c", "-fPIC", "stub.c"], ["ar", "rcs", "librafendilo.a", "stub.o"], ["cc", "-shared", "-o", "librafendilo.so", "stub.o"])
    ]
    count.check(f"the library that answers {os.path.basename(folder)} is built", not any(it.returncode for it in made), made)


def check_other_abi(count, language, words, **how):
    """A program over a library of another ABI ends at once, and says which ABI it has."""
    ran = run(words, timeout=30, **how)
    told = f"the ABI {OTHER_ABI} (version " in ran.stderr and not ran.stdout
    count.check(f"{language}: a library of another ABI is refused", ran.returncode and told, ran)


def check_stub(count, asker, made, number):
    """An asker that is linked with a library that answers each call with that number answers it too: what is refused, and what no
    header knows, is never taken for done, and no room is asked for twice in vain."""
    blob, key = made.kinds[0].blob.hex(), made.key().hex()
    by, name, login = "00" * 32, b"alice".hex(), Login(made.kinds[0].blob, authorities=bytes(32), how=REQUEST)
    questions = [
        f"certificate {blob}", f"signature {key} 00 {key}", f"sshsig {key} {name} 00", f"is-signature {key} 00 {key}",
        f"sshsig-of-digest {key} {name} {by}", f"sshsig-hash {key}", f"sshsig-reserved {key}", f"is-sshsig {key} {name} 00 {by}",
        f"is-sshsig-of-digest {key} {name} {by} {by}",
        f"validate {blob} 7 * {by} 1", f"validate {blob} 7 {name} {by} 1", f"fields {blob}", f"lists {blob}",
        f"certificate-options {blob}", f"strings {blob}", f"key {key}", f"line {name}", f"normal key {key}",
        f"normal certificate {blob}", f"normal sshsig {key}", f"normal signature {key}", f"join {blob} {key}", f"entry {name}",
        f"host {name}", f"options {name}", f"draft {key} 00 {name} - - - {key} 0 0 9 1 1",
        f"make {key} 00 {name} - - - {key} 0 0 9 1 1 {key}", login.words(),
        login.words("log-in-questions"), login.query(), login.words("forwards", name, "22"), login.words("runs", name, "1"), f"host-key {name} {name} {key} - 22 0", f"host-certificate {name} {name} {blob} - 22 0 7", f"unreadable-line {name} {name} 22",
        f"other-key-line {name}", f"time {name}", f"may-verify {key}", f"for-key {name} {key}", f"for-certificate {name} {blob}",
        f"unrevoked-key-by-krl {key} {key}", f"unrevoked-certificate-by-krl {key} {blob}", f"signer {name} {name} {name} {key} - 7 1",
        f"unrevoked-key {key} {key}", f"unrevoked-certificate {key} {blob}", f"is-signer {name} {name} {name} {key} - 7 {by}",
    ]  # fmt: skip
    check_answered(count, asker, f"where each call answers {number}, that is answered", questions, number)


def check_answered(count, asker, name, questions, number):
    """Each question is answered with that number, and with what it says of a refusal beside that."""
    try:
        ran = run(asker.words, input="".join(f"{it}\n" for it in questions), timeout=30)
    except subprocess.TimeoutExpired:
        count.check(f"{asker.language}: {name}, and the answers end", False)
        return
    said = ran.stdout.splitlines()
    beside = {"validate": " 0", "log-in": " 0 0 0 0", "may-offer": " 0"}
    wanted = [f"{number}{beside.get(it.split(' ')[0], '')}" for it in questions]
    wrong = [it for it in zip(questions, said, wanted) if it[1] != it[2]]
    same = ran.returncode == 0 and len(said) == len(questions) and not wrong
    count.check(f"{asker.language}: {name}", same, *wrong[:5], ran.stderr[-2000:])


def check_refused_questions(count, asker, made):
    """An asker that is linked with a library that is refused memory at each question, and says that nothing is signed, says the
    first: of a certificate of which it could not ask nothing is known."""
    blob, by, name = made.kinds[0].blob.hex(), "00" * 32, b"alice".hex()
    login = Login(made.kinds[0].blob, authorities=bytes(32))
    questions = [f"validate {blob} 7 {whom} {by} 1" for whom in ("*", name)] + [
        login.words(), login.query(), f"host-certificate {name} {name} {blob} - 22 0 7",
    ]  # fmt: skip
    check_answered(count, asker, "where a question is refused memory, that is answered", questions, 1)
