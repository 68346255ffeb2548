"""What checks/foreign asks of the library in C, asked of the same program on other processors, by emulators: for checks/dist."""
from lib.harness import Count

from .answers import Asker, Judge
from .calls import check_calls
from .linked import COPIED, HELPERS, ROOT, WRAPPED
from .made import Made
from .packages import Wrong

# what the program is made of beside the library, without libcrypto
PARTS = [f"{ROOT}/checks/{it}.c" for it in ("foreign", "asked/any_verifier")]
PARTS += [f"{HELPERS}/{it}.c" for it in COPIED if it != "verify"]
# questions that name the call after them
OF_CALLS = ("call", "rooms", "memory", "normal")
# How many are asked about each call.
MOST = 400


class Silent(Count):
    def note(self, name, holds, *details):
        pass

    check = note


class Asking(Judge):
    """Asks what checks/foreign asks, and judges nothing."""

    def ask(self, name, questions, wanted=()):
        return self.said(name, questions)

    def hold(self, name, cases):
        return self.said(name, [question for _, question, _ in cases])


def questions_of(out, folder):
    """The questions of checks/foreign, as the answers of the program that is built in `out` lead from one to the next: so many about
    each call, of those that there are from the first to the last."""
    judge = Asking(Silent(), Asker("C", [f"{out}/foreign"]), Made(folder, f"{out}/librafendilo.so"))
    check_calls(judge)
    about = {}
    for asked in judge.asked:
        for question, _ in asked:
            words = question.split(" ", 2)
            about.setdefault(tuple(words[: 1 + (words[0] in OF_CALLS)]), []).append(question)
    return [question for of_call in about.values() for question in of_call[:: len(of_call) // MOST + 1]]


def built(place, compiler, out, source):
    """The program that asks the library of that folder, for the compiler's processor, which needs no library to run."""
    path = f"{out}/asker"
    flags = ["-std=c11", "-D_POSIX_C_SOURCE=200809L", "-O1", "-static", f"-I{source}/include", f"-I{HELPERS}"]
    place.run([compiler, *flags, *PARTS, f"{out}/librafendilo.a", WRAPPED, "-o", path])
    return path


def answers(place, words, questions):
    """What the program answers, which the words run."""
    said = place.run(words, given="".join(f"{it}\n" for it in questions)).splitlines()
    if len(said) != len(questions):
        raise Wrong(f"{' '.join(words)} answered {len(said)} of {len(questions)} questions")
    return said


def hold_same(questions, wanted, found):
    differ = [it for it in zip(questions, wanted, found) if it[1] != it[2]]
    if differ:
        raise Wrong(f"{len(differ)} of {len(questions)} answers are others", *differ[:3])
