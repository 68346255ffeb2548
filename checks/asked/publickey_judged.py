"""How answers about whole logins by public key are judged, for checks/publickey and for the calls of the library."""
from collections import Counter

from lib.asking import share

from .publickey_logins import ASKED
from .publickey_verdicts import CAUSES, OF_LOGINS, cause_of, told_here, verdict

# of so many logins one at most is refused that OpenSSH lets in
REFUSED = 12
# of so many one is let in, at least
LET_IN = 3


def hold_stored(material, rows):
    """How the answers to these questions are judged."""

    def judged(printed, count):
        answers, seen = printed.split("\n")[:-1], Counter()
        count.check("each question is answered", len(answers) == len(rows), len(answers), len(rows))
        for number, ((it, theirs), answer) in enumerate(zip(rows, answers)):
            name, holds = verdict(material, it, theirs, answer)
            count.note(f"question {number}: {name}", holds, material.requests[it.request], it, answer, *theirs)
            seen[name] += 1
        for name, number in seen.most_common():
            print(f"  {number}: {name}")
        stricter, let_in = sum(seen[it] for it in CAUSES), seen["let in, bound alike"]
        count.check(f"one in {REFUSED} at most is refused that OpenSSH lets in: {stricter}", stricter * REFUSED <= len(rows))
        count.check(f"one in {LET_IN} is let in: {let_in}", let_in * LET_IN > len(rows))
        if share(len(rows)) == len(rows):
            # checks/user-keys meets those of lines
            count.check("each cause is met", not OF_LOGINS.keys() - seen.keys(), *(OF_LOGINS.keys() - seen.keys()))

    return judged


def hold_logins(found):
    """The answer says whether sshd asks for a signature, and which command runs."""

    def judged(printed, count):
        answers, stricter = printed.split("\n")[:-1], Counter()
        count.check("each login is answered", len(answers) == len(found), len(answers), len(found))
        for it, answer in zip(found, answers):
            offered, ours = told_here(answer, ASKED)
            cause = cause_of(it.material, it.login, answer.split(" ", 2)[2]) if ours is None else None
            stricter[cause] += cause is not None and it.told is not None
            is_same = ours == it.told or (ours is None and cause)
            count.check(f"{it.name}: {it.told}", is_same and (offered == it.is_offered or (it.is_offered and cause)), answer, *it.details)
        let_in = sum(it.told is not None for it in found)
        count.check(f"a third of them is let in: {let_in}", let_in * 3 > len(found))
        print(*(f"  {number}: {name}" for name, number in stricter.items() if number), sep="\n")

    return judged
