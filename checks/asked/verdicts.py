"""What helpers/sshkey-check and the Python package say of certificates, by the same words."""
import re

from .linked import run

# what sshkey-check says in place of the words of a status, and the packages do not
WORDS = {
    r"its time (?:begins|was over) at \d{4,}-\d\d-\d\dT\d\d:\d\d:\d\dZ \(33\)": "not valid at that time (33)",
    r"(?:another (?:principal|authority)|no principals, or some that are not read) \(90\)":
        "no line is for the key, and no authority lists the user (90)",
}  # fmt: skip
# what both say of a login that nobody has signed
LET_IN = "valid, if the client signs"


def said(rafendilo, status):
    """What they say of a login by its number."""
    words = rafendilo._header.WORDS[rafendilo.Status(status)]
    return LET_IN if status == rafendilo.Status.DONE else f"refused: {words} ({int(status)})"


def status_of(rafendilo, call, *given):
    """DONE where the call of the package raises nothing, or what is refused."""
    try:
        call(*given)
    except rafendilo.Refused as refused:
        return refused.status
    return rafendilo.Status.DONE


def said_by_checker(words, authority, user, second, lines):
    """What the program says of each line: LET_IN, or `refused` and why, but for when its time is. Below the first stands to what, which
    begins with blanks."""
    ran = run([*words, "--ca", authority, "--user", user, "--at", str(second)], input="".join(f"{it}\n" for it in lines))
    if ran.returncode not in (0, 1):
        return [f"status {ran.returncode}: {ran.stderr[-2000:]}"]
    told = ran.stderr
    for own, words_of_all in WORDS.items():
        told = re.sub(own, words_of_all, told)
    reasons = dict(re.findall(r"^sshkey-check: \(stdin\):(\d+): (.*)$", told, re.M))
    said_of_each = [it for it in ran.stdout.splitlines() if not it.startswith(" ")]
    return [it if it == LET_IN else f"{it}: {reasons.get(str(at), 'why?')}" for at, it in enumerate(said_of_each, 1)]


def said_by_python(rafendilo, by, user, second, lines):
    """What the package says of each line, where the address of the client is not known."""

    def judged(line):
        try:
            found = rafendilo.read_line(line)
        except rafendilo.Refused as refused:
            return refused.status
        if not found.is_certificate:
            return rafendilo.Status.LABEL
        offer, place = rafendilo.Offer(user, b"", found.blob), rafendilo.Place(client=None, unix_timestamp=second)
        trusted = rafendilo.Trusted([], by, rafendilo.IN_CERTIFICATE, [], rafendilo.NO_REVOCATIONS)
        return status_of(rafendilo, rafendilo.log_in, offer, rafendilo.SignedBySshd(), trusted, place)

    return [said(rafendilo, judged(it)) for it in lines]
