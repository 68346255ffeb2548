"""Which crates' wrong bodies, or wrong definitions, the gate tries: those whose verdict can have changed, and an eighth of the others."""
import hashlib
from dataclasses import dataclass, field

# the processor seconds that they may take: bodies, and definitions
MOST, OF_DEFINITIONS = 2500, 1000
# one in so many of the crates of which nothing changed is tried
SHARE = 8
# where nobody measured: what a check takes, and what a body takes in one; a definition has a check of its own
CHECK_SECONDS, BODY_SECONDS = 20, 7
# what changed since all edits of a crate were refused
OWN, BELOW, NONE = "its own files", "what else judges it", "nothing"


def estimate(count, is_alone):
    """What so many edits take, each alone or side by side."""
    return CHECK_SECONDS * count if is_alone else CHECK_SECONDS + BODY_SECONDS * count


@dataclass
class Candidate:
    """A crate, as checks/tried.txt has it."""

    name: str
    # of its edits
    count: int
    # that they take
    seconds: int
    change: str


@dataclass
class Choice:
    """What is tried, in this order; what is taken on trust; and what is left, since there is no time for it."""

    tried: list = field(default_factory=list)
    trusted: list = field(default_factory=list)
    left: list = field(default_factory=list)
    # the processor seconds that there are
    most: int = MOST

    def begin(self, what):
        """What the log says of it first."""
        return f"{described(self.tried, what)} are tried, by estimate in {sum(it.seconds for it in self.tried)} processor seconds"

    def end(self, what):
        """What the log says last, as lines."""
        if self.trusted:
            yield f"{described(self.trusted, what)} were taken on trust: nothing changed since checks/tried.txt says that all were refused"
        if self.left:
            yield f"{described(self.left, what)} were LEFT, since more than {self.most} processor seconds would be needed"
        if self.trusted or self.left:
            yield "./test --all --wrong tries all, which a release asks for"


def described(crates, what):
    names = [it.name.rpartition(":")[2] for it in crates]
    return f"{sum(it.count for it in crates)} {what} of {len(crates)} crate{'s'[: len(crates) - 1]} ({', '.join(names)})"


def choose(crates, commit):
    """Chooses among the crates. Those whose own files changed come first. Then come, in an order that the commit draws, the others
    that changed and an eighth of those of which nothing changed. A crate that takes more than is left is passed over, if it is not
    the first."""

    def drawn(found, purpose):
        return sorted(found, key=lambda it: hashlib.sha256(f"{commit} {purpose} {it.name}".encode()).digest())

    same = drawn((it for it in crates if it.change == NONE), "whether")
    share = -(-len(same) // SHARE)
    most = OF_DEFINITIONS if any(it.name.startswith("definitions:") for it in crates) else MOST
    choice = Choice(trusted=same[share:], most=most)
    own = drawn((it for it in crates if it.change == OWN), "when")
    others = drawn([*(it for it in crates if it.change == BELOW), *same[:share]], "when")
    for it in [*own, *others]:
        fits = it.seconds <= most or not choice.tried
        (choice.tried if fits else choice.left).append(it)
        most = max(0, most - it.seconds) if fits else most
    return choice
