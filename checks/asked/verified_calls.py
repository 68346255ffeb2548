"""What a verification decides: each verdict of the library takes 1 alone for yes, a login the bit of each question, and a certificate or
a signature that its key did not sign lets nobody in. What is wanted is what include/rafendilo.h says of `is_verified` and of `answers`,
and of signatures that follows from who made them."""
import hashlib
from dataclasses import replace

from lib.harness import blob_of, string, take
from lib.signatures import signed as signed_by

from .digest_calls import TEXT, signed
from .login_calls import INSIDE
from .made import AUTHORITIES, MIDDLE, WINDOW
from .memory_calls import question_of
from .publickey import REQUEST, SSHD, TRANSPORT, UNREADABLE, Login, refused
from .revocation_calls import EMPTY
from .linked import several, word
from .userauth_calls import SESSION, Request

# what is no, but for programs that look at a byte, at 16 bits, or at any bit
OTHERS = (0, 2, 3, 255, 256, 257, 65_536, 65_537, 2**31, 2**31 + 1, 2**32 - 1)
HOST, ALICE, FILE = b"h.example", b"alice", b"file"


def place_of_signature(blob, authority):
    """Where a certificate has its signature, after the key of its authority (PROTOCOL.certkeys)."""
    return blob.rindex(string(authority)) + len(string(authority))


def signature_of(blob, authority):
    return take(blob[place_of_signature(blob, authority) :])[0]


def with_signature(blob, authority, signature):
    return blob[: place_of_signature(blob, authority)] + string(signature)


class Given:
    """What the calls are given of an authority: a certificate for the user and one for the host, of the same key, by it."""

    def __init__(self, made, number):
        self.maker, self.kind, self.number = made.maker, made.kinds[number], number
        kind = self.kind
        self.key, self.authority = made.key(number), made.maker.blob(kind.authority)
        self.line = made.maker.read(f"{kind.authority}.pub").encode()
        self.by = made.authority(number)
        self.user = kind.blob
        self.host = self.issued(kind.authority, "-h", "-n", HOST.decode())
        self.signature = signed(made.maker, f"user{number}", "sha512")
        self.signer = made.rafendilo.fingerprint(self.key)

    def issued(self, authority, *words):
        """A certificate of the key by that authority."""
        return blob_of(self.maker.certificate(authority, f"user{self.number}", *words, *WINDOW))

    def verdicts(self):
        """Each call with a verdict, and what it is given but for `is_verified`, whose place among the numbers stands last."""
        yield "check_certificate", [self.user, b"", self.by], [MIDDLE], 1
        yield "check_certificate_for", [self.user, ALICE, self.by], [MIDDLE], 1
        yield "check_host_certificate", [[self.known()], HOST, self.host, [EMPTY]], [22, 0, MIDDLE], 3
        yield "check_sshsig", [self.signature, FILE, self.signer], [], 0
        yield "check_signer", [self.allowed(), ALICE, FILE, self.signature, [EMPTY]], [MIDDLE], 1

    def known(self):
        return b"@cert-authority " + HOST + b" " + self.line + b"\n"

    def allowed(self):
        return b"alice " + self.maker.read(f"user{self.number}.pub").encode() + b"\n"

    def logins(self):
        """Names, and logins by the certificate: by a line, by its authority, and by principals."""
        login = Login(self.user, client=INSIDE)
        yield "authorized_keys", replace(login, keys=(b"cert-authority " + self.line + b"\n",))
        yield "an authority", replace(login, authorities=self.by)
        yield "principals", replace(login, authorities=self.by, principals=(b"alice\n",))

    def requests(self):
        """Names, logins with the client's signature, and the sum of their questions: by the key, and by the certificate."""
        line = self.maker.read(f"user{self.number}.pub")
        plain = line.split()[0].encode().replace(b"ssh-rsa", b"rsa-sha2-512")
        by = Login(b"", keys=(line.encode() + b"\n",), authorities=self.by, client=INSIDE, how=REQUEST, session=SESSION)
        for name, offered, algorithm, sum_ in (("a key", self.key, plain, 2), ("a certificate", self.user, plain + b"-cert-v01@openssh.com", 3)):
            request = Request(algorithm, offered)
            signature = signed_by(self.maker.path(f"user{self.number}"), line, request.message())
            yield name, replace(by, blob=offered, algorithm=algorithm, signature=signature), sum_

    def forged(self):
        """Names, and signatures that the authority did not make of what stands before them in these certificates."""
        other = f"forger{self.number}"
        self.maker.key(other, AUTHORITIES[self.kind.name][0])
        strange = self.issued(other, "-n", "alice,bob")
        yield "of another certificate", signature_of(self.issued(self.kind.authority, "-n", "eve"), self.authority)
        yield "by another key", signature_of(strange, self.maker.blob(other))
        if b"ssh-ed25519" in self.authority:
            for name, body in (("of zero bytes", bytes(64)), ("of full bytes", b"\xff" * 64), ("of one", bytes([1]) + bytes(63))):
                yield name, string(b"ssh-ed25519") + string(body)

    def of_forged(self, signature):
        """Questions, after which the verifier is asked, about certificates with that signature."""
        user, host = (with_signature(it, self.authority, signature) for it in (self.user, self.host))
        for name, login in self.logins():
            yield f"a login by {name}", replace(login, blob=user).words(), refused(30, 1)
            yield f"the query by {name}", replace(login, blob=user).query(), "30 1"
        # nobody is asked about the client's
        *_, (_, login, _) = self.requests()
        yield "a login that is asked about here", replace(login, blob=user).words(), refused(30, 1)
        yield "a host", f"host-certificate {several([self.known()])} {word(HOST)} {word(host)} {EMPTY.hex()} 22 0 {MIDDLE}", "30"

    def of_signatures(self, is_package):
        """The same of SSH signatures: one of another text, and one by another key under this one's name."""
        by_signers, by_keys = ("is-signer", "is-sshsig-of-digest") if is_package else ("signer-by", "sshsig-by")
        forger = f"forger{self.number}"
        other = signed(self.maker, forger, "sha512").replace(string(self.maker.blob(forger)), string(self.key), 1)
        for name, signature, text in (("of another text", self.signature, b"other"), ("by another key", other, TEXT)):
            digest, words = hashlib.sha512(text).hexdigest(), [*map(word, (self.allowed(), ALICE, FILE, signature, EMPTY))]
            yield f"an allowed signer, {name}", f"{by_signers} {' '.join(words)} {MIDDLE} {digest}", "30"
            yield f"a signature {name}", f"{by_keys} {word(signature)} {word(FILE)} {digest} {self.signer.hex()}", "30"


def check_values(judge, given):
    """Each verdict is yes for 1, and for no other number."""
    done, not_signed = (str(judge.number(it)) for it in ("DONE", "NOT_SIGNED"))
    asked = []
    for it in given:
        for call, spans, numbers, place in it.verdicts():
            for value in (1, *OTHERS):
                filled = [*numbers, *[0] * (place - len(numbers)), value]
                asked.append((f"{call}, {it.kind.name}: {value}", question_of("call", call, spans, filled), done if value == 1 else not_signed))
    said = judge.said("values of is_verified", [question for _, question, _ in asked])
    for (name, _, wanted), answer in zip(asked, said):
        judge.check(f"is_verified of {name}", answer == wanted, answer, wanted)


def answered(asked, answers):
    """What is wanted of these answers where that is asked: each bit counts for its question, and no other bit does."""
    if asked & 1 and not answers & 1:
        return "NOT_SIGNED"
    return "CLIENT_NOT_SIGNED" if asked & 2 and not answers & 2 else "DONE"


def check_answers(judge, given):
    """Each login takes the bit of each question that is asked, and nothing in its place."""
    cases = []
    for it in given:
        for name, login in it.logins():
            cases += [(f"{name}, {it.kind.name}, {how}", replace(login, how=how), 1) for how in (TRANSPORT, SSHD)]
        for name, login, asked in it.requests():
            cases.append((f"{name} that is asked about, {it.kind.name}", login, asked))
            cases.append((f"{name} that is verified, {it.kind.name}", replace(login, how=TRANSPORT), asked & 1))
    asked = []
    for name, login, bits in cases:
        for answers in (0, 1, 2, 3, 4, 5, 6, 7, 2**32 - 1, 2**32 - 2, 2**32 - 3, 2**32 - 4):
            for call, of in (("log_in", bits), ("may_offer", bits & 1)):
                asked.append((f"{call}, {name}: {answers}", question_of("call", call, *login.call(answers)), answered(of, answers)))
    hold_numbers(judge, "answers", asked)


def check_tickets(judge, given):
    """The ticket is of the questions, and of no others: not of another login's, nor of the query's."""
    login, other = ([it for _, it, asked in each.requests() if asked == 3][0] for each in given[:2])
    asked = []
    own, strange = judge.said("tickets", [question_of("ticket", "log_in", *it.call()) for it in (login, other)])
    query = judge.said("tickets of queries", [question_of("ticket", "may_offer", *login.call())])[0]
    judge.check("the tickets are three", len({own, strange, query}) == 3 and all(len(it) == 64 for it in (own, strange, query)), own, strange, query)
    bit = f"{own[:-1]}{int(own[-1], 16) ^ 1:x}"
    for name, ticket, of_login, of_query in (
        ("its own", own, "DONE", "OTHER_QUESTIONS"), ("another login's", strange, "OTHER_QUESTIONS", "OTHER_QUESTIONS"), ("the query's", query, "OTHER_QUESTIONS", "DONE"),
        ("zeros", "00" * 32, "OTHER_QUESTIONS", "OTHER_QUESTIONS"), ("a turned bit", bit, "OTHER_QUESTIONS", "OTHER_QUESTIONS"),
    ):  # fmt: skip
        for call, wanted in (("log_in", of_login), ("may_offer", of_query)):
            for answers in (0, 3):
                unanswered = "NOT_SIGNED" if wanted == "DONE" and not answers else wanted
                asked.append((f"{call}, {name}, {answers}", question_of("call", call, *login.call(answers, bytes.fromhex(ticket))), unanswered))
    # what else is wrong is told before the ticket
    late = replace(login, second=0)
    asked.append(("log_in, another's, too early", question_of("call", "log_in", *late.call(3, bytes.fromhex(strange))), "OUT_OF_WINDOW"))
    # a ticket names the bytes: what is signed is another in another session
    moved = replace(login, session=SESSION[::-1])
    asked.append(("log_in, of another session", question_of("call", "log_in", *moved.call(3, bytes.fromhex(own))), "OTHER_QUESTIONS"))
    hold_numbers(judge, "a ticket", asked)


def check_words(judge, given):
    """Numbers that no package can tell: who has seen the signature, whom authorities let in, and whether a text was read."""
    asked = []
    *_, (_, login, _) = given[0].requests()
    (_, plain, _), by = next(given[0].requests()), dict(given[0].logins())["principals"]
    for how, wanted in ((0, "UNSIGNED"), (1, "DONE"), (2, "DONE"), (3, "DONE"), (4, "DONE"), (5, "UNSIGNED"), (2**32 - 1, "UNSIGNED"), (2**31 + 1, "UNSIGNED")):
        asked += [(f"how is {how}, {call}", question_of("call", call, *replace(login, how=how).call(3)), wanted) for call in ("log_in_questions", "log_in")]
        # of the query nobody asks
        asked += [(f"how is {how}, {call}", question_of("call", call, *replace(login, how=how).call(3)), "DONE") for call in ("may_offer_questions", "may_offer")]
    # it stands first
    asked.append(("how is 0, of a user that is no text", question_of("call", "log_in", *replace(login, how=0, user=b"\xff").call(3)), "UNSIGNED"))
    for source, wanted in ((0, "NO_PRINCIPALS"), (1, "USER_NOT_LISTED"), (2, "DONE"), (3, "NO_PRINCIPALS"), (2**32 - 2, "NO_PRINCIPALS")):
        spans, numbers = replace(by, user=b"carol").call(1)
        numbers = [*numbers[:3], str(source), *numbers[4:]]
        for call in ("log_in_questions", "log_in", "may_offer_questions", "may_offer"):
            asked.append((f"principals_from is {source}, {call}", question_of("call", call, spans, numbers), wanted))
    spans, numbers = plain.call(2)
    asked.append(("principals_from is 0, of a key", question_of("call", "log_in", spans, [*numbers[:3], "0", *numbers[4:]]), "NO_PRINCIPALS"))
    for number, wanted in ((0, "TEXT_UNREADABLE"), (1, "DONE"), (2, "TEXT_UNREADABLE"), (2**32 - 1, "TEXT_UNREADABLE"), (257, "TEXT_UNREADABLE")):
        spans, numbers = replace(plain, keys=(UNREADABLE, *plain.keys)).call(2)
        spans[6] = spans[6].replace("?", f"?{number}")
        asked += [(f"is_read is {number}, {call}", question_of("call", call, spans, numbers), wanted) for call in ("log_in_questions", "log_in", "may_offer")]
    hold_numbers(judge, "a number", asked)
    # any number but 0 is the host's key, which stands in what is signed
    spans, numbers = replace(plain, host_key=given[0].key).call()
    tickets = judge.said("tickets by has_host_key", [question_of("ticket", "log_in", spans, [numbers[0], str(it), *numbers[2:]]) for it in (0, 1, 2, 2**32 - 1)])
    judge.check("has_host_key is any number but 0", tickets[0] != tickets[1] and len({*tickets}) == 2, tickets)


def hold_numbers(judge, what, asked):
    said = judge.said(f"calls with {what}", [question for _, question, _ in asked])
    for (name, _, wanted), answer in zip(asked, said):
        judge.check(f"{what}: {name}", answer == str(judge.number(wanted)), answer, wanted)


def check_verified(judge):
    given = [Given(judge.made, number) for number in range(len(judge.made.kinds))]
    if not judge.asker.is_package:
        check_values(judge, given)
        check_answers(judge, given)
        check_tickets(judge, given)
        check_words(judge, given)
    asked = []
    for it in given:
        found = [(f"{what}, a signature {name}", *more) for name, signature in it.forged() for what, *more in it.of_forged(signature)]
        found += it.of_signatures(judge.asker.is_package)
        asked += [(f"{name}, {it.kind.name}", *more) for name, *more in found]
    judge.hold("a forged signature", asked)
