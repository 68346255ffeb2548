"""What is asked of the library in each language, and what the Python package answers, which checks/foreign holds against ssh-keygen
and where it follows from the words that ssh-keygen was given, against these.

    judge = Judge(count, Asker("Go", ["/somewhere/asker"]), made)                # made: asked/made.py
    judge.hold("a line", [("with a comment", "line 737368..", "0 0 0000..")])

An asker is a program that answers each line of its input with a line: checks/foreign.c over the library for C, asked/go and
asked/rust over the packages. Words are bytes in hexadecimal (- for none), several byte strings with commas between (none for none of
them: FILES, which are revocation files, and TEXTS), numbers and names:

    certificate BYTES | signature KEY MESSAGE SIGNATURE      0 ALGORITHM KEY MESSAGE SIGNATURE
    sshsig BYTES NAMESPACE MESSAGE                           the same, and the SIGNER
    sshsig-of-digest BYTES NAMESPACE DIGEST
    is-signature KEY MESSAGE SIGNATURE                       0 and 1 if it verifies, else 0
    log-in USER ALGORITHM BLOB SESSION HOST-KEY SIGNATURE HOW BOUND FLAGS KEYS AUTHORITIES PRINCIPALS COMMAND FILES FROM BITS TOUCH
           VERIFICATION CLIENT HOST SECOND                   NUMBER ASKED SOURCE TEXT LINE, and after a NUMBER of 0 COMMAND KEY-ID OPEN
                                                             LISTEN ENVIRONMENT SERIAL FIRST LAST AUTHORITY KEY PERMITS TUNNEL: as
                                                             the structs of the header have them. HOW is RAF_SIGNED_*, BOUND 1 where
                                                             the host's key counts, FROM RAF_PRINCIPALS_*; KEYS, PRINCIPALS and
                                                             COMMAND are TEXTS, of which `?` could not be read; a CLIENT of another
                                                             number of bytes than 4 or 16 has no address. ASKED is how often the
                                                             verifier was asked, and after a no it is asked nothing more
    log-in-questions .. as log-in                            NUMBER, and of each question that is asked ALGORITHM KEY MESSAGE SIGNATURE,
                                                             where the verifier says yes
    may-offer USER ALGORITHM BLOB KEYS AUTHORITIES PRINCIPALS COMMAND FILES FROM BITS TOUCH VERIFICATION CLIENT HOST SECOND
                                                             NUMBER ASKED
    forwards TO PORT .. as log-in                            0 0|1 0|1: whether the grant permits to open that and to listen there; or
                                                             NUMBER
    runs COMMAND 0|1 .. as log-in                            0 COMMAND, which runs where the client asks for that one, or 0 for a
                                                             shell; 3 where a shell runs; or NUMBER
    host-key TEXTS HOST KEY FILES PORT BITS                  0
    host-certificate TEXTS HOST BYTES FILES PORT BITS SECOND
    unreadable-line TEXT HOST PORT                           0 NUMBER, or 3
    other-key-line LINE | later-kind BYTES                   0, or 12
    line-authority LINE | user-authority LINE USER           0 SHA-256; 61 for a later kind of key, 3 for other users
    for-key LINE KEY | for-certificate LINE BYTES            0, or 3
    may-verify KEY | safe-mode OWNER USER MODE             0, or 59, or 62
    signer-by TEXT IDENTITY NAMESPACE BYTES FILES SECOND DIGEST          what check_signer_of_digest says, and how often it verifies
    sshsig-by BYTES NAMESPACE DIGEST SIGNERS                 in C: likewise check_sshsig_of_digest
    fields BYTES                                             0 SERIAL AFTER BEFORE TYPE 0|1 0|1
    lists BYTES                                              0 KEY-ID KEY AUTHORITY, principal=NAME and critical=NAME=VALUE and
                                                             extension=NAME=VALUE for each, options by rising names
    key BYTES                                                0 SHA-256 TEXT SHA-512 TEXT
    line BYTES                                               0 0|1 BLOB COMMENT, 1 for a certificate
    lines TEXT                                               0 CONTENT ..
    normal key|certificate|sshsig|signature BYTES            0 BYTES
    signer TEXT IDENTITY NAMESPACE BYTES FILES SECOND 0|1    what a text of allowed signers says, where a verification says no or yes
    unrevoked-key-by-krl LIST KEY | unrevoked-certificate-by-krl LIST BYTES    56 if the list revokes it, else 0
    unrevoked-key FILES KEY | unrevoked-certificate FILES BYTES  the same of files of sshd's RevokedKeys
    draft KEY NONCE KEY-ID PRINCIPALS CRITICAL EXTENSIONS AUTHORITY SERIAL AFTER BEFORE TYPE ALL
                                                             0 BYTES that are to be signed; lists as a certificate has them, of
                                                             which a package makes lists of its own, ALL 1 for everybody
    join BYTES SIGNATURE                                     0 BYTES
    entry LINE | host LINE                                   0 MARKER FRONT KEY COMMENT
    options TEXT                                             0 NAME=VALUE, or NAME where there is none, ..
    addresses LIST ADDRESS HOST                              NUMBER NUMBER: of the list as source-address, and as from
    time TEXT                                                0 FIRST LAST
    host-and-port TEXT                                       0 HOST PORT, 0 where none stands there
    armour TEXT                                              0 BYTES
    random-art DIGEST HEADER                                 0 TEXT

and a package also

    sshsig-hash BYTES                                        0 NAME
    sshsig-reserved BYTES                                    0 BYTES
    is-sshsig BYTES NAMESPACE MESSAGE SIGNERS                0, or what is wrong first
    is-sshsig-of-digest BYTES NAMESPACE DIGEST SIGNERS
    is-signer .. as signer-by
    validate BYTES SECOND PRINCIPAL|* AUTHORITIES 0|1        0, or what is wrong first, where a verification says no or yes, and how
                                                             many questions the verifier was asked
    certificate-options BYTES                                0 NAME=VALUE .., by rising names
    strings BYTES                                            0 CONTENT ..
    make .. as draft, and SIGNATURE                          0 BYTES of the certificate

An answer is the status of a refusal in place of 0 and what follows: 11 of options whose texts are not UTF-8, 15 of two with one
name and of a principal with a zero byte.
"""
import ipaddress
from dataclasses import dataclass

from .linked import VALGRIND, data_of, datas_of, run, word
from .verdict_answers import VerdictAnswers

# what is said of a number that is no status
WITHOUT_WORDS = "a status without words"


@dataclass(frozen=True)
class Asker:
    """A program that answers questions: the language by which its cases are named, and the words that run it."""

    language: str
    words: list

    @property
    def is_package(self):
        """Whether it answers the questions that only a package does."""
        return self.language != "C"


class Answers(VerdictAnswers):
    """What the Python package answers to each kind of question."""

    def __init__(self, made):
        self.rafendilo = made.rafendilo

    def to(self, question):
        what, *words = question.split(" ")
        try:
            return " ".join(getattr(self, what.replace("-", "_"))(*words))
        except self.rafendilo.Refused as refused:
            return str(int(refused.status))
        except UnicodeDecodeError:
            return "11"
        except ValueError:
            return "15"

    @staticmethod
    def asked(question, *more):
        parts = (question.key, question.message, question.signature, *more)
        return ["0", str(int(question.algorithm)), *map(word, parts)]

    def certificate(self, data):
        return self.asked(self.rafendilo.certificate_question(data_of(data)))

    def signature(self, *given):
        return self.asked(self.rafendilo.signature_question(*map(data_of, given)))

    def sshsig(self, *given):
        return self.asked(*self.rafendilo.sshsig_question(*map(data_of, given)))

    def sshsig_of_digest(self, *given):
        return self.asked(*self.rafendilo.sshsig_question_of_digest(*map(data_of, given)))

    def sshsig_hash(self, data):
        return ["0", self.rafendilo.sshsig_hash(data_of(data))]

    def sshsig_reserved(self, data):
        return ["0", word(self.rafendilo.sshsig_reserved(data_of(data)))]

    def is_sshsig(self, *given):
        *words, by = given
        self.rafendilo.check_sshsig(*map(data_of, words), self.digests(by))
        return ["0"]

    def is_sshsig_of_digest(self, *given):
        *words, by = given
        self.rafendilo.check_sshsig_of_digest(*map(data_of, words), self.digests(by))
        return ["0"]

    def counted(self, call, *given, answer=None):
        """What a call of the package says, and how often it verifies, or asks a verifier that gives that answer."""
        asked = []

        def verifier(question):
            asked.append(question)
            return self.rafendilo.is_signature(question) if answer is None else answer

        try:
            call(*given, verifier)
        except self.rafendilo.Refused as refused:
            return [str(int(refused.status)), str(len(asked))]
        return ["0", str(len(asked))]

    def sshsig_by(self, *given):
        *words, by = given
        return self.counted(self.rafendilo.check_sshsig_of_digest, *map(data_of, words), self.digests(by))

    def is_signer(self, *given):
        return self.signer_by(*given)[:1]

    def signers_of(self, text, identity, files, second):
        return self.rafendilo.Signers(data_of(text), data_of(identity), int(second), datas_of(files))

    def signer_by(self, text, identity, namespace, signature, files, second, digest):
        by = self.signers_of(text, identity, files, second)
        return self.counted(self.rafendilo.check_signer_of_digest, data_of(signature), data_of(namespace), data_of(digest), by)

    def is_signature(self, *given):
        return ["0", str(int(self.rafendilo.is_signature(self.rafendilo.signature_question(*map(data_of, given)))))]

    @staticmethod
    def digests(data):
        data = data_of(data)
        return [data[at : at + 32] for at in range(0, len(data), 32)]

    def validate(self, data, second, principal, by, yes):
        whom = None if principal == "*" else data_of(principal)
        return self.counted(self.rafendilo.check_certificate, data_of(data), int(second), self.digests(by), whom, answer=yes == "1")

    def fields(self, data):
        of = self.rafendilo.certificate_fields(data_of(data))
        numbers = (of.serial, of.valid_after, of.valid_before, of.certificate_type, of.lists_principals, of.has_critical_options)
        return ["0", *(str(int(it)) for it in numbers)]

    @staticmethod
    def pairs(options, front=""):
        by_name = sorted((name.encode(), value.encode()) for name, value in options.items())
        return [f"{front}{word(name)}={word(value)}" for name, value in by_name]

    def lists(self, data):
        of = self.rafendilo.certificate_contents(data_of(data))
        listed = [f"principal={word(it.encode())}" for it in of.principals]
        listed += self.pairs(of.critical_options, "critical=") + self.pairs(of.extensions, "extension=")
        return ["0", word(of.key_id.encode()), word(of.key), word(of.authority), *listed]

    def certificate_options(self, data):
        return ["0", *self.pairs(self.rafendilo.options(data_of(data)))]

    def strings(self, data):
        return ["0", *map(word, self.rafendilo.strings(data_of(data)))]

    def lines(self, data):
        return ["0", *map(word, self.rafendilo.entry_lines(data_of(data)))]

    def key(self, data):
        of = self.rafendilo
        short, long = of.fingerprint(data_of(data)), of.fingerprint_sha512(data_of(data))
        return ["0", word(short), of.fingerprint_text(short), word(long), of.fingerprint_sha512_text(long)]

    def line(self, data):
        of = self.rafendilo.read_line(data_of(data))
        return ["0", str(int(of.is_certificate)), word(of.blob), word(of.comment.encode())]

    def normal(self, kind, data):
        return ["0", word(getattr(self.rafendilo, f"normal_{kind}")(data_of(data)))]

    def signer(self, text, identity, namespace, signature, files, second, yes):
        by = self.signers_of(text, identity, files, second)
        return [str(int(self.rafendilo.check_signer_with_answer(data_of(signature), data_of(namespace), by, yes == "1")))]

    def unrevoked_key_by_krl(self, krl, key):
        self.rafendilo.check_unrevoked_key_by_krl(data_of(krl), data_of(key))
        return ["0"]

    def unrevoked_certificate_by_krl(self, krl, data):
        self.rafendilo.check_unrevoked_certificate_by_krl(data_of(krl), data_of(data))
        return ["0"]

    def draft_in(self, words):
        """What the words tell, as the package takes it."""
        key, nonce, key_id, principals, critical, more, authority = map(data_of, words[:7])
        serial, after, before, kind, everybody = map(int, words[7:12])
        of = self.rafendilo
        listed = [it.decode() for it in of.strings(principals)]
        return (key, authority), dict(
            principals=of.ALL_PRINCIPALS if everybody else listed, certificate_type=kind, key_id=key_id.decode(), serial=serial,
            valid_after=after, valid_before=before, critical_options=of.options(critical), extensions=of.options(more), nonce=nonce,
        )  # fmt: skip

    def draft(self, *words):
        keys, named = self.draft_in(words)
        return ["0", word(self.rafendilo.certificate_to_be_signed(*keys, **named))]

    def make(self, *words):
        keys, named = self.draft_in(words)
        return ["0", word(self.rafendilo.make_certificate(*keys, lambda message: data_of(words[12]), **named))]

    def join(self, *given):
        return ["0", word(self.rafendilo.join_certificate(*map(data_of, given)))]

    def entry(self, data):
        of = self.rafendilo.authorized_entry(data_of(data))
        return ["0", "0", word(of.options), word(of.key), word(of.comment)]

    def host(self, data):
        of = self.rafendilo.known_host(data_of(data))
        return ["0", str(int(of.marker)), word(of.hosts), word(of.key), word(of.comment)]

    def options(self, data):
        found = self.rafendilo.line_options(data_of(data))
        return ["0", *(word(name) + ("" if value is None else f"={word(value)}") for name, value in found)]

    def addresses(self, items, address, host):
        def said(call, *given):
            try:
                return str(int(self.rafendilo.Status.DONE if call(*given) else self.rafendilo.Status.ELSEWHERE))
            except self.rafendilo.Refused as refused:
                return str(int(refused.status))

        given = data_of(items), ipaddress.ip_address(data_of(address))
        return [said(self.rafendilo.check_source_address, *given), said(self.rafendilo.check_from, *given, data_of(host))]

    def time(self, text):
        return ["0", *map(str, self.rafendilo.read_time(data_of(text)))]

    def armour(self, text):
        return ["0", word(self.rafendilo.read_armour(data_of(text)))]

    def random_art(self, digest, header):
        return ["0", word(self.rafendilo.random_art(data_of(digest), data_of(header)).encode())]

    def host_and_port(self, text):
        host, port = self.rafendilo.host_and_port(data_of(text))
        return ["0", word(host.encode()), str(port or 0)]


# ---- how the answers are judged


class Judge:
    """What an asker answers, held against the Python package."""

    def __init__(self, count, asker, made):
        self.count, self.asker, self.made, self.answers = count, asker, made, Answers(made)
        self.asked = []

    def number(self, status):
        """The number of a status of that name."""
        return int(self.made.rafendilo.Status[status])

    def check(self, name, holds, *details):
        self.count.check(f"{self.asker.language}: {name}", holds, *details)

    def said(self, name, questions):
        """What the asker answers to each."""
        ran = run(self.asker.words, input="".join(f"{it}\n" for it in questions))
        said = ran.stdout.splitlines()
        whole = ran.returncode == 0 and len(said) == len(questions) and not ran.stderr
        self.check(f"{len(questions):,} {name} are asked about", whole, len(said), ran.stderr[-2000:])
        self.asked.append(list(zip(questions, said)))
        return said if whole else ["none"] * len(questions)

    def ask(self, name, questions, wanted=()):
        """Each question is answered as Python answers it, and as is wanted of those of which it is known: so, or with that front."""
        said = self.said(name, questions)
        differ = [it for it in zip(questions, said, map(self.answers.to, questions)) if it[1] != it[2]]
        self.check(f"{name} are answered as by Python", not differ, *differ[:3])
        if wanted:
            wrong = [it for it in zip(questions, said, wanted) if not is_so(*it[1:])]
            self.check(f"{name} are answered as is wanted", len(wanted) == len(questions) and not wrong, *wrong[:3])
        return said

    def hold(self, name, cases):
        """The same of cases, each a name, a question and what is wanted of it, and each is counted."""
        said = self.said(f"questions about {name}", [question for _, question, _ in cases])
        for (case, question, wanted), answer in zip(cases, said):
            by_python = self.answers.to(question)
            same = answer == by_python and is_so(answer, wanted)
            self.check(f"{name}: {case}", same, *(it[:300] for it in (question, answer, by_python, wanted)))
        return said

    def hold_alone(self, name, cases):
        """The same of cases that no package can tell, and that have to be answered just so."""
        said = self.said(f"questions about {name}, of C alone,", [question for _, question, _ in cases])
        for (case, question, wanted), answer in zip(cases, said):
            self.check(f"{name}: {case}", answer == wanted, *(it[:300] for it in (question, answer, wanted)))

    def check_under_valgrind(self, words, most):
        """The program, which the words run, answers the same under valgrind to so many of the questions of each list."""
        some = [it for asked in self.asked for it in asked[:: len(asked) // most + 1]]
        ran = run([*VALGRIND, *words], input="".join(f"{question}\n" for question, _ in some))
        differ = [it for it in zip(some, ran.stdout.splitlines()) if it[0][1] != it[1]]
        same = ran.returncode == 0 and ran.stdout.count("\n") == len(some) and not differ
        self.check(f"valgrind finds nothing in {len(some):,} questions, which are answered the same", same, *differ[:3], ran.stderr[-2000:])


def is_so(answer, wanted):
    return answer == wanted or answer.startswith(f"{wanted} ")
