"""What the Python module takes and gives, for checks/foreign: what has no truth value, what is no list of names or of files, what
nobody changes, what a verifier answers, and nonces."""
import ast
import base64
import builtins
import copy
import dataclasses
import glob
import inspect
import os
import pickle
import pydoc
import re
import shutil
import tempfile
import typing
from unittest.mock import patch

from cryptography.exceptions import UnsupportedAlgorithm
from lib.harness import string, take

from .certificate_calls import CASES, certificate_of
from .forwards import check_forwards
from .host_rows import LATER, LATER_NAME
from .made import MIDDLE
from .verdicts import status_of

# an entry of authorized_keys, its options and these one by one
ENTRY = b'no-pty,command="ls -l" ssh-ed25519 '
LISTED = [(b"no-pty", None), (b"command", b"ls -l")]
# the words of two numbers, as those of the helpers
WORDS = {"PRINCIPALS": "a list of principals against what is said of all", "FORMAT": "a value that has not the form of its kind"}


def raised(call, *given, **named):
    """The type of what a call raises and its words, or None."""
    try:
        call(*given, **named)
    except Exception as error:  # pylint: disable=broad-exception-caught
        return type(error).__name__, str(error)
    return None


def check_truth(count, rafendilo):
    """0 is the one number that is good, so that whoever took these for truth values would let in exactly the others."""
    wanted = ("TypeError", "compare with Status.DONE: a Status is no truth value")
    for name, taken in (("if", bool), ("not", lambda it: not it), ("all", lambda it: all([it]))):
        wrong = [it.name for it in rafendilo.Status if raised(taken, it) != wanted]
        count.check(f"`{name}` of a Status raises", not wrong, *wrong)


def check_principals(count, rafendilo, key, authority):
    """One name is no list of names, and neither is None. A name has no zero byte."""
    wanted = ("TypeError", "principals is a list of names")
    for one in ("alice", b"alice", bytearray(b"alice"), memoryview(b"alice"), "", None):
        found = raised(rafendilo.certificate_to_be_signed, key, authority, principals=one)
        made = raised(rafendilo.make_certificate, key, authority, lambda message: b"", principals=one)
        count.check(f"the principals {one!r:.24} are no list", found == made == wanted, found, made)
    for one in ("alice\0", "\0", b"al\0ice"):
        found = raised(rafendilo.certificate_to_be_signed, key, authority, principals=["bob", one])
        wanted = ("ValueError", f"a zero byte stands in the principal {one!r}")
        count.check(f"the principal {one!r} is refused, which sshd cuts off", found == wanted, found)
    found = raised(rafendilo.certificate_to_be_signed, key, authority)
    count.check("principals have to be given", found is not None and found[0] == "TypeError", found)
    found = raised(rafendilo.certificate_to_be_signed, key, authority, principals=[])
    count.check("an empty list of principals is refused", found == ("Refused", f"{WORDS['PRINCIPALS']} (45)"), found)
    for names in (["alice", "bob"], ("alice", "bob"), iter(["alice", "bob"])):
        made = rafendilo.certificate_to_be_signed(key, authority, principals=names)
        count.check(f"a {type(names).__name__} of principals is listed", string(string(b"alice") + string(b"bob")) in made)


def check_numbers(count, rafendilo, key, authority, certificate):
    """What is no number, or does not fit its field."""
    for name, value, wanted in (
        ("serial", -1, "ValueError"), ("serial", 1 << 64, "ValueError"), ("valid_after", 1.5, "TypeError"),
        ("valid_before", "1", "TypeError"), ("certificate_type", 1 << 32, "ValueError"), ("certificate_type", 3, "Refused"),
    ):  # fmt: skip
        found = raised(rafendilo.certificate_to_be_signed, key, authority, principals=["alice"], **{name: value})
        count.check(f"the {name} {value!r} raises {wanted}", found is not None and found[0] == wanted, found)
    for now, by, wanted in (
        (1.5, [], "TypeError"), (-1, [], "ValueError"), (1 << 64, [], "ValueError"), (0, [bytes(31)], "ValueError"),
        (0, bytes(32), "TypeError"), (0, [32 * "a"], "TypeError"),
    ):  # fmt: skip
        found = raised(rafendilo.check_certificate_with_answer, certificate, now, by, True)
        count.check(f"validation at {now} by {by!r:.20} raises {wanted}", found is not None and found[0] == wanted, found)
    for port, wanted in ((-1, "ValueError"), (65536, "ValueError"), (22.0, "TypeError")):
        found = raised(rafendilo.check_host_key, rafendilo.HostLogin([], "host", port, rafendilo.NO_REVOCATIONS), key)
        count.check(f"the port {port} raises {wanted}", found is not None and found[0] == wanted, found)
    found = raised(rafendilo.certificate_question, "a text")
    count.check("a text is no certificate", found is not None and found[0] == "TypeError", found)


def check_values(count, rafendilo, maker):
    """What is read of a certificate has the types that it says, and stays as it is."""
    blob, _ = certificate_of(maker, "lister0", "listed0", [*CASES["all options"], "-z", "7"])
    contents, fields = rafendilo.certificate_contents(blob), rafendilo.certificate_fields(blob)
    user, host = rafendilo.CertificateType.USER, rafendilo.CertificateType.HOST
    wanted = rafendilo.CertificateFields(7, 0, rafendilo.FOREVER, user, True, True)
    same = fields == wanted and all(type(it) is bool for it in (fields.lists_principals, fields.has_critical_options))
    count.check("the fields of a certificate are numbers, a type and truth values", same and fields.certificate_type is user, fields)
    listed, _ = certificate_of(maker, "lister0", "listed0", ["-h"])
    fields = rafendilo.certificate_fields(listed)
    same = fields.certificate_type is host and fields.lists_principals is False and fields.has_critical_options is False
    count.check("and of one for hosts that lists nobody", same, fields)
    count.check("principals are a tuple", contents.principals == ("alice",), contents.principals)
    for name in ("critical_options", "extensions"):
        of = getattr(contents, name)
        found = raised(of.__class__.__getitem__, of, "none"), hasattr(of, "__setitem__"), hasattr(of, "update")
        count.check(f"nobody changes {name}", len(of) > 2 and found[1:] == (False, False) and found[0][0] == "KeyError", found)
    for value in (contents, fields):
        name = dataclasses.fields(value)[0].name
        found = raised(setattr, value, name, None)
        count.check(f"nor a field of {type(value).__name__}", found is not None and found[0] == "FrozenInstanceError", found)


def check_lists(count, rafendilo):
    """Lists, whose faults are told at the call."""
    lines = rafendilo.entry_lines(b"# none\n" + ENTRY + b"\n")
    count.check("the lines of a text are a list", lines == [ENTRY] and type(lines) is list, lines)
    count.check("the options of an entry are a list", rafendilo.line_options(b'no-pty,command="ls -l"') == LISTED)
    count.check("no options are an empty list", rafendilo.line_options(b"") == [])
    found = raised(rafendilo.line_options, b"no-pty,a b")
    count.check("what is no list of options is refused at the call", found == ("Refused", f"{WORDS['FORMAT']} (15)"), found)


def check_nonces(count, rafendilo, key, authority):
    """A nonce is drawn where none is given, and both calls that make a certificate take the same."""
    asked = [{}, {"nonce": None}, {"nonce": b""}, {"nonce": bytearray()}, {"nonce": memoryview(b"")}]
    drawn = [rafendilo.certificate_to_be_signed(key, authority, principals=["alice"], **it) for it in asked]
    nonces = {take(take(it)[1])[0] for it in drawn}
    count.check("a nonce is drawn where none is given", len(nonces) == len(asked) and {len(it) for it in nonces} == {32}, nonces)
    words = [inspect.signature(it).parameters for it in (rafendilo.certificate_to_be_signed, rafendilo.make_certificate)]
    given, made = ({name: (it.default, it.annotation) for name, it in of.items() if name != "sign"} for of in words)
    count.check("make_certificate takes what certificate_to_be_signed takes", given == made, given, made)


def check_names(count, rafendilo):
    """What the module shows is public, and each call has types and says what it does."""
    shown = {it for it in dir(rafendilo) if not it.startswith("_")}
    count.check("__all__ has each public name", shown == set(rafendilo.__all__), shown ^ set(rafendilo.__all__))
    calls = [it for it in map(rafendilo.__dict__.get, rafendilo.__all__) if inspect.isfunction(it)]
    untyped = [it.__name__ for it in calls if set(typing.get_type_hints(it)) != {*inspect.signature(it).parameters, "return"}]
    count.check(f"each of {len(calls)} calls has types", len(calls) > 20 and not untyped, untyped)
    # what stands for other types has no page
    undocumented = [it for it in rafendilo.__all__ if it not in ("Address", "BytesLike", "Signed", "Text", "Verifier") and not getattr(rafendilo, it).__doc__]
    count.check("and a page", not undocumented, undocumented)


def check_texts(count, rafendilo, key, authority):
    """Bytes are no text of a certificate that is made, and two options have two names."""
    for name, value in (("key_id", b"id"), ("critical_options", {b"a": ""}), ("extensions", {b"a": ""}), ("key_id", None)):
        found = raised(rafendilo.certificate_to_be_signed, key, authority, principals=["alice"], **{name: value})
        count.check(f"the {name} {value!r} raises TypeError", found is not None and found[0] == "TypeError", found)
    one, other = (string(it) + string(string(b"1")) for it in (b"a", b"b"))
    count.check("two options of two names", rafendilo.options(one + other) == {"a": "1", "b": "1"})
    found = raised(rafendilo.options, one + other + one)
    count.check("two options of one name raise ValueError", found == ("ValueError", "two options have the name 'a'"), found)


def check_refused(count, rafendilo):
    """What is raised goes from one process to another."""
    by_line = rafendilo.Refused(rafendilo.Status.LINE_EXPIRED, 3, 1, rafendilo.Source.AUTHORIZED_KEYS)
    count.check("which line of which text refuses is said", str(by_line).endswith(" (91) in line 3 of authorized_keys[1]"), by_line)
    for refused in (rafendilo.Refused(rafendilo.Status.LENGTH), rafendilo.NoKey(rafendilo.Status.LENGTH, 7), by_line):
        name = f"{type(refused).__name__}, {refused.status.name},"
        for how, made in (("pickled", lambda it=refused: pickle.loads(pickle.dumps(it))), ("copied", lambda it=refused: copy.copy(it))):
            found = raised(made)
            other = made() if found is None else refused
            same = type(other) is type(refused) and vars(other) == vars(refused) and str(other) == str(refused)
            count.check(f"{name} may be {how}", same and other is not refused, repr(other), found)


def check_unsupported(count, rafendilo):
    """A build of OpenSSL may lack a curve or a digest: then a signature is none."""

    def verify(question):
        raise UnsupportedAlgorithm(f"{question} is not supported")

    with patch.object(rafendilo._verify, "_verify", verify):
        found = raised(rafendilo.is_signature, None)
        said = rafendilo.is_signature(None) if found is None else None
    count.check("what is not supported is no signature", said is False, found)


def asked_of(rafendilo, blob, **changes):
    """What log_in is given where alice offers the blob: her certificate by its authority lets her in, and a key what is changed."""
    of = rafendilo
    try:
        by = [of.fingerprint(of.certificate_contents(blob).authority)]
    except of.Refused:
        by = []
    given = {"authorized_keys": [], "authorities": by, "principals": of.IN_CERTIFICATE, "command_keys": [], "revoked": of.NO_REVOCATIONS, **changes}
    return of.Offer("alice", "", blob), of.SignedByTransport(None), of.Trusted(**given), of.Place(None, MIDDLE)


def check_no_file(count, rafendilo, key, certificate):
    """Where no revocation file was read, or nothing is said of one, no call answers."""
    host, signers = {"known_hosts": [], "host": "host", "port": 22, "unix_timestamp": 0}, {"text": b"", "identity": "alice", "unix_timestamp": 0}

    def offered(files):
        offer, _, trusted, place = asked_of(rafendilo, certificate, revoked=files)
        rafendilo.may_offer(offer, trusted, place)

    calls = {
        "log_in": lambda files: rafendilo.log_in(*asked_of(rafendilo, certificate, revoked=files)), "may_offer": offered,
        "check_host_key": lambda files: rafendilo.check_host_key(rafendilo.HostLogin(revoked=files, **host), key),
        "check_host_certificate": lambda files: rafendilo.check_host_certificate(rafendilo.HostLogin(revoked=files, **host), certificate),
        "check_signer": lambda files: rafendilo.check_signer_with_answer(b"", "file", rafendilo.Signers(revoked=files, **signers), False),
        "check_unrevoked_key": lambda files: rafendilo.check_unrevoked_key(files, key), "check_unrevoked_certificate": lambda files: rafendilo.check_unrevoked_certificate(files, certificate),
    }  # fmt: skip
    for name, call in calls.items():
        for files in (None, [None], rafendilo.NO_REVOCATIONS[0], [*rafendilo.NO_REVOCATIONS, None]):
            found = raised(call, files)
            count.check(f"{name} with {files!r:.20} for files raises TypeError", found is not None and found[0] == "TypeError", found)
    for of in (rafendilo.Trusted, rafendilo.HostLogin, rafendilo.Signers):
        default = inspect.signature(of).parameters["revoked"].default
        count.check(f"the files of a {of.__name__} have to be given", default is inspect.Parameter.empty, default)
    found = [raised(rafendilo.check_unrevoked_key, it, key) for it in ([b""], rafendilo.NO_REVOCATIONS)]
    count.check("no bytes revoke nothing, nor does the word of who asks no file", found == [None, None], found)
    none = status_of(rafendilo, rafendilo.log_in, *asked_of(rafendilo, certificate, revoked=[]))
    count.check("without a file nobody is let in", none == rafendilo.Status.UNREADABLE_REVOCATIONS, none)


def check_decided(count, rafendilo, key, certificate):
    """Nothing that decides a login is taken for granted, and a text is none that was not read."""
    offer, signed, trusted, place = asked_of(rafendilo, certificate)
    for of, names in (
        (rafendilo.Trusted, ("authorized_keys", "authorities", "principals", "command_keys", "revoked")), (rafendilo.SignedByTransport, ("flags",)),
        (rafendilo.SignedRequest, ("session_id", "signature")), (rafendilo.Offer, ("user", "algorithm", "blob")), (rafendilo.Place, ("client", "unix_timestamp")),
        (rafendilo.log_in, ("offer", "signed", "trusted", "place")),
    ):  # fmt: skip
        given = [name for name in names if inspect.signature(of).parameters[name].default is not inspect.Parameter.empty]
        count.check(f"a {of.__name__} is told {', '.join(names)}", not given, *given)
    for other in (None, True, 1, b"", rafendilo.SignedByTransport, place):
        found = raised(rafendilo.log_in, offer, other, trusted, place)
        count.check(f"nobody has seen a signature where {other!r:.30} says so", found is not None and found[0] == "TypeError", found)
    for flags, wanted in ((-1, "ValueError"), (256, "ValueError"), (1.0, "TypeError"), ("1", "TypeError")):
        found = raised(rafendilo.log_in, offer, rafendilo.SignedByTransport(flags), trusted, place)
        count.check(f"the flags {flags!r} raise {wanted}", found is not None and found[0] == wanted, found)
    for name in ("authorized_keys", "principals", "command_keys"):
        for value in (None, b"alice", "alice", bytearray(b"alice"), [None], ["alice"], rafendilo.UNREADABLE, *([rafendilo.IN_CERTIFICATE] if name != "principals" else [])):
            found = raised(rafendilo.log_in, *asked_of(rafendilo, certificate, **{name: value}))
            count.check(f"{name} that are {value!r:.40} raise TypeError", found is not None and found[0] == "TypeError", found)
        found = raised(rafendilo.log_in, *asked_of(rafendilo, key, **{name: [rafendilo.UNREADABLE]}))
        # principals are asked about certificates alone
        wanted = "(90)" if name == "principals" else f"(98) in {name}[0]"
        count.check(f"of {name} that can't be read the text is told", found is not None and found[0] == "Refused" and found[1].endswith(wanted), found)


def check_verifiers(count, rafendilo, key, certificate):
    """A verifier is asked once, of a copy, and anything but True is a no."""
    grant = rafendilo.log_in(*asked_of(rafendilo, certificate), lambda question: True)
    count.check("a verifier that says True lets alice in", type(grant) is rafendilo.Grant and grant == rafendilo.log_in(*asked_of(rafendilo, certificate)), grant)
    for answer in (False, None, 1, "yes", [True]):
        status = status_of(rafendilo, rafendilo.log_in, *asked_of(rafendilo, certificate), lambda question, answer=answer: answer)
        count.check(f"one that says {answer!r} does not", status == rafendilo.Status.NOT_SIGNED, status)

    def fails(question):
        raise KeyError(question.algorithm)

    found = raised(rafendilo.log_in, *asked_of(rafendilo, certificate), fails)
    count.check("what one raises is passed on", found is not None and found[0] == "KeyError", found)
    changed = bytearray(certificate)

    def turns(question):
        changed[:] = bytes(len(changed))
        return True

    _, *more = asked_of(rafendilo, certificate)
    found = raised(rafendilo.log_in, rafendilo.Offer("alice", "", changed), *more, turns)
    count.check("what is changed meanwhile changes nothing", found is None and not any(changed), found)
    found = raised(rafendilo.check_host_certificate, rafendilo.HostLogin([], "host", 22, rafendilo.NO_REVOCATIONS), certificate)
    count.check("a certificate of a host is asked at a time", found is not None and found[0] == "TypeError", found)


def check_authorities(count, rafendilo, authority):
    """A text of authorities: a line of a later kind is passed over, and told."""
    line, later = "ssh-ed25519 " + base64.b64encode(authority).decode(), LATER["later"]
    own = rafendilo.fingerprint(authority)
    found = rafendilo.authorities(f"# a comment\n{later}\n\n  {line} an authority\r\n{later} x\n{line}".encode())
    count.check("lines of a later kind are passed over", found == rafendilo.Authorities((own, own), (2, 5)), found)
    for name, text, number in (
        ("a line that is no key", f"{line}\nssh-ed25519\n", 2), ("half a key", f"\n{line[:40]}\n", 2), ("a text that is not UTF-8", "\xff", 1),
        ("a later kind under another name", f"{LATER['misnamed']}\n", 1),
    ):  # fmt: skip
        found = raised(rafendilo.authorities, text.encode("latin-1"))
        told = found is not None and found[0] == "NoKey" and found[1].startswith(f"line {number}: ")
        count.check(f"{name} refuses the text", told, found)


def check_blobs(count, rafendilo, maker, key, certificate):
    """A line in place of a blob is named, and what takes it apart; of what is no line nothing is said."""
    line, shown = maker.read("listed0.pub").encode(), maker.read("listed0-cert.pub").encode()
    out, host = "a line, and not its blob: read_line(line).blob", rafendilo.HostLogin([], "host", 22, rafendilo.NO_REVOCATIONS, MIDDLE)
    offer, signed, trusted, place = asked_of(rafendilo, certificate)
    by_request = rafendilo.SignedRequest(b"id", b"")
    calls = {
        "fingerprint": ("key", lambda it: rafendilo.fingerprint(it), line), "certificate_fields": ("certificate", rafendilo.certificate_fields, shown),
        "log_in": ("blob", lambda it: rafendilo.log_in(dataclasses.replace(offer, blob=it), signed, trusted, place), shown),
        "log_in, the host's key": ("host_key", lambda it: rafendilo.log_in(offer, dataclasses.replace(by_request, host_key=it), trusted, place), line),
        "log_in, the signature": ("signature", lambda it: rafendilo.log_in(offer, dataclasses.replace(by_request, signature=it), trusted, place), line),
        "may_offer": ("blob", lambda it: rafendilo.may_offer(dataclasses.replace(offer, blob=it), trusted, place), line),
        "check_host_key": ("key", lambda it: rafendilo.check_host_key(host, it), line),
        "check_host_certificate": ("certificate", lambda it: rafendilo.check_host_certificate(host, it), shown),
        "check_unrevoked_key": ("key", lambda it: rafendilo.check_unrevoked_key(rafendilo.NO_REVOCATIONS, it), line),
    }  # fmt: skip
    for name, (argument, call, given) in calls.items():
        for value, kind in ((given, "Refused"), (b"\t " + given, "Refused"), (given.decode(), "TypeError")):
            found = raised(call, value)
            count.check(f"{name} names a line that is a {type(value).__name__}", found is not None and found[0] == kind and f"{argument}: {out}" in found[1], found)
        plain, text = raised(call, given[:3]), raised(call, "a text")
        count.check(f"{name} says of other bytes what is wrong with them", plain is not None and plain[0] == "Refused" and plain[1].endswith(")"), plain)
        count.check(f"{name} names a text", text is not None and text[0] == "TypeError" and f"{argument}: a text" in text[1], text)
    signers = rafendilo.Signers(b"", "alice", MIDDLE, rafendilo.NO_REVOCATIONS)
    for name, value, said, call in (
        ("key", None, "None, and no blob", rafendilo.fingerprint),
        ("user", None, "None, and not a text", lambda it: rafendilo.log_in(dataclasses.replace(offer, user=it), signed, trusted, place)),
        ("host", 7, "7, and not a text", lambda it: rafendilo.check_host_key(dataclasses.replace(host, host=it), key)),
        ("identity", None, "None, and not a text", lambda it: rafendilo.check_signer_of_digest(b"", "file", b"", dataclasses.replace(signers, identity=it))),
        ("namespace", None, "None, and not a text", lambda it: rafendilo.sshsig_question(b"", it, b"")),
        ("signers", None, "no list of fingerprints: authorities(text).keys", lambda it: rafendilo.check_sshsig(b"", "file", b"", it)),
        ("signers", "a path", "no list of fingerprints: authorities(text).keys", lambda it: rafendilo.check_sshsig(b"", "file", b"", it)),
        ("known_hosts", "a path", "no list of the texts of files", lambda it: rafendilo.check_host_key(dataclasses.replace(host, known_hosts=it), key)),
        ("revoked", None, "no list of the texts of files, or NO_REVOCATIONS", lambda it: rafendilo.check_host_key(dataclasses.replace(host, revoked=it), key)),
        ("revoked", [None], "no list of the texts of files, or NO_REVOCATIONS", lambda it: rafendilo.check_host_key(dataclasses.replace(host, revoked=it), key)),
        ("known_hosts", ["a path"], "no list of the texts of files", lambda it: rafendilo.check_host_key(dataclasses.replace(host, known_hosts=it), key)),
        ("authorized_keys", ["a path"], "no list of the texts of files", lambda it: rafendilo.log_in(offer, signed, dataclasses.replace(trusted, authorized_keys=it), place)),
        ("command_keys", None, "no list of the texts of files", lambda it: rafendilo.log_in(offer, signed, dataclasses.replace(trusted, command_keys=it), place)),
        ("authorities", ["a line"], "no list of fingerprints: authorities(text).keys", lambda it: rafendilo.log_in(offer, signed, dataclasses.replace(trusted, authorities=it), place)),
    ):  # fmt: skip
        found = raised(call, value)
        count.check(f"an error names {name} that is {value!r}", found is not None and found[0] == "TypeError" and f"{name}: {said}" in found[1], found)
    later, hint = base64.b64decode(LATER["later"].split()[1]), "of a later kind of key, which is not read"
    # of a request they are compared, and not read
    for name in {*calls} - {"log_in, the host's key", "log_in, the signature"}:
        argument, call, _ = calls[name]
        found = raised(call, later)
        count.check(f"{name} names a later kind of key", found is not None and found[0] == "Refused" and found[1].endswith(f": {argument}: {hint}"), found)
    found = raised(rafendilo.check_unrevoked_key, [b"x\n"], string(b"key@example.com") + string(string(LATER_NAME)))
    count.check("where a key is read, no later kind is named", found is not None and found[0] == "Refused" and hint not in found[1], found)
    maker.key("short", "rsa -b 1024")
    short, lines = maker.blob("short"), f"{maker.read('short.pub')}\n".encode()
    asked = rafendilo.Offer("alice", "rsa-sha2-512", short), rafendilo.SignedRequest(b"id", string(b"rsa-sha2-512") + string(bytes(128)))
    found = raised(rafendilo.log_in, *asked, dataclasses.replace(trusted, authorized_keys=[lines]), place)
    count.check("a key is named that is too short for verifiers", found is not None and "(84): blob: a key that no verifier may take" in found[1], found)
    found = raised(rafendilo.sshsig_hash, b"-----BEGIN SSH SIGNATURE-----\n")
    count.check("an armour that is given as a signature is named", found is not None and found[1].endswith(": signature: an armour, and not its bytes: read_armour(text)"), found)


def check_help(count, rafendilo):
    """help has each call before the classes, and each field of what is given and answered with a text of its own."""
    page = pydoc.plaintext.document(rafendilo)
    calls = [it for it in rafendilo.__all__ if inspect.isfunction(getattr(rafendilo, it))]
    front = page[: page.index("\nCLASSES")]
    missing = [it for it in calls if not re.search(rf"^    {it}: [A-Z]", front, re.M)]
    count.check(f"help has {len(calls)} calls in front", len(calls) > 40 and not missing, missing)
    values = [it for it in map(rafendilo.__dict__.get, rafendilo.__all__) if inspect.isclass(it) and dataclasses.is_dataclass(it)]
    # of whose fields the sentence above speaks
    given = [it for it in values if it.__name__ not in ("Authorities", "AuthorizedEntry", "Contents", "KnownHost", "Line", "Question")]
    own = [(it, name) for it in given for name in it.__annotations__]
    missing = [(it.__name__, name) for it, name in own if not re.search(rf"^    {name}: \S", it.__doc__, re.M)]
    count.check(f"help has a text for each of {len(own)} fields", len(own) > 35 and not missing, missing)
    missing = [it.name for it in rafendilo.Status if f"    {it.name}: " not in rafendilo.Status.__doc__]
    missing += [it.name for it in rafendilo.Permits if it > 31 and f"    {it.name}: " not in rafendilo.Permits.__doc__]
    count.check("and for each status and bit that needs one", not missing, missing)


# what stands in ssh_config for the host, and which files are found: by their names, of those that are there
SSH_FILES = [
    ("UserKnownHostsFile {0}/a\nGlobalKnownHostsFile {0}/b", ["a", "b"]), ("UserKnownHostsFile {0}/a {0}/missing {0}/b\nGlobalKnownHostsFile none", ["a", "b"]),
    ("UserKnownHostsFile none\nGlobalKnownHostsFile none", []), ("UserKnownHostsFile {0}/missing\nGlobalKnownHostsFile {0}/a/b", []),
    ("UserKnownHostsFile {0}/%h\nGlobalKnownHostsFile {0}/b {0}/%h", ["host", "b", "percent"]), ("UserKnownHostsFile {0}/a\nGlobalKnownHostsFile {0}/a", ["a", "a"]),
    ("Hostname b\nUserKnownHostsFile {0}/%h\nGlobalKnownHostsFile none", ["b"]),
    # of these it can't be told
    ('UserKnownHostsFile "{0}/a b"', ValueError), ('UserKnownHostsFile none\nGlobalKnownHostsFile {0}/a "{0}/a b"', ValueError),
    ("KnownHostsCommand /bin/true\nUserKnownHostsFile {0}/a", ValueError), ("UserKnownHostsFile {0}/%%h", ValueError), ("UserKnownHostsFile {0}", OSError),
    ("UserKnownHostsFile none\nGlobalKnownHostsFile ~/no/such/file", []), ("UserKnownHostsFile none\nGlobalKnownHostsFile ~no-such-user/a", ValueError),
    ("NoSuchOption yes", OSError),
]  # fmt: skip


def check_files_of_ssh(count, rafendilo):
    """The texts of the files that a real ssh names are read; where it names others than files, or what it names can't be told, it raises."""
    real = shutil.which("ssh")
    with tempfile.TemporaryDirectory() as folder:
        for name in ("a", "b", "a b", "host"):
            with open(f"{folder}/{name}", "w", encoding="ascii") as file:
                file.write(name)
        with open(f"{folder}/%h", "w", encoding="ascii") as file:
            file.write("percent")
        with open(f"{folder}/ssh", "w", encoding="ascii") as file:
            file.write(f'#!/bin/sh\nexec {real} -F {folder}/config "$@"\n')
        os.chmod(f"{folder}/ssh", 0o755)
        with patch.dict(os.environ, PATH=f"{folder}:{os.environ['PATH']}"):
            for lines, wanted in SSH_FILES:
                with open(f"{folder}/config", "w", encoding="ascii") as file:
                    file.write(lines.format(folder) + "\n")
                found, texts = raised(rafendilo.known_hosts_of_ssh, "host"), None
                if found is None:
                    texts = [it.decode() for it in rafendilo.known_hosts_of_ssh("host")]
                same = texts == wanted if isinstance(wanted, list) else found is not None and issubclass(getattr(builtins, found[0], OSError), wanted)
                count.check(f"known_hosts_of_ssh where ssh_config says {lines!r}", same, texts, found)
            found = raised(rafendilo.known_hosts_of_ssh, "-Gx")
            count.check("what ssh takes for no host raises OSError", found is not None and found[0] == "OSError", found)
        with patch.dict(os.environ, PATH=folder + "/a"):
            found = raised(rafendilo.known_hosts_of_ssh, "host")
            count.check("without ssh it raises OSError", found is not None and issubclass(getattr(builtins, found[0]), OSError), found)


# what Python 3.8 subscripts in annotations alone, which are never evaluated, beside what is of collections.abc
BUILT_IN = {"dict", "frozenset", "list", "set", "tuple", "type"}


def subscripted(tree):
    """The names that are subscripted where that is evaluated."""
    if isinstance(tree, ast.Subscript) and isinstance(tree.value, ast.Name):
        yield tree.value.id
    for name, value in ast.iter_fields(tree):
        if name not in ("annotation", "returns"):
            for inner in value if isinstance(value, list) else [value]:
                yield from subscripted(inner) if isinstance(inner, ast.AST) else ()


def check_old_python(count, rafendilo):
    """No module asks for types at run time as Python 3.8 does not have them."""
    paths = glob.glob(f"{os.path.dirname(rafendilo.__file__)}/**/*.py", recursive=True)
    for path in paths:
        with open(path, encoding="utf-8") as file:
            tree = ast.parse(file.read())
        imported = {it.name for of in ast.walk(tree) if isinstance(of, ast.ImportFrom) and of.module == "collections.abc" for it in of.names}
        wrong = (imported | BUILT_IN) & {*subscripted(tree)}
        count.note(f"{os.path.basename(path)} may be imported in Python 3.8", not wrong, *wrong)
    count.check("the package has its modules", len(paths) > 20, len(paths))


def check_python(count, rafendilo, maker):
    """Over the keys and certificates of certificate_calls."""
    key, authority = maker.blob("listed0"), maker.blob("lister0")
    certificate, _ = certificate_of(maker, "lister0", "listed0", CASES["plain"])
    check_truth(count, rafendilo)
    check_principals(count, rafendilo, key, authority)
    check_numbers(count, rafendilo, key, authority, certificate)
    check_values(count, rafendilo, maker)
    check_lists(count, rafendilo)
    check_texts(count, rafendilo, key, authority)
    check_refused(count, rafendilo)
    check_unsupported(count, rafendilo)
    check_nonces(count, rafendilo, key, authority)
    check_names(count, rafendilo)
    check_old_python(count, rafendilo)
    check_no_file(count, rafendilo, key, certificate)
    check_decided(count, rafendilo, key, certificate)
    check_verifiers(count, rafendilo, key, certificate)
    check_authorities(count, rafendilo, authority)
    check_blobs(count, rafendilo, maker, key, certificate)
    check_help(count, rafendilo)
    check_files_of_ssh(count, rafendilo)
    line = "ssh-ed25519 " + base64.b64encode(authority).decode()
    check_forwards(count, line, lambda text: rafendilo.log_in(*asked_of(rafendilo, authority, authorized_keys=[text])))
