"""Why the library refuses a login that each version of OpenSSH lets in, for checks/user-keys. Each cause is a row of
docs/OPENSSH.md."""
import re

from lib.harness import blob_of, string

from .user_key_questions import EARLY_TIMES, UNTOLD_FROM, UNTOLD_HOSTS, UNTOLD_LISTENED, UNTOLD_TUNNELS, WHITE_TIMES

UNTOLD = r"no: line (\d+) cannot be told"
# options without a blank outside quotes
OPTIONS = rb'(?:(?:[^ \t"]|"(?:\\"|[^"\\]|\\(?!"))*")+[ \t]+)?'
# after the key id stands the length of the names
LISTS_NOBODY = re.compile(rb"id\d*\0\0\0\0")


def has_value(values, *names):
    """Whether a line has an option of one of these names with one of these values."""
    written = (re.escape(it.replace('"', '\\"').encode()) for it in values)
    of_names = "|".join(names).encode()
    found = re.compile(rb'(?i)(?:%s)="(?:%s)"' % (of_names, b"|".join(written)))
    return lambda it, line: bool(found.search(line))


def is_no_entry(it, line):
    """Whether the line does not have the fields of the key that counts, with options or without, as each version reads them."""
    name, word = (it.authority or it.offered).encode().split()
    return not re.match(rb"[ \t]*" + OPTIONS + re.escape(name) + rb"[ \t]+" + re.escape(word) + rb"[\v\f\r]*(?:[ \t]|\Z)", line.split(b"\0")[0])


def is_no_text(it, line):
    """Whether the line is no UTF-8 up to where sshd takes it to end."""
    line = line.split(b"\0")[0]
    try:
        (line.split(b"#")[0] if it.by == "principals" else line).decode()
    except UnicodeDecodeError:
        return True
    return False


# of each cause what is answered, and whether it is the cause, given the question and the line that the answer names
CAUSES = {
    "a time up to the start of 1970": (UNTOLD, has_value(EARLY_TIMES, "expiry-time")),
    "a time without Z, within 14 hours": (UNTOLD, lambda it, line: bool(re.search(rb'(?i)expiry-time="\d{8,14}"', line))),
    "white space in a time": (UNTOLD, has_value(WHITE_TIMES, "expiry-time")),
    "a port that is no digits, or follows a slash": (UNTOLD, has_value([*UNTOLD_HOSTS, *UNTOLD_LISTENED], "permitopen", "permitlisten")),
    "a tunnel that is no digits": (UNTOLD, has_value(UNTOLD_TUNNELS, "tunnel")),
    "a list of addresses that is malformed here": (UNTOLD, has_value(UNTOLD_FROM, "from")),
    "the key in a line that is no entry here": (UNTOLD, is_no_entry),
    "a line that is no UTF-8": (UNTOLD, is_no_text),
    "a certificate that lists nobody": ("no: not allowed by line ", lambda it, line: bool(LISTS_NOBODY.search(blob_of(it.offered)))),
    "an empty command": ("no: certificate", lambda it, line: string(b"force-command") + string(string(b"")) in blob_of(it.offered)),
}  # fmt: skip


def cause_of(it, answer):
    """The name of the first cause that fits, or None."""
    number, lines = re.search(r"line (\d+)", answer), it.text.split(b"\n")
    line = lines[int(number[1]) - 1] if number else b""
    # a line ends at a CR and a line feed
    line = line.removesuffix(b"\r") if number and int(number[1]) < len(lines) else line
    return next((name for name, (begins, is_it) in CAUSES.items() if re.match(begins, answer) and is_it(it, line)), None)
