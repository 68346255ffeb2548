"""What sshkey-check says to who errs, its objects of JSON, its fingerprints against `ssh-keygen -l`, and what shells complete of its words,
for checks/foreign."""
import base64
import json
import os
import re

from lib.harness import ROOT, ssh_keygen, string

from .example_calls import INVALID, UNTOLD, VALID
from .linked import run
from .login_options import certificate
from .made import END, FIRST, MIDDLE, WINDOW
from .verdicts import LET_IN

CA = "--ca FILE --user NAME [--from ADDRESS] [--at TIME] [--revoked FILE].. [--json] [FILE]"
HOST = "--host NAME [--port NUMBER] --known-hosts FILE.. [--at TIME] [--revoked FILE].. [--json] [FILE]"
LOGIN = (
    "login NAME KEY [--authorized-keys FILE].. [--authorities FILE [--principals FILE]..] [--user-authorities FILE] [--command-keys FILE]"
    " [--from ADDRESS] [--host NAME] [--at TIME] [--revoked FILE].. [--json]"
)
VERIFY = "verify -k KEYS -n NAMESPACE -s SIGNATURE [--json] [FILE]"
SIGNER = "verify -f SIGNERS -I IDENTITY -n NAMESPACE -s SIGNATURE [-r REVOKED].. [--at TIME] [--json] [FILE]"
SHOW, FINGERPRINT = "[--json] [FILE]", "fingerprint [--art] [--json] [FILE].."
FIND = "-Y find-principals -f SIGNERS -s SIGNATURE [-O verify-time=TIME]"
KEYGEN = "-Y verify -f SIGNERS -I IDENTITY -n NAMESPACE -s SIGNATURE [-r REVOKED].. [-O verify-time=TIME]"
UNKNOWN = "-Y check-novalidate -n NAMESPACE -s SIGNATURE [-O verify-time=TIME]"
REVOKED = "revoked [--json] [FILE].."
USAGES = [SHOW, CA, HOST, LOGIN, VERIFY, SIGNER, FINGERPRINT, REVOKED, FIND, KEYGEN, UNKNOWN]
# words that ask nothing, what is said of them, and of which usage
SLIPS = [
    ("--ca ca id", "--ca wants --user NAME", CA), ("--user x", "--user wants --ca FILE", CA), ("--from ::1", "--from wants --ca FILE", CA),
    ("--ca", "--ca wants FILE", SHOW), ("--ca a --user b --ca c", "--ca is given twice", CA), ("--ca a --user b c d", "d is a word too many", CA),
    ("--ca a --user b --keys c", "--ca takes no --keys", CA), ("--jsn id", "--jsn is no option", SHOW), ("-x id", "-x is no option", SHOW),
    ("-c a", "-c is no option", SHOW), ("-k a", "--keys wants a question: --ca, --host, login, verify or fingerprint", SHOW), ("--json=x", "--json has no value", SHOW), ("a b", "b is a word too many", SHOW),
    ("--at 1", "--at wants a question: --ca, --host, login, verify or fingerprint", SHOW), ("--keys a", "--keys wants a question: --ca, --host, login, verify or fingerprint", SHOW),
    ("--host h", "--host wants --known-hosts FILE", HOST), ("--port 22", "--port wants --host NAME", HOST),
    ("--host h --known-hosts k --ca c", "--host takes no --ca", HOST), ("--host h --host h", "--host is given twice", HOST),
    ("login a b", "login wants --authorized-keys, --authorities, --user-authorities or --command-keys", LOGIN),
    ("login a --authorized-keys b", "login wants NAME KEY", LOGIN), ("login a b c --from ::1", "c is a word too many", LOGIN),
    ("login a b --authorized-keys c --user b", "login takes no --user", LOGIN), ("login a b --ca c", "login takes no --ca", LOGIN),
    ("login a b --authorized-keys c --principals d", "--principals wants --authorities FILE", LOGIN), ("login a b --principals d", "--principals wants --authorities FILE", LOGIN),
    ("--json login a", "login wants NAME KEY", LOGIN), ("--from ::1 login a b", "login wants --authorized-keys, --authorities, --user-authorities or --command-keys", LOGIN),
    ("--ca a --user b login", "login wants NAME KEY", LOGIN), ("-k a verify", "verify wants --namespace NAMESPACE", VERIFY), ("-Y verify -k a", "verify takes no --keys", KEYGEN),
    ("login a b --authorities c --user-authorities d", "login takes one of --authorities and --user-authorities", LOGIN),
    ("login a b --command-keys c --command-keys d", "--command-keys is given twice", LOGIN),
    ("verify", "verify wants --keys KEYS, or --signers SIGNERS", VERIFY), ("verify -k a -s b", "verify wants --namespace NAMESPACE", VERIFY),
    ("verify -k a -n b", "verify wants --signature SIGNATURE", VERIFY), ("verify -k", "--keys wants KEYS", VERIFY),
    ("verify -k a -n b -s c --at 1", "verify takes no --at", VERIFY), ("verify -f a -n b -s c", "verify wants --identity IDENTITY", SIGNER),
    ("verify -I a -n b -s c", "verify wants --signers SIGNERS", SIGNER), ("verify -z", "-z is no option", VERIFY),
    ("fingerprint --ca a b", "fingerprint takes no --ca", FINGERPRINT), ("--art a", "--art wants a question: --ca, --host, login, verify or fingerprint", SHOW),
    ("revoked --revoked a b", "revoked takes no --revoked", REVOKED), ("-Y find-principals -s a", "find-principals wants --signers SIGNERS", FIND), ("-Y find-principals -n a", "find-principals takes no --namespace", FIND),
    ("-Y verify -f a -I b -n c -s d e", "e is a word too many", KEYGEN), ("-Y verify -f a -I b -n c -s d --json", "verify takes no --json", KEYGEN),
    ("-Y check-novalidate -s a", "check-novalidate wants --namespace NAMESPACE", UNKNOWN), ("-Y", "-Y is no option", SHOW),
    ("-Y sign -n git -f a b", "-Y sign is nothing that is answered here", UNKNOWN),
]  # fmt: skip


def is_no_call(ran):
    """Whether it ended with 2, one line of what is wrong, and one of usage."""
    told = re.fullmatch(r"sshkey-check: .+\nusage: sshkey-check (.+)\n", ran.stderr)
    return ran.returncode == UNTOLD and not ran.stdout and bool(told) and told[1] in USAGES


def check_slips(count, program):
    for words, said, usage in SLIPS:
        ran = run([program, *words.split()], input="")
        same = is_no_call(ran) and ran.stderr == f"sshkey-check: {said}\nusage: sshkey-check {usage}\n"
        count.check(f"sshkey-check {words} says what is wrong", same, ran)
    shown = run([program, "--help"]).stdout.splitlines()
    usages = [it[len("usage: sshkey-check ") :] for it in shown[: len(USAGES)]]
    count.check("sshkey-check --help has each usage", usages == USAGES and not shown[len(USAGES)], shown)


def check_wrong_files(count, programs, maker):
    """What is said where another file is given than is wanted, an empty one, and of a certificate whose time is not."""
    nobodys = maker.write("nobodys", maker.certificate("admitting", "entering", *WINDOW) + "\n")
    maker.certificate("admitting", "entering", "-n", "alice", *WINDOW)
    key, shown, ca = (maker.path(it) for it in ("entering.pub", "entering-cert.pub", "admitting.pub"))
    bound = maker.write("bound_keys", f'from="192.0.2.0/24" {maker.read("entering.pub")}\n')
    known = maker.write("known-port", f"[h]:22 {maker.read('entering.pub')}\n")
    users = maker.write("authorities", f"alice,bob {maker.read('admitting.pub')}\n")
    empty, copy = maker.write("empty", "\n# nothing\n"), maker.write("a-key", f"{maker.read('entering.pub')}\n")
    asked, named = ["--ca", ca, "--user", "alice", "--at"], "(its name is entering-cert.pub) "
    login = ["--from", "::1", "--authorized-keys"]
    missing, private = "a key, and no certificate", maker.path("entering")
    public = f"{private}: a private key (the public one is in {private}.pub)"
    for words, status, said in (
        ([*asked, "20240116Z", key], INVALID, f"{key}:1: {missing} {named}(12)"), ([key], INVALID, f"{key}:1: {missing} {named}(12)"),
        ([copy], INVALID, f"{copy}:1: {missing} (12)"),
        (["login", "alice", key, "--authorities", ca], INVALID, f"{key}:1: {missing} {named}(90)"),
        ([*asked, str(END), shown], INVALID, f"{shown}:1: its time was over at 2024-02-01T00:00:00Z (33)"),
        ([*asked, str(FIRST - 1), shown], INVALID, f"{shown}:1: its time begins at 2024-01-01T00:00:00Z (33)"),
        (["--ca", users, "--user", "alice", shown], UNTOLD, f"{users}:1: no key: the line begins with users, as for sshkey-principals"),
        (["login", "alice", shown, "--at", str(MIDDLE), "--user-authorities", ca], INVALID,
         f"{ca}:1: no users before the key: a line is NAME[,NAME..] KEY\nsshkey-check: {shown}:1: another authority (90)"),
        (["login", "eve", shown, "--at", str(MIDDLE), "--user-authorities", users], INVALID,
         f"{users}: no line has a key for eve\nsshkey-check: {shown}:1: another authority (90)"),
        (["login", "alice", key, "--authorized-keys", bound], INVALID, f"{bound}:1: a line for certain places: it wants --from ADDRESS (96)"),
        (["login", "alice", key, *login, bound], INVALID, f"{bound}:1: a line for other places (93)"),
        (["--", "login"], UNTOLD, "login: No such file or directory"),
        (["--ca", empty, *asked[2:], str(MIDDLE), shown], INVALID, f"{empty}: it has no line\nsshkey-check: {shown}:1: another authority (90)"),
        ([*asked[:3], "eve", "--at", str(MIDDLE), shown], INVALID, f"{shown}:1: another principal (90)"),
        ([*asked, str(MIDDLE), nobodys], INVALID, f"{nobodys}:1: no principals, or some that are not read (90)"),
        (["login", "alice", key, *login, empty], INVALID, f"{empty}: it has no line\nsshkey-check: {key}:1: no line is for the key (90)"),
        (["--host", "h", "--known-hosts", empty, key], INVALID,
         f"{empty}: it has no line\nsshkey-check: {key}:1: no key or authority is known for the host (53)"),
        *((["--host", it, "--known-hosts", known, key], INVALID, f"{key}:1: the host has a port: write --host NAME --port NUMBER (102)") for it in ("h:22", "[h]:22")),
        (["--host", "127.1", "--known-hosts", known, key], INVALID, f"{key}:1: a host that is like an address, and has no one text (102)"),
        ([empty], UNTOLD, f"{empty}: no certificate was given"), (["fingerprint", empty], UNTOLD, f"{empty}: no key was given"),
        ([private], UNTOLD, public), (["fingerprint", private], UNTOLD, public), (["--ca", private, "--user", "alice", shown], UNTOLD, public),
        (["login", "alice", private, *login, copy], UNTOLD, public),
        (["fingerprint", maker.path("none")], UNTOLD, f"{maker.path('none')}: No such file or directory"),
        (["fingerprint", maker.path("none\u202e\x1b[2J\\\udcff größe")], UNTOLD, f"{maker.path('none')}\\342\\200\\256\\033[2J\\\\377 größe: No such file or directory"),
    ):  # fmt: skip
        for program in programs:
            ran = run([program, *words], input="")
            same = (ran.returncode, ran.stderr) == (status, f"sshkey-check: {said}\n") and ran.stdout in ("", "refused\n")
            count.check(f"sshkey-check says: {said}", same, ran)


# ---- fingerprints


def check_fingerprints(count, programs, maker):
    """A key's fingerprint is that of `ssh-keygen -l`, in whatever file the key stands."""
    kinds = {f"printed{at}": kind for at, kind in enumerate(("ed25519", "ecdsa -b 256", "ecdsa -b 384", "ecdsa -b 521", "rsa -b 2048"))}
    for name, kind in kinds.items():
        maker.key(name, kind)
        maker.certificate("admitting", name, "-n", "alice")
    keys = [maker.read(f"{it}.pub") for it in kinds]
    bare = " ".join(keys[0].split()[:2])
    lines = [
        "# keys", "", *keys, *(maker.read(f"{it}-cert.pub") for it in kinds), f'no-pty,command="a b" {keys[1]}', f"host.example {keys[2]} of a host",
        f"host.example {bare}", f"{bare} \tcaf\xe9", f"{bare} \x1b[2J",
    ]  # fmt: skip
    path = maker.path("every-key")
    with open(path, "w", encoding="latin-1") as file:
        file.write("".join(f"{it}\n" for it in lines))
    wanted, drawn = (run(["ssh-keygen", words, "-f", path]).stdout.splitlines() for words in ("-l", "-lv"))
    for program in programs:
        ran = run([program, "fingerprint", path])
        same = (ran.returncode, ran.stdout.splitlines(), ran.stderr) == (VALID, wanted, "") and len(wanted) == len(lines) - 2
        count.check(f"sshkey-check fingerprint of {len(wanted)} lines", same, *set(ran.stdout.splitlines()) ^ set(wanted), ran.stderr)
        ran = run([program, "fingerprint", maker.path("printed0.pub"), "-", maker.path("printed1.pub")], input=f"{bare}\nno key\n@revoked * {bare}\n")
        said = ran.returncode, [it.split()[1] for it in ran.stdout.splitlines()], re.findall(r"^sshkey-check: (\S+):", ran.stderr, re.M)
        known = [it.split()[1] for it in wanted[:2]]
        count.check("sshkey-check fingerprint of several files", said == (INVALID, [*known[:1] * 3, known[1]], ["(stdin):2"]), ran)
        ran = run([program, "fingerprint", "--json", path])
        told = [json.loads(it) for it in ran.stdout.splitlines()]
        shown = [(it["public_key"], it["line"]) for it in told]
        numbered = [(it.split()[1], at) for it, at in zip(wanted, range(3, len(lines) + 1))]
        same = shown == numbered and told[0]["type"] == "ssh-ed25519" and told[5]["type"] == "ssh-ed25519-cert-v01@openssh.com"
        of_bytes = (told[-2]["comment"], base64.b64decode(told[-2]["comment_base64"]), told[-1]["comment"])
        count.check("sshkey-check fingerprint --json", same and "random_art" not in told[0] and of_bytes == ("caf\ufffd", b"caf\xe9", "\x1b[2J"), ran)
        ran = run([program, "fingerprint", "--art", path])
        count.check("sshkey-check fingerprint --art draws as ssh-keygen -lv", ran.returncode == VALID and ran.stdout.splitlines() == drawn and len(drawn) == 12 * len(wanted), ran)
        ran = run([program, "fingerprint", "--art", "--json", path])
        pictures = ["\n".join(drawn[at + 1 : at + 12]) for at in range(0, len(drawn), 12)]
        count.check("sshkey-check fingerprint --art --json", [json.loads(it)["random_art"] for it in ran.stdout.splitlines()] == pictures, ran)


# ---- JSON

# a text that JSON and terminals take for more than a text
TEXT = '"\\\x1b\n\x7f\u0085\u202e\u2028\u5b89'


def objects(ran):
    """What it printed, which is objects, one a line, of printable characters."""
    lines = ran.stdout.splitlines()
    return [json.loads(it) for it in lines] if ran.stdout.isprintable() or all(map(str.isprintable, lines)) else []


def verdict(status, name, meaning, **more):
    return {"verdict": "valid" if status == 0 else "refused", "status": status, "name": name, "meaning": meaning, **more}


def check_shown_objects(count, programs, maker):
    """A certificate that is shown is an object with all that it says."""
    of, serial = string(TEXT.encode()), 2**64 - 1
    by, own = (ssh_keygen("-l", "-f", maker.path(f"{it}.pub"), text=True).stdout.split()[1] for it in ("admitting", "entering"))
    hostile = certificate(maker, "admitting", maker.read("entering.pub"), of, {"force-command": of}, {"x@example.com": b""}, TEXT.encode())
    plain = maker.certificate("admitting", "entering", "-h", "-n", "a,b", "-z", str(serial), *WINDOW)
    path = maker.write("shown", f"{hostile}\n# x\n{plain}\nssh-ed25519 AAAA\n")
    common = {"file": path, "verdict": "shown", "authority": by, "public_key": own, "type": "ssh-ed25519-cert-v01@openssh.com", "signed_by": "ssh-ed25519"}
    for program in programs:
        ran = run([program, "--json", path])
        found = objects(ran)
        count.check("sshkey-check --json prints an object a line", ran.returncode == INVALID and len(found) == 3, ran)
        said = found[0]
        same = common.items() <= said.items() and (said["line"], said["key_id"], said["principals"]) == (1, TEXT, [TEXT])
        same = same and said["critical_options"] == [{"name": "force-command", "value": TEXT}] and said["extensions"] == [{"name": "x@example.com", "value": None}]
        count.check("an object has texts as they are", same, said)
        wanted = {
            **common, "line": 3, "key_id": "id", "serial": serial, "valid_after": FIRST, "valid_before": END, "certificate_type": "host",
            "principals": ["a", "b"], "critical_options": [], "extensions": [],
        }  # fmt: skip
        count.check("an object has all that a certificate says", found[1] == wanted, found[1], wanted)
        wanted = {"file": path, "line": 4, **verdict(13, "LENGTH", "a length that passes the bytes")}
        count.check("an object says that a line is no certificate", found[2] == wanted, found[2])


def check_verdict_objects(count, programs, maker):
    """A verdict is an object, with which certificate it is, and to what it lets in."""
    words = ["-n", "alice", "-z", "7", *WINDOW]
    by = ssh_keygen("-l", "-f", maker.path("admitting.pub"), text=True).stdout.split()[1]
    maker.certificate("admitting", "entering", *words, "-O", "force-command=date", "-O", "no-pty")
    ca, key, shown = (maker.path(it) for it in ("admitting.pub", "entering.pub", "entering-cert.pub"))
    options = 'command="ls",permitopen="h:80",permitopen="[::1]:*",no-pty,tunnel="3",environment="A=b",expiry-time="20240201Z"'
    lines = maker.write("authorized_keys", f"# x\n{options} {maker.read('entering.pub')}\n")
    bound = maker.write("bound_keys", f'restrict,permitopen="h:80" {maker.read("entering.pub")}\n')
    known, text = maker.write("known", f"h {maker.read('entering.pub')}\n"), maker.write("asked", "a text")
    signature = maker.write("armour.sig", ssh_signature(maker))
    identity = {"key_id": "id", "serial": 7, "authority": by, "valid_after": FIRST, "valid_before": END}
    good = verdict(0, "DONE", "valid")
    by_authority, by_line = (verdict(0, "DONE", LET_IN, source=it) for it in ("authority", "authorized_keys"))
    permitted = ["port forwarding", "agent forwarding", "X11 forwarding", "user rc"]
    flags = {"touch_required": True, "verification_required": True}
    over = verdict(33, "OUT_OF_WINDOW", "its time was over at 2024-02-01T00:00:00Z")
    anywhere = [{"host": "*", "port": None}]
    at = ["--at", str(MIDDLE)]

    def login(path, second=MIDDLE):
        return ["login", "alice", key, "--authorized-keys", path, "--at", str(second)]

    for name, asked, wanted in (
        ("--ca", ["--ca", ca, "--user", "alice", *at, shown],
         {"file": shown, "line": 1, **by_authority, **identity, "command": "date", "permits": [*permitted, "tunnels"], **flags}),
        ("--ca, over", ["--ca", ca, "--user", "alice", "--at", str(END), shown], {"file": shown, "line": 1, **over, **identity}),
        ("login", login(lines),
         {"file": key, "line": 1, **by_line, "by_file": lines, "by_line": 2, "command": "ls", "permits": [*permitted, "tunnels"], **flags,
          "forwards_to": [{"host": "h", "port": 80}, {"host": "::1", "port": None}], "listens_at": anywhere, "tunnel": "3", "environment": ["A=b"],
          "expires": END, "expires_latest": END}),
        ("login, restricted", login(bound),
         {"file": key, "line": 1, **by_line, "by_file": bound, "by_line": 1, "command": None, "permits": ["any command"], **flags, "forwards_to": [],
          "listens_at": [], "tunnel": None, "environment": [], "expires": None, "expires_latest": None}),
        ("login, refused", login(lines, END + 1),
         {"file": key, "line": 1, **verdict(91, "LINE_EXPIRED", "a line whose time is over", source="authorized_keys"), "by_file": lines, "by_line": 2}),
        ("--host", ["--host", "h", "--known-hosts", known, key], {"file": key, "line": 1, **good}),
        ("--host, another", ["--host", "g", "--known-hosts", known, key],
         {"file": key, "line": 1, **verdict(53, "HOST_UNKNOWN", "no key or authority is known for the host")}),
        ("verify", ["verify", "-k", key, "-n", "file", "-s", signature, text], {"file": signature, "message": text, **good}),
        ("verify, refused", ["verify", "-k", ca, "-n", "file", "-s", signature, text],
         {"file": signature, "message": text, **verdict(55, "SIGNER_NOT_ALLOWED", "no allowed signer")}),
    ):  # fmt: skip
        # what a plain key's signature has to say, nothing asks
        wanted = {**wanted, "verification_required": False} if "verification_required" in wanted else wanted
        for program in programs:
            for words in (["--json", *asked], [*asked, "--json"]):
                ran = run([program, *words])
                same = objects(ran) == [wanted] and ran.returncode == (VALID if wanted["status"] == 0 else INVALID)
                count.check(f"sshkey-check {words[0]} .. {words[-1]}: --json of {name}", same, ran, wanted)


def ssh_signature(maker):
    """The armour of a signature by the key of a text."""
    maker.signature("entering", "a text")
    return maker.read("signed.sig") + "\n"


def check_page(count):
    """The manual page names each member of an object."""
    with open(f"{ROOT}/helpers/report.c", encoding="ascii") as file:
        names = set(re.findall(r'\b(?:json|print)_\w+\("(\w+)"', file.read())) | {"file", "host", "name"}
    with open(f"{ROOT}/helpers/sshkey-check.1", encoding="ascii") as file:
        page = file.read()
    page = page[page.index(".Ss JSON") :]
    missing = {it for it in names if not re.search(rf"(?<![\w-]){it}(?![\w-])", page)}
    count.check(f"sshkey-check(1) has the {len(names)} names of JSON", not missing and len(names) > 30, missing, names)


# ---- completion


def check_completion(count, program):
    """Both shells are told each option and each word that the program takes, and bash gives those that go with what is typed."""
    taken = set(re.findall(r"(?<!\S)\[?(--[a-z-]+|-[a-zA-Z])\b", "\n".join(USAGES)))
    for name in ("sshkey-check.bash", "_sshkey-check"):
        with open(f"{ROOT}/helpers/{name}", encoding="ascii") as file:
            text = file.read()
        told = {it for it in taken if re.search(rf"(?<![\w-]){it}(?![\w-])", text)}
        words = {it for it in ("login", "verify", "fingerprint", "revoked") if re.search(rf"\b{it}\b", text)}
        count.check(f"{name} has each option and each word", told == taken and len(words) == 4, taken - told, words)
    for typed, wanted, other in (
        (["--k"], {"--known-hosts"}, "--keys"), (["lo"], {"login"}, "verify"), (["login", "--f"], {"--from"}, "--user"),
        (["login", "--a"], {"--authorized-keys", "--authorities", "--at"}, "--ca"), (["--a"], {"--at"}, "--authorized-keys"),
        (["verify", "-"], {"-k", "-f", "-I", "-n", "-s", "-r", "--at", "--json"}, "--ca"), (["fingerprint", "--"], {"--art", "--json"}, "--ca"),
        (["-Y", "ver"], {"verify"}, "find-principals"), (["-Y", "verify", "-"], {"-f", "-I", "-n", "-s", "-r", "-O"}, "--ca"),
        (["--ca", f"{ROOT}/VER"], {f"{ROOT}/VERSION"}, "--user"),
    ):  # fmt: skip
        script = f'. "{ROOT}/helpers/sshkey-check.bash"; COMP_WORDS=(sshkey-check "$@"); COMP_CWORD=$#; _sshkey_check; printf "%s\\n" "${{COMPREPLY[@]}}"'
        ran = run(["bash", "-c", script, "bash", *typed], cwd=os.path.dirname(program))
        found = set(ran.stdout.split())
        count.check(f"bash completes {typed}", wanted <= found and other not in found and not ran.stderr, ran)


def check_answers(count, programs, maker):
    check_slips(count, programs[0])
    check_wrong_files(count, programs, maker)
    check_fingerprints(count, programs, maker)
    check_shown_objects(count, programs, maker)
    check_verdict_objects(count, programs, maker)
    check_page(count)
    check_completion(count, programs[0])
