"""Which files the helpers of sshd believe, as whom they run and what they log, for checks/foreign. Of a user's file the judge is sshd
with StrictModes (sshd_config(5)), where it reads the file itself. It takes root's rights to make such files."""
import os
import pwd
import resource
import shutil
import tempfile
from concurrent.futures import ThreadPoolExecutor

from .authorized_keys import CONFIGURATION
from .linked import run
from .principals import logs_in
from .revocation_calls import made_list
from .users import made_user

STRICT = CONFIGURATION.replace("StrictModes no", "StrictModes yes")
READING = "AuthorizedKeysFile {0}/%u\n"
ASKING = "AuthorizedKeysFile none\nAuthorizedKeysCommand {1} {0} %u %t %k\nAuthorizedKeysCommandUser {2}\n"
# where nobody but root writes, on the whole path
SAFE = "/var/lib"
# in how much memory, shared libraries too, a file is read that is longer
LEAST_ROOM = 32 << 20
# names, what a shell does in a new folder that has the file in the folder keys, and whether it is believed then
FILES = [
    ("as it is", "", True), ("of mode 600 and the user's", "chown $user $file && chmod 600 $file", True), ("of mode 666", "chmod 666 $file", False),
    ("of mode 664", "chmod 664 $file", False), ("somebody else's", "chown 4711 $file", False), ("a folder", "rm $file && mkdir $file", False),
    ("a FIFO", "rm $file && mkfifo $file", False), ("a device", "rm $file && ln -s /dev/zero $file", False),
    ("in a folder of mode 777", "chmod 777 keys", False), ("in a folder of mode 775", "chmod 775 keys", False),
    ("in the user's folder", "chown $user keys", True), ("in somebody else's folder", "chown 4711 keys", False),
    ("below a folder of mode 777", "chmod 777 .", False), ("a link to a file that is believed", "mv $file it && ln -s ../it $file", True),
    ("a link to a file of mode 666", "mv $file it && chmod 666 it && ln -s ../it $file", False),
    ("a link into a folder of mode 777", "mkdir -m 777 open && mv $file open/it && ln -s ../open/it $file", False),
    ("a link to nothing", "rm $file && ln -s none $file", False),
]  # fmt: skip
# those that StrictModes has no part in
NO_FILES = ("a folder", "a FIFO", "a device", "a link to nothing")
# files that have to be root's: of authorities, and of what is revoked
OF_ROOT = [
    ("as it is", "", True), ("of mode 666", "chmod 666 $file", False), ("of mode 664", "chmod 664 $file", False),
    ("the user's", "chown $user $file", False), ("in the user's folder", "chown $user keys", False),
    ("in a folder of mode 777", "chmod 777 keys", False), ("a FIFO", "rm $file && mkfifo $file", False),
    ("not there", "rm $file", False), ("a link to one of mode 666", "mv $file it && chmod 666 it && ln -s ../it $file", False),
]  # fmt: skip
# in place of the C library's, which takes a running syslogd
NOTING = r"""
#include <stdarg.h>
#include <stdio.h>
#include <stdlib.h>
static int facility;
static void note(int priority, const char *format, va_list words) {
  FILE *to = fopen(getenv("NOTED"), "a");
  if (!to) abort();
  fprintf(to, "%d.%d ", facility, priority);
  vfprintf(to, format, words);
  fputc('\n', to);
  fclose(to);
}
void openlog(const char *name, int option, int of) { (void)name; (void)option; facility = of; }
void syslog(int priority, const char *format, ...) {
  va_list words;
  va_start(words, format);
  note(priority, format, words);
  va_end(words);
}
void __syslog_chk(int priority, int flag, const char *format, ...) {
  va_list words;
  (void)flag;
  va_start(words, format);
  note(priority, format, words);
  va_end(words);
}
"""
# in place of the C library's, where a machine has no such users
NAMELESS = """
#include <pwd.h>
#include <stddef.h>
struct passwd *getpwnam(const char *name) { return name ? NULL : NULL; }
"""
# what the helpers say of such a file, by its place
UNREAD = "it can't tell: {}: the revocation file can't be read (58)"
# by syslog.h: the facility auth, and priorities for what can't be told and for what is refused
ERROR, NOTICE = "32.3", "32.5"
# in place of the C library's: what is found is what another renames meanwhile
REPLACING = """
#define _GNU_SOURCE
#include <dlfcn.h>
#include <stdio.h>
#include <stdlib.h>
char *realpath(const char *path, char *room) {
  rename(getenv("REPLACING"), getenv("REPLACED"));
  return ((char *(*)(const char *, char *))dlsym(RTLD_NEXT, "realpath"))(path, room);
}
"""
# an id of a certificate that would end a line and a quotation, and how it is logged
KEY_ID, LOGGED_ID = 'jump "x\ny\\\x1b', r"jump \042x\012y\134\033"


class Helpers:
    """The two programs, and what they are asked about: a key and a certificate of it for the user."""

    def __init__(self, maker, folder, user):
        self.maker, self.user = maker, user
        self.keys, self.principals = (f"{folder}/{it}" for it in ("sshkey-authorized-keys", "sshkey-principals"))
        for name in ("host", "key", "authority", "other"):
            maker.key(name, "ed25519")
        self.key = maker.read("key.pub")
        self.certificate = maker.certificate("authority", "key", "-n", user, "-z", "7", "-V", "-5m:+5m", "-I", KEY_ID)
        os.remove(maker.path("key-cert.pub"))

    def of_key(self, *words, **how):
        """What the first says of the key."""
        return run([self.keys, *words, self.user, *self.key.split()[:2]], timeout=20, **how)

    def of_certificate(self, *words, **how):
        """What the second says of the certificate."""
        return run([self.principals, *words, self.user, *self.certificate.split()[:2]], timeout=20, **how)


def placed(room, user, name, text, doing):
    """A new folder with the text in that file of its folder keys, and what is done there."""
    at = tempfile.mkdtemp(dir=room)
    os.makedirs(f"{at}/keys")
    with open(f"{at}/keys/{name}", "wb") as file:
        file.write(text)
    for path, mode in ((at, 0o755), (f"{at}/keys", 0o755), (f"{at}/keys/{name}", 0o644)):
        os.chmod(path, mode)
    run(["sh", "-ec", doing or ":"], cwd=at, env={**os.environ, "file": f"keys/{name}", "user": user}, check=True)
    return at


def check_keys(count, helpers, room, helper):
    """A user's file is believed exactly where sshd does, and whoever may write it where StrictModes is not asked."""
    maker, user, asked = helpers.maker, helpers.user, []
    home = pwd.getpwnam(user).pw_dir
    places = [(case, placed(room, user, user, f"{helpers.key}\n".encode(), doing), wanted) for case, doing, wanted in FILES]
    for case, at, wanted in (("in the user's home, below a folder of mode 777", home, True), ("beside that home", os.path.dirname(home), False)):
        os.makedirs(f"{at}/keys")
        shutil.copy(f"{places[0][1]}/keys/{user}", f"{at}/keys/{user}")
        places.append((case, at, wanted))
    for number, (case, at, wanted) in enumerate(places):
        ran = helpers.of_key(f"{at}/keys")
        no_line = (0, "") if case == "a link to nothing" else (1, "")
        found, said = (ran.returncode, ran.stdout), (0, f"{helpers.key}\n") if wanted else no_line
        count.check(f"a user's file {case}: {'' if wanted else 'not '}believed", found == said and bool(ran.stderr) != wanted, ran)
        ran = helpers.of_key("--insecure-modes", f"{at}/keys")
        is_read = ran.stdout == f"{helpers.key}\n"
        count.check(f"and whoever may write it: {'' if case not in NO_FILES else 'not '}believed", is_read == (case not in NO_FILES), ran)
        for way, words in (("reading", READING), ("asking", ASKING)):
            maker.write(f"{way}{number}", STRICT.format(maker.folder) + words.format(f"{at}/keys", f"{room}/sshkey-authorized-keys", helper))
            asked.append((f"{way}{number}", case, wanted))
    with ThreadPoolExecutor(len(os.sched_getaffinity(0))) as pool:
        for (way, case, wanted), found in zip(asked, pool.map(lambda it: logs_in(maker, it[0], user, "key"), asked)):
            # the program itself can't read what sshd reads as the user
            wanted = wanted and not (way.startswith("asking") and "600" in case)
            count.check(f"a user's file {case}, {way.rstrip('0123456789')}: {'' if wanted else 'not '}believed by sshd", found == wanted, found)


def check_roots(count, helpers, room):
    """A file of authorities and a list are believed only where they are root's."""
    maker, user, own = helpers.maker, helpers.user, f"{helpers.user}\n"
    line = f"{user} {maker.read('authority.pub')}\n".encode()
    authorities = f"{placed(room, user, 'file', line, '')}/keys/file"
    keys = f"{placed(room, user, user, f'{helpers.key}{chr(10)}'.encode(), '')}/keys"
    for case, doing, wanted in OF_ROOT:
        path = f"{placed(room, user, 'file', line, doing)}/keys/file"
        ran = helpers.of_certificate(path)
        found = (ran.returncode, ran.stdout) == ((0, own) if wanted else (1, ""))
        count.check(f"authorities {case}: {'' if wanted else 'not '}believed", found and bool(ran.stderr) != wanted, ran)
        path = f"{placed(room, user, 'file', made_list(maker, None, []), doing)}/keys/file"
        for ran, said in ((helpers.of_certificate("--revoked", path, authorities), own), (helpers.of_key("--revoked", path, keys), f"{helpers.key}\n")):
            found = (ran.returncode, ran.stdout) == ((0, said) if wanted else (1, ""))
            count.check(f"a list {case}: {'' if wanted else 'not '}believed", found and bool(ran.stderr) != wanted, ran)
    latin = line.rstrip().replace(b" ", b" \t") + b" caf\xe9\n# nothing\n"
    ran = helpers.of_certificate(f"{placed(room, user, 'file', latin, '')}/keys/file")
    count.check("an authority with tabs and a comment that is no text", (ran.returncode, ran.stdout, ran.stderr) == (0, own, ""), ran)
    wrong = latin + f"{user} ssh-ed25519 AAAA\nx{user} ssh-ed25519 AAAA\n{user}\n".encode()
    ran = helpers.of_certificate(f"{placed(room, user, 'file', wrong, '')}/keys/file")
    told = [it.split(":")[2] for it in ran.stderr.splitlines()]
    count.check("each line of the user's that has no key is told", (ran.returncode, ran.stdout, told) == (1, "", ["3", "5"]), ran)


def check_nobody(count, helpers, room, helper):
    """They run as a user of their own, and not as nobody."""
    user, line = helpers.user, f"{helpers.user} {helpers.maker.read('authority.pub')}\n".encode()
    authorities = f"{placed(room, user, 'file', line, '')}/keys/file"
    keys = f"{placed(room, user, user, f'{helpers.key}{chr(10)}'.encode(), '')}/keys"
    for name, ask, path, said in (("keys", helpers.of_key, keys, f"{helpers.key}\n"), ("principals", helpers.of_certificate, authorities, f"{user}\n")):
        for who, words in ((helper, []), ("nobody", []), ("nobody", ["--insecure-modes"])):
            ran = ask(*words, path, user=who, extra_groups=[])
            wanted = (0, said, False) if who == helper else (1, "", True)
            found = (ran.returncode, ran.stdout, "nobody" in ran.stderr)
            count.check(f"sshkey-{name} as {'a user of its own' if who == helper else who} {words}", found == wanted, ran)
    nameless = helpers.maker.path("nameless.so")
    made = run(["cc", "-shared", "-fPIC", "-o", nameless, helpers.maker.write("nameless.c", NAMELESS)])
    count.check("what finds no name of a user is built", made.returncode == 0, made)
    for name, ask, path in (("keys", helpers.of_key, ["--file", f"{keys}/{user}"]), ("principals", helpers.of_certificate, [authorities])):
        ran = ask("--insecure-modes", *path, user=65534, extra_groups=[], env={**os.environ, "LD_PRELOAD": nameless})
        count.check(f"sshkey-{name} as the user 65534, of whom no name is found", (ran.returncode, ran.stdout, "nobody" in ran.stderr) == (1, "", True), ran)
    for who in (helper, "nobody"):
        words = ASKING.format(keys, f"{room}/sshkey-authorized-keys", who)
        helpers.maker.write(f"as-{who}", STRICT.format(helpers.maker.folder) + words)
        found = logs_in(helpers.maker, f"as-{who}", user, "key")
        count.check(f"login where sshd runs it as {'a user of its own' if who == helper else who}", found == (who == helper), found)


def check_logged(count, helpers, room):
    """The log has user, client, what is offered and why it is refused, or why the program can't tell; nothing where nothing is refused, nor
    by --quiet."""
    maker, user, noted = helpers.maker, helpers.user, helpers.maker.path("noted")
    source, noting = maker.write("noting.c", NOTING), maker.path("noting.so")
    made = run(["cc", "-shared", "-fPIC", "-o", noting, source])
    count.check("what stands for syslog is built", made.returncode == 0, made)
    authority, key = (run(["ssh-keygen", "-lf", maker.path(f"{it}.pub")]).stdout.split()[1] for it in ("authority", "key"))
    files = {
        "good": f"{user} {maker.read('authority.pub')}\n".encode(), "other": f"{user} {maker.read('other.pub')}\n".encode(),
        "strange": f"x{user} {maker.read('authority.pub')}\n".encode(),
        "none": made_list(maker, None, []), "revoked": made_list(maker, "authority", ["serial: 7"]), "cut": made_list(maker, None, [helpers.key])[:-9],
        "text": f"# revoked\n\n{maker.read('other.pub')}\nssh-ed25519 AAAA\nx\n".encode(), "empty": b"",
        user: f"{helpers.key}\n".encode(), "x": f"{maker.read('other.pub')}\n".encode(),
    }  # fmt: skip
    path = {name: f"{placed(room, user, name, text, '')}/keys/{name}" for name, text in files.items()}
    open_path = f"{placed(room, user, 'open', files['good'], 'chmod 666 $file')}/keys/open"
    of_certificate = f'user "{user}", certificate "{LOGGED_ID}", serial 7, authority {authority}: '
    of_key, folder = f'user "{user}", key {key}: ', os.path.dirname(path[user])
    of_client = of_certificate.replace(", ", r', client "192.0.2.7 \042 22", ', 1)
    unread = f'user "{user}", what is offered was not read: '
    for case, ask, words, wanted in (
        ("nothing is refused", helpers.of_certificate, [path["good"]], ""),
        ("another authority", helpers.of_certificate, [path["other"]], f"{NOTICE} {of_certificate}refused: another authority (90)"),
        ("no line of the user's", helpers.of_certificate, [path["strange"]],
         f'{NOTICE} {of_certificate}refused: no line of {path["strange"]} is for "{user}" (90)'),
        ("the client is told", helpers.of_certificate, ["--client", '192.0.2.7 " 22', path["other"]], f"{NOTICE} {of_client}refused: another"),
        ("revoked", helpers.of_certificate, ["--revoked", path["revoked"], path["good"]], f"{NOTICE} {of_certificate}refused: revoked (56)"),
        *((f"{case} is {asked}'s list", ask, [*(it for name in names for it in ("--revoked", path[name])), *words], f"{ERROR} {of}{untold.format(**path)}")
          for asked, ask, words, of in (("a certificate", helpers.of_certificate, [path["good"]], of_certificate), ("a key", helpers.of_key, [folder], of_key))
          for case, names, untold in (
              ("none", ["other"], UNREAD.format("{other}:1")), ("one that breaks off", ["cut"], UNREAD.format("{cut}")),
              ("a text with two lines that are none", ["text"], UNREAD.format("{text}:4")),
              ("the second of three", ["empty", "text", "cut"], UNREAD.format("{text}:4")),
          )),
        ("no list", helpers.of_key, ["--revoked", f"{folder}/no-list", folder], f"{ERROR} {of_key}{folder}/no-list: No such file"),
        ("a list has no bytes", helpers.of_key, ["--revoked", path["empty"], folder], ""),
        ("others may write", helpers.of_certificate, [open_path], f"{ERROR} {of_certificate}{open_path}: another's, or others may write it"),
        ("no authorities", helpers.of_certificate, [f"{folder}/none"], f"{ERROR} {of_certificate}{folder}/none: No such file"),
        ("a word too many", helpers.of_certificate, [path["good"], "x"], f"{ERROR} what is offered was not read: 5 words in place of 4"),
        ("a name of no user", lambda *it, **how: run([helpers.keys, *it, f".{user}", "a", "b"], **how), [folder],
         f'{ERROR} user ".{unread[6:]}no name of a user'),
        ("a line is printed", helpers.of_key, [folder], ""),
        ("no line", helpers.of_key, ["--file", path["x"]], f"{NOTICE} {of_key}refused: no line of {path['x']} is for it"),
        ("no file", helpers.of_key, [f"{folder}/none"], f"{NOTICE} {of_key}refused: {folder}/none/{user}: No such file"),
    ):  # fmt: skip
        for more in ([], ["--quiet"], ["--syslog"]):
            maker.write("noted", "")
            ran = ask(*more, *words, env={**os.environ, "LD_PRELOAD": noting, "NOTED": noted})
            said = maker.read("noted")
            same = "\n" not in said and (not said if more == ["--quiet"] else said.startswith(wanted) and bool(said) == bool(wanted))
            count.check(f"what is logged where {case}, {more}", same, said, ran)
    helpers.certificate = maker.certificate("authority", "key", "-n", user, "-V", "20240101000000Z:20240201000000Z")
    ran = helpers.of_certificate("--quiet", path["good"])
    said = (ran.returncode, ran.stdout, ran.stderr)
    count.check("why it is over is told", said == (0, "", "sshkey-principals: refused: its time was over at 2024-02-01T00:00:00Z (33)\n"), ran)


def check_checked(count, helpers, room, helper):
    """--check reads all files as the user as whom sshd runs the program, and says who may be let in by whom, and what can't be read."""
    maker, user = helpers.maker, helpers.user
    authority, key = (run(["ssh-keygen", "-lf", maker.path(f"{it}.pub")]).stdout.split()[1] for it in ("authority", "key"))
    text = f"# authorities\n{user},other\t{maker.read('authority.pub')}\n,x {maker.read('authority.pub')}\n".encode()
    wrong = text + f"{user} ssh-ed25519 AAAA\n{maker.read('authority.pub')}\n, {maker.read('authority.pub')}\n".encode()
    keys = f"# keys\n{helpers.key}\n".encode()
    entry = keys + b"no-pty\n"

    def checked(program, text, doing, *more, name="file"):
        at = placed(room, user, name, text, doing)
        words = more or ([f"{at}/keys"] if program == "keys" else [f"{at}/keys/{name}"])
        ran = run([getattr(helpers, program), "--check", *words], user=helper, extra_groups=[], timeout=20)
        return f"{at}/keys/{name}", ran

    for case, program, text, doing, status, shown, told in (
        ("authorities", "principals", text, "", 0, f"{{0}}:2: {user},other by {authority}\n{{0}}:3: ,x by {authority}\n", ""),
        ("no lines", "principals", b"# none\n", "", 1, "", "{0}: it has no line"),
        ("wrong lines", "principals", wrong, "", 1, f"{{0}}:2: {user},other by {authority}\n{{0}}:3: ,x by {authority}\n", "{0}:4: no key: "),
        ("a file that it can't read", "principals", text, "chmod 600 $file", 1, "", "{0}: Permission denied"),
        ("a file that others may write", "principals", text, "chmod 666 $file", 1, "", "{0}: another's, or others may write it"),
        ("no file", "principals", text, "rm $file", 1, "", "{0}: No such file"), ("keys", "keys", keys, "", 0, f"{{0}}:2: {user} by {key}\n", ""),
        ("keys that it can't read", "keys", keys, "chmod 600 $file", 1, "", "{0}: Permission denied"),
        ("keys that others may write", "keys", keys, "chmod 666 $file", 1, "", "{0}: another's, or others may write it"),
        ("a line that is no entry", "keys", entry, "", 1, f"{{0}}:2: {user} by {key}\n", "{0}:3: no entry: "),
    ):  # fmt: skip
        path, ran = checked(program, text, doing, name=user if program == "keys" else "file")
        same = (ran.returncode, ran.stdout) == (status, shown.format(path)) and (told.format(path) in ran.stderr if told else not ran.stderr)
        count.check(f"sshkey-{program} --check of {case}", same, ran)
        if case == "wrong lines":
            said = [it.split(":")[2] for it in ran.stderr.splitlines()]
            count.check("and it names each", said == ["4", "5", "6"] and f"{path}:5: no users before the key: " in ran.stderr, ran)
        if status == 0:
            listed = f"{placed(room, user, 'list', made_list(maker, None, []), '')}/keys/list"
            no_list = f"{placed(room, user, 'no-list', b'ssh-ed25519 AAAA', '')}/keys/no-list"
            cut = f"{placed(room, user, 'cut', made_list(maker, None, [helpers.key])[:-9], '')}/keys/cut"
            for more, wanted in (
                ([listed], []), ([no_list], [f"{no_list}:1"]), ([listed, no_list], [f"{no_list}:1"]), ([no_list, cut], [f"{no_list}:1", cut]),
                ([f"{room}/none"], [f"{room}/none"]),
            ):  # fmt: skip
                where = os.path.dirname(path) if program == "keys" else path
                _, ran = checked(program, text, "", *(it for one in more for it in ("--revoked", one)), where)
                said = f"sshkey-{'authorized-' if program == 'keys' else ''}{program}: "
                told = [it.removeprefix(said).rpartition(": ")[0] for it in ran.stderr.splitlines()]
                count.check(f"and of the lists {[*map(os.path.basename, more)]}", (ran.returncode, told) == (int(bool(wanted)), wanted), ran)
    path, ran = checked("keys", keys, "", "--file", f"{os.path.dirname(placed(room, user, user, keys, ''))}/none", user)
    count.check("sshkey-authorized-keys --check of one file", ran.returncode == 1 and "No such file" in ran.stderr, ran)


def check_replaced(count, helpers, room):
    """The folders that are judged are those of the file that is read."""
    maker, user = helpers.maker, helpers.user
    replacing = maker.path("replacing.so")
    made = run(["cc", "-shared", "-fPIC", "-o", replacing, maker.write("replacing.c", REPLACING), "-ldl"])
    count.check("what replaces a file is built", made.returncode == 0, made)
    bound = f"restrict {helpers.key}"
    for case, is_swapped, wanted in (("while it is judged", True, f"{bound}\n"), ("by nobody", False, "")):
        at = placed(room, user, user, f"{bound}\n".encode(), f"mkdir -m 777 open && cp $file open && mv $file next && ln -s ../open/{user} $file")
        with open(f"{at}/open/{user}", "w", encoding="ascii") as file:
            file.write(f"{helpers.key}\n")
        names = {"REPLACING": f"{at}/keys/next" if is_swapped else f"{at}/none", "REPLACED": f"{at}/keys/{user}"}
        os.rename(f"{at}/next", f"{at}/keys/next")
        ran = helpers.of_key(f"{at}/keys", env={**os.environ, "LD_PRELOAD": replacing, **names})
        count.check(f"a link into a folder of mode 777 is replaced {case}", (ran.returncode, ran.stdout) == (0 if wanted else 1, wanted), ran)


def check_room(count, helpers):
    """Of a file of many lines one is held."""
    path = helpers.maker.path("long")
    with open(path, "w", encoding="ascii") as file:
        file.write(("\n" * 999 + "# " + "x" * 999 + "\n") * 20_000 + helpers.key + "\n")

    def limit():
        resource.setrlimit(resource.RLIMIT_AS, (LEAST_ROOM, LEAST_ROOM))

    ran = helpers.of_key("--insecure-modes", "--file", path, preexec_fn=limit)
    size = os.path.getsize(path)
    count.check(f"a file of {size:,} bytes is read in a room of {LEAST_ROOM:,}", (ran.returncode, ran.stdout) == (0, f"{helpers.key}\n") and size > LEAST_ROOM, ran)
    os.remove(path)


def check_files(count, built, folder, maker_in, helper):
    """maker_in gives what makes keys and certificates in a folder; helper is the user as whom sshd runs the programs."""
    if os.getuid() != 0:
        print("left out, since only root can make them: files that others may write, and runs as other users")
        return
    room, made = tempfile.mkdtemp(dir=SAFE), f"{folder}/files"
    os.mkdir(made)
    for path in (room, made, folder):
        os.chmod(path, 0o755 if path == room else 0o711)
    try:
        with made_user("-m", "-d", f"{room}/open/home", "-p", "*") as user:
            for path, mode in ((f"{room}/open", 0o777), (f"{room}/open/home", 0o755)):
                os.chmod(path, mode)
            shutil.copy(f"{built.plain}/sshkey-authorized-keys", room)
            helpers = Helpers(maker_in(made), built.plain, user)
            check_keys(count, helpers, room, helper)
            check_roots(count, helpers, room)
            check_nobody(count, helpers, room, helper)
            check_checked(count, helpers, room, helper)
            check_replaced(count, helpers, room)
            check_room(count, helpers)
            check_logged(count, helpers, room)
            check_roots(count, Helpers(maker_in(made), built.sanitized, user), room)
    finally:
        shutil.rmtree(room)
