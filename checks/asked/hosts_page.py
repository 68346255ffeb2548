"""What docs/HOSTS.md tells an administrator to type, for checks/readme: as it stands there, on a copy of this machine in which all that is
written is gone afterwards, with the package that bindings/dist makes, and an sshd of Debian's on a network of its own. Each host of the
page is that machine. No init runs there, so two programs of a few lines stand for systemctl and journalctl; the others are real."""
import glob
import os
import re
import shlex
import shutil
import subprocess

from lib.harness import ROOT

from .linked import run
from .verdicts import LET_IN

PAGE, MARK = "docs/HOSTS.md", "status of that:"
# what each block of commands prints, among the rest, and its status
WANTED = [
    ("at your desk", "", 0), ("at your desk", f"{LET_IN}\n", 0), ("at your desk", "alice,bob by SHA256:", 0), ("as alice", "alice\n", 0),
    ("at your desk", "", 0), ("at your desk", "revoked (56)\nrefused\nalice is out\n", 0), ("at your desk", "", 0), ("on the host", "", 0),
    ("at your desk", f"{LET_IN}\n", 0),
]  # fmt: skip
NAMED, NOW, AUTHORITIES, KEYS, LIST = "-n alice", "-V +1d", "/etc/ssh/authorities", "/etc/ssh/authorities.pub", "/etc/ssh/revoked"
# of each message in the last tables: whom alice would be, what ssh-keygen is told of her certificate, what is wrong on the host, and how
# it is mended
PROVOKED = [
    ("carol", f"{NAMED} {NOW}", "", ""),
    ("alice", f"{NAMED} {NOW} -s other_ca", f"cat other_ca.pub >>{KEYS} && echo bob $(cat other_ca.pub) >>{AUTHORITIES}", "sh -e put-files"),
    ("bob", f"{NAMED} {NOW}", "", ""), ("alice", NOW, "", ""), ("alice", f"{NAMED} -V -2d:-1d", "", ""),
    ("alice", f"{NAMED} {NOW}", f"chmod 666 {AUTHORITIES}", "sh -e put-files"), ("alice", f"{NAMED} {NOW}", f"chmod 600 {AUTHORITIES}", "sh -e put-files"),
    ("alice", f"{NAMED} {NOW}", f"echo alice ssh-ed25519 AAAA >>{AUTHORITIES}", "sh -e put-files"),
    ("alice", f"{NAMED} {NOW} -z 12", "", ""), ("alice", f"{NAMED} {NOW}", f"rm {LIST}", "sh -e put-files"),
    ("alice", f"{NAMED} {NOW} -O source-address=192.0.2.0/24", "", ""), ("alice", f"{NAMED} {NOW}", f"rm {KEYS}", "sh -e put-files"),
]  # fmt: skip
# where the copy is made, and what is in its folder /desk. No socket of the machine's own is seen there, as that of its log
ENTER = r"""
set -e
mount -t tmpfs none "$1"
cd "$1"
mkdir up work root
mount -t overlay none -o lowerdir=/,upperdir=up,workdir=work root
cp -r "$2" root/desk
cd root
mount -t proc none proc
for it in dev run tmp; do mount -t tmpfs none "$it"; done
for it in null zero full random urandom tty; do : >"dev/$it" && mount --bind "/dev/$it" "dev/$it"; done
ln -s /proc/self/fd dev/fd
mkdir -m 755 run/sshd
chmod 1777 tmp
ip link set lo up
exec chroot . sh
"""
# an administrator and users on a new Debian; a passphrase is what SSH_ASKPASS says
NEW = r"""
cp /usr/share/openssh/sshd_config /etc/ssh/sshd_config
rm -rf /etc/ssh/sshd_config.d/* /root/.ssh
# what root's shells read of this machine's, and an index of all its manual pages, may take long
rm -f /root/.bashrc /root/.profile /root/.bash_profile
cp /bin/true /usr/bin/mandb
ssh-keygen -q -A
mkdir -m 700 /root/.ssh
ssh-keygen -q -t ed25519 -N "" -f /root/.ssh/id_ed25519
cp /root/.ssh/id_ed25519.pub /root/.ssh/authorized_keys
echo "StrictHostKeyChecking accept-new" >/root/.ssh/config
for it in alice bob carol; do
  useradd -m -s /bin/sh "$it"
  runuser -u "$it" -- sh -c 'mkdir -m 700 ~/.ssh && ssh-keygen -q -t ed25519 -N "" -f ~/.ssh/id_ed25519'
  runuser -u "$it" -- sh -c 'printf "StrictHostKeyChecking accept-new\nBatchMode yes\n" >~/.ssh/config'
done
echo "127.0.0.1 db1 db2" >>/etc/hosts
printf "db1\ndb2\n" >/desk/hosts
cp /home/alice/.ssh/id_ed25519.pub /desk
cat >/usr/local/bin/askpass <<'END'
#!/bin/sh
echo "a passphrase of the CA"
END
cat >/usr/local/bin/systemctl <<'END'
#!/bin/sh
[ "$*" = "reload ssh" ] && kill -HUP "$(cat /run/sshd.pid)" && sleep 0.5
END
cat >/usr/local/bin/journalctl <<'END'
#!/bin/sh
case $* in
"-u ssh") sed -n "/^sshd/p" /run/journal ;;
"-t "*) sed -n "/^$2\[/p" /run/journal ;;
*) exit 1 ;;
esac
END
cat >/usr/local/bin/log <<'END'
import re, socket
asked = socket.socket(socket.AF_UNIX, socket.SOCK_DGRAM)
asked.bind("/dev/log")
with open("/run/journal", "ab", buffering=0) as file:
    while True:
        file.write(re.sub(rb"^<\d+>\w+ +\d+ [\d:]+ ", b"", asked.recv(65536)).strip(b"\n\0") + b"\n")
END
chmod 755 /usr/local/bin/*
python3 /usr/local/bin/log &
while [ ! -S /dev/log ]; do sleep 0.1; done
chmod 666 /dev/log
/usr/sbin/sshd
"""


class Machine:
    """A shell as root on such a copy."""

    def __init__(self, room, desk):
        words = ["unshare", "--mount", "--net", "--pid", "--fork", "--kill-child", "sh", "-c", ENTER, "sh", room, desk]
        names = {"PATH": "/usr/local/sbin:/usr/local/bin:/usr/sbin:/usr/bin:/sbin:/bin", "HOME": "/root", "LC_ALL": "C.UTF-8",
                 "SSH_ASKPASS": "/usr/local/bin/askpass", "SSH_ASKPASS_REQUIRE": "force"}  # fmt: skip
        self.shell = subprocess.Popen(words, env=names, stdin=subprocess.PIPE, stdout=subprocess.PIPE, stderr=subprocess.STDOUT, encoding="utf-8")

    def __enter__(self):
        return self

    def __exit__(self, *_):
        self.shell.kill()
        self.shell.wait()

    def run(self, script, folder="/desk"):
        """The status of these commands, which stop at the first that fails, and what they print."""
        self.shell.stdin.write(f"cd {folder} && sh -ec {shlex.quote(script)} 2>&1 </dev/null; printf '\\n%s %s\\n' {shlex.quote(MARK)} $?\n")
        self.shell.stdin.flush()
        said = ""
        for line in self.shell.stdout:
            if line.startswith(MARK):
                return int(line.split()[-1]), said
            said += line
        return None, said


def blocks(text):
    """The commands of the page, each with where they are typed, or the name of their file."""
    return re.findall(r"^```sh\n# ([^\n]+)\n(.*?)^```$", text, re.M | re.S)


def messages(text):
    """Those of the tables of the page at its end."""
    return re.findall(r"^\| `([^`]+)`(?:,[^|]*)? \|", text.partition("A user is refused")[2], re.M)


def is_said(message, log):
    return any(re.search(".*".join(map(re.escape, message.split(".."))), line) for line in log.splitlines())


def made_desk(folder, text, package):
    """A folder with what the page counts on, and the files that it shows."""
    os.mkdir(folder)
    shutil.copy(package, folder)
    files = {name: lines for name, lines in blocks(text) if " " not in name}
    files["sshkey.conf"] = re.search(r"^```\n(TrustedUserCAKeys .*?)^```$", text, re.M | re.S)[1]
    for name, lines in files.items():
        with open(f"{folder}/{name}", "w", encoding="utf-8") as file:
            file.write(lines)


def typed(machine, where, lines):
    if where != "as alice":
        return machine.run(lines)
    machine.run("install -o alice -m 644 id_ed25519-cert.pub /home/alice/.ssh")
    return machine.run(f"runuser -u alice -- sh -ec {shlex.quote(lines)}", "/home/alice")


def check_messages(count, machine, text):
    """Each message of the tables is what is logged where that is wrong."""
    asked = next(lines for where, lines in blocks(text) if where == "on the host")
    machine.run("ssh-keygen -q -t ed25519 -f other_ca")
    for message, (user, words, wrong, mended) in zip(messages(text), PROVOKED):
        authority = "" if "-s " in words else "-s user_ca"
        machine.run(f"ssh-keygen -q {authority} -I tried {words} id_ed25519.pub\n{wrong}\n: >/run/journal")
        status, said = typed(machine, "as alice", f"ssh {user}@db1 id -un")
        _, log = machine.run(f"sleep 0.2\n{asked}")
        machine.run(mended or ":")
        count.check(f"{PAGE}: it is logged: {message}", status == 255 and is_said(message, log), said, log)


def check_hosts(count, folder):
    """The page, from the package to the last command."""
    with open(f"{ROOT}/{PAGE}", encoding="utf-8") as file:
        text = file.read()
    given = [(where, lines) for where, lines in blocks(text) if " " in where]
    count.check(f"{PAGE} has as many commands and messages as are tried", [it for it, _ in given] == [it for it, *_ in WANTED] and len(messages(text)) == len(PROVOKED))
    if os.getuid() != 0:
        print(f"left out, since only root can: the commands of {PAGE}")
        return
    made = run([f"{ROOT}/bindings/dist", "debian", f"{folder}/dist"])
    packages = glob.glob(f"{folder}/dist/rafendilo-helpers_*.deb")
    is_made = made.returncode == 0 and len(packages) == 1 and os.path.basename(packages[0]).partition("_")[0] in text
    count.check("the package of the helpers is made", is_made, made.stderr[-2000:])
    if not is_made:
        return
    made_desk(f"{folder}/desk", text, packages[0])
    os.mkdir(f"{folder}/room")
    with Machine(f"{folder}/room", f"{folder}/desk") as machine:
        count.check("a copy of this machine, with sshd and users", machine.run(NEW)[0] == 0)
        machine.run("dpkg -i rafendilo-helpers_*.deb")
        *before, (_, last) = given
        for (where, lines), (_, wanted, ends) in zip(before, WANTED):
            status, said = typed(machine, where, lines)
            count.check(f"{PAGE}, {where}: {lines.strip().splitlines()[-1]}", status == ends and wanted in said, status, said)
        status, said = machine.run("cat failed")
        count.check("no host is in `failed`", status == 1, said)
        check_messages(count, machine, text)
        machine.run("ssh-keygen -q -s user_ca -I tried -n alice -V +1d id_ed25519.pub")
        status, said = machine.run(last)
        count.check(f"{PAGE}: {last.strip()}", (status, WANTED[-1][1] in said) == (0, True), status, said)
