"""Users of the machine's own that a check makes, where it is root, and takes away."""
import contextlib
import getpass
import os
import pwd
import time

from .linked import run

# those are the machine's if none of these is another's at the same time
TRIES = 50


def tried(*words):
    """Runs useradd or userdel, which wait for nobody who has the list of users in hand."""
    for _ in range(TRIES):
        ran = run(words)
        if ran.returncode != 1:
            break
        time.sleep(0.2)
    return ran


@contextlib.contextmanager
def made_user(*words):
    """The name of a new user; of one's own where that takes root's rights."""
    if os.getuid() != 0:
        yield getpass.getuser()
        return
    taken = {it.pw_name for it in pwd.getpwall()}
    name = next(it for it in (f"sshkey{os.getpid()}-{at}" for at in range(len(taken) + 1)) if it not in taken)
    ran = tried("useradd", "-r", "-s", "/usr/sbin/nologin", *words, name)
    if ran.returncode:
        raise OSError(f"useradd {name}: {ran.stderr}")
    try:
        yield name
    finally:
        tried("userdel", name)


def helper_user():
    """As whom sshd runs the helpers: a user that nothing else runs as."""
    return made_user("-M")
