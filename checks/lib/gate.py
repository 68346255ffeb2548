"""The parts of ./test: which there are (checks/gate.txt), and how they are run and counted."""
import contextlib
import os
import re
import shutil
import signal
import subprocess
import sys
import tempfile
import threading
import time
from concurrent.futures import ThreadPoolExecutor
from dataclasses import dataclass

from lib.harness import ROOT, unproved_program
from lib.processes import adopt, end_below, ended_children

# the words of checks/gate.txt for what ./test runs
BY_TEST = {"clone", "text", "sources"}
# the crates of tests and of those that ask: ./test asks them unproved, and ./test --all --wrong proves them
UNPROVED = ["sshkey_tests", "sshkey_cases", "sshkey_doubles", "callers"]
# what each of both compilers left, LLVM's first
COMPILERS = ["", ".by-rattle"]
# how many parts are run side by side
LANES = 2
COUNTS = re.compile(r"(\d+) passed, (\d+) failed$")
SIGNALS = signal.SIGHUP, signal.SIGINT, signal.SIGTERM


@dataclass
class Line:
    """A line of checks/gate.txt."""

    words: list
    when: list

    def command(self, programs=()):
        return [os.path.normpath(f"checks/{self.words[0]}"), *self.words[1:], *programs]

    def name(self):
        return " ".join(self.command())

    def crate(self):
        """The crate that has to be proved for it, if there is one."""
        return next((it.partition("=")[2] for it in self.when if it.startswith("proved=")), None)

    def is_of_test(self):
        """Whether ./test may run it."""
        return self.crate() is not None or not BY_TEST.isdisjoint(self.when)

    def crates(self):
        """The crates whose programs it is given."""
        return next((it.split(",") for it in self.when if it not in {"unproved", "drawn", "once", *BY_TEST} and "=" not in it), [])

    def commands(self, are_all_proved):
        """How ./test --all runs it: of proved programs on those of both compilers, or of LLVM where it is run once."""
        crates = self.crates()
        if not crates:
            return [self.command()] if "once" in self.when or self.crate() else []
        if are_all_proved or not set(crates) & set(UNPROVED):
            compilers = COMPILERS[:1] if "once" in self.when else COMPILERS
            return [self.command(f"crates/{crate}/out/{crate}{of}" for crate in crates) for of in compilers]
        # ./test asks the others
        is_asked = "unproved" in self.when and "drawn" not in self.when
        return [] if is_asked else [self.command(os.path.relpath(unproved_program(it), ROOT) for it in crates)]


def lines():
    with open(f"{ROOT}/checks/gate.txt", encoding="utf-8") as file:
        for line in file:
            what, colon, when = line.partition("#")[0].partition(":")
            if colon:
                yield Line(what.split(), when.split())


def say(*words):
    print(*words, flush=True)


class Gate:
    """Runs parts, and counts what each of them counts last. Whatever ends it, none of their processes and folders is left."""

    def __init__(self):
        self.passed = self.failed = 0
        self.left_out, self.lock, self.is_stopped = [], threading.Lock(), False
        self.began = time.monotonic()
        self.room = tempfile.mkdtemp(prefix="rafendilo-")
        # for programs that sshd starts as another user
        os.chmod(self.room, 0o711)
        self.env = {**os.environ, "TMPDIR": self.room, "PYTHONDONTWRITEBYTECODE": "1"}
        adopt()
        # the processes whose status is waited for here, and who takes the others, once there are parts
        self.waited_for, self.taker = set(), None
        for number in SIGNALS:
            signal.signal(number, self.stop)

    def part(self, words, show=say):
        """Runs a part, shows what it prints as it comes, and adds what its last line counts. A part that counts nothing failed, and so
        did one that was killed."""
        began, last = time.monotonic(), ""
        how = {"stdin": subprocess.DEVNULL, "stdout": subprocess.PIPE, "stderr": subprocess.STDOUT, "errors": "replace"}
        if self.is_stopped:
            return
        with self.lock:
            if not self.taker:
                self.taker = threading.Thread(target=self.take_others, daemon=True)
                self.taker.start()
            run = subprocess.Popen(words, cwd=ROOT, env=self.env, start_new_session=True, **how)
            self.waited_for.add(run.pid)
        for line in run.stdout:
            last = line.strip() or last
            show(line.rstrip("\n"))
        _, status, used = os.wait4(run.pid, 0)
        run.returncode = os.waitstatus_to_exitcode(status)
        told = COUNTS.match(last)
        passed, failed = map(int, told.groups()) if told else (0, 0)
        failed = failed or int(not passed or run.returncode != 0)
        if self.is_stopped:
            return
        with self.lock:
            self.waited_for.discard(run.pid)
            self.passed, self.failed = self.passed + passed, self.failed + failed
        took = f"{time.monotonic() - began:.0f} seconds, {used.ru_utime + used.ru_stime:.0f} of processors"
        say(f"-- {self.minutes()} minutes; {' '.join(words)}: {passed} passed, {failed} failed ({took})")

    def parts(self, commands):
        for words in commands:
            self.part(words)

    def side_by_side(self, commands):
        """Runs parts side by side, two at a time, and shows what each printed when it has ended."""
        say(f"{LANES} at a time, and each is shown when it has ended: {', '.join(' '.join(it) for it in commands)}")

        def run(words):
            shown = []

            def show(line):
                # what it is at is told at once
                (say if line.startswith("unproved: ") else shown.append)(line)

            self.part(words, show)
            if not self.is_stopped:
                say("\n".join(shown))

        with ThreadPoolExecutor(LANES) as pool:
            for each in [pool.submit(run, it) for it in commands]:
                each.result()

    def minutes(self):
        return int((time.monotonic() - self.began) / 60)

    def finish(self):
        """Says what was left out and what passed, and returns the status."""
        used = os.times()
        say(f"{self.minutes()} minutes, {used.children_user + used.children_system:.0f} processor seconds")
        say(f"left out: {'; '.join(self.left_out)}" if self.left_out else "nothing was left out")
        say(f"{self.passed} passed, {self.failed} failed")
        return 1 if self.failed or not self.passed else 0

    def take_others(self):
        """Takes processes that have ended and whose parents have, as those of hundreds of logins."""
        while True:
            time.sleep(1)
            with self.lock:
                for pid in ended_children() - self.waited_for:
                    with contextlib.suppress(ChildProcessError):
                        os.waitpid(pid, os.WNOHANG)

    def stop(self, number, _):
        """Ends as that signal asks."""
        for it in SIGNALS:
            signal.signal(it, signal.SIG_IGN)
        self.is_stopped = True
        say("interrupted: what was proved is kept, and all else begins anew")
        self.end()
        sys.exit(128 + number)

    def end(self):
        """Ends what still runs, first as by Ctrl-C, so that each removes what it made, and removes the folder of all."""
        end_below()
        shutil.rmtree(self.room, ignore_errors=True)
