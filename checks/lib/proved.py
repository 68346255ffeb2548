"""What checks/lib/prove proved on this machine: of which sources, and what it made where the toolchain keeps nothing: some kits
prove all from nothing, each time."""
import contextlib
import functools
import hashlib
import json
import os
import shutil

# what rt ci of a kit that keeps proofs says of a crate
SAYS = b"is kept"
# what only the commands for one crate read, and builds that no proof came before
NOT_KEPT = shutil.ignore_patterns("incremental", "unproved")


def read(path):
    with open(path, "rb") as file:
        return file.read()


def kit():
    """The toolchain's folder; none where it is not found."""
    command = shutil.which("rt")
    folder = command and os.path.dirname(os.path.dirname(os.path.realpath(command)))
    return folder if folder and os.path.isfile(f"{folder}/WHAT") else None


class Sums:
    """The sums of crates as they stand when they are first asked for."""

    COMMENTS = {".rt": b"//", ".antt": b"--"}

    def __init__(self, root, crates):
        self.root, self.crates = root, crates
        folder = kit()
        self.common = hashlib.sha256(read(f"{root}/HANDLES") + (read(f"{folder}/WHAT") if folder else b"")).hexdigest()

    @functools.cache  # pylint: disable=method-cache-max-size-none
    def own(self, name, with_comments=True):
        """Of the crate's own files and its line of crates.txt."""
        crate = self.crates[name]
        total = hashlib.sha256(repr((name, [it.name for it in crate.own], crate.of_kit, crate.is_static)).encode())
        for at, folders, files in os.walk(crate.folder):
            others = ("out", "wrong", "wrong-definitions") if at == crate.folder else ()
            folders[:] = sorted(it for it in folders if it not in others)
            for it in sorted(files):
                data, begins = read(f"{at}/{it}"), self.COMMENTS.get(os.path.splitext(it)[1])
                if begins and not with_comments:
                    data = b"".join(line for line in data.splitlines(True) if not line.lstrip().startswith(begins))
                total.update(f"{at[len(self.root) :]}/{it} {len(data)}\n".encode() + data)
        return total.hexdigest()

    def with_below(self, name, own, of_below):
        return hashlib.sha256((self.common + own + "".join(of_below(it.name) for it in self.crates[name].own)).encode()).hexdigest()

    @functools.cache  # pylint: disable=method-cache-max-size-none
    def of(self, name):
        """Of these, of those of the crates below it, and of the toolchain."""
        return self.with_below(name, self.own(name), self.of)

    @functools.cache  # pylint: disable=method-cache-max-size-none
    def of_library(self, name):
        """Of what the crates above see of that: a comment changes no library."""
        return self.with_below(name, self.own(name, False), self.of_library)

    def of_proof(self, name):
        """Of what its proof depends on."""
        return self.with_below(name, self.own(name), self.of_library)


class Proved:
    """What was made of some crates that were all proved, each by its sum."""

    def __init__(self, root, crates, names, is_whole):
        self.root, self.crates, self.names, self.is_whole = root, crates, names, is_whole
        cache = os.environ.get("XDG_CACHE_HOME") or os.path.expanduser("~/.cache")
        self.folder = f"{cache}/rafendilo/proved"
        folder = kit()
        # whether the toolchain keeps what it proves
        self.is_kept_by_kit = not folder or SAYS in read(f"{folder}/bin/rt")
        self.sums, self.last = Sums(root, crates), self.last_sums()
        # of the sources as they stand before the proof
        self.now = {it: [self.sums.own(it), self.sums.of_proof(it)] for it in names}
        self.places = {it: f"{self.folder}/{it}-{self.sums.of(it)[:32]}" for it in names}

    def place(self, name):
        return self.places[name]

    def mark(self):
        """Where the number stands that passed with these crates, tests besides where all are meant."""
        total = hashlib.sha256("".join(map(self.sums.of, self.names)).encode()).hexdigest()
        return f"{self.folder}/{'all' if self.is_whole else 'some'}-{total[:32]}"

    def last_sums(self):
        """Of each crate that was proved here the sum of its own files, and that of what its proof depended on."""
        with contextlib.suppress(OSError, ValueError):
            return json.loads(read(f"{self.folder}/sums"))
        return {}

    def changed(self):
        """The crates whose own files are others than when they were last proved here, or that never were."""
        return [it for it in self.names if self.last.get(it, ["", ""])[0] != self.now[it][0]]

    def opened(self):
        """Those, and what stands on them."""
        return [it for it in self.names if self.last.get(it, ["", ""])[1] != self.now[it][1]]

    def count(self):
        """How many passed, if all these crates were proved here before; else 0. The crates of a run that proved more count each."""
        if self.is_kept_by_kit or not all(os.path.isdir(self.place(it)) for it in self.names):
            return 0
        try:
            return int(read(self.mark()))
        except (OSError, ValueError):
            return 0 if self.is_whole else len(self.names)

    def take(self, put):
        """Has each crate's folder put in its place."""
        for name in self.names:
            put(name, self.place(name))

    def keep(self, passed, out_of):
        """Keeps of which sources these crates are proved, and what was made of them, in place of what was kept of them: that function
        says where it was made, which is no folder that a commit brings."""
        try:
            os.makedirs(self.folder, exist_ok=True)
            if not self.is_kept_by_kit:
                self.keep_what_was_made(out_of)
                with open(self.mark(), "w", encoding="utf-8") as file:
                    file.write(str(passed))
            sums = {**self.last_sums(), **self.now}
            with open(f"{self.folder}/sums", "w", encoding="utf-8") as file:
                json.dump(sums, file)
        except OSError as error:
            print(f"what was proved could not be kept: {error}", flush=True)

    def keep_what_was_made(self, out_of):
        for name in self.names:
            for it in os.listdir(self.folder):
                if it.rpartition("-")[0] == name and f"{self.folder}/{it}" != self.place(name):
                    shutil.rmtree(f"{self.folder}/{it}", ignore_errors=True)
            if not os.path.isdir(self.place(name)):
                new = f"{self.place(name)}.new"
                shutil.rmtree(new, ignore_errors=True)
                os.makedirs(new)
                if os.path.isdir(out_of(name)):
                    shutil.copytree(out_of(name), new, symlinks=True, ignore=NOT_KEPT, dirs_exist_ok=True)
                os.rename(new, self.place(name))
