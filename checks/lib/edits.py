"""Wrong bodies as edits: how they stand in files, and how they are applied to a crate."""
import os
import re
from dataclasses import dataclass, field

from lib.crates import PARTS

# the folder beside a crate's edits of what --all and --changed try
MORE = "more"


class BadEdit(Exception):
    """Why an edit cannot be tried."""


@dataclass
class Change:
    file: str
    # text after which 'old' stands first, or none where it stands once in the file
    after: str
    old: str
    new: str

    def made(self, text):
        """The text of the file with the change."""
        front, found, rest = "", "", text
        if self.after:
            front, found, rest = text.partition(self.after)
            if text.count(self.after) != 1 or self.old not in rest:
                raise BadEdit(f"its old text stands nowhere after '{self.after}' in {self.file}")
        elif text.count(self.old) != 1:
            count = text.count(self.old)
            raise BadEdit(f"its old text stands {count} times in {self.file}, and not once")
        return front + found + rest.replace(self.old, self.new, 1)


@dataclass
class Copy:
    """A function with another body, which stands beside it under a name of its own, with its clauses and its proof files."""

    function: str
    file: str
    # the line after which it stands, and its own lines
    after: int
    lines: list
    # the texts of its proof files
    proofs: dict


@dataclass
class Edit:
    """One wrong body: what is changed in which files, and the function that must be refused."""

    # what the wrong body does
    says: str = ""
    function: str = ""
    # for the self-check: words of the failure that must be reported
    failure: str = ""
    changes: list = field(default_factory=list)
    # where it is tried beside the right one; where that gave no refusal, it is tried in its place
    copy: Copy = None
    is_in_place: bool = False

    def tried(self):
        """The function that the prover is asked about."""
        return self.copy.function if self.copy else self.function

    def turned(self):
        """The files that it turns; of a wrong body that of src/ first, whose name its own file has."""
        return sorted({it.file for it in self.changes}, key=lambda it: not it.startswith("src/"))


def files_of(folder):
    """The files below the folder, but for those of MORE."""
    for at, folders, files in os.walk(folder):
        folders[:] = sorted(it for it in folders if (at, it) != (folder, MORE))
        yield from (f"{at}/{it}" for it in sorted(files))


def blocks_of(path):
    """The blocks of lines of a file, which empty lines divide, written out."""
    with open(path, encoding="utf-8") as file:
        blocks = re.split(r"\n(?:[ \t]*\n)+", file.read().strip("\n"))
    return [it for block in blocks if block.strip() for it in written_out(path, block.split("\n"))]


def written_out(path, block):
    """The block with the file that it turns; one for each name, where it begins with a line 'for: NAME..'."""
    word, _, names = block[0].partition(":")
    names = names.split() if word == "for" else []
    lines = block[1:] if word == "for" else block
    turned = re.search(rf"\bcrates/\w+/(wrong|wrong-definitions)/(?:{MORE}/)?([^.]*)[.]edits$", path)
    first = next((at for at, it in enumerate(lines) if it.startswith(("file:", "after:", "old:"))), None)
    if turned and first is not None and not lines[first].startswith("file:"):
        file = f"src/{turned[2]}.rt" if turned[1] == "wrong" else f"specs/{turned[2]}.antt"
        lines = [*lines[:first], f"file: {file}", *lines[first:]]
    return [for_name(lines, it) for it in names] if names else [lines]


def for_name(lines, given):
    """The lines with a name in place of '{kind}' and its type in place of '{Kind}': that after the name and a colon, or the
    name's own words with capitals."""
    name, _, kind = given.partition(":")
    kind = kind or "".join(word[:1].upper() + word[1:] for word in name.split("_"))
    return [it.replace("{kind}", name).replace("{Kind}", kind) for it in lines]


def read_edit(lines):
    edit, file, after, old = Edit(), "", "", None
    for line in lines:
        word, _, text = line.partition(":")
        text = text.removeprefix(" ")
        if word in ("says", "function", "failure") and not getattr(edit, word):
            setattr(edit, word, text.strip())
        elif word == "file":
            file = text.strip()
        elif word == "after" and old is None:
            after = text
        elif word == "old" and old is None:
            old = text
        elif word == "new" and file and old:
            edit.changes.append(Change(file, after, old, text))
            after, old = "", None
        else:
            raise BadEdit(f"cannot be read at: {line.strip()[:80]}")
    if not edit.changes or not edit.function or not edit.says or old is not None:
        raise BadEdit("lacks a line 'says:', 'function:', 'file:', 'old:' or 'new:'")
    return edit


def text_of(crate, path):
    if os.path.normpath(path) != path or path.split("/")[0] not in PARTS:
        raise BadEdit(f"names no file of src/, specs/ or proofs/: {path}")
    try:
        with open(f"{crate.folder}/{path}", encoding="utf-8") as file:
            return file.read()
    except OSError:
        raise BadEdit(f"names no file of the crate: {path}") from None


def changed(before, after):
    """What differs in a line: (begin, end, new text)."""
    head = len(os.path.commonprefix([before, after]))
    tail = len(os.path.commonprefix([before[head:][::-1], after[head:][::-1]]))
    return head, len(before) - tail, after[head : len(after) - tail]


def spans_of(crate, edit):
    """What the edit puts where into the crate's files: {(file, line): [(begin, end, new text)]}."""
    found = {}
    for path in dict.fromkeys(it.file for it in edit.changes):
        before = after = text_of(crate, path)
        for change in (it for it in edit.changes if it.file == path):
            after = change.made(after)
        # both texts of a change are of one line, so that lines stay where they are
        for at, (one, other) in enumerate(zip(before.split("\n"), after.split("\n"))):
            if one != other:
                found[path, at] = [changed(one, other)]
    return found


def join(spans, more):
    """Both edits' spans, None where they change the same text in two ways."""
    whole = {at: sorted({*spans.get(at, []), *more.get(at, [])}) for at in {**spans, **more}}
    for found in whole.values():
        if any(then[0] < max(one[1], one[0] + 1) for one, then in zip(found, found[1:])):
            return None
    return whole


def texts_of(crate, spans):
    """The texts of the files that are changed."""
    texts = {path: text_of(crate, path).split("\n") for path, _ in spans}
    for (path, at), found in spans.items():
        for begin, end, new in reversed(found):
            line = texts[path][at]
            texts[path][at] = line[:begin] + new + line[end:]
    return {path: "\n".join(lines) for path, lines in texts.items()}


def text_with(crate, edit, path):
    """The text of the file with the edit's changes."""
    text = text_of(crate, path)
    for change in (it for it in edit.changes if it.file == path):
        text = change.made(text)
    return text


def copied(crate, edit, number):
    """The edit's body as a function beside the right one. None where it cannot stand there: a method of a trait, what C calls, a
    function that calls itself, and one whose proof speaks of it by name."""
    paths = {it.file for it in edit.changes if it.file.endswith(".rt")}
    if len(paths) != 1 or not is_in_bodies(crate, edit):
        return None
    file = paths.pop()
    *above, name = edit.function.split("::")
    function = "::".join([*above, f"{name}_wrong{number}"])
    before, after = text_of(crate, file).split("\n"), text_with(crate, edit, file).split("\n")
    turned = [at for at, (one, other) in enumerate(zip(before, after)) if one != other]
    found = function_at(before, turned[0], name) if turned and len(before) == len(after) else None
    if not found or turned[-1] > found[2]:
        return None
    first, head, last = found
    proofs = copied_proofs(crate, edit, function)
    if proofs is None or re.search(rf"\b{name}(\(|::)", "\n".join(after[head + 1 : last + 1])):
        return None
    lines = [*after[first:head], re.sub(rf"fn {name}\b", f"fn {name}_wrong{number}", after[head]), *after[head + 1 : last + 1]]
    return Copy(function, file, last, lines, proofs)


def function_at(lines, turned, name):
    """Where the function of that name with that line begins, has its head and ends; None where it cannot be copied."""
    head = next((at for at in range(turned, -1, -1) if re.match(rf"\s*{MARKS}fn {name}\b", lines[at])), None)
    if head is None or 'extern "C"' in lines[head]:
        return None
    indent = re.match(r"\s*", lines[head])[0]
    owner = next((it for it in reversed(lines[:head]) if OWNER.match(it)), "") if indent else ""
    ends = (at for at in range(head, len(lines)) if lines[at] == f"{indent}}}")
    last = head if lines[head].endswith("}") else next(ends, None)
    # with all attributes, and without the lines of what stands before it
    first = head
    while first and lines[first - 1].strip() and not lines[first - 1].endswith(("}", "{", ";")):
        first -= 1
    is_cycle = any("#[cycle" in it for it in lines[first:head])
    return None if last is None or is_cycle or " for " in owner or "trait " in owner else (first, head, last)


def copied_proofs(crate, edit, function):
    """The proof files of the edit's function as those of that one; None where they speak of it beyond their own names."""
    proofs = {}
    own, other = (f"proofs/{it.replace('::', '/')}/" for it in (edit.function, function))
    was, now = (f"Rattle.{crate.name}.{it.replace('/', '.')}" for it in (own, other))
    for at, _, files in os.walk(f"{crate.folder}/{own}"):
        for it in files:
            path = f"{os.path.relpath(at, crate.folder)}/{it}"
            text = text_with(crate, edit, path)
            if re.search(rf"\b{edit.function.rpartition('::')[2]}\b", text.replace(was, "")):
                return None
            proofs[path.replace(own, other, 1)] = text.replace(was, now)
    return proofs


OWNER = re.compile(r"(unsafe )?impl\b|(pub )?trait\b")
MARKS = r'(?:pub(?:\([^)]*\))? )?(?:final )?(?:const )?(?:extern "C" )?'
HEAD = re.compile(rf"(\s*){MARKS}fn \w")


def is_in_bodies(crate, edit):
    """Whether each changed text stands in a body, in the function's own proof or in what a search
    of its block may use: others see none of these."""
    own = f"proofs/{edit.function.replace('::', '/')}/"
    for change in edit.changes:
        if change.file.startswith(own):
            continue
        if not change.file.endswith(".rt"):
            return False
        front, after, rest = text_of(crate, change.file).partition(change.after or change.old)
        above = front + after + rest.partition(change.old)[0] if change.after else front
        # an edit may add something after the line that begins the function
        above += change.old if change.new.startswith(change.old) else ""
        above = above.split("\n")
        if above[-1].startswith("#[tactic("):
            continue
        heads = [at for at, line in enumerate(above) if HEAD.match(line)]
        if not heads:
            return False
        head, below = above[heads[-1]], above[heads[-1] + 1 :]
        indent = HEAD.match(head)[1]
        # the body begins on the head's line, after its parameters, or after its clauses
        begins = [it for it in below if re.fullmatch(rf"{indent}(\).*)?{{", it)]
        if not (head.endswith("{") or begins) or f"{indent}}}" in below:
            return False
    return True
