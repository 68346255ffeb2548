"""What an object file has, as another assembler's of the same text has it too: ELF (elf(5)) of x86-64 and aarch64, little-endian."""
import bisect
import re
import struct
import subprocess
from dataclasses import dataclass, field

HEADER, SECTION = struct.Struct("<16xHHIQQQIHHHHHH"), struct.Struct("<IIQQQQIIQQ")
SYMBOL, RELOCATION = struct.Struct("<IBBHQQ"), struct.Struct("<QQq")
SYMBOLS, RELOCATIONS, NOTHING = 2, 4, 8
# of a section: it is in memory when the program runs, and it is code
ALLOCATED, CODE = 2, 4
# of x86-64: these tell how far a place is, and from where they stand, while an instruction counts from its end
RELATIVE = {2: "place", 4: "place", 9: "GOT", 41: "GOT", 42: "GOT"}
X86_64 = 62
# what only moves the next instruction to where it has to lie
PADDING = re.compile(r"((data16|cs) )*nop[wl]?\b|xchg +%ax,%ax$")


@dataclass
class Section:
    """A section: its bytes, and by their places what a linker puts there, each with its kind, its place or name, and a number that
    is added."""

    name: str
    flags: int
    data: bytes
    relocations: dict = field(default_factory=dict)


class Object:
    """The sections that are in memory, by their names, and by its name where each symbol that others see is."""

    def __init__(self, data):
        _, self.machine, _, _, _, at, *_, size, count, names = HEADER.unpack_from(data)
        heads = [SECTION.unpack_from(data, at + number * size) for number in range(count)]
        # a section of zeros has no bytes in the file
        parts = [b"" if kind == NOTHING else data[start : start + length] for _, kind, _, _, start, length, *_ in heads]
        named = [text(parts[names], it[0]) for it in heads]
        self.sections = {name: Section(name, it[2], part) for name, it, part in zip(named, heads, parts) if it[2] & ALLOCATED and it[5]}
        self.exports = {}
        symbols = self.symbols(heads, parts, named)
        for number, (_, kind, _, _, _, _, _, of, *_) in enumerate(heads):
            if kind == RELOCATIONS and named[of] in self.sections:
                for place, what, added in RELOCATION.iter_unpack(parts[number]):
                    self.sections[named[of]].relocations[place] = (what & 0xFFFFFFFF, *symbols[what >> 32], added)

    def symbols(self, heads, parts, named):
        """Of each symbol the section that it is in, or else its name, and its place there."""
        found = []
        for number, (_, kind, _, _, _, _, link, *_) in enumerate(heads):
            for name, info, _, at, place, _ in SYMBOL.iter_unpack(parts[number]) if kind == SYMBOLS else ():
                name = text(parts[link], name)
                found.append((named[at], place) if 0 < at < len(named) else (name, 0))
                if info >> 4 and 0 < at < len(named):
                    self.exports[name] = found[-1]
        return found


def text(names, at):
    return names[at : names.index(b"\0", at)].decode()


# ---- code without its padding


def listed(tool, path):
    """Of each section of code its instructions: where each begins, and its words."""
    printed = subprocess.run([tool, "-d", "-z", "-w", "--no-show-raw-insn", path], capture_output=True, text=True, check=True).stdout
    blocks = re.split(r"^Disassembly of section (.*):$", printed, flags=re.M)
    lines = re.compile(r"^ *([0-9a-f]+):\t(.*?) *(?:#.*)?$", re.M)
    return {name: [(int(at, 16), words) for at, words in lines.findall(block)] for name, block in zip(blocks[1::2], blocks[2::2])}


class Plain:
    """An object whose code is told without padding: an instruction is named by its number."""

    def __init__(self, data, instructions):
        self.object, self.all = Object(data), instructions
        self.kept = {name: [it for it in of if not PADDING.match(it[1])] for name, of in instructions.items()}
        # where a table of places in code begins, which each of its rows is told from
        self.tables = {}
        for section in self.object.sections.values():
            for at, (_, name, place, added) in self.ended(section):
                self.tables.setdefault(name, set()).add(place + added + at)

    def ended(self, section):
        """The relocations of code, each with how far its instruction's end is from it."""
        starts = [at for at, _ in self.all.get(section.name, ())] + [len(section.data)]
        for at, found in section.relocations.items() if section.flags & CODE else ():
            end = starts[bisect.bisect_right(starts, at)] - at if found[0] in RELATIVE and self.object.machine == X86_64 else 0
            yield end, found

    def place(self, name, at):
        """A place in a section: in code, the number of the instruction."""
        kept = self.kept.get(name)
        return (name, at if kept is None else bisect.bisect_left(kept, (at,)))

    def code(self, name):
        """The instructions, and to each what a linker puts there, or where it jumps to."""
        section, starts = self.object.sections[name], [at for at, _ in self.kept[name]]
        linked = dict(zip(section.relocations, self.ended(section)))
        told = []
        for at, words in self.kept[name]:
            jump = re.match(r"(\S+ .*?)\b([0-9a-f]+) <", f"{words}")
            told.append((jump[1] if jump else words, self.place(name, int(jump[2], 16)) if jump else None))
        for at, (end, (kind, of, place, added)) in linked.items():
            number = bisect.bisect_right(starts, at) - 1
            told[number] = (told[number][0], RELATIVE.get(kind, kind) if end else kind, self.place(of, place + added + end))
        return told

    def values(self, name):
        """The bytes of a section, and what a linker puts among them. A row of a table has a place in code, told from the table's
        beginning."""
        section, begins, told = self.object.sections[name], sorted(self.tables.get(name, ())), []
        for at, (kind, of, place, added) in sorted(section.relocations.items()):
            before = at - begins[bisect.bisect_right(begins, at) - 1] if of in self.kept and begins else 0
            told.append((at, kind, self.place(of, place + added - before)))
        return section.data, told

    def told(self):
        """All of it, by sections, and what others see."""
        parts = {name: self.code(name) if it.flags & CODE else self.values(name) for name, it in self.object.sections.items()}
        return parts, {name: self.place(*it) for name, it in self.object.exports.items()}
