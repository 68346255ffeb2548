"""Runs a program and refuses one of its requests for memory, as a debugger would: it stops the program where it enters one
of the two functions by which every program of the toolchain asks for memory, and has that call answer "none". Or it stops the
program where it ends, and reads its memory.

It needs Linux on x86-64, and no other program but `nm`.
"""
import ctypes
import os
import re
import signal
import subprocess

# the functions that ask for memory, of which a refusal is the number 0
ASKING = ("rattle_alloc", "rattle_realloc")
# the instruction that stops a traced program
STOP = 0xCC
TRACEME, PEEK, POKE, CONTINUE, STEP, GET_REGISTERS, SET_REGISTERS, SET_OPTIONS = 0, 2, 5, 7, 9, 12, 13, 0x4200
# the option by which a traced program stops where it ends, with its memory
STOP_AT_END = 0x40

libc = ctypes.CDLL(None, use_errno=True)
libc.ptrace.restype = ctypes.c_long
libc.ptrace.argtypes = [ctypes.c_long, ctypes.c_long, ctypes.c_void_p, ctypes.c_void_p]


class Registers(ctypes.Structure):
    """user_regs_struct of <sys/user.h>."""

    NAMES = "r15 r14 r13 r12 rbp rbx r11 r10 r9 r8 rax rcx rdx rsi rdi orig_rax rip cs eflags rsp ss fs_base gs_base ds es fs gs"
    _fields_ = [(name, ctypes.c_ulong) for name in NAMES.split()]


def trace(request, pid, address=0, data=0):
    ctypes.set_errno(0)
    answer = libc.ptrace(request, pid, address, data)
    if answer == -1 and ctypes.get_errno():
        raise OSError(ctypes.get_errno(), f"ptrace {request}")
    return answer & (2**64 - 1)


class Program:
    """A program whose allocations can be refused."""

    def __init__(self, path):
        self.path = os.path.realpath(path)
        listed = subprocess.run(["nm", self.path], capture_output=True, text=True, check=True).stdout
        found = dict(reversed(line.split()[::2]) for line in listed.splitlines() if len(line.split()) == 3)
        self.offsets = [int(found[name], 16) for name in ASKING]

    def run(self, question, output, refused):
        """The status of the program on that file, and how many times it asked for memory; the request with the number
        `refused` is refused, counted from 1. It writes the file `output`."""
        pid = os.fork()
        if pid == 0:
            self.begin(question, output)
        return Run(pid, self).follow(refused)

    def memory_at_end(self, question, output):
        """The status of the program on that file, and the bytes that lie in its memory where it ends: those of its stack, and
        all others that it may write. It writes the file `output`."""
        pid = os.fork()
        if pid == 0:
            self.begin(question, output)
        os.waitpid(pid, 0)
        trace(SET_OPTIONS, pid, 0, STOP_AT_END)
        if (status := resumed(pid, CONTINUE)) is not None:
            raise OSError(f"{self.path} ended with {status}, and did not stop there")
        parts = list(writable(pid))
        stack, others = ([data for name, data in parts if (name == "[stack]") == on_it] for on_it in (True, False))
        return resumed(pid, CONTINUE), stack, others

    def begin(self, question, output):
        """What the new process does."""
        try:
            os.dup2(os.open(question, os.O_RDONLY), 0)
            os.dup2(os.open(output, os.O_WRONLY | os.O_CREAT | os.O_TRUNC), 1)
            os.dup2(os.open(os.devnull, os.O_WRONLY), 2)
            trace(TRACEME, 0)
            os.execv(self.path, [self.path])
        finally:
            os._exit(127)


def resumed(pid, how, sent=0):
    """Lets a traced process go on, and returns the status it ended with, or None where it stopped."""
    trace(how, pid, 0, sent)
    _, status = os.waitpid(pid, 0)
    if os.WIFSTOPPED(status) and os.WSTOPSIG(status) != signal.SIGTRAP:
        return resumed(pid, CONTINUE, os.WSTOPSIG(status))
    return None if os.WIFSTOPPED(status) else os.waitstatus_to_exitcode(status)


def writable(pid):
    """The parts of a stopped process's memory that it may write: their names, where they have one, and their bytes."""
    with open(f"/proc/{pid}/maps", encoding="utf-8") as maps, open(f"/proc/{pid}/mem", "rb") as memory:
        for line in maps:
            bounds, rights, _, _, _, *name = line.split(maxsplit=5)
            if rights.startswith("rw"):
                begin, end = (int(it, 16) for it in bounds.split("-"))
                memory.seek(begin)
                yield "".join(name).strip(), memory.read(end - begin)


class Run:
    """A process that is traced from its first instruction on."""

    def __init__(self, pid, program):
        self.pid = pid
        os.waitpid(pid, 0)
        with open(f"/proc/{pid}/maps", encoding="ascii") as maps:
            base = next(int(re.match("[0-9a-f]+", line)[0], 16) for line in maps if line.rstrip().endswith(program.path))
        self.entered = {base + offset: trace(PEEK, pid, base + offset) for offset in program.offsets}
        for address in self.entered:
            self.stop_at(address)

    def stop_at(self, address):
        trace(POKE, self.pid, address, self.entered[address] & ~0xFF | STOP)

    def follow(self, refused):
        asked, registers = 0, Registers()
        while (status := resumed(self.pid, CONTINUE)) is None:
            trace(GET_REGISTERS, self.pid, 0, ctypes.addressof(registers))
            asked += 1
            registers.rip -= 1
            if asked == refused:
                self.answer_none(registers)
            else:
                self.enter(registers)
        return status, asked

    def answer_none(self, registers):
        registers.rip = trace(PEEK, self.pid, registers.rsp)
        registers.rsp += 8
        registers.rax = 0
        trace(SET_REGISTERS, self.pid, 0, ctypes.addressof(registers))

    def enter(self, registers):
        """Steps over the instruction that the stop took the place of."""
        trace(SET_REGISTERS, self.pid, 0, ctypes.addressof(registers))
        trace(POKE, self.pid, registers.rip, self.entered[registers.rip])
        resumed(self.pid, STEP)
        self.stop_at(registers.rip)
