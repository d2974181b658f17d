"""A run of the program that is held at each system call that it makes, where the call can be made to fail.

This uses ptrace, for Linux on an x86-64 processor, which the toolchain needs too. The usual tools that make calls fail can't
shorten one: they only report that fewer bytes were read or written."""
from __future__ import annotations

import ctypes
import os
import signal
import struct
from collections.abc import Sequence
from dataclasses import dataclass, replace
from pathlib import Path

from tools.refusals.tally import Difference

# Requests, options and an event of ptrace.
TRACE_ME, GO_ON, GET_REGISTERS, SET_REGISTERS, TO_END_OF_CALL, SET_OPTIONS = 0, 7, 12, 13, 24, 0x4200
ENDS_ARE_MARKED, HOLDS_AT_CALLS, ENDS_WITH_THE_TOOL = 1, 0x80, 0x100000
AT_END_OF_CALL, AT_CALL = signal.SIGTRAP | 0x80, signal.SIGTRAP | 7 << 8
NO_CALL = 2**64 - 1
CANT_BE_RUN = 127
NO_ENVIRONMENT: dict[str, str] = {}
# Requests of prctl, and the few words of a filter of calls.
SET_FILTER, GAIN_NOTHING, BY_PROGRAM = 22, 38, 2
LOAD, JUMP_IF_EQUAL, RETURN = 0x20, 0x15, 0x06
HOLD, LET = 0x7FF00000, 0x7FFF0000

# The calls that can be made to fail, by their numbers. The first argument of the former is a descriptor.
OF_DESCRIPTORS = {
    0: "read", 1: "write", 3: "close", 5: "fstat", 8: "lseek", 17: "pread64", 18: "pwrite64", 19: "readv", 20: "writev",
    74: "fsync", 75: "fdatasync", 77: "ftruncate",
    91: "fchmod",
}  # fmt: skip
OF_NAMES = {
    2: "open", 4: "stat", 6: "lstat", 76: "truncate", 82: "rename", 86: "link", 87: "unlink", 257: "openat",
    262: "newfstatat", 263: "unlinkat", 264: "renameat", 265: "linkat", 316: "renameat2", 332: "statx",
}  # fmt: skip
EXIT = "exit"
CALLS = {**OF_DESCRIPTORS, **OF_NAMES, 231: EXIT}
# Those at which nothing is held: of memory, signals, time and random numbers (mmap, mprotect, munmap, brk, rt_sigaction,
# rt_sigprocmask, mremap, madvise, sigaltstack, futex, clock_gettime, getrandom), and what begins a process (access, execve,
# arch_prctl, set_tid_address, set_robust_list, prlimit64, rseq).
OTHERS = [9, 10, 11, 12, 13, 14, 25, 28, 131, 202, 228, 318, 21, 59, 158, 218, 273, 302, 334]


class Untraceable(Exception):
    """This system lets no process be held at its calls, or the program can't be run."""


class Registers(ctypes.Structure):
    """The registers of a process, as the kernel lays them out."""

    orig_rax: int
    rax: int
    rdi: int
    rdx: int
    _fields_ = [
        (name, ctypes.c_ulong)
        for name in (
            "r15 r14 r13 r12 rbp rbx r11 r10 r9 r8 rax rcx rdx rsi rdi orig_rax rip cs eflags rsp ss fs_base gs_base ds es fs gs"
        ).split()
    ]


@dataclass(frozen=True)
class Call:
    """A system call: its name, which of the standard streams it is of, if any, and its result."""

    name: str
    stream: int | None
    result: int = 0


_libc = ctypes.CDLL(None, use_errno=True)
_libc.ptrace.argtypes = [ctypes.c_long, ctypes.c_long, ctypes.c_void_p, ctypes.c_void_p]
_libc.ptrace.restype = ctypes.c_long
_libc.prctl.argtypes = [ctypes.c_int, ctypes.c_ulong, ctypes.c_void_p, ctypes.c_ulong, ctypes.c_ulong]


def _checked(result: int) -> None:
    if result == -1:
        why = ctypes.get_errno()
        raise OSError(why, os.strerror(why))


def ptrace(request: int, pid: int, data: object = None) -> None:
    _checked(_libc.ptrace(request, pid, None, data))


def _filter() -> bytes:
    """Holds a process at all calls but those that are named above. Without it each call would be held twice, and a run would
    take three times as long."""
    lets = [(JUMP_IF_EQUAL, len(OTHERS) - at, 0, number) for at, number in enumerate(OTHERS)]
    words = [(LOAD, 0, 0, 0), *lets, (RETURN, 0, 0, HOLD), (RETURN, 0, 0, LET)]
    return b"".join(struct.pack("=HBBI", *word) for word in words)


_words = ctypes.create_string_buffer(_filter())
_program = ctypes.create_string_buffer(struct.pack("@HP", (len(_words) - 1) // 8, ctypes.addressof(_words)))


def started(words: Sequence[str], folder: Path, streams: Sequence[int]) -> int:
    """Starts a program that stops before its first instruction."""
    pid = os.fork()
    if pid:
        return pid
    try:
        os.chdir(folder)
        for to, stream in enumerate(streams):
            os.dup2(stream, to)
        ptrace(TRACE_ME, 0)
        _checked(_libc.prctl(GAIN_NOTHING, 1, None, 0, 0))
        _checked(_libc.prctl(SET_FILTER, BY_PROGRAM, _program, 0, 0))
        os.execve(words[0], list(words), NO_ENVIRONMENT)
    finally:
        os._exit(CANT_BE_RUN)


class Traced:
    """A run of the program, held where a call begins; at first that is the first one after those of the loader."""

    def __init__(self, words: Sequence[str], folder: Path, streams: Sequence[int]) -> None:
        self.status: int | None = None
        # The call at which it is held, and its number; and those that were made, where they were noted.
        self.at: Call | None = None
        self.number = -1
        self.made: list[Call] = []
        self._is_loaded = False
        self.pid = started(words, folder, streams)
        if self._wait() != signal.SIGTRAP:
            raise Untraceable(f"{words[0]} can't be run and held at its calls here")
        ptrace(SET_OPTIONS, self.pid, ENDS_ARE_MARKED | HOLDS_AT_CALLS | ENDS_WITH_THE_TOOL)
        self.next()

    def _wait(self) -> int:
        """Where it stopped: the signal, with the event above it; or 0 where it ended."""
        _, status = os.waitpid(self.pid, 0)
        if os.WIFSTOPPED(status):
            return status >> 8
        self.status = os.waitstatus_to_exitcode(status)
        return 0

    def _go(self, request: int, to: int) -> bool:
        """Goes on to such a stop, if there is one. Signals are handed on."""
        stopped = 0
        while True:
            ptrace(request, self.pid, stopped)
            stopped = self._wait()
            if stopped in (0, to):
                return stopped != 0

    def _registers(self) -> Registers:
        found = Registers()
        ptrace(GET_REGISTERS, self.pid, ctypes.byref(found))
        return found

    def _set(self, registers: Registers) -> None:
        ptrace(SET_REGISTERS, self.pid, ctypes.byref(registers))

    def _call(self, registers: Registers) -> Call | None:
        """The call at which it is held, if that isn't the loader's."""
        number, first = registers.orig_rax, registers.rdi
        stream = first if number in OF_DESCRIPTORS and first <= 2 else None
        # What comes before the first call that names a standard stream is done by the loader.
        self._is_loaded |= stream is not None
        if self._is_loaded and number not in CALLS:
            raise Difference(f"the program makes system call {number}, which isn't known here")
        return Call(CALLS[number], stream) if self._is_loaded else None

    def _make(self) -> int:
        """Has the call made, and gives its result."""
        return ctypes.c_long(self._registers().rax).value if self._go(TO_END_OF_CALL, AT_END_OF_CALL) else 0

    def next(self) -> bool:
        """Goes on to the next call, if there is one. The one at which it is held is made, unless it has an answer."""
        self.at = None
        while self.status is None and self._go(GO_ON, AT_CALL):
            self.at = self._call(self._registers())
            if self.at:
                self.number += 1
                return True
        return False

    def note(self) -> bool:
        """Goes on to the next call, and notes the result of this one."""
        if self.at:
            self.made.append(replace(self.at, result=self._make()))
        return self.next()

    def to(self, number: int) -> None:
        """Goes on to the call of this number."""
        while self.number < number and self.next():
            pass

    def end(self) -> None:
        while self.next():
            pass

    def answer(self, result: int) -> None:
        """Gives the call this result, and doesn't make it."""
        registers = self._registers()
        registers.orig_rax, registers.rax = NO_CALL, result % 2**64
        self._set(registers)

    def shorten(self, count: int) -> None:
        """Has the call made with this many bytes."""
        registers = self._registers()
        asked, registers.rdx = registers.rdx, count
        self._set(registers)
        self._make()
        registers = self._registers()
        registers.rdx = asked
        self._set(registers)

    def kill(self) -> None:
        """Kills it where it is held."""
        if self.status is None:
            os.kill(self.pid, signal.SIGKILL)
        while self.status is None:
            self._wait()
