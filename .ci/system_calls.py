"""Runs a program and notes its calls on files, on Linux on x86-64: which it made, in which order, and what they answered. A call can be made to fail."""

import contextlib
import ctypes
import errno
import os
import signal
import subprocess
import typing

LIBC = ctypes.CDLL(None, use_errno=True)
LIBC.ptrace.argtypes, LIBC.ptrace.restype = [ctypes.c_long, ctypes.c_long, ctypes.c_void_p, ctypes.c_void_p], ctypes.c_long
TRACE_ME, SYSCALL, GET_REGISTERS, SET_REGISTERS, SET_OPTIONS = 0, 24, 12, 13, 0x4200
MARKED_STOPS, KILLED_WITH_US = 1, 1 << 20
CALL_STOP = signal.SIGTRAP | 0x80

NAMES = {1: "write", 2: "open", 18: "pwrite64", 20: "writev", 74: "fsync", 75: "fdatasync", 82: "rename", 87: "unlink", 257: "openat", 263: "unlinkat", 264: "renameat", 316: "renameat2"}


class Registers(ctypes.Structure):
    _fields_ = [(name, ctypes.c_ulonglong) for name in
                "r15 r14 r13 r12 rbp rbx r11 r10 r9 r8 rax rcx rdx rsi rdi orig_rax rip cs eflags rsp ss fs_base gs_base ds es fs gs".split()]


class Call(typing.NamedTuple):
    """A call that ended. Of a negative answer the positive number is the fault's."""

    name: str
    descriptor: int
    paths: tuple
    flags: int
    answer: int


def ask(request, process, data):
    if LIBC.ptrace(request, process, None, data) == -1:
        number = ctypes.get_errno()
        raise OSError(number, os.strerror(number))


def text_at(process, address):
    with open(f"/proc/{process}/mem", "rb", buffering=0) as memory:
        memory.seek(address)
        found = b""
        while b"\0" not in found:
            # (a page at most, since the next one may not be there)
            found += memory.read(4096 - memory.tell() % 4096)
        return os.fsdecode(found.partition(b"\0")[0])


def noted(process, registers):
    name = NAMES[registers.orig_rax]
    first, second, third, fourth = registers.rdi, registers.rsi, registers.rdx, registers.r10
    places = {"open": ([first], second), "openat": ([second], third), "rename": ([first, second], 0), "renameat": ([second, fourth], 0),
              "renameat2": ([second, fourth], 0), "unlink": ([first], 0), "unlinkat": ([second], 0)}
    addresses, flags = places.get(name, ([], 0))
    return Call(name, -1 if addresses else first, tuple(text_at(process, it) for it in addresses), flags, ctypes.c_longlong(registers.rax).value)


def traced(words, at, failing=None, fault=errno.EIO):
    """The status, the output and the calls of a run in the folder `at`. Of the calls named `failing[0]` number `failing[1]`, from 0, is not made and fails."""
    started = subprocess.Popen(words, cwd=at, stdin=subprocess.DEVNULL, stdout=subprocess.PIPE, preexec_fn=lambda: LIBC.ptrace(TRACE_ME, 0, None, None))
    process, calls, registers, enters, seen, fails = started.pid, [], Registers(), True, 0, False
    os.waitpid(process, 0)
    ask(SET_OPTIONS, process, MARKED_STOPS | KILLED_WITH_US)
    passed_on = 0
    while True:
        ask(SYSCALL, process, passed_on)
        ended = os.waitpid(process, 0)[1]
        if not os.WIFSTOPPED(ended):
            break
        passed_on = 0 if os.WSTOPSIG(ended) in (CALL_STOP, signal.SIGTRAP) else os.WSTOPSIG(ended)
        if os.WSTOPSIG(ended) != CALL_STOP:
            continue
        ask(GET_REGISTERS, process, ctypes.addressof(registers))
        if enters and failing and NAMES.get(registers.orig_rax) == failing[0]:
            fails, seen = seen == failing[1], seen + 1
            number, registers.orig_rax = registers.orig_rax, -1 if fails else registers.orig_rax
            ask(SET_REGISTERS, process, ctypes.addressof(registers))
        elif not enters and fails:
            fails, registers.orig_rax, registers.rax = False, number, -fault
            calls.append(noted(process, registers))
            ask(SET_REGISTERS, process, ctypes.addressof(registers))
        elif not enters and registers.orig_rax in NAMES:
            calls.append(noted(process, registers))
        enters = not enters
    started.returncode = os.waitstatus_to_exitcode(ended)
    with contextlib.closing(started.stdout):
        return started.returncode, started.stdout.read().decode(), calls
