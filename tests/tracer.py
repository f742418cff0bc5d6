"""Runs a program and sees each of its calls of the platform, by the tracing that Linux has. No other tool is needed."""

import collections
import contextlib
import ctypes
import errno
import os
import platform
import signal
import tempfile
import threading

import support
from support import Failed

TRACE_ME, GET_REGISTERS, SET_REGISTERS, GO_TO_CALL, SET_OPTIONS = 0, 12, 13, 24, 0x4200

# Stops at calls are told from others, and the program ends with the tests.
OPTIONS = 0x1 | 0x100000
STOP_AT_CALL = signal.SIGTRAP | 0x80

# The order in which Linux gives the registers of x86-64.
REGISTERS = (
    "r15 r14 r13 r12 rbp rbx r11 r10 r9 r8 rax rcx rdx rsi rdi orig_rax rip cs eflags rsp ss fs_base gs_base ds es fs gs"
).split()
ARGUMENTS = "rdi rsi rdx r10 r8 r9".split()

# The calls that may look for, open, read, write, sync or take away a file, by their numbers. The letters behind a name
# say what its arguments are: an open file, a path, the bytes of a buffer with their count, or a number.
CALLS = {
    0: ("read", "f"),
    1: ("write", "fb"),
    2: ("open", "pn"),
    3: ("close", "f"),
    4: ("stat", "p"),
    5: ("fstat", "f"),
    6: ("lstat", "p"),
    17: ("pread64", "f"),
    18: ("pwrite64", "fb n"),
    19: ("readv", "f"),
    20: ("writev", "f"),
    26: ("msync", ""),
    74: ("fsync", "f"),
    75: ("fdatasync", "f"),
    76: ("truncate", "p"),
    77: ("ftruncate", "f"),
    82: ("rename", "p"),
    85: ("creat", "p"),
    86: ("link", "p"),
    87: ("unlink", "p"),
    162: ("sync", ""),
    217: ("getdents64", "f"),
    257: ("openat", " pn"),
    262: ("newfstatat", "fp"),
    263: ("unlinkat", " p"),
    264: ("renameat", " p"),
    265: ("linkat", " p"),
    277: ("sync_file_range", "f"),
    285: ("fallocate", "f"),
    295: ("preadv", "f"),
    296: ("pwritev", "f"),
    306: ("syncfs", "f"),
    316: ("renameat2", " p"),
    332: ("statx", "fp"),
}


class Registers(ctypes.Structure):
    _fields_ = [(name, ctypes.c_ulonglong) for name in REGISTERS]


# A call: its name, the path of its file, the number of the open file, the bytes that it writes, its last number (flags
# or an offset), and what it answered.
Call = collections.namedtuple("Call", "name path handle data number answer")

LIBC = ctypes.CDLL(None, use_errno=True)
LIBC.ptrace.restype = ctypes.c_long
LIBC.ptrace.argtypes = [ctypes.c_long, ctypes.c_long, ctypes.c_void_p, ctypes.c_void_p]


def trace(request, process, data):
    if LIBC.ptrace(request, process, None, data) < 0:
        raise Failed(f"calls can't be traced here: {os.strerror(ctypes.get_errno())}")


def start(command, streams):
    """Starts a program that is traced, with these three open files as its streams."""
    process = os.fork()
    if process:
        return process
    try:
        for number, stream in enumerate(streams):
            os.dup2(stream.fileno(), number)
        trace(TRACE_ME, 0, None)
        os.execv(command[0], [os.fspath(word) for word in command])
    finally:
        os._exit(126)


class Traced:
    def __init__(self, process, disturb):
        self.process, self.disturb = process, disturb
        self.calls = []
        # The call that is under way, and the fault that is answered in its place.
        self.begun, self.fault = None, None

    def registers(self):
        held = Registers()
        trace(GET_REGISTERS, self.process, ctypes.byref(held))
        return held

    def bytes_at(self, address, count):
        with open(f"/proc/{self.process}/mem", "rb", buffering=0) as memory:
            return os.pread(memory.fileno(), count, address)

    def text_at(self, address):
        """The text up to the first zero. No page is read that the text doesn't reach."""
        text = b""
        while b"\0" not in text:
            text += self.bytes_at(address + len(text), 4096 - (address + len(text)) % 4096)
        return text.split(b"\0")[0].decode(errors="replace")

    def path_of(self, handle):
        try:
            return os.readlink(f"/proc/{self.process}/fd/{handle}")
        except OSError:
            return None

    def call(self, held):
        """The call whose registers these are, None where it isn't one of those that are looked at."""
        if held.orig_rax not in CALLS:
            return None
        name, kinds = CALLS[held.orig_rax]
        given = [getattr(held, register) for register in ARGUMENTS]
        path = handle = data = number = None
        for at, kind in enumerate(kinds):
            if kind == "f":
                handle = ctypes.c_int(given[at]).value
                path = self.path_of(handle)
            elif kind == "p":
                path = self.text_at(given[at]) or path
            elif kind == "b":
                data = self.bytes_at(given[at], given[at + 1])
            elif kind == "n":
                number = given[at]
        return Call(name, path, handle, data, number, None)

    def at_call(self):
        """The call begins, or it ends."""
        held = self.registers()
        if self.begun is None:
            self.begun = (self.call(held),)
            self.fault = self.disturb(self.begun[0]) if self.begun[0] else None
            if self.fault:
                # No call has this number, so nothing is done.
                held.orig_rax = 2**64 - 1
                trace(SET_REGISTERS, self.process, ctypes.byref(held))
            return
        if self.fault:
            held.rax = 2**64 - self.fault
            trace(SET_REGISTERS, self.process, ctypes.byref(held))
        if self.begun[0]:
            self.calls.append(self.begun[0]._replace(answer=ctypes.c_longlong(held.rax).value))
        self.begun = None

    def follow(self):
        """Goes from call to call until the program ends, and gives its status."""
        _, status = os.waitpid(self.process, 0)
        if os.WIFSTOPPED(status):
            trace(SET_OPTIONS, self.process, OPTIONS)
        while os.WIFSTOPPED(status):
            stop = os.WSTOPSIG(status)
            if stop == STOP_AT_CALL:
                self.at_call()
            # What else stops it, but for the start of a program, is a signal, which it gets.
            passes = 0 if stop in (STOP_AT_CALL, signal.SIGTRAP) else stop
            trace(GO_TO_CALL, self.process, passes)
            _, status = os.waitpid(self.process, 0)
        return os.waitstatus_to_exitcode(status)


def nothing(call):
    return None


def run(command, script, disturb=nothing):
    """Runs a program on a script. It gives the status, what it wrote to its outputs, and its calls.

    What `disturb` gives for a call is answered in the place of the call, as an error, where it is one.
    """
    if (platform.system(), platform.machine()) != ("Linux", "x86_64"):
        raise Failed("calls are traced on Linux on x86-64 alone")
    with contextlib.ExitStack() as stack:
        streams = [stack.enter_context(tempfile.TemporaryFile()) for _ in range(3)]
        streams[0].write(script)
        streams[0].seek(0)
        traced = Traced(start(command, streams), disturb)
        killer = threading.Timer(support.LIMIT, os.kill, (traced.process, signal.SIGKILL))
        killer.start()
        try:
            status = traced.follow()
        except BaseException:
            with contextlib.suppress(ProcessLookupError):
                os.kill(traced.process, signal.SIGKILL)
            raise
        finally:
            killer.cancel()
        said = [os.pread(stream.fileno(), 1 << 26, 0) for stream in streams[1:]]
        return status, *said, traced.calls


INTERRUPTED, TOO_MANY_FILES = errno.EINTR, errno.EMFILE
