"""A program that is stopped for good before one of its calls that change a file, by the means of a debugger (ptrace, on Linux and x86-64)."""

import ctypes
import os
import platform
import signal
import subprocess
import sys

TRACEME, PEEKUSER, SYSCALL, SETOPTIONS = 0, 3, 24, 0x4200
SYSGOOD, EXITKILL = 1, 0x100000
NUMBER, FIRST = 15 * 8, 14 * 8  # where a call's number and its first word stand
# write, pwrite64, writev, fsync, fdatasync, truncate, ftruncate, rename, unlink, pwritev, renameat, unlinkat, renameat2, pwritev2
CHANGES = {1, 18, 20, 74, 75, 76, 77, 82, 87, 296, 264, 263, 316, 328}
OF_FILES = {1, 18, 20, 74, 75, 77, 296, 328}  # those whose first word is an open file


def is_there():
    """Whether programs can be stopped so here."""
    if platform.machine() != "x86_64" or not sys.platform.startswith("linux"):
        return False
    try:
        return stopped_before(1, ["/bin/true"]) is not None
    except OSError:
        return False


def trace(request, child, address, word):
    """A call of ptrace, or OSError where it is refused."""
    libc = ctypes.CDLL(None, use_errno=True)
    libc.ptrace.restype = ctypes.c_long
    libc.ptrace.argtypes = [ctypes.c_long, ctypes.c_long, ctypes.c_void_p, ctypes.c_void_p]
    ctypes.set_errno(0)
    found = libc.ptrace(request, child, address, word)
    if found == -1 and ctypes.get_errno():
        raise OSError(ctypes.get_errno(), "ptrace")
    return found


def changes_a_file(child):
    """Whether the call that a child is about to make changes a file other than its standard streams."""
    number = trace(PEEKUSER, child, NUMBER, None)
    return number in CHANGES and (number not in OF_FILES or trace(PEEKUSER, child, FIRST, None) > 2)


def stopped_before(count, command, **streams):
    """Runs a command up to its call of this number, counted from 1, that changes a file; the status with which it ended, or -9 where it
    was stopped there."""
    process = subprocess.Popen(command, preexec_fn=lambda: trace(TRACEME, 0, None, None), **streams)
    child, made, is_entered = process.pid, 0, False
    _, status = os.waitpid(child, 0)
    trace(SETOPTIONS, child, None, SYSGOOD | EXITKILL)
    given = 0
    while os.WIFSTOPPED(status):
        trace(SYSCALL, child, None, given)
        _, status = os.waitpid(child, 0)
        if not os.WIFSTOPPED(status):
            break
        given = 0
        if os.WSTOPSIG(status) != signal.SIGTRAP | 0x80:
            given = os.WSTOPSIG(status)
            continue
        is_entered = not is_entered
        if is_entered and changes_a_file(child):
            made += 1
            if made == count:
                os.kill(child, signal.SIGKILL)
                _, status = os.waitpid(child, 0)
    process.returncode = os.waitstatus_to_exitcode(status)
    return process.returncode
