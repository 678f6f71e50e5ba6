"""Threads of another process that are stopped for a while (ptrace: seized, interrupted, let go). Linux on x86-64."""
import ctypes
import os
import random
import time

SEIZE, INTERRUPT, DETACH = 0x4206, 0x4207, 17
WALL = 0x40000000           # waits for threads, too
WAITS = {"35", "202", "230"}    # nanosleep, futex, clock_nanosleep
PATIENCE = 5.0              # seconds

libc = ctypes.CDLL(None, use_errno=True)
libc.ptrace.argtypes = [ctypes.c_long, ctypes.c_long, ctypes.c_void_p, ctypes.c_void_p]
libc.ptrace.restype = ctypes.c_long


def trace(request, thread):
    if libc.ptrace(request, thread, None, None) != 0:
        raise OSError(ctypes.get_errno(), os.strerror(ctypes.get_errno()))


def waits(thread):
    """Whether a thread that stands still does so in a call that waits: then it has no lock that others want."""
    with open(f"/proc/{thread}/syscall", encoding="ascii") as file:
        return file.read().split()[0] in WAITS


def stop(thread):
    """Stops a thread while it waits; where it doesn't within some seconds, wherever it is."""
    until = time.monotonic() + PATIENCE
    while True:
        trace(SEIZE, thread)
        trace(INTERRUPT, thread)
        os.waitpid(thread, WALL)
        if waits(thread) or time.monotonic() > until:
            return
        trace(DETACH, thread)
        time.sleep(random.uniform(0, 0.001))


class Stopped:
    """These threads stand still within a `with`."""

    def __init__(self, threads):
        self.threads = threads

    def __enter__(self):
        for thread in self.threads:
            stop(thread)

    def __exit__(self, *_error):
        for thread in self.threads:
            trace(DETACH, thread)
