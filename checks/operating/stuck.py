"""A server with a thread that stands still while it has the manager's lock: systemd's watchdog is told nothing."""

import contextlib
import ctypes
import os
import select
import socket
import threading
from pathlib import Path

from operating.servers import HELLO, OTHER_HELLO, Server, check, comes_true, expect, room, supervisor, talk
from talking import LeftOut, Wrong

# Of ptrace(2) and waitpid(2).
SEIZE, INTERRUPT, DETACH, ANY_THREAD = 0x4206, 0x4207, 17, 0x40000000

# Seconds between two notices, and those after which a request isn't answered before the thread goes on.
NOTICES, SILENCE = 1, 0.5

# How often the thread is stopped, at most, until it has the lock.
MOST_STOPS = 500

CHANGES = b"watch activity o1\nunwatch activity o1\n"


def trace(request, thread):
    libc = ctypes.CDLL(None, use_errno=True)
    libc.ptrace.argtypes = [ctypes.c_long, ctypes.c_long, ctypes.c_void_p, ctypes.c_void_p]
    if libc.ptrace(request, thread, None, None) < 0:
        raise OSError(ctypes.get_errno(), os.strerror(ctypes.get_errno()))


@contextlib.contextmanager
def stopped(thread):
    try:
        trace(SEIZE, thread)
    except PermissionError:
        raise LeftOut("threads may not be stopped here") from None
    trace(INTERRUPT, thread)
    os.waitpid(thread, ANY_THREAD)
    try:
        yield
    finally:
        trace(DETACH, thread)


def busy_threads(child):
    """The threads of a program that have run for a tenth of a second."""
    return [int(thread) for thread in os.listdir(f"/proc/{child.pid}/task") if ticks(child.pid, thread) >= 10]


def ticks(process, thread):
    """The hundredths of a second that a thread has run outside the kernel."""
    stat = Path(f"/proc/{process}/task/{thread}/stat").read_text()
    return int(stat.rpartition(") ")[2].split()[11])


@contextlib.contextmanager
def changing(party):
    """Makes changes without end, so many at once that the server is always busy."""
    over = threading.Event()

    def send():
        with contextlib.suppress(OSError):
            while not over.is_set():
                party.stream.sendall(CHANGES * 1000)

    def read():
        with contextlib.suppress(OSError):
            while party.stream.recv(1 << 20):
                pass

    threads = [threading.Thread(target=send), threading.Thread(target=read)]
    for thread in threads:
        thread.start()
    try:
        yield
    finally:
        over.set()
        party.stream.shutdown(socket.SHUT_RDWR)
        for thread in threads:
            thread.join()


def is_answered(party):
    party.send(b"unwatch activity o1\n")
    return bool(select.select([party.stream], [], [], SILENCE)[0])


@check
def watchdog_of_a_stuck_lock(program):
    """Nothing is told while a thread has the lock and stands still, and again when it goes on."""
    with room() as folder, supervisor(name := f"{folder}/supervisor") as told:
        env = os.environ | {"NOTIFY_SOCKET": name, "WATCHDOG_USEC": f"{2 * NOTICES}000000"}
        with Server(program, folder, "--workers", "2", env=env) as server, server.listens().client() as busy:
            talk(busy, (HELLO, "client 1"))
            with server.client() as other, changing(busy):
                talk(other, (OTHER_HELLO, "client 2"))
                comes_true(lambda: busy_threads(server.child), "a thread is busy")
                thread, = busy_threads(server.child)
                for _ in range(MOST_STOPS):
                    with stopped(thread):
                        if not is_answered(other):
                            expect_silence(told)
                            break
                    other.lines.line()
                else:
                    raise Wrong("no thread was stopped while it had the lock")
                drain(told)
                expect(told.recv(100), b"WATCHDOG=1", "systemd is told")


def drain(told):
    while select.select([told], [], [], 0)[0]:
        told.recv(100)


def expect_silence(told):
    # A notice may have been on its way.
    while select.select([told], [], [], 0.1)[0]:
        told.recv(100)
    expect(bool(select.select([told], [], [], 3 * NOTICES)[0]), False, "systemd is told of a stuck lock")
