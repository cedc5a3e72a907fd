"""Shared by the modules here: the checks that they define, and servers with those who talk to them."""

import contextlib
import os
import select
import socket
import subprocess
import tempfile
import threading
import time
from pathlib import Path

from talking import APPLICATION, DEVICE, LABELS, PATIENCE, SERVICE
from talking import Connection, Lines, Wrong, listening

HELLO = f"hello 100 1000 {SERVICE}"
OTHER_HELLO = f"hello 200 10007 {APPLICATION}"

# Seconds after which a connection has ended that says nothing, or takes no reply.
LIMIT = 10

# What a measured time may differ by, in seconds.
MARGIN = 4

NOT_ACCEPTED = "fault: a connection was not accepted\n"

# The checks of all modules, in their order.
CHECKS = []


def check(function):
    """Adds a check, which takes the program. One that takes a `shim` too gets the library that it preloads."""
    CHECKS.append(function)
    return function


def expect(came, wanted, what):
    if came != wanted:
        raise Wrong(f"{what}: {came!r} in place of {wanted!r}")


class Daemon:
    """A program that runs until it is killed, and what it says on standard error."""

    def __init__(self, words, **others):
        streams = {"stdin": subprocess.DEVNULL, "stdout": subprocess.DEVNULL, "stderr": subprocess.PIPE}
        self.child = subprocess.Popen(words, **streams, **others)
        self.said = Lines(self.child.stderr.fileno())

    def __enter__(self):
        return self

    def __exit__(self, *_):
        self.child.kill()
        self.child.wait()
        self.child.stderr.close()

    def says(self, line):
        expect(self.said.line(), line, "it says")

    def says_no_more(self):
        time.sleep(0.2)
        if self.said.held or select.select([self.said.number], [], [], 0)[0]:
            raise Wrong(f"it says {self.said.line()!r}")

    def ends(self, line):
        """It says this, and ends with status 1."""
        self.says(line)
        self.has_ended()
        expect(self.said.line(), "", "it says at its end")

    def has_ended(self, seconds=PATIENCE, status=1):
        try:
            expect(self.child.wait(seconds), status, "it ends with status")
        except subprocess.TimeoutExpired:
            raise Wrong(f"it hasn't ended after {seconds} seconds") from None


class Server(Daemon):
    """A server in a folder of its own or in one that is given, from its start on: the words before it start it."""

    def __init__(self, program, folder, *options, clients="clients", admins="admins", before=(), **others):
        self.folder = folder
        self.clients, self.admins = folder / clients, folder / admins
        # A second server in the folder finds the files that the first one may be reading.
        for name, text in ("rules", DEVICE), ("labels", LABELS):
            if not (folder / name).exists():
                (folder / name).write_text(text)
        words = [*before, program, "serve", *options, "--socket", str(self.clients), "--admin", str(self.admins)]
        self.listening = listening(program, self.clients, self.admins)
        super().__init__([*words, str(folder / "rules"), str(folder / "labels")], **others)

    def listens(self):
        self.says(self.listening)
        return self

    def client(self):
        return Connection(self.clients)

    def admin(self):
        return Connection(self.admins)


@contextlib.contextmanager
def room():
    with tempfile.TemporaryDirectory(prefix="operations-", dir="/tmp") as name:
        yield Path(name)


@contextlib.contextmanager
def served(program, *options, **others):
    with room() as folder, Server(program, folder, *options, **others) as server:
        yield server.listens()


def talk(party, *exchanges):
    for line, reply in exchanges:
        expect(party.ask(line), reply, f"{line!r} is answered")


def comes_true(is_so, what):
    until = time.monotonic() + PATIENCE
    while not is_so():
        if time.monotonic() > until:
            raise Wrong(f"{what}: not after {PATIENCE} seconds")
        time.sleep(0.02)


def is_over(party):
    """Whether the server ends the connection without a line."""
    return party.lines.line() == ""


def is_refused(path):
    try:
        Connection(path).stream.close()
    except (ConnectionRefusedError, FileNotFoundError, PermissionError):
        return True
    return False


def ask_all(party, lines, number):
    """The answers to lines that are sent at once, up to the end of the connection."""
    flood = threading.Thread(target=lambda: party.send(lines))
    flood.start()
    came, ends = [party.lines.held], party.lines.held.count(b"\n")
    while ends < number and not party.lines.ended:
        party.lines.held = b""
        party.lines.more()
        came.append(party.lines.held)
        ends += party.lines.held.count(b"\n")
    flood.join(PATIENCE)
    party.lines.held = b""
    return b"".join(came).splitlines()


@contextlib.contextmanager
def supervisor(name):
    """A socket in place of systemd's. The name is a path, or one in the abstract namespace after `@`."""
    with socket.socket(socket.AF_UNIX, socket.SOCK_DGRAM) as told:
        told.bind(f"\0{name[1:]}" if name.startswith("@") else name)
        told.settimeout(PATIENCE)
        yield told


def fill(told):
    """Sends to a datagram socket until it takes nothing more."""
    told.setblocking(False)
    with contextlib.suppress(BlockingIOError):
        while True:
            told.sendto(b"?", told.getsockname())


def reload(admin, version, rules):
    admin.send(f"reload {version} {len(rules)} {len(LABELS)}\n{rules}{LABELS}".encode())
    expect(admin.lines.line(), f"reloaded {version + 1}\n", "a reload is answered")


def with_accept_error(shim, number):
    # The first two calls are those of the two listeners at the start.
    return os.environ | {"LD_PRELOAD": shim, "ACCEPT_FAILS_AT": "3", "ACCEPT_ERROR": str(number)}
