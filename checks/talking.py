"""Shared by checks/ and bench/: the built program, its policies, and the lines that come from it."""

import functools
import os
import select
import socket
import subprocess
import sys
import time
from pathlib import Path

ROOT = Path(__file__).resolve().parent.parent
PROGRAM = ROOT / "crates" / "svcmgr" / "out" / "svcmgr"

# Seconds within which a line must be answered, and a program without further input must end.
PATIENCE = 20

SERVICE = "u:r:system_server:s0"
APPLICATION = "u:r:untrusted_app:s0"

DEVICE = (ROOT / "examples" / "policy.te").read_text()
BROKEN = (ROOT / "examples" / "broken.te").read_text()
LABELS = (ROOT / "examples" / "service_contexts").read_text()


class Wrong(Exception):
    """A wrong answer or a wrong end of the program."""


class LeftOut(Exception):
    """What can't be tried on this machine or by this user."""


def stop(line):
    """Ends a check that can't begin, with status 2."""
    print(line, file=sys.stderr)
    sys.exit(2)


def need(*programs):
    """Ends a check with status 2, unless these programs are on the path."""
    if subprocess.call([ROOT / "checks" / "needs", sys.argv[0], *programs]):
        sys.exit(2)


def finish(name, passed, failures, left_out=()):
    """Prints what was left out, what failed, and the numbers of both and of what passed; then ends the check."""
    for line in left_out:
        print(f"left out: {line}")
    for line in failures[:50]:
        print(f"FAILED: {line}")
    print(f"{name}: {passed} passed, {len(failures)} failed, {len(left_out)} skipped")
    sys.exit(1 if failures else 0)


def tried(name, attempt, *given):
    """What was left out of an attempt, and what failed."""
    try:
        attempt(*given)
    except LeftOut as why:
        return f"{name}: {why}", None
    except (Wrong, OSError, ValueError, subprocess.TimeoutExpired) as fault:
        return None, f"{name}: {fault}"
    return None, None


def finish_tried(name, ended):
    """Ends a check by what was left out and what failed of its attempts."""
    left_out, failures = ([pair[n] for pair in ended if pair[n]] for n in (0, 1))
    finish(name, len(ended) - len(failures) - len(left_out), failures, left_out)


@functools.cache
def version_of(program):
    """The name and the version of a program."""
    return subprocess.run([program, "--version"], check=True, capture_output=True, text=True).stdout.rstrip("\n")


def listening(program, clients, admins):
    """The line of a server that listens at these paths."""
    return f"listening for clients at {clients} and for administrators at {admins} ({version_of(program)})\n"


def add_program(parser):
    parser.add_argument("--program", default=str(PROGRAM), help="svcmgr, as `rt ci` or `rt run` builds it")


def check_program(options):
    if not os.access(options.program, os.X_OK):
        stop(f"no program at {options.program}: build it by `rt run -- --help` in crates/svcmgr")


def add_only(parser):
    parser.add_argument("--only", metavar="WORD", default="", help="only those whose name has this word")


def chosen(options, named):
    """Those whose name has the word of `--only`, of pairs of a name and a value."""
    found = [(name, it) for name, it in named if options.only in name]
    if not found:
        stop(f"nothing here has {options.only} in its name")
    return found


class Lines:
    """The lines that come from a file descriptor."""

    def __init__(self, number):
        self.number, self.held, self.ended = number, b"", False

    def line(self):
        """The next line with its newline, or what came before the end, if anything."""
        until = time.monotonic() + PATIENCE
        while b"\n" not in self.held and not self.ended:
            self.more(max(0, until - time.monotonic()))
        line, newline, self.held = self.held.partition(b"\n")
        return (line + newline).decode()

    def more(self, seconds=PATIENCE):
        if not select.select([self.number], [], [], seconds)[0]:
            raise Wrong(f"no answer after {PATIENCE} seconds")
        try:
            piece = os.read(self.number, 65536)
        except ConnectionResetError:
            piece = b""
        self.held += piece
        self.ended = not piece


class Connection:
    """A connection to a server."""

    def __init__(self, path):
        stream = socket.socket(socket.AF_UNIX)
        stream.connect(str(path))
        self.use(stream)

    def use(self, stream):
        self.stream, self.lines = stream, Lines(stream.fileno())

    def __enter__(self):
        return self

    def __exit__(self, *_):
        self.stream.close()

    def send(self, lines):
        """Sends bytes. A connection that the server has ended shows when its lines are read."""
        try:
            self.stream.sendall(lines)
        except (BrokenPipeError, ConnectionResetError):
            pass

    def ask(self, line):
        """The line that answers a line, without its newline."""
        self.send(line.encode() + b"\n")
        return self.lines.line().rstrip("\n")
