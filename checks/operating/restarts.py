"""A server that is killed and started again, and clients that register again: examples/reconnect.py and reconnect.c."""

import contextlib
import itertools
import os
import subprocess
import sys

from operating.doorkeeper import Door
from operating.servers import OTHER_HELLO, Daemon, Server, check, comes_true, expect, room, talk
from talking import ROOT, SERVICE, LeftOut

EXAMPLES = ROOT / "examples"
IN_PYTHON = sys.executable, EXAMPLES / "reconnect.py"

ENDED = ("the connection ended", "Connection reset by peer", "Broken pipe")
MISSING, REFUSED = "No such file or directory", "Connection refused"


@check
def client_in_python_after_a_restart(program):
    try_restarts(program, *IN_PYTHON)


@check
def client_in_c_after_a_restart(program):
    with compiled() as command:
        try_restarts(program, command)


@check
def client_of_a_doorkeeper_in_python_after_a_restart(program):
    try_restarts_behind_a_door(program, *IN_PYTHON)


@check
def client_of_a_doorkeeper_in_c_after_a_restart(program):
    with compiled() as command:
        try_restarts_behind_a_door(program, command)


@contextlib.contextmanager
def compiled():
    """The client in C."""
    with room() as folder:
        command = folder / "reconnect"
        strict = "-Wall", "-Wextra", "-Werror", "-O2"
        cc = subprocess.run(["cc", *strict, "-o", command, EXAMPLES / "reconnect.c"], capture_output=True, text=True)
        expect(cc.stderr, "", "cc says")
        yield command


def started(*words):
    """A client. What it prints comes with what it says on standard error."""
    if os.getuid() % 100_000 >= 10_000:
        raise LeftOut("an application's user may not add a service")
    return Daemon(["sh", "-c", 'exec "$@" >&2', "sh", *words])


def try_restarts(program, *words):
    """A name is there again after each restart of the server, and the one who has it gets calls."""
    with room() as folder, started(*words, path := folder / "clients", "activity", SERVICE) as client:
        pauses = [pause_after(client, path, MISSING) for _ in range(2)]
        expect(pauses, [0.1, 0.2], "pauses before the server is there are")
        for _ in range(3):
            with Server(program, folder) as server:
                registers(client, path)
                is_found(server.listens(), client)
            pauses = [pause_after(client, path, *why) for why in (ENDED, [REFUSED], [REFUSED])]
            expect(pauses, [0.1, 0.2, 0.4], "pauses after the server's end are")


def try_restarts_behind_a_door(program, *words):
    """The same through a doorkeeper, whose end the client doesn't notice, and then through one that relays."""
    with room() as folder, contextlib.ExitStack() as servers:
        server = servers.enter_context(Server(program, folder)).listens()
        with Door(server) as door, started(*words, door.listens().path, "activity") as client:
            registers(client, door.path)
            is_found(server, client)
            servers.close()
            pauses = [pause_after(client, door.path, *ENDED) for _ in range(3)]
            expect(pauses, [0.1, 0.2, 0.4], "pauses after the server's end are")
            server = servers.enter_context(Server(program, folder)).listens()
            registers(client, door.path, *ENDED)
            door.child.kill()
            door.child.wait()
            is_found(server, client)
            servers.close()
            pauses = [pause_after(client, door.path, *why) for why in (ENDED, [REFUSED])]
            expect(pauses, [0.1, 0.2], "pauses after the end of both are")
            server = servers.enter_context(Server(program, folder)).listens()
            with Door(server, "--relay") as other:
                registers(client, other.listens().path)
                is_found(server, client)


def pause_after(client, path, *why):
    """The seconds for which a client waits after a failed try, which failed for one of these reasons."""
    line = client.said.line()
    reason, _, pause = line.removeprefix(f"{path}: ").rpartition("; next try in ")
    expect(reason in why, True, f"it says {line!r}, one of {why} in it")
    return float(pause.removesuffix(" s\n"))


def registers(client, path, *why):
    """It says so, once it can connect. Until then its tries fail for one of these reasons, or since nobody listens."""
    line = client.said.line()
    while line.startswith(tuple(f"{path}: {reason}; " for reason in (MISSING, REFUSED, *why))):
        line = client.said.line()
    expect(line, "activity is registered by client 1\n", "it says")


def is_found(server, service):
    """The name is found by another client, whose calls come. The handle that a call brings is given back."""
    numbers = itertools.count(2)
    with server.client() as other:
        talk(other, (OTHER_HELLO, "client 2"), ("get activity", "handle 1"))

        def brings_the_first_handle():
            talk(other, (f"call 1 c0ffee o{next(numbers)} null", "ok"))
            return service.said.line() == "call o1 200 10007 c0ffee h1 null\n"

        for _ in range(3):
            comes_true(brings_the_first_handle, "a call brings an object under the first handle")
