"""Starts of servers: at paths that are taken, left behind, empty or unusable, and two at a time."""

import contextlib
import errno
import os
import resource
import signal
import socket
import stat
import time

from operating.servers import HELLO, MARGIN, OTHER_HELLO, Server, check, expect, is_refused, room, served, talk
from talking import PATIENCE, Wrong

IN_USE = "Address already in use (os error 98)"
NO_FILES = "Too many open files (os error 24)"
WAITS = f"warning: a connection waits to be accepted: {NO_FILES}\n"
TOO_LONG = "path must be shorter than SUN_LEN"


@check
def failed_starts(program):
    with room() as folder:
        with Server(program, folder, admins="nowhere/admins") as server:
            path = folder / "nowhere" / "admins.lock"
            server.ends(f"fault: {path}: No such file or directory (os error 2)\n")
            expect(files_of(folder), [], "the server leaves")
        limit = 200 << 20
        few = lambda: resource.setrlimit(resource.RLIMIT_AS, (limit, limit))
        with Server(program, folder, "--workers", "64", preexec_fn=few) as server:
            server.ends("fault: a thread was not started\n")
            expect(files_of(folder), [], "the server leaves")


def files_of(folder):
    """What is in a server's folder besides its policy."""
    return sorted({path.name for path in folder.iterdir()} - {"rules", "labels"})


@check
def locks_and_paths(program):
    with room() as folder:
        os.mkfifo(folder / "clients.lock")
        with Server(program, folder) as server:
            server.ends(f"fault: {folder / 'clients.lock'}: not a regular file\n")
        expect(files_of(folder), ["clients.lock"], "the server leaves")
    name = "c" * 120
    with room() as folder:
        with Server(program, folder, clients=name) as server:
            server.ends(f"fault: {server.clients}: {TOO_LONG}\n")
        expect(files_of(folder), [], "the server leaves")
        (folder / f"{name}.lock").touch()
        with Server(program, folder, admins=name) as server:
            server.ends(f"fault: {server.admins}: {TOO_LONG}\n")
        expect(files_of(folder), [f"{name}.lock"], "the server leaves")


@check
def listen_that_fails(program, shim):
    words = "No buffer space available (os error 105)"
    for number, name in (1, "clients"), (2, "admins"):
        env = os.environ | {"LD_PRELOAD": shim, "LISTEN_FAILS_AT": str(number), "LISTEN_ERROR": str(errno.ENOBUFS)}
        with room() as folder:
            with Server(program, folder, env=env) as server:
                server.ends(f"fault: {folder / name}: {words}\n")
            expect(files_of(folder), [], "the server leaves")


@check
def lock_that_is_removed_before_it_is_locked(program, shim):
    """The path is in use, also if another lock has taken the place of the one that was opened."""
    for makes in "0", "1":
        with room() as folder:
            lock = {"FLOCK_REMOVES": str(folder / "clients.lock"), "FLOCK_MAKES": makes}
            with Server(program, folder, env=os.environ | lock | {"LD_PRELOAD": shim}) as server:
                server.ends(f"fault: {server.clients}: {IN_USE}\n")
            expect(files_of(folder), ["clients.lock"] if makes == "1" else [], "the server leaves")


@check
def closed_standard_error(program):
    """What is for standard error goes into no file that the server opens."""
    with room() as folder, Server(program, folder, preexec_fn=lambda: os.close(2)) as server:
        until = time.monotonic() + PATIENCE
        while is_refused(server.clients) and time.monotonic() < until:
            time.sleep(0.02)
        with server.client() as client:
            talk(client, (HELLO, "client 1"))
        sizes = {path.name: path.stat().st_size for path in folder.glob("*.lock")}
        expect(sizes, {"clients.lock": 0, "admins.lock": 0}, "the sizes of the locks are")


@check
def too_few_files_to_start(program):
    """With 9 to 11 a server starts and says that it lacks some. Whoever waits is served once it has more."""
    files_at_fault = {4: "clients", 5: "admins.lock", 6: "admins", 7: "clients", 8: "clients"}
    for number in range(4, 12):
        few = lambda: resource.setrlimit(resource.RLIMIT_NOFILE, (number, 64))
        with room() as folder, Server(program, folder, "--workers", "4", preexec_fn=few) as server:
            if number in files_at_fault:
                server.ends(f"fault: {folder / files_at_fault[number]}: {NO_FILES}\n")
                expect(files_of(folder), [], "the server leaves")
                continue
            # To accept a connection takes a file, also while nobody connects.
            line = server.said.line()
            while line == WAITS:
                line = server.said.line()
            expect(line, server.listening, "it says")
            with server.client() as client, server.client() as other, server.admin() as admin:
                resource.prlimit(server.child.pid, resource.RLIMIT_NOFILE, (4 + 11, 64))
                talk(client, (HELLO, "client 1"))
                talk(other, (OTHER_HELLO, "client 2"))
                talk(admin, ("version", "version 1 3"))


@check
def sockets_that_are_removed(program):
    """Those who are connected are served, and nobody else can start a server there."""
    with served(program) as server, server.client() as client, server.admin() as admin:
        talk(client, (HELLO, "client 1"))
        server.clients.unlink()
        server.admins.unlink()
        with Server(program, server.folder) as other:
            other.ends(f"fault: {server.clients}: {IN_USE}\n")
        talk(client, ("add activity o1 0 8", "ok"))
        talk(admin, ("version", "version 1 3"))
        expect(files_of(server.folder), ["admins.lock", "clients.lock"], "the second server leaves")
        server.says_no_more()
        server.child.terminate()
        server.has_ended(status=-signal.SIGTERM)
        with Server(program, server.folder) as other, other.listens().client() as again:
            talk(again, (OTHER_HELLO, "client 1"))


@check
def taken_paths(program):
    with served(program) as first, first.client() as client:
        talk(client, (HELLO, "client 1"))
        with Server(program, first.folder) as second:
            second.ends(f"fault: {first.clients}: {IN_USE}\n")
        with Server(program, first.folder, clients="others") as second:
            second.ends(f"fault: {first.admins}: {IN_USE}\n")
            expect(second.clients.exists(), False, "the second server's socket is there")
        with first.client() as other:
            talk(other, (OTHER_HELLO, "client 2"))
        talk(client, ("bye", "bye"))


@check
def listeners_with_no_room(program):
    with room() as folder, socket.socket(socket.AF_UNIX) as foreign, contextlib.ExitStack() as waiting:
        foreign.bind(str(folder / "clients"))
        foreign.listen(0)
        while True:
            stream = waiting.enter_context(socket.socket(socket.AF_UNIX))
            stream.setblocking(False)
            if stream.connect_ex(str(folder / "clients")) == errno.EAGAIN:
                break
        began = time.monotonic()
        with Server(program, folder) as server:
            server.ends(f"fault: {folder / 'clients'}: {IN_USE}\n")
        if time.monotonic() - began > MARGIN:
            raise Wrong("a listener without room holds up the start")


@check
def starts_at_once(program):
    with room() as folder:
        for _ in range(10):
            for name in ("clients", "admins"):
                (folder / name).unlink(missing_ok=True)
                with socket.socket(socket.AF_UNIX) as dead:
                    dead.bind(str(folder / name))
            with Server(program, folder) as one, Server(program, folder) as other:
                said = sorted([(one.said.line(), 1, one), (other.said.line(), 2, other)])
                expect(said[0][0], f"fault: {one.clients}: {IN_USE}\n", "one of two servers says")
                said[1][2].said.held = said[1][0].encode() + said[1][2].said.held
                with said[1][2].listens().client() as client:
                    talk(client, (HELLO, "client 1"))


@check
def permissions(program):
    narrow = lambda: os.umask(0o077)
    with served(program, "--mode", "660", preexec_fn=narrow) as server:
        modes = {path.name: oct(stat.S_IMODE(path.stat().st_mode)) for path in (server.clients, server.admins)}
        expect(modes, {"clients": "0o660", "admins": "0o600"}, "the sockets' permissions")
