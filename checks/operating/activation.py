"""Sockets that systemd passes to a server: they are served as they are, and stay."""

import contextlib
import errno
import fcntl
import os
import socket
import tempfile

from operating.servers import HELLO, NOT_ACCEPTED, Server, check, expect, room, talk, with_accept_error
from operating.starts import files_of
from talking import PATIENCE

NOT_A_NUMBER = "isn't a number\n"
NOT_LISTENING = "fault: one of LISTEN_FDS isn't a listening Unix stream socket\n"


def listening(path, kind=socket.SOCK_STREAM):
    made = socket.socket(socket.AF_UNIX, kind)
    made.bind(str(path))
    made.listen()
    return made


@contextlib.contextmanager
def passed(program, folder, files, env=os.environ, **settings):
    """A server that finds these files from 3 on, under the names that the settings give."""
    numbers = [fcntl.fcntl(file, fcntl.F_DUPFD, 100) for file in files]
    moves = "".join(f" {at}<&{number} {number}<&-" for at, number in enumerate(numbers, 3))
    before = ("bash", "-c", f'LISTEN_PID=${{LISTEN_PID:-$$}} exec "$@"{moves}', "bash")
    env = env | {"LISTEN_FDS": str(len(files))} | settings
    try:
        with Server(program, folder, before=before, pass_fds=numbers, env=env) as server:
            yield server
    finally:
        for number in numbers:
            os.close(number)


def answers_from(server, other):
    """A client of the server and an administrator of another one, which may be the same, are answered."""
    with server.client() as client, other.admin() as admin:
        talk(client, (HELLO, "client 1"))
        talk(admin, ("version", "version 1 2"))


@check
def sockets_that_are_passed(program):
    """They are served without locks, by one server after another, and who connects between two of them waits."""
    with room() as folder, listening(folder / "clients") as clients, listening(folder / "admins") as admins:
        both = ([clients, admins], "clients:admin"), ([admins, clients], "admin:clients")
        for files, names in both:
            with socket.socket(socket.AF_UNIX) as early:
                early.settimeout(PATIENCE)
                early.connect(str(folder / "clients"))
                with passed(program, folder, files, LISTEN_FDNAMES=names) as server:
                    early.sendall(f"{HELLO}\n".encode())
                    expect(early.recv(100), b"client 1\n", "who connected before the server is answered")
                    early.close()
                    server.listens()
                    with server.admin() as admin:
                        expect(admin.ask("version")[:10], "version 1 ", "an administrator is answered")
                    expect(files_of(folder), ["admins", "clients"], "the server leaves")


@check
def one_socket_that_is_passed(program):
    """The server makes the other one. Sockets for another process are none."""
    with room() as folder, listening(folder / "clients") as clients:
        with passed(program, folder, [clients], LISTEN_FDNAMES="clients") as server:
            answers_from(server.listens(), server)
            expect(files_of(folder), ["admins", "admins.lock", "clients"], "the server leaves")
    with room() as folder, listening(folder / "others") as others:
        with passed(program, folder, [others], LISTEN_FDNAMES="clients", LISTEN_PID="1") as server:
            answers_from(server.listens(), server)


@check
def fault_with_passed_sockets(program, shim):
    """A server that ends by itself leaves them as they were, for the next one."""
    with room() as folder, listening(folder / "clients") as clients, listening(folder / "admins") as admins:
        files, names = [clients, admins], "clients:admin"
        env = with_accept_error(shim, errno.EBADF)
        with passed(program, folder, files, env, LISTEN_FDNAMES=names) as server:
            server.listens().client().stream.close()
            server.says("warning: no more connections are accepted: Bad file descriptor (os error 9)\n")
            server.ends(NOT_ACCEPTED)
        with passed(program, folder, files, LISTEN_FDNAMES=names) as server:
            answers_from(server.listens(), server)


@check
def files_that_are_no_sockets(program):
    """What is passed and can't be served is a fault of the start, which leaves nothing."""
    with tempfile.TemporaryDirectory(prefix="operations-", dir="/tmp") as others:
        bound, shut = socket.socket(socket.AF_UNIX), listening(f"{others}/shut")
        bound.bind(f"{others}/bound")
        shut.shutdown(socket.SHUT_RDWR)
        files = [bound, shut, *socket.socketpair(), socket.socket(socket.AF_UNIX, socket.SOCK_DGRAM)]
        files += [listening(f"{others}/packets", socket.SOCK_SEQPACKET), socket.create_server(("", 0))]
        files.append(open("/dev/null"))
        for file in files:
            with room() as folder:
                is_refused(program, folder, [file], NOT_LISTENING, LISTEN_FDNAMES="clients")
            file.close()


@check
def odd_settings_of_sockets(program):
    with room() as folder, listening(folder / "one") as one, listening(folder / "other") as other:
        for odd in "x", "-1", "", "+1", "1" * 21:
            is_refused(program, folder, [one], f"fault: LISTEN_FDS {NOT_A_NUMBER}", LISTEN_FDS=odd)
        is_refused(program, folder, [one], f"fault: LISTEN_PID {NOT_A_NUMBER}", LISTEN_PID="x")
        unnamed = "fault: LISTEN_FDNAMES doesn't have a name for each of LISTEN_FDS\n"
        is_refused(program, folder, [one], unnamed)
        is_refused(program, folder, [one, other], unnamed, LISTEN_FDNAMES="clients")
        is_refused(program, folder, [one], unnamed, LISTEN_FDNAMES="clients:admin")
        another = "fault: LISTEN_FDNAMES has a name that isn't clients or admin\n"
        for odd in "", "admins", "clients" * 20:
            is_refused(program, folder, [one], another, LISTEN_FDNAMES=odd)
        twice = "fault: LISTEN_FDNAMES has a name twice\n"
        is_refused(program, folder, [one, other], twice, LISTEN_FDNAMES="clients:clients")
        is_refused(program, folder, [one], NOT_LISTENING, LISTEN_FDNAMES="clients:admin", LISTEN_FDS="2")


def is_refused(program, folder, files, line, **settings):
    left = files_of(folder)
    with passed(program, folder, files, **settings) as server:
        server.says(line)
        server.has_ended(status=2)
        expect(files_of(folder), left, "the server leaves")
