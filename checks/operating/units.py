"""What units rely on: what systemd and its journal are told, signals, and a limit on the size of files."""

import errno
import os
import re
import resource
import select
import signal
import time

from operating.doorkeeper import opened
from operating.logs import LIST, LIST_DENIED
from operating.servers import HELLO, NOT_ACCEPTED, OTHER_HELLO, Server, check, comes_true, expect, fill
from operating.servers import is_refused, room, served, supervisor, talk, with_accept_error
from operating.starts import IN_USE
from talking import ROOT


def starter():
    """The words of the server's unit that are before the program."""
    unit = (ROOT / "examples" / "svcmgr.service").read_text().replace("\\\n", "")
    return re.search("^ExecStart=(.*)/usr/local/bin/svcmgr serve ", unit, re.MULTILINE)[1].split()


@check
def what_systemd_is_told(program, shim):
    """That a server listens, and that it ends by itself; nothing by one that doesn't start."""
    with room() as folder:
        for name in f"{folder}/supervisor", f"@{folder}/supervisor":
            env = with_accept_error(shim, errno.EBADF) | {"NOTIFY_SOCKET": name}
            with supervisor(name) as told, Server(program, folder, env=env) as server:
                expect(told.recv(100), b"READY=1", "systemd is told")
                with server.client() as client, Server(program, folder, env=env) as other:
                    other.has_ended()
                    talk(client, (HELLO, "client 1"))
                expect(told.recv(100), b"STOPPING=1", "systemd is told")
                server.has_ended()


@check
def systemd_that_takes_nothing(program):
    """A server waits for it for five seconds, and then serves."""
    with room() as folder, supervisor(name := f"{folder}/supervisor") as told:
        fill(told)
        with Server(program, folder, env=os.environ | {"NOTIFY_SOCKET": name}) as server:
            with server.listens().client() as client:
                talk(client, (HELLO, "client 1"))


@check
def watchdog(program, shim):
    """systemd is told in time, and again and again, that a server lives, until the server ends."""
    seconds, times = 4, 3
    env = with_accept_error(shim, errno.EBADF) | {"WATCHDOG_USEC": f"{seconds}000000"}
    own = ("sh", "-c", 'WATCHDOG_PID=$$ exec "$@"', "sh")
    with room() as folder, supervisor(name := f"{folder}/supervisor") as told:
        with Server(program, folder, before=own, env=env | {"NOTIFY_SOCKET": name}) as server:
            expect(told.recv(100), b"READY=1", "systemd is told")
            for _ in range(times):
                began = time.monotonic()
                expect(told.recv(100), b"WATCHDOG=1", "systemd is told")
                expect(seconds / 4 < time.monotonic() - began < seconds, True, "it is told in time")
            server.client().stream.close()
            server.has_ended(seconds)


@check
def watchdog_of_others(program):
    """systemd isn't told that a server lives, if it asks another process or says no time."""
    others = {"WATCHDOG_PID": "1"}, {"WATCHDOG_PID": "x"}, {"WATCHDOG_USEC": "-200000"}, {"WATCHDOG_USEC": "0"}
    with room() as folder, supervisor(name := f"{folder}/supervisor") as told:
        for other in others:
            env = os.environ | {"NOTIFY_SOCKET": name, "WATCHDOG_USEC": "200000"} | other
            with Server(program, folder, env=env):
                expect(told.recv(100), b"READY=1", "systemd is told")
                expect(bool(select.select([told], [], [], 0.5)[0]), False, f"with {other} systemd is told more")


# Starts a program whose standard error is a stream of systemd's journal, by the variable that names it.
JOURNAL = ("sh", "-c", 'JOURNAL_STREAM=$(stat -Lc %d:%i /dev/fd/2) exec "$@"', "sh")


@check
def priorities(program, shim):
    """Each line for systemd's journal begins with its priority, and no line for another file does."""
    env = with_accept_error(shim, errno.EBADF)
    with room() as folder, Server(program, folder, "--audit", before=JOURNAL, env=env) as server:
        server.says(f"<6>{server.listening}")
        with Server(program, folder, before=JOURNAL) as other:
            other.ends(f"<3>fault: {other.clients}: {IN_USE}\n")
        with server.client() as client:
            server.says("<4>warning: no more connections are accepted: Bad file descriptor (os error 9)\n")
            talk(client, (OTHER_HELLO, "client 1"), ("list 15", LIST_DENIED))
            server.says(f"<5>journal=2 {LIST}")
        server.ends(f"<3>{NOT_ACCEPTED}")
    with served(program, env=os.environ | {"JOURNAL_STREAM": "1:2"}):
        pass


@check
def signals(program):
    """SIGHUP and SIGXFSZ are ignored, and SIGTERM ends the server."""
    with served(program, before=starter()) as server, server.admin() as admin:
        for number in signal.SIGHUP, signal.SIGXFSZ:
            server.child.send_signal(number)
            talk(admin, ("version", "version 1 1"))
        server.child.terminate()
        server.has_ended(status=-signal.SIGTERM)


@check
def limit_of_file_sizes(program):
    """Lines that don't fit into standard error, a file, are lost. Requests are answered."""
    size = 4096
    with room() as folder, open(folder / "log", "wb") as log:

        def limited():
            os.dup2(log.fileno(), 2)
            resource.setrlimit(resource.RLIMIT_FSIZE, (size, size))

        with Server(program, folder, "--audit", before=starter(), preexec_fn=limited) as server:
            comes_true(lambda: not is_refused(server.clients), "the server listens")
            with server.client() as client:
                talk(client, (OTHER_HELLO, "client 1"))
                while os.path.getsize(folder / "log") < size:
                    talk(client, ("list 15", LIST_DENIED))
                # The rest of the line that was cut is tried four times a second.
                time.sleep(0.5)
                talk(client, ("list 15", LIST_DENIED))


@check
def doorkeeper_signals(program):
    """SIGHUP is ignored, also where the doorkeeper's starter doesn't, and SIGTERM ends it."""
    with opened(program, preexec_fn=lambda: signal.signal(signal.SIGHUP, signal.SIG_DFL)) as (_, door):
        door.child.send_signal(signal.SIGHUP)
        door.enter().stream.close()
        door.child.terminate()
        door.has_ended(status=-signal.SIGTERM)
