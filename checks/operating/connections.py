"""Connections that say nothing, speak slowly, wait or can't be accepted."""

import contextlib
import errno
import mmap
import os
import resource
import select
import signal
import tempfile
import threading
import time

from operating.servers import HELLO, LIMIT, MARGIN, NOT_ACCEPTED, OTHER_HELLO
from operating.servers import Server, ask_all, check, comes_true, expect, is_over, is_refused, room, served, talk
from operating.servers import with_accept_error
from talking import DEVICE, PATIENCE, Wrong


@check
def slow_connections(program):
    """One that says nothing gives way to one that waits, and one that takes no reply has ten seconds."""
    with served(program, "--workers", "2") as server, server.client() as silent, server.client() as greedy:
        began = time.monotonic()
        talk(greedy, (HELLO, "client 1"))
        flood = threading.Thread(target=lambda: greedy.send(b"version\n" * 1_000_000))
        flood.start()
        with server.client() as waiting:
            talk(waiting, (OTHER_HELLO, "client 2"))
            took = time.monotonic() - began
            expect(is_over(silent), True, "a silent connection ended")
            flood.join(LIMIT + MARGIN)
            expect(flood.is_alive(), False, "a client that takes no reply is served")
            if took > MARGIN:
                raise Wrong(f"a connection waited {took:.1f} seconds for a silent one")


@check
def many_silent_connections(program):
    """While others wait, each worker gives one up after a second, or two if it looks too early."""
    workers, each = 8, 3
    with served(program, "--workers", str(workers)) as server, contextlib.ExitStack() as rest:
        silent = [rest.enter_context(server.client()) for _ in range(workers * each)]
        began = time.monotonic()
        with server.client() as client:
            talk(client, (HELLO, "client 1"))
            took = time.monotonic() - began
            ended = sum(bool(select.select([one.stream], [], [], 0)[0]) for one in silent)
            expect(ended > workers * (each - 1), True, f"{ended} of {len(silent)} silent connections have ended")
            if took > 4 * each + MARGIN:
                raise Wrong(f"a client waited {took:.1f} seconds for {each} silent connections of each worker")


@check
def slow_hello(program):
    """A client that sends its `hello` byte by byte has ten seconds for it."""
    with served(program) as server, server.client() as client:
        began = time.monotonic()
        for byte in HELLO.encode()[:5]:
            client.send(bytes([byte]))
            if select.select([client.stream], [], [], LIMIT / 3)[0]:
                break
        expect(is_over(client), True, "the connection ended")
        took = time.monotonic() - began
        if not LIMIT - 1 < took < LIMIT + 2:
            raise Wrong(f"a slow client's connection ended after {took:.1f} seconds")


@check
def slow_reader(program):
    """A client that takes replies slowly has ten seconds for those to what the server read at once."""
    with room() as folder:
        more = "allow system_server default_android_service:service_manager add;\n"
        (folder / "rules").write_text(DEVICE + more)
        with Server(program, folder) as server, server.listens().client() as client:
            talk(client, (HELLO, "client 1"))
            talk(client, *[(f"add {'n' * 120}{number} o1 0 8", "ok") for number in range(64)])
            client.stream.setblocking(False)
            with contextlib.suppress(BlockingIOError):
                while True:
                    client.stream.send(b"list 15\n" * 1024)
            client.stream.settimeout(PATIENCE)
            with contextlib.suppress(ConnectionResetError):
                began = time.monotonic()
                while time.monotonic() - began < LIMIT + 1:
                    client.stream.recv(8192)
                    time.sleep(0.2)
                # From here on it takes all that there is.
                came = 0
                while piece := client.stream.recv(65536):
                    came += len(piece)
                    if came > 1_000_000:
                        raise Wrong("a client that takes its replies slowly is served")


@check
def slow_reader_of_a_list(program):
    """A long reply is written in pieces, and ten seconds are the limit of all together."""
    # A name is followed by five digits, and by a space or the end of the line.
    names, name = 4096, "n" * 122
    with room() as folder:
        more = "allow system_server default_android_service:service_manager add;\n"
        (folder / "rules").write_text(DEVICE + more)
        with Server(program, folder) as server, server.listens().client() as client:
            talk(client, (HELLO, "client 1"))
            adds = b"".join(f"add {name}{number:05} o1 0 8\n".encode() for number in range(names))
            expect(set(ask_all(client, adds, names)), {b"ok"}, "adds are answered")
            client.send(b"list 15\n")
            began, came = time.monotonic(), 0
            while time.monotonic() - began < LIMIT + 1:
                came += len(client.stream.recv(4096))
                time.sleep(0.4)
            while piece := client.stream.recv(65536):
                came += len(piece)
                if came > names * (len(name) + 6):
                    raise Wrong("a client that takes a list slowly is served")


@check
def idle_administrator(program):
    """It makes room for another one after two to four seconds."""
    with served(program) as server, server.admin() as first:
        talk(first, ("version", "version 1 1"))
        time.sleep(1)
        talk(first, ("version", "version 1 1"))
        began = time.monotonic()
        with server.admin() as second:
            talk(second, ("version", "version 1 1"))
            took = time.monotonic() - began
            if not 1.5 < took < 6:
                raise Wrong(f"an administrator waited {took:.1f} seconds")
            expect(is_over(first), True, "the first administrator's connection ended")
            time.sleep(5)
            talk(second, ("version", "version 1 1"))


@check
def administrator_who_idles_alone(program, shim):
    """It has a minute. The server waits for a twentieth of its limits here."""
    faster = 20
    env = os.environ | {"LD_PRELOAD": shim, "RECEIVES_FASTER": str(faster)}
    with served(program, env=env) as server, server.admin() as admin:
        talk(admin, ("version", "version 1 1"))
        began = time.monotonic()
        expect(is_over(admin), True, "an idle administrator's connection ended")
        took = faster * (time.monotonic() - began)
        if not 55 < took < 120:
            raise Wrong(f"an administrator idled for {took:.0f} seconds")


@check
def clients_that_wait(program):
    """A line says so once, until no client waits, and how many others wait."""
    line = "warning: a client has waited for a worker for a second, beside at least 1 more\n"
    with served(program, "--workers", "1") as server:
        for _ in range(2):
            with server.client() as first, server.client() as second, server.client() as third:
                expect(first.ask(HELLO)[:7], "client ", "the first client is answered")
                second.send(HELLO.encode() + b"\n")
                server.says(line)
                time.sleep(1.5)
                first.stream.close()
                expect(second.lines.line()[:7], "client ", "the second client is answered")
                third.send(HELLO.encode() + b"\n")
                time.sleep(1.5)
                second.stream.close()
                expect(third.lines.line()[:7], "client ", "the third client is answered")
            server.says_no_more()
            with server.client() as client:
                talk(client, ("version", "malformed"))


@check
def clients_that_are_counted(program):
    """Of those that wait beside the first one, the line counts one for each worker. They are served in their turn."""
    workers = 3
    for others in 0, 2, workers + 2:
        counted = f", beside at least {min(others, workers)} more" if others else ""
        with served(program, "--workers", str(workers)) as server, contextlib.ExitStack() as rest:
            clients = []
            for turn in range(1, workers + 1 + others + 1):
                clients.append(rest.enter_context(server.client()))
                clients[-1].send(HELLO.encode() + b"\n")
                if turn <= workers:
                    expect(clients[-1].lines.line(), f"client {turn}\n", "a client is answered")
            server.says(f"warning: a client has waited for a worker for a second{counted}\n")
            for turn, client in enumerate(clients[workers:], workers + 1):
                clients[turn - workers - 1].stream.close()
                expect(client.lines.line(), f"client {turn}\n", "a client is answered in its turn")
            server.says_no_more()


@check
def clients_in_their_turn(program):
    """A worker takes the connection that has waited longest."""
    number = 100
    with served(program, "--workers", "1") as server, contextlib.ExitStack() as rest:
        clients = [rest.enter_context(server.client()) for _ in range(number)]
        for client in clients:
            client.send(HELLO.encode() + b"\n")
        for turn, client in enumerate(clients, 1):
            expect(client.lines.line(), f"client {turn}\n", "a client is answered")
            client.stream.close()


@check
def stopped_and_continued(program):
    """Calls that a signal interrupts are made again."""
    number = 20_000
    with served(program) as server, server.client() as silent, server.client() as greedy, server.admin() as admin:
        talk(greedy, (HELLO, "client 1"))
        flood = threading.Thread(target=lambda: greedy.send(b"version\n" * number))
        flood.start()
        time.sleep(0.2)
        server.child.send_signal(signal.SIGSTOP)
        os.waitpid(server.child.pid, os.WUNTRACED)
        server.child.send_signal(signal.SIGCONT)
        talk(silent, (OTHER_HELLO, "client 2"))
        talk(admin, ("explain untrusted_app system_server binder call", "allowed 1 19"))
        for _ in range(number):
            expect(greedy.lines.line()[:10], "version 1 ", "the server says")
        flood.join()


@contextlib.contextmanager
def counted(shim):
    """The environment of a program that counts, and the counts: allocations, those that were refused, whether all are
    refused now, and calls that accept a connection."""
    with tempfile.NamedTemporaryFile() as file:
        file.write(bytes(32))
        file.flush()
        env = os.environ | {"LD_PRELOAD": shim, "REFUSE_COUNTS": file.name}
        yield env, memoryview(mmap.mmap(file.fileno(), 32)).cast("Q")


def tries_ten_times_a_second(counts):
    """A program that is counted and waits for files does so, however long this thread sleeps."""
    before, began = counts[3], time.monotonic()
    time.sleep(1)
    rate = (counts[3] - before) / (time.monotonic() - began)
    if not 0 < rate < 15:
        raise Wrong(f"a program that waits for files tried {rate:.1f} times a second")


@check
def too_few_files(program, shim):
    """A server that waits for files tries ten times a second whether there are some."""
    with contextlib.ExitStack() as open_ones:
        env, counts = open_ones.enter_context(counted(shim))
        server = open_ones.enter_context(served(program, "--workers", "32", env=env))
        number = len(os.listdir(f"/proc/{server.child.pid}/fd")) + 6
        resource.prlimit(server.child.pid, resource.RLIMIT_NOFILE, (number, number))
        clients = [open_ones.enter_context(server.client()) for _ in range(8)]
        server.says("warning: a connection waits to be accepted: Too many open files (os error 24)\n")
        tries_ten_times_a_second(counts)
        talk(clients[0], (HELLO, "client 1"), ("version", "version 1 2"))
        for client in clients[:5]:
            client.stream.close()
        talk(clients[7], (OTHER_HELLO, "client 2"))
        expect(server.child.poll(), None, "the server's status")


@check
def enough_files(program):
    """A file for each worker and 11 are enough, and one less isn't."""
    waits = "a client has waited for a worker for a second"
    short = "a connection waits to be accepted: Too many open files (os error 24)"
    for number, words in (4 + 11, waits), (4 + 10, short):
        few = lambda: resource.setrlimit(resource.RLIMIT_NOFILE, (number, number))
        with served(program, "--workers", "4", preexec_fn=few) as server, contextlib.ExitStack() as open_ones:
            admins = [open_ones.enter_context(server.admin()) for _ in range(4)]
            talk(admins[0], ("version", "version 1 1"))
            clients = [open_ones.enter_context(server.client()) for _ in range(8)]
            for turn, client in enumerate(clients[:4], 1):
                talk(client, (HELLO, f"client {turn}"))
            server.says(f"warning: {words}\n")


@check
def files_of_those_who_wait(program):
    """With few files, fewer of them are accepted and counted, and administrators are served all the same."""
    workers, more = 4, 2
    few = lambda: resource.setrlimit(resource.RLIMIT_NOFILE, (workers + 11 + more,) * 2)
    with served(program, "--workers", str(workers), preexec_fn=few) as server, contextlib.ExitStack() as open_ones:
        clients = [open_ones.enter_context(server.client()) for _ in range(2 * workers + 4)]
        for turn, client in enumerate(clients[:workers], 1):
            talk(client, (HELLO, f"client {turn}"))
        server.says(f"warning: a client has waited for a worker for a second, beside at least {more} more\n")
        for _ in range(3):
            with server.admin() as admin:
                talk(admin, ("version", f"version 1 {1 + workers}"))
        server.says_no_more()


@check
def listener_that_fails(program, shim):
    with served(program, env=with_accept_error(shim, errno.EBADF)) as server, server.client() as client:
        talk(client, (HELLO, "client 1"))
        server.says("warning: no more connections are accepted: Bad file descriptor (os error 9)\n")
        for path in (server.clients, server.admins):
            until = time.monotonic() + MARGIN
            while not is_refused(path):
                if time.monotonic() > until:
                    raise Wrong(f"a connection at {path} isn't refused")
        talk(client, ("version", "version 1 2"), ("bye", "bye"))
        server.ends(NOT_ACCEPTED)
        expect((server.clients.exists(), server.admins.exists()), (False, False), "the sockets are there")


@check
def listener_that_fails_beside_an_idle_client(program, shim):
    """The server ends ten seconds later, so that it can be restarted."""
    with served(program, env=with_accept_error(shim, errno.EBADF)) as server, server.client() as client:
        began = time.monotonic()
        talk(client, (HELLO, "client 1"))
        server.says("warning: no more connections are accepted: Bad file descriptor (os error 9)\n")
        expect(is_over(client), True, "an idle client's connection ended")
        took = time.monotonic() - began
        server.ends(NOT_ACCEPTED)
        if not LIMIT - 1 < took < LIMIT + MARGIN:
            raise Wrong(f"an idle client's connection ended after {took:.1f} seconds")


@check
def accept_that_fails_once(program, shim):
    with served(program, env=with_accept_error(shim, errno.ECONNABORTED)) as server:
        with server.client() as client, server.client() as other:
            talk(client, (HELLO, "client 1"))
            talk(other, (OTHER_HELLO, "client 2"))
        with server.admin() as admin:
            talk(admin, ("explain untrusted_app system_server binder call", "allowed 1 19"))


@check
def client_that_cannot_leave(program, shim):
    with counted(shim) as (env, counts), served(program, "--workers", "4", env=env) as server:
        with server.client() as client:
            talk(client, (HELLO, "client 1"), ("add activity o1 0 8", "ok"))
            counts[2] = 1
        # The death is tried 16 times at once, and ten times a second from then on.
        comes_true(lambda: counts[1] >= 20, "twenty allocations are refused")
        counts[2] = 0
        with server.admin() as admin:
            comes_true(lambda: admin.ask("version") == "version 1 4", "the client's death")
        with server.client() as client:
            talk(client, (OTHER_HELLO, "client 2"), ("get activity", "null"), ("version", "version 1 5"))
