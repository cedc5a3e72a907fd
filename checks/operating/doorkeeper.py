"""The doorkeeper: clients with the identities that the kernel gives, and what may go wrong at a door."""

import contextlib
import ctypes
import errno
import fcntl
import os
import re
import resource
import select
import signal
import socket
import stat
import struct
import subprocess
import termios
import threading
import time
from concurrent.futures import ThreadPoolExecutor
from pathlib import Path

from operating.command_lines import completed, options_in
from operating.connections import counted, tries_ten_times_a_second
from operating.servers import LIMIT, MARGIN, OTHER_HELLO, Daemon, Server
from operating.servers import check, comes_true, expect, fill, is_over, is_refused, room, served, supervisor, talk
from talking import APPLICATION, PATIENCE, ROOT, SERVICE, Connection, LeftOut, Wrong

DOORKEEPER = ROOT / "examples" / "doorkeeper"

IN_USE = "Address already in use"

# What a user is answered who may list names, and one who may not.
LIST = re.compile("names .*")
LIST_DENIED = re.compile("exception -1 denied untrusted_app servicemanager service_manager list")


class Door(Daemon):
    """A doorkeeper at a server, from its start on. Its table has contexts for the own user and for 10007."""

    def __init__(self, server, *options, doorkeeper=DOORKEEPER, **others):
        self.path, self.table = server.folder / "door", server.folder / "users"
        server.folder.chmod(0o755)
        if not self.table.exists():
            self.table.write_text(f"{os.getuid()} {SERVICE}\n10007 {APPLICATION}\n")
        self.listening = f"listening at {self.path} for svcmgr at {server.clients}\n"
        words = [doorkeeper, "--socket", self.path, "--server", server.clients, "--contexts", self.table, *options]
        super().__init__(words, **others)

    def listens(self):
        self.says(self.listening)
        return self

    def enter(self):
        """A client that was let in."""
        client = Passed(self.path)
        expect(client.answer[:7], "client ", "a client is answered")
        return client

    def replace_table(self, text):
        other = self.table.with_name("others")
        other.write_text(text)
        other.rename(self.table)

    def files(self):
        return len(os.listdir(f"/proc/{self.child.pid}/fd"))

    def has_files(self, number):
        comes_true(lambda: self.files() == number, "the doorkeeper closes what it has no more use for")


class Passed(Connection):
    """A client of a doorkeeper: the answer, and its connection to svcmgr if that was passed on."""

    def __init__(self, path):
        with Connection(path) as door:
            door.stream.settimeout(PATIENCE)
            answer, passed, _, _ = socket.recv_fds(door.stream, 4096, 2)
        self.answer, self.is_in = answer.decode(), len(passed) == 1
        self.use(socket.socket(fileno=passed[0]) if passed else socket.socket(socket.AF_UNIX))


@contextlib.contextmanager
def opened(program, *options, server=(), **others):
    """A server with a door."""
    with served(program, *server) as served_one, Door(served_one, *options, **others) as door:
        yield served_one, door.listens()


# Linux's number of setresuid, which changes the identity of one thread alone.
SETRESUID = {"x86_64": 117}


def need_users():
    if os.getuid() != 0 or os.uname().machine not in SETRESUID:
        raise LeftOut("only root can connect as another user, on x86_64")


@contextlib.contextmanager
def as_user(uid):
    """Lets this thread be another user, as far as sockets and files are concerned. Needs root."""
    libc = ctypes.CDLL(None, use_errno=True)
    call = SETRESUID[os.uname().machine]
    libc.syscall(call, -1, uid, -1)
    try:
        yield
    finally:
        libc.syscall(call, -1, 0, -1)


def entered_as(uid, door):
    with as_user(uid):
        return Passed(door.path)


def waits(path):
    """A connection that nothing comes from yet."""
    client = Connection(path)
    if select.select([client.stream], [], [], 0.2)[0]:
        raise Wrong(f"a client that should wait is answered {client.lines.line()!r}")
    return client


def is_let_in(client):
    """A client that waited gets its connection."""
    client.stream.settimeout(PATIENCE)
    answer, passed, _, _ = socket.recv_fds(client.stream, 4096, 1)
    for number in passed:
        os.close(number)
    expect((answer[:7], len(passed)), (b"client ", 1), "a client that waited gets")


# ---- a client that is let in, and one that isn't


@check
def doorkeeper_that_passes_on(program):
    with opened(program) as (_, door):
        files = door.files()
        client = door.enter()
        expect(os.get_blocking(client.stream.fileno()), True, "the connection that was passed on waits for replies")
        talk(client, ("get activity", "null"), (OTHER_HELLO, "malformed"), ("hello", "malformed"))
        door.has_files(files)
        # It is the client's alone: nothing passes through the doorkeeper, and its end cuts nobody.
        door.child.send_signal(signal.SIGSTOP)
        talk(client, ("get activity", "null"))
        door.child.kill()
        door.child.wait()
        talk(client, ("get activity", "null"), ("bye", "bye"))
        expect(is_over(client), True, "the connection is over after `bye`")


@check
def doorkeeper_that_keeps_no_connection(program):
    """The connection ends with the client's descriptor, also if the client never took it."""
    with opened(program, server=("--workers", "1")) as (_, door):
        for _ in range(3):
            door.enter().stream.close()
        silent = Connection(door.path)
        expect(select.select([silent.stream], [], [], PATIENCE)[0], [silent.stream], "who can read its answer is")
        other = waits(door.path)
        silent.stream.close()
        is_let_in(other)


@check
def doorkeeper_of_a_refused_client(program):
    """The answer comes alone, so that the process can't try again as another one."""
    with opened(program, server=("--journal", "2")) as (_, door):
        files = door.files()
        client = Passed(door.path)
        expect((client.answer, client.is_in), ("failed journal-full\n", False), "a refused client gets")
        door.has_files(files)


@check
def doorkeeper_of_two_users(program):
    """A call shows the process and the user that the kernel knows, to who may take it."""
    need_users()
    with opened(program) as (_, door), door.enter() as service, entered_as(10007, door) as client:
        talk(service, ("add activity o1 0 8", "ok"))
        talk(client, ("add foo o1 0 8", "exception -1 app 10007"))
        talk(client, ("get activity", "handle 1"), ("call 1 c0ffee", "ok"))
        talk(service, ("take", f"call o1 {os.getpid()} 10007 c0ffee"))
        with as_user(10008), Connection(door.path) as unknown:
            expect(is_over(unknown), True, "the connection of a user without a context is over")
        door.says(f"warning: process {os.getpid()} of user 10008 has no context\n")


# ---- many clients, and slow ones


@check
def doorkeeper_of_one_after_another(program):
    with opened(program) as (_, door):
        files = door.files()
        for _ in range(1000):
            with door.enter() as client:
                talk(client, ("get activity", "null"))
        door.has_files(files)


@check
def doorkeepers_that_are_killed_meanwhile(program):
    """Of a thousand clients, who was let in goes on, and who wasn't comes again. No connection is left behind."""

    def visit(path):
        clients = []
        comes_true(lambda: is_in_now(path, clients), "a client is let in")
        with clients[0] as client:
            talk(client, ("get activity", "null"))
            time.sleep(0.02)
            talk(client, ("get activity", "null"), ("bye", "bye"))

    with served(program) as server, ThreadPoolExecutor(8) as pool, contextlib.ExitStack() as all_of_them:
        door = all_of_them.enter_context(Door(server)).listens()
        visits = [pool.submit(visit, door.path) for _ in range(1000)]
        all_of_them.callback(pool.shutdown, cancel_futures=True)
        for _ in range(5):
            time.sleep(0.2)
            door.child.kill()
            door.child.wait()
            door = all_of_them.enter_context(Door(server)).listens()
        for one in visits:
            one.result()
        for _ in range(16):
            all_of_them.enter_context(door.enter())


def is_in_now(path, clients):
    """Whether a client is let in, which is added then. Nobody may be listening, or the doorkeeper may end meanwhile."""
    with contextlib.suppress(ConnectionError, FileNotFoundError):
        client = Passed(path)
        if client.is_in:
            clients.append(client)
        else:
            client.stream.close()
    return clients


@check
def doorkeeper_of_many_at_once(program):
    """Those that svcmgr has no worker for yet wait."""

    def visit(_):
        with door.enter() as client:
            talk(client, ("get activity", "null"))
            time.sleep(0.1)

    with opened(program) as (_, door), ThreadPoolExecutor(100) as pool:
        files = door.files()
        list(pool.map(visit, range(100)))
        door.has_files(files)


@check
def doorkeeper_of_silent_clients(program):
    """They keep nobody from being answered, and one that leaves while it waits is forgotten."""
    with opened(program, server=("--workers", "1")) as (_, door), contextlib.ExitStack() as all_of_them:
        files = door.files()
        first = all_of_them.enter_context(door.enter())
        silent = [all_of_them.enter_context(waits(door.path)) for _ in range(5)]
        # What they say early is for nobody.
        silent[4].send(b"get activity\n")
        with waits(door.path):
            door.has_files(files + 12)
        door.has_files(files + 10)
        door.table.write_text(f"4294967294 {SERVICE}\n")
        with Connection(door.path) as unknown:
            expect(is_over(unknown), True, "a client beside those that wait is answered")
        for client in silent[:4]:
            client.stream.close()
        first.stream.close()
        is_let_in(silent[4])


@check
def doorkeeper_of_clients_that_have_left(program):
    """svcmgr doesn't hear of who has left before it is accepted, so neither client numbers nor slots are used up."""
    with opened(program) as (_, door):
        door.child.send_signal(signal.SIGSTOP)
        os.waitpid(door.child.pid, os.WUNTRACED)
        for _ in range(100):
            Connection(door.path).stream.close()
        door.child.send_signal(signal.SIGCONT)
        expect(door.enter().answer, "client 1\n", "the first client that stays is answered")


# ---- starts, ends and shortages


@check
def doorkeeper_that_starts_again(program):
    """A socket that a dead doorkeeper left is replaced, while no other one has the lock. Nothing else is replaced."""
    with opened(program) as (server, door):
        with Door(server) as second:
            second.ends(f"fault: {door.path}: {IN_USE}\n")
        door.enter().stream.close()
        door.child.kill()
        door.child.wait()
        with Door(server) as second:
            second.listens().enter().stream.close()
            mode = stat.S_IMODE(door.path.stat().st_mode)
            expect(oct(mode), "0o666", "the permissions of its socket are")
        with open(f"{door.path}.lock") as lock:
            fcntl.flock(lock, fcntl.LOCK_EX)
            with Door(server) as second:
                second.ends(f"fault: {door.path}: {IN_USE}\n")
        door.path.unlink()
        with socket.socket(socket.AF_UNIX) as foreign:
            foreign.bind(str(door.path))
            foreign.listen()
            with Door(server) as second:
                second.ends(f"fault: {door.path}: {IN_USE}\n")
        door.path.unlink()
        door.path.write_text("precious")
        with Door(server) as second:
            second.ends(f"fault: {door.path}: {IN_USE}\n")
        expect(door.path.read_text(), "precious", "the file in the way is")


@check
def doorkeepers_that_start_at_once(program):
    """One of two serves, and the other one says why it doesn't."""
    with served(program) as server:
        for _ in range(5):
            with Door(server) as one, Door(server) as other:
                said = {one.said.line(), other.said.line()}
                expect(said, {one.listening, f"fault: {one.path}: {IN_USE}\n"}, "two doorkeepers say")
                one.enter().stream.close()


@check
def doorkeeper_that_is_ready(program):
    """systemd is told when clients can connect. If it takes nothing or isn't there, they can all the same."""
    with served(program) as server:
        for name in f"{server.folder}/supervisor", f"@{server.folder}/supervisor":
            env = os.environ | {"NOTIFY_SOCKET": name}
            with supervisor(name) as told:
                with Door(server, env=env) as door:
                    expect(told.recv(100), b"READY=1", "systemd is told")
                    door.enter().stream.close()
                fill(told)
                with Door(server, env=env) as door:
                    door.listens().enter().stream.close()
            with Door(server, env=env) as door:
                door.listens().enter().stream.close()


@check
def doorkeeper_without_a_server(program):
    """Clients are told by the end of their connections, and operators by one line."""
    with opened(program, server=("--workers", "1")) as (server, door):
        files = door.files()
        with door.enter() as client, waits(door.path) as waiting:
            server.child.kill()
            server.child.wait()
            expect((is_over(client), is_over(waiting)), (True, True), "the connections of a dead server are over")
        door.says(f"warning: {server.clients}: the connection ended before an answer\n")
        for _ in range(3):
            with Connection(door.path) as client:
                expect(is_over(client), True, "the connection is over where no server is")
        door.says_no_more()
        door.has_files(files)
        with Server(program, server.folder) as again:
            again.listens()
            talk(door.enter(), ("get activity", "null"))


@check
def doorkeeper_with_too_few_files(program, shim):
    """It says so once, and tries ten times a second whether there are some."""
    with contextlib.ExitStack() as all_of_them:
        env, counts = all_of_them.enter_context(counted(shim))
        _, door = all_of_them.enter_context(opened(program, server=("--workers", "1"), env=env))
        files = door.files()
        first = all_of_them.enter_context(door.enter())
        door.has_files(files)
        resource.prlimit(door.child.pid, resource.RLIMIT_NOFILE, (files + 5, files + 5))
        waiting = [all_of_them.enter_context(Connection(door.path)) for _ in range(20)]
        door.says("warning: a connection waits to be accepted: Too many open files\n")
        tries_ten_times_a_second(counts)
        talk(first, ("get activity", "null"))
        door.says_no_more()
        first.stream.close()
        all_are_let_in(waiting)
        door.has_files(files)


def all_are_let_in(waiting):
    """Clients that wait are let in and go, one after another in any order."""
    streams = {client.stream: client for client in waiting}
    while streams:
        ready = select.select(list(streams), [], [], PATIENCE)[0]
        if not ready:
            raise Wrong(f"{len(streams)} clients wait still")
        for stream in ready:
            is_let_in(streams.pop(stream))
            stream.close()


@check
def doorkeeper_whose_accept_fails(program, shim):
    """Where files or memory of the system are short, it tries again. Other failures end it, so that it is restarted."""
    for number in errno.ENFILE, errno.ENOMEM, errno.ENOBUFS, errno.ECONNABORTED, errno.EBADF:
        env = os.environ | {"LD_PRELOAD": shim, "ACCEPT_FAILS_AT": "1", "ACCEPT_ERROR": str(number)}
        with opened(program, env=env) as (_, door):
            if number == errno.EBADF:
                Connection(door.path).stream.close()
                door.ends(f"fault: {door.path}: {os.strerror(number)}\n")
                continue
            talk(door.enter(), ("get activity", "null"))
            if number != errno.ECONNABORTED:
                door.says(f"warning: a connection waits to be accepted: {os.strerror(number)}\n")
            door.says_no_more()


@check
def doorkeeper_with_too_little_memory(program):
    """An allocation that fails ends nothing. Here it is that for a table which is too large."""
    with opened(program) as (_, door):
        status = Path(f"/proc/{door.child.pid}/status").read_text()
        limit = 1024 * int(re.search(r"VmSize:\s+(\d+)", status)[1]) + 16_000_000
        resource.prlimit(door.child.pid, resource.RLIMIT_AS, (limit, limit))
        table = door.table.read_text()
        door.table.write_text(table + "#" * 64_000_000 + "\n")
        with Connection(door.path) as client:
            door.says("warning: memory is short\n")
            door.replace_table(table)
            is_let_in(client)
        door.says_no_more()


@check
def doorkeeper_with_a_full_standard_error(program):
    """It waits for no reader of its lines."""
    with opened(program) as (_, door):
        with open(f"/proc/{door.child.pid}/fd/2", "wb", buffering=0, opener=unblocked) as writer:
            while writer.write(bytes(4096)):
                pass
        door.table.write_text("nonsense\n" * 100)
        talk(door.enter(), ("get activity", "null"))


def unblocked(path, flags):
    return os.open(path, flags | os.O_NONBLOCK)


@check
def doorkeeper_with_a_closed_standard_error(program):
    """What is for standard error goes into no socket."""
    with served(program) as server, Door(server, preexec_fn=lambda: os.close(2)) as door:
        comes_true(lambda: not is_refused(door.path), "it listens")
        expect(os.readlink(f"/proc/{door.child.pid}/fd/2"), os.devnull, "its standard error is")
        door.table.write_text("nonsense\n" * 100)
        talk(door.enter(), ("get activity", "null"))


# ---- the table of contexts


def has_context_of(client, answer):
    """A client has the context whose `list` is answered so."""
    with client:
        came = client.ask("list 15")
        if not answer.fullmatch(came):
            raise Wrong(f"a client may not have another context: `list` is answered {came!r}")


@check
def doorkeeper_with_a_table(program):
    user = os.getuid()
    with opened(program) as (_, door):

        def lists(answer):
            has_context_of(door.enter(), answer)

        lists(LIST)
        door.table.write_text(f"# {user} {SERVICE}\n\n  * {APPLICATION} # all others\n")
        lists(LIST_DENIED)
        door.table.write_text(f"* {APPLICATION}\n{user}\t{SERVICE}\n")
        lists(LIST)
        bad = ["root " + SERVICE, f"1 {SERVICE}", "1", f"1 {SERVICE}", "2 u:r", f"03 {SERVICE}", f"4 {SERVICE} x"]
        bad += [f"4294967295 {SERVICE}"]
        door.table.write_text("\n".join([f"{user} {APPLICATION}", "# good", *bad, f"* {APPLICATION}"]))
        lists(LIST)
        form = "not a user's number or * and a context"
        faults = [(3, form), (5, form), (6, "user 1 has a line before"), (7, form), (8, form), (9, form), (10, form)]
        for number, fault in [*faults, (11, "its end is missing")]:
            door.says(f"warning: {door.table}: line {number}: {fault}\n")
        lists(LIST)
        door.says_no_more()
        door.table.write_text(f"{user} {APPLICATION}\n")
        lists(LIST_DENIED)
        door.table.unlink()
        lists(LIST_DENIED)
        door.says(f"warning: {door.table}: No such file or directory\n")
        lists(LIST_DENIED)
        door.says_no_more()
        # Another file in its place, of the same size.
        door.replace_table(f"{user} {SERVICE}\n")
        lists(LIST)
        # As while it is written.
        door.table.write_text("")
        lists(LIST)
        door.says(f"warning: {door.table}: line 1: its end is missing\n")


@check
def doorkeeper_with_a_bad_table_at_the_start(program):
    with room() as folder, Server(program, folder) as server:
        server.listens()
        (folder / "users").write_text(f"1 {SERVICE}\nnonsense\n")
        with Door(server) as door:
            door.says(f"warning: {door.table}: line 2: not a user's number or * and a context\n")
            door.ends(f"fault: {door.table}: a table without bad lines is needed at the start\n")
        (folder / "users").unlink()
        with Door(server, "--contexts", folder / "none") as door:
            door.ends(f"fault: {folder / 'none'}: No such file or directory\n")


@contextlib.contextmanager
def without_a_table(server, **others):
    """A doorkeeper that takes the kernel's contexts, and where it listens."""
    path = server.folder / "door"
    with Daemon([DOORKEEPER, "--socket", path, "--server", server.clients], **others) as door:
        door.says(f"listening at {path} for svcmgr at {server.clients}\n")
        yield door, path


def turns_away(door, path):
    with Connection(path) as client:
        expect(is_over(client), True, "the connection of a process without a context is over")
    door.says(f"warning: process {os.getpid()} of user {os.getuid()} has no context\n")


@check
def doorkeeper_without_a_table(program):
    """Without a table a process has the context that SELinux gives it, or none."""
    with served(program) as server, without_a_table(server) as (door, path):
        if Path("/sys/fs/selinux/enforce").exists():
            expect(Passed(path).is_in, True, "a process with a context is let in")
        else:
            turns_away(door, path)


@check
def doorkeeper_with_contexts_of_the_kernel(program, shim):
    """A context is taken as SELinux gives it, and what another security module gives is none."""
    with served(program) as server:

        def opened_for(context):
            return without_a_table(server, env=os.environ | {"LD_PRELOAD": shim, "PEER_CONTEXT": context})

        longest = f"{SERVICE}:{'c' * (1022 - len(SERVICE))}"
        for context, answer in (SERVICE, LIST), (APPLICATION, LIST_DENIED), (longest, LIST):
            with opened_for(context) as (_, path):
                has_context_of(Passed(path), answer)
        for context in "unconfined", "/usr/bin/app (enforce)", "u:r:x y", f"{longest}c", "":
            with opened_for(context) as (door, path):
                turns_away(door, path)


# ---- clients that are relayed


@check
def doorkeeper_that_relays(program):
    with opened(program, "--relay") as (server, door):
        files = door.files()
        with Connection(door.path) as client:
            expect(client.lines.line(), "client 1\n", "a client is answered")
            talk(client, ("get activity", "null"), (OTHER_HELLO, "malformed"), ("hello", "malformed"), ("bye", "bye"))
            expect(is_over(client), True, "the connection is over after `bye`")
        door.has_files(files)
        # It ends its side, and gets all replies.
        number = 50_000
        with Connection(door.path) as client:
            sender = threading.Thread(target=lambda: end_after(client, b"get activity\n" * number))
            sender.start()
            expect(client.lines.line(), "client 2\n", "a client is answered")
            for _ in range(number):
                expect(client.lines.line(), "null\n", "a request is answered")
            expect(is_over(client), True, "the connection is over")
            sender.join()
        door.has_files(files)
        with Connection(door.path) as client:
            expect(client.lines.line(), "client 3\n", "a client is answered")
            server.child.kill()
            expect(is_over(client), True, "the connection is over with the server")
            door.has_files(files)


def end_after(client, lines):
    client.send(lines)
    client.stream.shutdown(socket.SHUT_WR)


@check
def doorkeeper_that_relays_a_refusal(program):
    with opened(program, "--relay", server=("--journal", "2")) as (_, door), Connection(door.path) as client:
        client.send(OTHER_HELLO.encode() + b"\n")
        expect(client.lines.line(), "failed journal-full\n", "a refused client is answered")
        expect(is_over(client), True, "the connection is over")


def settled(number_of):
    """A number that was more than 0 and the same for a while."""
    until = time.monotonic() + PATIENCE
    number = 0
    while time.monotonic() < until:
        time.sleep(0.5)
        before, number = number, number_of()
        if number > 0 and number == before:
            return number
    raise Wrong("it was never the same for a while")


@check
def doorkeeper_that_relays_to_nobody(program):
    """Clients that never read hold up no other, and have ten seconds. One that reads late is served on."""
    with opened(program, "--relay") as (_, door), contextlib.ExitStack() as all_of_them, ThreadPoolExecutor(3) as pool:
        files = door.files()
        greedy, other, late = (all_of_them.enter_context(Connection(door.path)) for _ in range(3))
        waited = pool.submit(seconds_until_closed, greedy)
        expect(other.lines.line()[:7], "client ", "another client is answered")
        expect(late.lines.line()[:7], "client ", "a third client is answered")
        number = 60_000
        pool.submit(late.send, b"?\n" * number)
        settled(lambda: unread(late))
        full = time.monotonic()
        for _ in range(LIMIT // 2):
            talk(other, ("get activity", "null"))
            time.sleep(0.5)
        for _ in range(number):
            expect(late.lines.line(), "malformed\n", "a request is answered")
        if not LIMIT - 1 < waited.result() < LIMIT + 2 * MARGIN:
            raise Wrong(f"a client that never reads was closed after {waited.result():.1f} seconds")
        time.sleep(max(0, full + LIMIT + 2 - time.monotonic()))
        talk(late, ("get activity", "null"))
        other.stream.close()
        late.stream.close()
        door.has_files(files)


def unread(client):
    """The number of bytes that have come and weren't read."""
    return struct.unpack("i", fcntl.ioctl(client.stream, termios.FIONREAD, bytes(4)))[0]


def seconds_until_closed(client):
    """How long the last request waited of a client that reads no reply."""
    client.stream.settimeout(LIMIT + 2 * MARGIN)
    last = time.monotonic()
    with contextlib.suppress(BrokenPipeError, ConnectionResetError):
        while True:
            client.stream.send(b"?\n" * 512)
            last = time.monotonic()
    return time.monotonic() - last


@check
def doorkeeper_that_relays_with_too_few_files(program):
    with opened(program, "--relay") as (_, door), contextlib.ExitStack() as all_of_them:
        files = door.files()
        resource.prlimit(door.child.pid, resource.RLIMIT_NOFILE, (files + 8, files + 8))
        clients = [all_of_them.enter_context(Connection(door.path)) for _ in range(12)]
        door.says("warning: a connection waits to be accepted: Too many open files\n")
        for client in clients:
            expect(client.lines.line()[:7], "client ", "a client is answered")
            talk(client, ("get activity", "null"))
            client.stream.close()
        door.has_files(files)


# ---- command lines and pages


@check
def doorkeeper_options(_):
    """The manual page and the completion have the options of `--help`. What is no option has status 2."""
    ended = subprocess.run([DOORKEEPER, "--help"], capture_output=True, text=True, timeout=PATIENCE)
    expect((ended.returncode, ended.stderr), (0, ""), "--help ends with")
    options = options_in(ended.stdout)
    manual = re.findall(r"\.?Fl -([a-z-]+)", (ROOT / "docs" / "svcmgr-doorkeeper.8").read_text())
    expect({f"--{name}" for name in manual}, options, "svcmgr-doorkeeper.8 has")
    expect(completed("svcmgr-doorkeeper "), options, "svcmgr-doorkeeper is completed to")
    with room() as folder:
        given = "--socket", folder / "s", "--server", folder / "t"
        wrong = [["--mode", "778"], ["--mode", "1777"], ["--seats", "1"], ["--seats", "+2"], ["--server", folder / "s"]]
        wrong += [["--seat", "3"], ["--rel"]]
        for words in [], given[:2], [*given, "more"], *([*given, *words] for words in wrong):
            with Daemon([DOORKEEPER, *words]) as door:
                door.has_ended(status=2)
