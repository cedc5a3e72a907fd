"""What a server writes to standard error: audit lines, and warnings, also where nobody reads them."""

import contextlib
import errno
import os
import re
import select
import time

from operating.servers import HELLO, LIMIT, MARGIN, NOT_ACCEPTED, OTHER_HELLO
from operating.servers import Server, ask_all, check, expect, reload, room, served, talk, with_accept_error
from talking import APPLICATION, DEVICE, Wrong


CLAUSE = f"version=1 clause: denied app for pid=200 uid=10007 name=activity scontext={APPLICATION}\n"
LIST = (
    "version=1 avc: denied { list } for pid=200 uid=10007 "
    f"scontext={APPLICATION} tcontext=u:r:servicemanager:s0 tclass=service_manager permissive=0\n"
)
LIST_DENIED = "exception -1 denied untrusted_app servicemanager service_manager list"


@check
def audit_lines(program):
    denied = [("add activity o1 0 8", "exception -1 app 10007"), ("list 15", LIST_DENIED)]
    with served(program, "--audit") as server, server.client() as client, server.admin() as admin:
        talk(client, (OTHER_HELLO, "client 1"), *denied)
        server.says("journal=2 " + CLAUSE)
        server.says("journal=2 " + LIST)
        talk(client, ("watch activity o1", "ok"), ("list 15", LIST_DENIED))
        server.says("journal=3 " + LIST)
        talk(admin, ("denials", "denials 1"))
    # Without the option nothing is said of them.
    with served(program, "--journal", "4") as server, server.client() as client:
        talk(client, (OTHER_HELLO, "client 1"), *denied)
        talk(client, ("watch activity o1", "ok"), ("watch activity o1", "failed journal-full"))
        server.says("warning: the journal is full: changes are refused until it is sealed\n")


@check
def audit_log_that_nobody_reads(program):
    """Requests are answered all the same; each line comes whole, or is counted as lost."""
    number = 5000
    with served(program, "--audit") as server, server.client() as client:
        talk(client, (OTHER_HELLO, "client 1"), *[("list 15", LIST_DENIED)] * number)
        came, lost = lines_that_came(server, number, "journal=2 " + LIST)
        expect(lost > 0, True, "lines are lost")


@check
def audit_log_that_does_not_block(program):
    """A line that a failed write has cut is completed; what can't be written is counted as lost."""
    number = 2000
    with served(program, "--audit", preexec_fn=lambda: os.set_blocking(2, False)) as server, server.client() as client:
        talk(client, (OTHER_HELLO, "client 1"), *[("list 15", LIST_DENIED)] * number)
        came, lost = lines_that_came(server, number, "journal=2 " + LIST)
        expect(lost > 0, True, "lines are lost")


@check
def audit_log_of_long_requests(program):
    """The lines that wait have few megabytes, also where each request has many."""
    watches, adds = 4096, 12
    found = "allow binderuser activity_service"
    stricter = DEVICE.replace(found, "allow { binderuser -untrusted_app } activity_service")
    with served(program, "--audit") as server, server.client() as client, server.client() as watcher:
        talk(client, (HELLO, "client 1"))
        talk(watcher, (OTHER_HELLO, "client 2"), *[("watch activity o1", "ok")] * watches)
        with server.admin() as admin:
            reload(admin, 1, stricter)
        talk(client, *[("add activity o1 0 8", "ok")] * adds)
        came, _ = lines_that_came(server, watches * adds, None)
        if came > 8 * watches:
            raise Wrong(f"the lines of {came // watches} requests waited")


@check
def audit_rate(program, shim):
    """No more audit lines come in a second than is asked, and all others are counted."""
    rate, number, words = 10, 1000, "audit lines were left out by --audit-rate"
    asked = [(OTHER_HELLO, "client 1")] + [("list 15", LIST_DENIED)] * number
    options = ("--audit", "--audit-rate", str(rate))
    with served(program, *options) as server, server.client() as client:
        began = time.monotonic()
        talk(client, *asked)
        came, _ = lines_that_came(server, number, "journal=2 " + LIST, words)
        seconds = time.monotonic() - began
        expect(rate <= came <= rate * (seconds + 1), True, f"in {seconds} seconds come {came} lines")
        talk(client, ("list 15", LIST_DENIED))
        server.says("journal=2 " + LIST)


@check
def audit_lines_left_out_at_the_end(program, shim):
    """A server that ends by itself says how many were left out."""
    number, options = 20, ("--audit", "--audit-rate", "2")
    with served(program, *options, env=with_accept_error(shim, errno.EBADF)) as server, server.client() as client:
        talk(client, (OTHER_HELLO, "client 1"))
        server.says("warning: no more connections are accepted: Bad file descriptor (os error 9)\n")
        talk(client, *[("list 15", LIST_DENIED)] * number, ("bye", "bye"))
        for _ in range(2):
            server.says("journal=2 " + LIST)
        server.says(f"warning: {number - 2} audit lines were left out by --audit-rate\n")
        server.ends(NOT_ACCEPTED)


@check
def audit_log_of_one_long_request(program):
    """An `add` that a permissive watcher is told of leaves two lines for each of its watches. They come all, though
    they are more than may wait beside others."""
    watches, context = 4096, f"u:r:lax:s0:{'c' * 900}"
    with room() as folder:
        (folder / "rules").write_text(f"{DEVICE}type lax;\npermissive lax;\n")
        with Server(program, folder, "--audit") as server, contextlib.ExitStack() as clients:
            server.listens()
            watcher, client = (clients.enter_context(server.client()) for _ in range(2))
            talk(watcher, (f"hello 300 10008 {context}", "client 1"))
            answers = ask_all(watcher, b"watch activity o1\n" * watches, watches)
            expect(set(answers), {b"ok"}, "watches are answered")
            lines_that_came(server, 3 * watches, None)
            talk(client, (HELLO, "client 2"), ("add activity o1 0 8", "ok"))
            came, lost = lines_that_came(server, 2 * watches, None)
            expect([came, lost], [2 * watches, 0], "lines came and were lost")


def lines_that_came(server, number, wanted, words="lines were lost"):
    """How many audit lines came, and how many did not. They are this number together, each as is wanted."""
    came = lost = 0
    while came + lost < number:
        line = server.said.line()
        if line.startswith("warning: "):
            lost += int(line.removeprefix("warning: ").removesuffix(f" {words}\n"))
        else:
            expect(line, wanted or line, "the server says")
            came += 1
    expect(came + lost, number, "lines that came or were lost")
    return came, lost


FILLER = "." * (select.PIPE_BUF - 1) + "\n"
ALMOST_FULL = "warning: the journal is almost full: 18 of 20 slots are used\n"
FULL = "warning: the journal is full: changes are refused until it is sealed\n"
NO_FILES = "warning: a connection waits to be accepted: Too many open files (os error 24)\n"


def filled(server):
    """How many lines the pipe at the server's standard error takes, until it is full."""
    writer = os.open(f"/proc/{server.child.pid}/fd/2", os.O_WRONLY | os.O_NONBLOCK)
    number = 0
    with contextlib.suppress(BlockingIOError):
        while True:
            os.write(writer, FILLER.encode())
            number += 1
    os.close(writer)
    return number


@check
def full_standard_error(program, shim):
    """It holds up no client, no seal and no connection. Each line comes whole and in its place, or is counted."""
    times, options = 700, ("--journal", "20", "--workers", "2")
    with served(program, *options, env=with_accept_error(shim, errno.EMFILE)) as server:
        fillers = filled(server)
        with server.client() as client, server.client() as other, server.admin() as admin:
            talk(client, (HELLO, "client 1"))
            talk(other, (OTHER_HELLO, "client 2"), ("bye", "bye"))
            talk(admin, ("seal", "sealed 1 4"))
            for _ in range(times):
                answers = ask_all(client, b"watch activity o1\nunwatch activity o1\n" * 10, 20)
                expect(answers, [b"ok"] * 19 + [b"failed journal-full"], "changes are answered")
                expect(admin.ask("seal")[:7], "sealed ", "a seal is answered")
        for _ in range(fillers):
            server.says(FILLER)
        server.says(NO_FILES)
        if expected_or_lost(server, [ALMOST_FULL, FULL] * times) == 2 * times:
            raise Wrong("no line was lost")


def expected_or_lost(server, lines):
    """How many of these lines the server says, in their order. The last ones are lost, and counted."""
    came = lost = 0
    while came + lost < len(lines):
        line = server.said.line()
        count = re.fullmatch(r"warning: (\d+) lines were lost\n", line)
        if count:
            lost += int(count[1])
        else:
            expect(line, lines[came], "the server says")
            came += 1
    expect(came + lost, len(lines), "lines that came or were lost")
    server.says_no_more()
    return came


@check
def end_with_a_full_standard_error(program, shim):
    """The server gives up the lines that wait, and ends."""
    with served(program, env=with_accept_error(shim, errno.EBADF)) as server:
        fillers = filled(server)
        server.client().stream.close()
        server.has_ended(LIMIT + MARGIN)
        for _ in range(fillers):
            server.says(FILLER)
        server.says("")
