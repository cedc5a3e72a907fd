"""Journals that fill up, and memory that runs out."""

import contextlib
import os
import re
import resource
from pathlib import Path

from operating.servers import HELLO, ask_all, check, expect, reload, served, talk
from talking import DEVICE, Wrong


@check
def journal_that_fills_up(program):
    with served(program, "--journal", "20") as server, server.client() as client, server.admin() as admin:
        talk(client, (HELLO, "client 1"), *[("watch activity o1", "ok")] * 17)
        server.says("warning: the journal is almost full: 18 of 20 slots are used\n")
        talk(client, *[("watch activity o1", "failed journal-full")] * 3)
        server.says("warning: the journal is full: changes are refused until it is sealed\n")
        talk(admin, ("seal", "sealed 1 19"))
        talk(client, *[("watch activity o1", "ok")] * 18)
        server.says("warning: the journal is almost full: 18 of 20 slots are used\n")


@check
def journal_that_is_sealed(program):
    options = ("--journal", "100", "--seal-at", "50")
    with served(program, *options) as server, server.client() as client, server.admin() as admin:
        talk(client, (HELLO, "client 1"))
        talk(client, *[("watch activity o1", "ok"), ("unwatch activity o1", "ok")] * 499)
        talk(admin, ("version", "version 1 1000"), ("seal", "empty"))
        talk(client, ("watch activity o1", "ok"))
        talk(admin, ("seal", "sealed 21 1001"))


@check
def journal_with_a_slot_for_each_worker(program):
    """No change is refused beside the slots that are kept for the deaths of clients, with `--seal-at` and one more."""
    workers, seal_at, times = 40, 23, 200
    options = ("--workers", str(workers), "--journal", str(seal_at + workers + 1), "--seal-at", str(seal_at))
    with served(program, *options) as server, contextlib.ExitStack() as rest:
        clients = [rest.enter_context(server.client()) for _ in range(workers)]
        for turn, client in enumerate(clients, 1):
            talk(client, (HELLO, f"client {turn}"))
        for client in clients[:4] * times:
            answers = ask_all(client, b"watch activity o1\nunwatch activity o1\n" * 5, 10)
            expect(set(answers), {b"ok"}, "changes are answered")
        server.says_no_more()


@check
def journal_that_is_sealed_by_bytes(program):
    # A `hello` counts for 276 bytes here, a `watch` or an `unwatch` for 200.
    options = ("--journal", "100", "--seal-bytes", "4096")
    with served(program, *options) as server, server.client() as client, server.admin() as admin:
        talk(client, (HELLO, "client 1"))
        talk(client, *[("watch activity o1", "ok"), ("unwatch activity o1", "ok")] * 105)
        talk(admin, ("version", "version 1 212"), ("seal", "sealed 11 212"))


@check
def journal_of_a_server_without_options(program):
    """It never fills up."""
    pairs, times = 5_000, 110
    lines = b"watch activity o1\nunwatch activity o1\n" * pairs
    with served(program) as server, server.client() as client:
        talk(client, (HELLO, "client 1"))
        for _ in range(times):
            answers = ask_all(client, lines, 2 * pairs)
            expect(set(answers), {b"ok"}, "changes are answered")


def peak_of(server):
    """The most memory that a server had, in bytes."""
    status = Path(f"/proc/{server.child.pid}/status").read_text()
    return 1024 * int(re.search(r"VmHWM:\s+(\d+)", status)[1])


@check
def memory_of_many_notices(program):
    """An `add` keeps a notice for each watch of its name. The journal is sealed before they take too much memory."""
    watches, adds = 4096, 1500
    with served(program) as server, server.client() as client:
        talk(client, (HELLO, "client 1"))
        expect(set(ask_all(client, b"watch activity o1\n" * watches, watches)), {b"ok"}, "watches are answered")
        expect(set(ask_all(client, b"add activity o1 0 8\n" * adds, adds)), {b"ok"}, "adds are answered")
        peak = peak_of(server)
        if peak > 200_000_000:
            raise Wrong(f"the server had {peak >> 20} MB")


@check
def memory_that_runs_out(program):
    """Changes of other clients are made again, once a client that used up the memory is gone; and so the next time."""
    limit, pairs, times = 80_000_000, 5_000, 50
    little = lambda: resource.setrlimit(resource.RLIMIT_AS, (limit, limit))
    options = ("--workers", "4", "--seal-at", "524288", "--seal-bytes", "1000000000")
    env = os.environ | {"MALLOC_ARENA_MAX": "1"}
    with served(program, *options, preexec_fn=little, env=env) as server:
        for turn in range(2):
            with server.client() as client:
                talk(client, (HELLO, f"client {2 * turn + 1}"))
                lines = b"watch activity o1\nunwatch activity o1\n" * pairs
                answers = {answer for _ in range(times) for answer in ask_all(client, lines, 2 * pairs)}
                expect(b"failed memory" in answers, True, "memory has run out")
            with server.client() as client:
                talk(client, (HELLO, f"client {2 * turn + 2}"))
                talk(client, *[("watch activity o1", "ok"), ("unwatch activity o1", "ok")] * 1000)
        server.says("warning: memory is short: an allocation failed\n")


@check
def reloads_that_are_sealed(program):
    with served(program, "--journal", "20", "--seal-at", "8") as server, server.admin() as admin:
        for version in range(1, 41):
            reload(admin, version, DEVICE)
        talk(admin, ("version", "version 41 41"))
