"""What a server tells its owner, and `svcmgr status`."""

import contextlib
import os
import socket
import stat
import subprocess
import time
from concurrent.futures import ThreadPoolExecutor

from operating.administrators import answer_once
from operating.servers import HELLO, LIMIT, MARGIN, OTHER_HELLO, Server, check, comes_true, expect, room, talk
from talking import APPLICATION, PATIENCE, SERVICE, Connection

LABEL = "u:object_r:activity_service:s0"


@contextlib.contextmanager
def told(program, *options, **others):
    """A server with a socket of its owner, and the path of that socket."""
    with room() as folder:
        path = folder / "state"
        with Server(program, folder, "--status", str(path), *options, **others) as server:
            yield server.listens(), path


def asked(program, words, variables=None):
    """What `svcmgr status` ends with, and says on both streams."""
    environment = {name: text for name, text in os.environ.items() if name != "SVCMGR_STATUS"} | (variables or {})
    words = [program, "status", *words]
    ended = subprocess.run(words, capture_output=True, text=True, timeout=PATIENCE, env=environment)
    return [ended.returncode, ended.stdout, ended.stderr]


def expect_state(program, path, *lines):
    told = "".join(f"{line}\n" for line in lines)
    expect(asked(program, ["--status", path]), [0, told, ""], "the state is")


@check
def state_of_a_server(program):
    """It has what the clients' requests left, before and after a seal, a reload and deaths."""
    with told(program, "--workers", "3") as (server, path):
        expect(stat.S_IMODE(path.stat().st_mode), 0o600, "the owner's socket has the mode")
        expect_state(program, path, "state 1 1 0 1", "workers 0 3", "waiting 0")
        with server.client() as first, server.client() as second, server.admin() as admin:
            talk(first, (HELLO, "client 1"), ("add activity o1 1 8", "ok"))
            talk(second, (OTHER_HELLO, "client 2"), ("watch activity o7", "ok"), ("get activity", "handle 1"))
            talk(second, ("call 1 - o2", "ok"), ("add activity o1 0 8", "exception -1 app 10007"))
            expect_state(
                program,
                path,
                "state 1 7 0 7",
                f"client 1 100 1000 {SERVICE} 1 1 0 1",
                f"client 2 200 10007 {APPLICATION} 3 1 1 1",
                f"service activity 1 o1 1 1 8 {LABEL}",
                "watch activity 2 o7",
                "workers 2 3",
                "waiting 0",
            )
            talk(admin, ("seal", "sealed 1 7"))
            talk(second, ("take", f"registered o7 activity h1"), ("release 1", "ok"), ("release 1", "ok"))
            expect_state(
                program,
                path,
                "state 1 10 1 3",
                f"client 1 100 1000 {SERVICE} 1 1 0 1",
                f"client 2 200 10007 {APPLICATION} 6 0 1 0",
                f"service activity 1 o1 1 1 8 {LABEL}",
                "watch activity 2 o7",
                "workers 2 3",
                "waiting 0",
            )
            talk(first, ("bye", "bye"))
            comes_true(lambda: "workers 1 3" in asked(program, ["--status", path])[1], "a worker is free")
            expect_state(
                program,
                path,
                "state 1 11 1 4",
                f"client 2 200 10007 {APPLICATION} 6 0 1 0",
                "watch activity 2 o7",
                "workers 1 3",
                "waiting 0",
            )


@check
def clients_that_wait_in_the_state(program):
    with told(program, "--workers", "1") as (server, path), contextlib.ExitStack() as rest:
        clients = [rest.enter_context(server.client()) for _ in range(3)]
        expect(clients[0].ask(HELLO), "client 1", "a client is answered")
        comes_true(lambda: "waiting 2\n" in asked(program, ["--status", path])[1], "two clients wait")
        for client in clients[:2]:
            client.stream.close()
        comes_true(lambda: "waiting 0\n" in asked(program, ["--status", path])[1], "no client waits")


@check
def owner_who_takes_nothing(program):
    """Its connection ends after ten seconds, and another one is told meanwhile what it waits for."""
    with told(program) as (server, path), server.client() as client:
        talk(client, (HELLO, "client 1"))
        for number in range(4000):
            client.send(f"watch {number:0127d} o1\n".encode())
            client.lines.line()
        with Connection(path):
            began = time.monotonic()
            ended, state, _ = asked(program, ["--status", path])
            took = time.monotonic() - began
        expect(ended, 0, "the second owner's status is")
        expect(state.startswith("state 1 "), True, "it is told the state")
        expect(took < LIMIT + MARGIN, True, f"it waited for {took:.0f} seconds")


@check
def faults_of_states(program):
    missing = "fault: {}: No such file or directory (os error 2)\n"
    unknown = "fault: the owner's socket isn't given, by --status or SVCMGR_STATUS\n"
    expect(asked(program, []), [2, "", unknown], "without a socket it ends with")
    expect(asked(program, [], {"SVCMGR_STATUS": ""}), [2, "", unknown], "without a socket it ends with")
    with told(program) as (server, path):
        none = server.folder / "none"
        expect(asked(program, ["--status", none]), [1, "", missing.format(none)], "without a server it ends with")
        expect(asked(program, [], {"SVCMGR_STATUS": str(path)})[0], 0, "the environment's socket is asked:")
        # What is sent there isn't read.
        with socket.socket(socket.AF_UNIX) as owner:
            owner.connect(str(path))
            with contextlib.suppress(BrokenPipeError):
                owner.sendall(b"seal\n")
            expect(owner.recv(8), b"state 1 ", "it is told")
        with open("/dev/full", "w") as full:
            words = [program, "status", "--status", path]
            ended = subprocess.run(words, stdout=full, stderr=subprocess.PIPE, text=True, timeout=PATIENCE)
        expect([ended.returncode, ended.stderr], [1, "fault: a write failed\n"], "on a full disk it ends with")
    for cut in b"", b"state 1 1 0 1\n", b"state 1 1 0 1\nworkers 0 16\nwaiting 0":
        with room() as folder, socket.socket(socket.AF_UNIX) as listener, ThreadPoolExecutor(1) as pool:
            path = folder / "state"
            listener.bind(str(path))
            listener.listen()
            answered = pool.submit(answer_once, listener, cut)
            words = [1, "", f"fault: {path}: the server ended the connection\n"]
            expect(asked(program, ["--status", path]), words, "of a state that is cut it says")
            answered.result()


@check
def owners_sockets_that_are_taken(program):
    """A server doesn't start where somebody listens, and replaces the socket of a dead one."""
    with told(program) as (first, path), room() as folder:
        with Server(program, folder, "--status", str(path)) as second:
            second.ends(f"fault: {path}: Address already in use (os error 98)\n")
        expect(sorted(it.name for it in folder.iterdir()), ["labels", "rules"], "it leaves")
        first.child.kill()
        first.child.wait()
        with Server(program, folder, "--status", str(path)) as third:
            third.listens()
            expect_state(program, path, "state 1 1 0 1", "workers 0 16", "waiting 0")
