"""The shares that users have of the seats behind a doorkeeper."""

import contextlib
import os
import re
import shutil
import subprocess
import time

from operating.command_lines import help_of
from operating.doorkeeper import DOORKEEPER, Door, all_are_let_in, as_user, entered_as, need_users, opened, waits
from operating.servers import LIMIT, check, comes_true, expect, is_over, served, talk
from talking import APPLICATION, PATIENCE, ROOT, SERVICE, Connection

TOO_MANY = "failed too-many-clients\n"


def let_in_as(uid, door):
    """A client of a user who has room. Another check's process may have a copy of a closed connection for a moment."""
    clients = []
    comes_true(lambda: clients.append(entered_as(uid, door)) or clients[-1].is_in, f"a client of {uid} is let in")
    return clients[-1]


@check
def seats_and_workers(program):
    """A doorkeeper has as many seats as its server has workers, by default and in the units."""
    door = subprocess.run([DOORKEEPER, "--help"], capture_output=True, text=True, timeout=PATIENCE).stdout
    by_default = r"{} .*default: (\d+)"
    seats = re.search(by_default.format("--seats"), door)[1]
    expect(seats, re.search(by_default.format("--workers"), help_of(program, "serve"))[1], "seats by default are")
    units = {name: (ROOT / "examples" / f"{name}.service").read_text() for name in ("svcmgr", "svcmgr-doorkeeper")}
    seats = re.search(r"--seats (\d+)", units["svcmgr-doorkeeper"])[1]
    expect(seats, re.search(r"--workers (\d+)", units["svcmgr"])[1], "the seats of the unit are")


@check
def doorkeeper_with_shares(program):
    """No user gets more than half of the seats that others leave free, and what is closed is free again."""
    need_users()
    with opened(program, server=("--workers", "16")) as (_, door), contextlib.ExitStack() as all_of_them:
        door.table.write_text(f"0 {SERVICE}\n* {APPLICATION}\n")

        def let_in(uid):
            return all_of_them.enter_context(let_in_as(uid, door))

        def fill(uid, number):
            clients = [let_in(uid) for _ in range(number)]
            refused = entered_as(uid, door)
            expect((refused.answer, refused.is_in), (TOO_MANY, False), f"one more client of {uid} is answered")
            return clients

        mine = fill(10007, 8)
        door.says(f"warning: user 10007 has its share of the seats: process {os.getpid()} is refused\n")
        # Closed by the client, and by svcmgr.
        for _ in range(20):
            mine.pop(0).stream.close()
            mine.append(let_in(10007))
        talk(mine[0], ("bye", "bye"))
        expect(is_over(mine[0]), True, "the connection is over after `bye`")
        fill(10007, 1)
        fill(10008, 4)
        fill(10009, 2)
        for _ in range(2):
            talk(all_of_them.enter_context(door.enter()), ("get activity", "null"))


@check
def doorkeeper_with_shares_of_those_who_wait(program):
    """Who waits for svcmgr has a seat, too. The number of seats is an option."""
    need_users()
    with opened(program, "--seats", "6", server=("--workers", "1")) as (_, door), contextlib.ExitStack() as all_of_them:
        first = all_of_them.enter_context(entered_as(10007, door))
        with as_user(10007):
            waiting = [all_of_them.enter_context(waits(door.path)) for _ in range(2)]
        files = door.files()
        expect(entered_as(10007, door).answer, TOO_MANY, "one more client is answered")
        waiting[0].stream.close()
        door.has_files(files - 2)
        with as_user(10007):
            waiting[0] = all_of_them.enter_context(waits(door.path))
        first.stream.close()
        all_are_let_in(waiting)


@check
def doorkeeper_with_shares_of_other_processes(program):
    """A seat is free when the last process that has the connection has ended, whoever opened it."""
    need_users()
    with opened(program, "--seats", "2") as (_, door):
        with entered_as(10007, door) as client:
            other = subprocess.Popen(["sleep", str(3 * PATIENCE)], pass_fds=[client.stream.fileno()])
        with other:
            expect(entered_as(10007, door).answer, TOO_MANY, "a client is answered while another process is connected")
            other.kill()
        let_in_as(10007, door).stream.close()


@check
def doorkeeper_with_users_without_a_share(program):
    """Root and the doorkeeper's own user are let in whatever they have, and what they have is taken."""
    need_users()
    own = 10009
    with served(program, "--mode", "666") as server, contextlib.ExitStack() as all_of_them:
        # The own user may not be able to read this repository.
        copy = shutil.copy(DOORKEEPER, server.folder)
        os.chown(server.folder, own, -1)
        (server.folder / "users").write_text(f"* {APPLICATION}\n")
        with Door(server, "--seats", "8", doorkeeper=copy, user=own) as door:
            door.listens()
            for uid, answer in [(10007, "client "), *[(0, "client "), (own, "client ")] * 3, (10007, TOO_MANY)]:
                client = all_of_them.enter_context(entered_as(uid, door))
                expect(client.answer[: len(answer)], answer, f"a client of {uid} is answered")


@check
def doorkeeper_with_shares_of_relayed_clients(program):
    """Each has a seat until its connection ends."""
    need_users()
    with opened(program, "--relay", "--seats", "4") as (_, door):

        def enter():
            with as_user(10007):
                client = Connection(door.path)
            if client.lines.line() != TOO_MANY:
                return client
            expect(is_over(client), True, "the connection of a refused client is over")
            client.stream.close()
            return None

        clients = [enter() for _ in range(3)]
        expect([client is not None for client in clients], [True, True, False], "relayed clients are let in")
        clients[0].stream.close()
        comes_true(enter, "a client is let in after another one has gone")


@check
def doorkeeper_that_says_who_is_refused(program):
    """One line for each user, until the user gets a seat again, and no more than one in ten seconds."""
    need_users()
    with opened(program, "--seats", "3") as (_, door):
        door.table.write_text(f"* {APPLICATION}\n")

        def refuse(uid, says=False, more=""):
            expect(entered_as(uid, door).answer, TOO_MANY, f"a client of {uid} is answered")
            if says:
                door.says(f"warning: user {uid} has its share of the seats: process {os.getpid()} is refused{more}\n")
            door.says_no_more()

        with let_in_as(10007, door):
            with let_in_as(10008, door):
                refuse(10007, says=True)
                refuse(10008, says=True)
            with let_in_as(10008, door):
                refuse(10007)
                refuse(10008)
                time.sleep(LIMIT + 1)
                refuse(10007)
                refuse(10008, says=True, more=" (1 more since the last such line)")
        with let_in_as(10007, door):
            refuse(10007, says=True)
