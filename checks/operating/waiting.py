"""A `take` that waits for a delivery."""

import contextlib
import select
import signal
import statistics
import time

from operating.servers import HELLO, OTHER_HELLO, check, expect, is_over, served, talk
from talking import APPLICATION, Wrong

# Milliseconds for which a `take` waits that ends in another way.
LONG = "60000"

# Seconds in which what needn't wait has come.
SOON = 2


@contextlib.contextmanager
def calling(program, *options):
    """A server, and a service and an application that may call it."""
    with served(program, *options) as server, server.client() as service, server.client() as app:
        talk(service, (HELLO, "client 1"), ("add activity o1 0 8", "ok"))
        talk(app, (OTHER_HELLO, "client 2"), ("get activity", "handle 1"))
        yield server, service, app


def has_answer(party, seconds):
    """Whether an answer comes in this time."""
    return bool(select.select([party.stream], [], [], seconds)[0])


def answer(party):
    return party.lines.line().rstrip("\n")


@check
def take_waits_for_a_call(program):
    """A `take` is held until a call comes, and answered then."""
    with calling(program, "--take-wait", LONG) as (_, service, app):
        service.send(b"take\n")
        expect(has_answer(service, 0.5), False, "a take is answered before a delivery")
        talk(app, ("call 1 68656c6c6f", "ok"))
        expect(has_answer(service, SOON), True, "a take is answered after a delivery")
        expect(answer(service), "call o1 200 10007 68656c6c6f", "the delivery")


@check
def take_waits_for_a_notice(program):
    """A watcher's `take` is held until the name is registered."""
    with served(program, "--take-wait", LONG) as server, server.client() as app, server.client() as service:
        talk(app, (OTHER_HELLO, "client 1"), ("watch activity o7", "ok"))
        app.send(b"take\n")
        expect(has_answer(app, 0.5), False, "a take is answered before a delivery")
        talk(service, (HELLO, "client 2"), ("add activity o2 0 8", "ok"))
        expect(has_answer(app, SOON), True, "a take is answered after a delivery")
        expect(answer(app), "registered o7 activity h1", "the delivery")


@check
def take_waits_no_longer(program):
    """A `take` without a delivery is answered `empty` when its time is over, and one without the option at once."""
    with calling(program, "--take-wait", "1000") as (_, service, _):
        began = time.monotonic()
        talk(service, ("take", "empty"))
        took = time.monotonic() - began
        if not 0.9 < took < 1 + SOON:
            raise Wrong(f"a take was answered after {took:.2f} seconds in place of 1")
    with calling(program) as (_, service, _):
        began = time.monotonic()
        talk(service, *[("take", "empty")] * 10)
        if time.monotonic() - began > SOON:
            raise Wrong("takes wait without --take-wait")


@check
def kept_deliveries_are_taken_at_once(program):
    """Each kept delivery is taken without a wait, and only then a `take` waits."""
    kept = 200
    with calling(program, "--take-wait", LONG) as (_, service, app):
        talk(app, *[(f"call 1 {number:02x}", "ok") for number in range(kept)])
        began = time.monotonic()
        talk(service, *[("take", f"call o1 200 10007 {number:02x}") for number in range(kept)])
        if time.monotonic() - began > SOON:
            raise Wrong("a take waits although a delivery is kept")
        service.send(b"take\n")
        expect(has_answer(service, 0.5), False, "a take is answered without a delivery")


@check
def take_behind_other_requests(program):
    """A `take` never holds back replies to earlier requests."""
    with calling(program, "--take-wait", LONG) as (_, service, _):
        service.send(b"version\ntake\n")
        expect(has_answer(service, SOON), True, "a request before a take is answered")
        expect(answer(service).startswith("version "), True, "the reply to version")
        expect(answer(service), "empty", "the reply to a take behind another request")


@check
def take_of_a_client_that_goes(program):
    """A worker whose client goes while a `take` waits is free for the next client."""
    with served(program, "--workers", "1", "--take-wait", LONG) as server:
        for number in range(1, 4):
            with server.client() as client:
                talk(client, (HELLO, f"client {number}"))
                client.send(b"take\n")
                expect(has_answer(client, 0.3), False, "a take is answered without a delivery")


@check
def take_while_a_server_ends(program):
    """SIGTERM ends a server whose clients wait."""
    with calling(program, "--take-wait", LONG) as (server, service, _):
        service.send(b"take\n")
        expect(has_answer(service, 0.3), False, "a take is answered without a delivery")
        server.child.send_signal(signal.SIGTERM)
        server.has_ended(SOON, -signal.SIGTERM)
        expect(is_over(service), True, "the connection ended")


@check
def many_takes_wait(program):
    """Sixteen clients wait for a notice, and all are woken when it comes, but not by a call to another client."""
    clients, rounds, took = 16, 100, []
    with calling(program, "--workers", str(clients + 2), "--take-wait", LONG) as (server, service, app):
        with contextlib.ExitStack() as rest:
            waiting = [rest.enter_context(server.client()) for _ in range(clients)]
            for number, one in enumerate(waiting):
                talk(one, (f"hello {300 + number} 10007 {APPLICATION}", f"client {number + 3}"))
                talk(one, ("watch activity o1", "ok"), ("take", "registered o1 activity h1"))
                one.send(b"take\n")
            talk(app, ("call 1 00", "ok"))
            expect(any(has_answer(one, 0) for one in waiting), False, "a call to another client is taken")
            for number in range(1, rounds + 1):
                time.sleep(0.01)
                began = time.monotonic()
                talk(service, ("add activity o2 0 8", "ok"))
                for one in waiting:
                    expect(answer(one), "registered o1 activity h2", "a notice")
                took.append(time.monotonic() - began)
                for one in waiting:
                    one.send(b"take\n")
    # Clients that ask again each 100 ms would take half of that.
    if statistics.median(took) > 0.02:
        raise Wrong(f"{clients} clients were woken after {statistics.median(took) * 1000:.1f} ms")
