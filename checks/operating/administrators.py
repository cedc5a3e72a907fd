"""Requests of administrators."""

import contextlib
import os
import socket
import subprocess
import threading
import time
from concurrent.futures import ThreadPoolExecutor

from operating.servers import LIMIT, MARGIN, OTHER_HELLO, check, expect, room, served, talk
from talking import APPLICATION, BROKEN, PATIENCE


@check
def requests_of_administrators(program):
    with served(program) as server, server.client() as client:
        talk(client, (OTHER_HELLO, "client 1"), ("add activity o1 0 8", "exception -1 app 10007"))
        rules, labels, large, broken = (server.folder / name for name in ("rules", "labels", "large", "broken"))
        large.write_text("#" * 5_000_000)
        broken.write_text(BROKEN)
        denial = f"clause: denied app for pid=200 uid=10007 name=activity scontext={APPLICATION}"
        refused = "neverallow at line 22 by allow at line 24: untrusted_app activity_service service_manager add"
        missing = f"fault: {server.folder}/none: No such file or directory (os error 2)\n"
        asked = [
            (["version"], 0, "version 1 2\n", ""),
            (["explain", "untrusted_app", "system_server", "binder", "call"], 0, "allowed 1 19\n", ""),
            (["explain", "untrusted_app", "nobody", "binder", "call"], 0, "unwritten 1\n", ""),
            (["denials"], 0, f"denials 1\njournal=2 version=1 {denial}\n", ""),
            (["reload", rules, labels], 0, "reloaded 2\n", ""),
            (["reload", broken, labels], 1, f"refused {refused}\n", ""),
            (["reload", large, labels], 1, "fault long\n", ""),
            (["reload", rules, server.folder / "none"], 1, "", missing),
            (["seal"], 0, "sealed 1 3\n", ""),
            (["seal"], 0, "empty\n", ""),
        ]
        administer(program, ["version"], [0, "version 1 2\n", ""], {"SVCMGR_ADMIN": str(server.admins)})
        for words, *ending in asked:
            administer(program, ["--admin", server.admins, *words], ending)
        administer(program, ["--admin", server.folder / "none", "version"], [1, "", missing])
        for words in ["version"], ["reload", rules, labels]:
            administer(program, ["--admin", server.clients, *words], [1, "malformed\n", ""])
        words = [program, "admin", "--admin", server.admins, "version"]
        with open("/dev/full", "w") as full:
            ended = subprocess.run(words, stdout=full, stderr=subprocess.PIPE, text=True, timeout=PATIENCE)
        expect([ended.returncode, ended.stderr], [1, "fault: a write failed\n"], "on a full disk it ends with")
    unknown = "fault: the administrators' socket isn't given, by --admin or SVCMGR_ADMIN\n"
    administer(program, ["version"], [2, "", unknown])


def administer(program, words, ending, variables=None):
    """Asks by `svcmgr admin`, and expects a status and what is said on both streams."""
    environment = {name: text for name, text in os.environ.items() if name != "SVCMGR_ADMIN"} | (variables or {})
    words = [program, "admin", *words]
    ended = subprocess.run(words, capture_output=True, text=True, timeout=PATIENCE, env=environment)
    expect([ended.returncode, ended.stdout, ended.stderr], ending, f"{words[1:]} ends with")


@check
def administrator_who_never_pauses(program):
    """Its turn ends some ten seconds after another one has come."""
    with ThreadPoolExecutor(1) as pool, served(program) as server, server.admin() as busy:
        answered = pool.submit(versions_until_the_end, busy)
        with server.admin() as other:
            began = time.monotonic()
            talk(other, ("version", "version 1 1"))
            seconds = time.monotonic() - began
        expect(seconds <= LIMIT + MARGIN, True, f"it waited {seconds} seconds")
        expect(answered.result() > 0, True, "the first one was answered")


@check
def administrator_who_sends_slowly(program):
    """A connection with a byte each 1.5 seconds doesn't idle. It ends within twenty seconds once another one waits."""
    over = threading.Event()

    def send():
        with contextlib.suppress(OSError):
            while not over.wait(1.5):
                slow.stream.sendall(b"v")

    with served(program) as server, server.admin() as slow, ThreadPoolExecutor(1) as pool:
        sent = pool.submit(send)
        with server.admin() as other:
            began = time.monotonic()
            talk(other, ("version", "version 1 1"))
            seconds = time.monotonic() - began
        over.set()
        sent.result()
        expect(seconds <= 2 * LIMIT + MARGIN, True, f"it waited {seconds} seconds")


def versions_until_the_end(admin):
    """Asks for the version without a pause, until the connection ends. How often it was answered."""
    number = 0
    with contextlib.suppress(OSError):
        while admin.ask("version") == "version 1 1":
            number += 1
    return number


@check
def server_that_dies_before_its_answer(program):
    """An answer that isn't whole is none, whatever the server had written of it."""
    for told in b"", b"version 1", b"denials 2\njournal=1 a line\n":
        with room() as folder, socket.socket(socket.AF_UNIX) as listener:
            path = folder / "admins"
            listener.bind(str(path))
            listener.listen()
            with ThreadPoolExecutor(1) as pool:
                answered = pool.submit(answer_once, listener, told)
                words = "the server ended the connection: ask for the version to see what was done"
                administer(program, ["--admin", path, "denials"], [1, "", f"fault: {path}: {words}\n"])
                answered.result()


def answer_once(listener, told):
    stream, _ = listener.accept()
    with stream:
        stream.recv(65536)
        stream.sendall(told)
