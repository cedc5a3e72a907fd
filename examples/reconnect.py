#!/usr/bin/env python3
"""Offers a service, and registers it again after svcmgr was restarted: reconnect.py SOCKET NAME [CONTEXT].

The socket is a doorkeeper's, or svcmgr's own if a context is given. Prints the calls that it gets. If the connection
ends or a request is refused, it begins again after a pause, which doubles from one failed try to the next."""

import os
import socket
import sys
import time

# Seconds between two looks for a call, and those of the first and the longest pause.
BETWEEN, FIRST, LONGEST = 0.1, 0.1, 5.0


def checked(request, answer, wanted):
    """The answer to a request without its newline. It must begin with the wanted word."""
    if not answer.endswith("\n"):
        raise ConnectionError("the connection ended")
    if not answer.startswith(wanted):
        raise ConnectionError(f"{request.split()[0]} is answered: {answer.rstrip()}")
    return answer.rstrip("\n")


def ask(stream, request, wanted=""):
    """Sends a request, and reads its answer."""
    stream.write(f"{request}\n")
    stream.flush()
    return checked(request, stream.readline(), wanted)


def connected():
    """The connection to svcmgr, as a file of lines, and the answer to this process's `hello`."""
    with socket.socket(socket.AF_UNIX) as stream:
        stream.connect(path)
        if context:
            # A socket is open as long as a file of it.
            lines = stream.makefile("rw")
            return lines, ask(lines, f"hello {os.getpid()} {os.getuid()} {context[0]}", "client ")
        answer, passed, _, _ = socket.recv_fds(stream, 4096, 1)
        client = checked("hello", answer.decode(), "client ")
        # A doorkeeper that relays passes nothing on: this is the connection then.
        with socket.socket(fileno=passed[0]) if passed else stream as connection:
            return connection.makefile("rw"), client


def serve(stream):
    """Takes calls until the connection ends, and gives back the handles that came with them."""
    while True:
        answer = ask(stream, "take")
        if answer == "empty":
            time.sleep(BETWEEN)
            continue
        print(answer, flush=True)
        for word in answer.split():
            if word.startswith("h"):
                ask(stream, f"release {word[1:]}", "ok")


path, name, *context = sys.argv[1:]
pause = FIRST
while True:
    try:
        stream, client = connected()
        with stream:
            ask(stream, f"add {name} o1 0 8", "ok")
            print(f"{name} is registered by {client}", file=sys.stderr)
            pause = FIRST
            serve(stream)
    except OSError as fault:
        print(f"{path}: {fault.strerror or fault}; next try in {pause:.1f} s", file=sys.stderr)
    time.sleep(pause)
    pause = min(2 * pause, LONGEST)
