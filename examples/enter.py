#!/usr/bin/env python3
"""Asks svcmgr through a doorkeeper: enter.py PATH. Prints the answer to the `hello` that was said for this process, and
those to the requests on standard input."""

import socket
import sys


def enter(path):
    """The answer to this process's `hello`, and its connection to svcmgr if it was let in."""
    with socket.socket(socket.AF_UNIX) as door:
        door.connect(path)
        answer, passed, _, _ = socket.recv_fds(door, 4096, 1)
    return answer.decode(), socket.socket(fileno=passed[0]) if passed else None


answer, connection = enter(sys.argv[1])
print(answer, end="", flush=True)
if connection is None:
    sys.exit(1)
stream = connection.makefile("rwb")
for request in sys.stdin.buffer:
    stream.write(request)
    stream.flush()
    print(stream.readline().decode(), end="", flush=True)
