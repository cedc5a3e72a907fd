"""Prints the requests of a script, each beside its reply from standard input: beside.py SCRIPT"""

import signal
import sys

# If nobody reads on, it ends quietly.
signal.signal(signal.SIGPIPE, signal.SIG_DFL)

# The column of the replies.
WIDTH = 60


def requests(script):
    """The lines of a script, without the files that follow a `reload`."""
    while line := script.readline():
        yield line.decode(errors="replace").rstrip("\n")
        words = line.split(b" ")
        if words[0] == b"reload" and len(words) == 4:
            script.read(sum(int(word) for word in words[2:] if word.strip().isdigit()))


def print_reply(reply):
    """Prints a reply, and the records that follow a `denials` one."""
    print(reply, flush=True)
    words = reply.split(" ")
    for _ in range(int(words[1]) if words[0] == "denials" else 0):
        print(" " * WIDTH, sys.stdin.readline(), end="")


with open(sys.argv[1], "rb") as lines:
    for request, reply in zip(requests(lines), sys.stdin):
        print(f"{request:{WIDTH}}", end=" ")
        print_reply(reply.rstrip("\n"))
for rest in sys.stdin:
    print(rest, end="")
