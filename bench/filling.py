"""Shared by programs here: a client whose handle table another one fills, and the way to the modules of checks/."""

import sys
from pathlib import Path

sys.path.insert(0, str(Path(__file__).resolve().parent.parent / "checks"))
from operating.servers import ask_all  # noqa: E402

CONTEXT = "u:r:servicemanager:s0"
POLICY = {"rules": "type servicemanager;\nallow * *:* *;\n", "labels": f"* {CONTEXT}\n"}
HELLO = f"hello 1 1000 {CONTEXT}"

# The handles that a client may have, those of one call, and the calls that are sent at once.
HANDLES, REFERENCES, BATCH = 65_536, 16, 64


def holder_of(caller, server, name):
    """A client that adds a service, and the caller's handle of it, or nothing where a request is refused."""
    holder = server.client()
    holder.ask(HELLO)
    holder.ask(f"add {name} o1 0 8")
    word, _, handle = caller.ask(f"get {name}").partition(" ")
    return holder, handle if word == "handle" else None


def fill(caller, handle, holder):
    """Has a client take calls, each with new objects of the caller, until memory is short. How many it took."""
    taken = 0
    for first in range(0, HANDLES, REFERENCES * BATCH):
        objects = [" ".join(f"o{first + at + n}" for n in range(REFERENCES)) for at in range(0, REFERENCES * BATCH, 16)]
        calls = "".join(f"call {handle} - {references}\n" for references in objects)
        done = ask_all(caller, calls.encode(), BATCH).count(b"ok")
        ask_all(holder, b"take\n" * done, done)
        taken += done * REFERENCES
        if done < BATCH:
            break
    return taken
