"""The examples without proofs, with another program in place of the kit's `rt`."""

import os
import subprocess

from operating.servers import check, expect, room
from talking import PATIENCE, ROOT

# Runs the program as `rt try --data NAME=FILE .. -- WORD ..` does, in a folder with these files.
RT = """#!/bin/bash
cd "$ROOM" && shift
while [ "$1" = --data ]; do
    cp "${2#*=}" "${2%%=*}" && shift 2
done
[ "$1" = -- ] && shift && exec "$PROGRAM" "$@"
"""

TOLD = "compiles svcmgr without proving it, and prints nothing more for one to four minutes"

# Examples with the name in front of what they say first, and the end of their last line.
EXAMPLES = [
    ("examples/try", "run", "tclass=binder permissive=0"),
    ("examples/serve --unproved", "serve", "bye"),
    ("examples/check --unproved examples/policy.te examples/service_contexts", "check", "2 labels"),
]


@check
def examples_without_proofs(program):
    """They say at once that a build comes first, and then what the program answers."""
    with room() as folder:
        (folder / "rt").write_text(RT)
        (folder / "rt").chmod(0o755)
        env = os.environ | {"PATH": f"{folder}:{os.environ['PATH']}", "ROOM": str(folder)}
        env |= {"PROGRAM": os.path.realpath(program), "SVCMGR": ""}
        for words, name, last in EXAMPLES:
            how = {"cwd": ROOT, "env": env, "capture_output": True, "text": True, "timeout": PATIENCE}
            ended = subprocess.run(words.split(), **how)
            expect(ended.stderr.splitlines()[:1], [f"{name}: {TOLD}"], f"{words} says first")
            expect((ended.returncode, ended.stdout.rstrip().endswith(last)), (0, True), f"{words} ends with `{last}`")
