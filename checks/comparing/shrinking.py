"""Shrinks what shows a difference, and writes it as a script of the shell."""

import shlex
import time
from dataclasses import replace

from .programs import FILES

# Seconds that a difference is shrunk.
SECONDS = 20


def fewest(lines, differs, until=None):
    """Takes lines out, many at a time and then fewer, as long as what is left differs."""
    until = until or time.monotonic() + SECONDS
    size = max(1, len(lines) // 2)
    while size >= 1 and time.monotonic() < until:
        at = 0
        while at < len(lines) and time.monotonic() < until:
            fewer = lines[:at] + lines[at + size :]
            if differs(fewer):
                lines = fewer
            else:
                at += size
        size //= 2
    return lines


def without_client(script, number):
    """A script without the lines of a client. The clients after it have the numbers before theirs."""
    found, hellos = [], 0
    for line in script:
        first, _, rest = line.partition(" ")
        hellos += first == "hello"
        if (first == "hello" and hellos == number) or first == str(number):
            continue
        if first.isdecimal() and int(first) > number:
            line = f"{int(first) - 1} {rest}"
        found.append(line)
    return found


def shrunk(case, differs):
    """A smaller case that still differs: fewer lines of the script and of each file, and fewer clients."""
    until = time.monotonic() + SECONDS
    case = replace(case, script=fewest(case.script, lambda it: differs(replace(case, script=it)), until))
    for number in range(len(case.script), 0, -1):
        fewer = replace(case, script=without_client(case.script, number))
        if fewer.script != case.script and differs(fewer):
            case = fewer
    for name in ("rules", "contexts", "new_rules", "new_contexts"):
        lines = getattr(case, name).splitlines(keepends=True)
        kept = fewest(lines, lambda it: differs(replace(case, **{name: "".join(it)})), until)
        case = replace(case, **{name: "".join(kept)})
    return case


def quoted(text):
    """A text with one character for each byte, as a word of bash."""
    if text != "" and all("\x20" <= byte <= "\x7e" and byte not in "'\\" for byte in text):
        return f"'{text}'"
    short = {"\n": "\\n", "\t": "\\t", "\\": "\\\\", "'": "\\'"}
    return "$'" + "".join(short.get(it) or (it if "\x20" <= it <= "\x7e" else f"\\x{ord(it):02x}") for it in text) + "'"


def written_file(name, lines):
    """The commands of bash that write a file: NUL bytes aren't those of a word, so printf makes them."""
    if lines == []:
        return f": > {name}"
    words = [quoted(line.replace("\\", "\\\\").replace("\0", "\\0000")) for line in lines]
    return "printf '%b' \\\n    " + " \\\n    ".join(words) + f" > {name}"


def files_of(case, names):
    texts = dict(zip(FILES, (case.rules, case.contexts, case.new_rules, case.new_contexts)))
    return [written_file(name, texts[name].splitlines(keepends=True)) for name in names]


def script_of(case, words, given, wanted, came):
    """A script of bash that shows a difference at a command line, and both answers."""
    found = files_of(case, [name for name in FILES if name in words])
    command = " ".join(["svcmgr", *(shlex.quote(word) for word in words)])
    name = {"run": "script", "suggest": "log"}.get(words[0])
    if name is not None:
        found.append(written_file(name, given.splitlines(keepends=True)))
        command += f" < {name}"
    found.append(command)
    for what, page, program in zip(("standard output", "standard error", "status"), wanted, came):
        if page != program:
            found += [f"# {what} by the page:", *commented(page), f"# {what} of the program:", *commented(program)]
    return "\n".join(found)


def commented(answer):
    return [f"#   {line!r}"[:500] for line in str(answer).split("\n")[-40:]]
