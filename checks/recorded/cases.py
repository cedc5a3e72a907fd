"""Reads recorded cases of Android's service manager. README.md has their format."""

import re
from dataclasses import dataclass, field

PART = re.compile(r"\[(rules|contexts) (\d+)\]|\[lines\]")


class Bad(Exception):
    """A case that is wrong in itself."""


@dataclass
class Notice:
    """A call of a watcher's callback, and the marks at it."""

    callback: str
    name: str
    node: str
    marks: list = field(default_factory=list)


@dataclass
class Item:
    """A request, and what was recorded of it: a second answer and its audit lines are behind the mark `nul-name`."""

    request: str
    answers: list = field(default_factory=list)
    notices: list = field(default_factory=list)
    marks: list = field(default_factory=list)
    audit: list = field(default_factory=lambda: [[]])
    assertions: list = field(default_factory=list)

    def __post_init__(self):
        # A mark belongs to the answer or the notice above it.
        self.marked = self.marks

    def add(self, kind, rest):
        """Adds a line of this request: its first character, and what is behind the blank that follows."""
        if kind == "=":
            self.answers.append(rest)
            self.marked = self.marks
        elif kind == "+":
            self.notices.append(Notice(*rest.split(" ")))
            self.marked = self.notices[-1].marks
        elif kind == "~":
            self.marked.append(rest)
            if rest == "nul-name":
                self.audit.append([])
        elif kind == "?":
            self.assertions.append(rest)
        elif kind not in ("*", "#"):
            raise Bad(f"no line of a case: {kind} {rest}")


def items_of(lines):
    items = []
    for line in lines:
        kind, blank, rest = line.partition(" ")
        if kind == ">":
            items.append(Item(rest))
        elif kind == "avc":
            items[-1].audit[-1].append(line)
        elif line:
            items[-1].add(kind, rest)
    if not all(item.answers for item in items):
        raise Bad("a request without an answer")
    return items


def read_case(text):
    """The policies, each a pair of its files' texts, and the items."""
    parts, part = {}, None
    for line in text.split("\n"):
        if PART.fullmatch(line):
            part = parts.setdefault(line, [])
        elif part is not None:
            part.append(line)
    policies = []
    while f"[rules {len(policies) + 1}]" in parts:
        number = len(policies) + 1
        files = (parts[f"[{kind} {number}]"] for kind in ("rules", "contexts"))
        policies.append(tuple("".join(line + "\n" for line in file) for file in files))
    return policies, items_of(parts["[lines]"])


def unspelled(word):
    """The bytes of a name in a request."""
    return bytes.fromhex(word[1:]) if word.startswith("%") else word.encode()


def spelled(name):
    """A name as replies and audit lines have it."""
    return name.decode() if re.fullmatch(rb"[A-Za-z0-9_./-]{1,127}", name) else "%" + name.hex()


def escaped(name):
    """A name as recorded audit lines have it."""
    return "".join(chr(byte) if 0x20 <= byte <= 0x7E and byte != 0x5C else f"\\x{byte:02x}" for byte in name)
