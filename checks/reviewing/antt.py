"""Reads files of definitions: their tokens, their `use` lines and their declarations."""

import re
from contextlib import contextmanager
from dataclasses import dataclass, field

COMMENT = re.compile(r'("(?:\\.|[^"\\])*")|(?<![^\s(){};,])--[^\n]*|\{-.*?-\}', re.S)
SPACE = re.compile(r"\s*")
TOKEN = re.compile(
    r'(?P<string>"(?:\\.|[^"\\])*")'
    r"|(?P<member>(?<=[)}])\.[^\s(){}.;,@\"«»]+(?:\.[^\s(){}.;,@\"«»]+)*)"
    r"|(?P<path>(?:«[^»]*»|[^\s(){}.;,@\"«»]+)(?:\.(?:«[^»]*»|[^\s(){}.;,@\"«»]+))*)"
    r"|(?P<mark>[(){}.;,@])"
)
MARKS = {"pub", "abbrev", "unfoldable", "pattern", "axiom"}
CLOSER = {"(": ")", "{": "}"}


class Unread(Exception):
    """A form or a name that can't be read, with its file and line."""


@dataclass
class Token:
    kind: str
    text: str
    line: int
    column: int

    def parts(self):
        return [part.strip("«»") for part in self.text.strip(".").split(".")]


@dataclass
class Use:
    """A name that a `use` line brings in: of an item, or of a module. A `pub use` passes it on."""

    name: str
    path: list
    is_module: bool
    is_public: bool
    line: int


@dataclass
class Declaration:
    """A definition, a `record` or a `data`: its lines, its tokens up to the clauses, and those of each clause."""

    name: str
    kind: str
    first: int
    last: int
    signature: list
    clauses: list = field(default_factory=list)


@dataclass
class File:
    path: str
    lines: list
    uses: list
    declarations: dict


def without_comments(text):
    return COMMENT.sub(lambda it: it[1] or re.sub(r"[^\n]", "", it[0]), text)


def tokens(text, path, first=1):
    """The tokens of a text without comments, whose first line has this number."""
    found, begin, at, line = [], 0, SPACE.match(text).end(), first
    while at < len(text):
        line += text.count("\n", begin, at)
        begin = max(begin, text.rfind("\n", 0, at) + 1)
        match = TOKEN.match(text, at)
        if match is None:
            raise Unread(f"{path}:{line}: unknown form {text[at : at + 20]!r}")
        found.append(Token(match.lastgroup, match[0], line, at - begin))
        at = SPACE.match(text, match.end()).end()
    return found


def closing(found, at):
    """The index of what closes the bracket at an index."""
    depth = 0
    for index in range(at, len(found)):
        if found[index].kind == "mark":
            depth += (found[index].text in "({") - (found[index].text in ")}")
            if depth == 0:
                return index
    raise Unread(f"line {found[at].line}: {found[at].text} isn't closed")


def index_of(found, *texts, start=0):
    """The index of the first of these tokens outside brackets, or None."""
    at = start
    while at < len(found):
        if found[at].text in texts and found[at].kind != "string":
            return at
        at = closing(found, at) + 1 if found[at].text in CLOSER else at + 1
    return None


def split(found, *texts):
    """The parts between these tokens outside brackets."""
    parts, at = [], 0
    while (cut := index_of(found, *texts, start=at)) is not None:
        parts.append(found[at:cut])
        at = cut + 1
    return [*parts, found[at:]]


def used(line):
    """The names that a `use` line brings in."""
    is_public = line[0].text == "pub"
    line = line[1 + is_public :]
    path, number = line[0].parts(), line[0].line
    opened = index_of(line, "{")
    if opened is None:
        name = line[2].text if len(line) > 2 and line[1].text == "as" else path[-1]
        return [Use(name, path, True, is_public, number)]
    found = []
    for item in split(line[opened + 1 : closing(line, opened)], ","):
        parts = item[0].parts() if item[0].kind == "path" else [item[0].text]
        name = item[2].text if len(item) == 3 else parts[-1]
        found.append(Use(name, path + parts, False, is_public, number))
    return found


def blocks(found):
    """The parts of a block, each of which begins at its column."""
    parts, last = [], None
    for token in found:
        is_first = token.line != last and token.text not in (")", "}")
        if is_first and (not parts or token.column <= parts[0][0].column):
            parts.append([])
        parts[-1].append(token)
        last = token.line
    return parts


def named(part):
    """A part without its marks, and whether it is a declaration, and its name."""
    rest = part
    while rest and rest[0].text in MARKS:
        rest = rest[1:]
    if rest[0].text in ("data", "record"):
        return rest, rest[0].text, rest[1].text
    colon, equals = index_of(rest, ":"), index_of(rest, "=")
    is_signature = colon is not None and (equals is None or colon < equals)
    return rest, "definition" if is_signature else None, rest[0].text


def declared(parts, path):
    """The declarations of these parts of a block, by their names. That of an operator begins with its fixity."""
    found, latest, fixities = {}, None, {}
    for part in parts:
        rest, kind, name = named(part)
        if part[0].text in ("infixl", "infixr", "infix"):
            fixities[part[2].text] = part[0].line
            continue
        if kind is not None:
            first = fixities.get(name, part[0].line)
            latest = found[name] = Declaration(name, kind, first, part[-1].line, rest)
        elif latest is None:
            raise Unread(f"{path}:{part[0].line}: {part[0].text} has no signature")
        elif part[0].text != "unfolding":
            latest.clauses.append(part)
        latest.last = part[-1].line
    return found


def is_header(part):
    words = [token.text for token in part[:3]]
    return any(words[: len(head)] == head for head in (["use"], ["mod"], ["pub", "use"], ["pub", "mod"]))


@contextmanager
def within(path):
    """Names the file in a fault that doesn't."""
    try:
        yield
    except Unread as fault:
        raise Unread(f"{path}: {fault}" if str(fault).startswith("line ") else str(fault)) from None


def read(path, root):
    """The file at a path below the root."""
    text = without_comments((root / path).read_text())
    with within(path):
        parts = blocks(tokens(text, path))
        headers = [part for part in parts if is_header(part)]
        uses = [used(part) for part in headers if "use" in (part[0].text, part[1].text)]
        found = declared([part for part in parts if not is_header(part)], path)
    return File(path, text.splitlines(), sum(uses, []), found)
