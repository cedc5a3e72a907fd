"""Reads files of code: their `use` lines, their types and traits, and the contracts of their functions."""

import re
from dataclasses import dataclass, field
from functools import cache

from reviewing.antt import Unread, tokens, used, within

PIECE = re.compile(
    r"(?P<comment>//[^\n]*|/\*.*?\*/)"
    r'|(?P<literal>b?r?"(?:\\.|[^"\\])*"'
    r"|b?'(?:\\(?:x\w\w|u\{\w+\}|.)|[^'\\\n])')",
    re.S,
)
HEAD = re.compile(
    r"(?P<visible>pub(?:\([^)]*\))?\s+)?(?:unsafe\s+|const\s+(?=fn))*"
    r"(?P<kind>ghost\s+use|ghost|use|mod|fn|struct|enum|trait|impl|const|static|type|macro_rules!|\w+!)(?!\w)\s*"
)
CLAUSE = re.compile(r"\s*(?P<kind>ghost|requires|ensures)\*?\s*(?P<name>[\w]*)\s*:?\s*(?=\{)")


@dataclass(eq=False)
class Item:
    """An item of a file, or of an `impl` or a trait: its text from `start` to `end`, and where its body begins."""

    kind: str
    name: str
    start: int
    end: int
    body: int
    is_public: bool
    generics: str = ""
    parent: object = None
    clauses: list = field(default_factory=list)
    items: list = field(default_factory=list)


@dataclass(eq=False)
class Source:
    """A file: its crate, its module and its items. `code` has no comments, `bare` no literals either."""

    path: str
    crate: str
    module: tuple
    code: str
    bare: str
    items: list = field(default_factory=list)

    def line(self, at):
        return self.code.count("\n", 0, at) + 1


def blanked(text, kinds):
    """The text with spaces in place of comments, or of literals too."""
    return PIECE.sub(lambda it: re.sub(r"[^\n]", " ", it[0]) if it.lastgroup in kinds else it[0], text)


def closing(text, at):
    """The index behind what closes the bracket at an index."""
    depth = 0
    for index in range(at, len(text)):
        depth += (text[index] in "([{") - (text[index] in ")]}")
        if depth == 0:
            return index + 1
    raise Unread(f"line {text.count(chr(10), 0, at) + 1}: {text[at]} isn't closed")


def without_attributes(source, start, end):
    """A part of the code, with spaces in place of attributes."""
    text, at = source.code[start:end], 0
    while match := re.compile(r"#!?\[").search(source.bare[start:end], at):
        at = closing(source.bare[start:end], match.end() - 1)
        text = text[: match.start()] + re.sub(r"[^\n]", " ", text[match.start() : at]) + text[at:]
    return text


def angles(text, at):
    """The index behind the `>` of the `<` at an index, or the index itself if there is none."""
    depth = 0
    for match in re.compile(r"->|=>|[<>]").finditer(text, at):
        if at == match.start() and match[0] != "<":
            return at
        depth += {"<": 1, ">": -1}.get(match[0], 0)
        if depth == 0:
            return match.end()
    return at


def end_of_head(bare, at):
    """Where a head ends: at its first clause, its body or its semicolon, outside brackets."""
    while at < len(bare):
        if bare[at] in "([":
            at = closing(bare, at)
        elif bare[at] in "{;" or (CLAUSE.match(bare, at) and not bare[at - 1].isalnum()):
            return at
        else:
            at += 1
    return at


def clauses_at(source, at):
    """The clauses from an index on, each with the tokens of its term, and the index behind them."""
    found = []
    while match := CLAUSE.match(source.bare, at):
        at = closing(source.bare, match.end())
        text = source.code[match.end() + 1 : at - 1]
        found.append((match["kind"], match["name"], tokens(text, source.path, source.line(match.end() + 1))))
    return found, re.compile(r"\s*").match(source.bare, at).end()


def item_at(source, at, parent):
    """The item at an index, or None where none begins."""
    bare = source.bare
    head = HEAD.match(bare, at)
    if head is None:
        return None
    kind, start = " ".join(head["kind"].split()), at
    generics = ""
    begin = head.end()
    if kind == "impl":
        begin = angles(bare, begin) if bare[begin] == "<" else begin
        generics = bare[head.end() : begin]
    name = re.match(r"[\w]*", bare[begin:])[0]
    if kind in ("fn", "struct", "enum", "trait", "type"):
        behind = begin + len(name)
        generics = bare[behind : angles(bare, behind)] if bare[behind : behind + 1] == "<" else ""
    item = Item(kind, name, start, start, start, bool(head["visible"]), generics, parent)
    plain = kind in ("use", "ghost use", "ghost", "const", "static", "type")
    item.body = end = end_of_use(bare, begin) if plain else end_of_head(bare, begin)
    item.clauses, end = clauses_at(source, end) if kind == "fn" else ([], end)
    item.end = closing(bare, end) if bare[end] == "{" else end + 1
    if kind in ("impl", "trait"):
        item.items = items_of(source, end + 1, item.end - 1, item)
    return item


def end_of_use(bare, at):
    while bare[at] != ";":
        at = closing(bare, at) if bare[at] in "([{" else at + 1
    return at


def items_of(source, at, end, parent=None):
    found = []
    while at < end:
        gap = re.compile(r"\s*(#!?\[)?").match(source.bare, at)
        if gap[1]:
            at = closing(source.bare, gap.end() - 1)
            continue
        at = gap.end()
        if at >= end:
            break
        item = item_at(source, at, parent)
        if item is None:
            raise Unread(f"{source.path}:{source.line(at)}: unknown item {source.code[at : at + 20]!r}")
        found.append(item)
        at = item.end
    return found


def ghost_uses(source, items):
    """The names that the `ghost use` lines among some items bring in."""
    found = []
    for item in items:
        if item.kind == "ghost use":
            text = re.sub(r"^ghost\s+", "", source.code[item.start : item.end - 1])
            found += used(tokens(text, source.path, source.line(item.start)))
    return found


@cache
def rust_uses(source, passed_on=False):
    """The paths that `use` lines bring in, by their names; or only those that a `pub use` passes on."""
    found = {}
    for item in source.items:
        if item.kind == "use" and (item.is_public or not passed_on):
            text = re.sub(r"^.*?\buse\s+", "", source.bare[item.start : item.end - 1], count=1, flags=re.S)
            for path in paths_of(text):
                words = path.split(" as ")
                parts = [part.strip() for part in words[0].split("::")]
                parts = parts[:-1] if parts[-1] == "self" else parts
                found[words[-1].strip() if len(words) == 2 else parts[-1]] = parts
    return found


def paths_of(text):
    """The paths of a `use`, whose braces are opened."""
    text = " ".join(text.split())
    opened = text.find("{")
    if opened < 0:
        return [text]
    head, inner, depth, parts = text[:opened], text[opened + 1 : closing(text, opened) - 1], 0, [""]
    for letter in inner:
        depth += (letter == "{") - (letter == "}")
        if letter == "," and depth == 0:
            parts.append("")
        else:
            parts[-1] += letter
    return [path for part in parts if part.strip() for path in paths_of(head + part.strip())]


def owner(source, item):
    """The type of an `impl`, or the name of another item."""
    if item.kind != "impl":
        return item.name
    head = source.bare[item.start : item.body]
    head = head[head.index("impl") + len("impl" + item.generics) :]
    return re.match(r"\s*(?:.*\bfor\s+)?(?:&\s*)?(?:mut\s+)?(?:\w+::)*(\w+)", head, re.S)[1]


def trait_of(source, item):
    """The trait of an `impl`, or nothing."""
    head = source.bare[item.start : item.body]
    found = re.match(r"\s*(?:\w+::)*(\w+).*\bfor\b", head[head.index("impl") + len("impl" + item.generics) :], re.S)
    return found[1] if found else ""


def read(path, crate, module, root):
    text = (root / path).read_text()
    source = Source(str(path), crate, module, blanked(text, {"comment"}), blanked(text, {"comment", "literal"}))
    with within(path):
        source.items = items_of(source, 0, len(text))
    return source
