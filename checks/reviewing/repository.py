"""Finds the items of the repository that a path names, and what each item rests on."""

import re
from dataclasses import dataclass, field
from functools import cache
from pathlib import Path

from reviewing import antt, code

# Constructors of the kit's std that definitions match on. Another name of std in a pattern is refused.
STD_CONSTRUCTORS = {"[]", "◌∷◌", "zero", "suc", "true", "false", "Some", "None", "Ok", "Err", "pos", "negsuc"}
STD_CONSTRUCTORS |= {"Less", "Equal", "Greater"}

# Names of types, of their variants and of traits that code knows without a `use` line.
RUST = {"Option", "Result", "Vec", "String", "Box", "Some", "None", "Ok", "Err", "bool", "char", "str", "f64"}
RUST |= {f"{sign}{size}" for sign in "iu" for size in (8, 16, 32, 64, 128, "size")}
RUST |= {"Clone", "Copy", "Drop", "Send", "Sync", "Fn", "FnMut", "FnOnce", "Iterator", "IntoIterator", "From", "Into"}
RUST_WORDS = {"mut", "dyn", "impl", "pub", "crate", "const", "fn", "for", "where", "static", "as", "ref", "Self"}


@dataclass(frozen=True)
class Outer:
    """A name of the kit's libraries, where a reading ends."""

    path: tuple

    @property
    def name(self):
        return self.path[-1]


@dataclass(frozen=True)
class Key:
    """An item of the repository. `part` says which of its constructors, or which member of a trait."""

    path: str
    name: str
    part: str = ""

    def whole(self):
        return Key(self.path, self.name)


@dataclass(frozen=True)
class Module:
    """A module: of a file of definitions, or of what the code declares, as constants or a type's variants."""

    parts: tuple


@dataclass
class Node:
    """An item with its text, what it rests on, and the fields that it has and names."""

    key: Key
    order: int
    lines: list
    targets: list = field(default_factory=list)
    members: list = field(default_factory=list)
    fields: set = field(default_factory=set)


class Repository:
    def __init__(self, root):
        self.root = Path(root)
        lines = (self.root / "crates.txt").read_text().splitlines()
        self.crates = [re.match(r"\w+", line)[0] for line in lines if re.match(r"\w+.*:", line)]

    # ---- files

    @cache
    def definitions(self, path):
        return antt.read(path, self.root)

    @cache
    def source(self, crate, module):
        """The file of a module of code, or None."""
        folder = Path("crates", crate, "src")
        names = ["/".join(module) + ".rt"] if module else ["lib.rt", "main.rt"]
        for path in (folder / name for name in names):
            if (self.root / path).is_file():
                return code.read(path, crate, module, self.root)
        return None

    def sources(self, crate):
        folder = self.root / "crates" / crate / "src"
        for path in sorted(folder.rglob("*.rt")):
            module = path.relative_to(folder).with_suffix("").parts
            yield self.source(crate, () if module in (("lib",), ("main",)) else module)

    # ---- paths of definitions

    def find(self, path):
        """What a path from its library on means: an item, or the module itself."""
        path = path[1:] if path[0] == "package" else path
        if path[0] != "Rattle" or path[1] not in self.crates:
            return Outer(tuple(path))
        crate, kind, rest = path[1], path[2], path[3:]
        if kind != "specs":
            return None
        if rest[:1] == ["declared"]:
            return self.declared(crate, tuple(rest[1:]), tuple(path))
        return self.specified(crate, rest, tuple(path))

    def specified(self, crate, rest, path):
        for count in range(len(rest), -1, -1):
            file = "/".join(["crates", crate, "specs", *(rest[:count] or ["Lib"])]) + ".antt"
            if (self.root / file).is_file():
                if count == len(rest):
                    return Module(path)
                return self.within(file, rest[count:])
        return None

    def within(self, file, names):
        """An item of a file of definitions, one of its constructors, or what the file passes on."""
        read = self.definitions(file)
        if names[0] in read.declarations and len(names) == 1:
            return Key(file, names[0])
        for it in read.declarations.values():
            if it.kind == "data" and names in ([it.name, names[-1]], [names[-1]]) and names[-1] in constructors(it):
                return Key(file, it.name, names[-1])
        for use in read.uses:
            if use.name == names[0] and use.is_public:
                return self.find(use.path + names[1:])
        return None

    def declared(self, crate, rest, path):
        """A type of the code, one of its variants, or a constant."""
        if "TheConstants" in rest:
            at = rest.index("TheConstants")
            source = self.source(crate, rest[:at])
            return Module(path) if at + 1 == len(rest) else self.item(source, rest[at + 1])
        for count in range(len(rest)):
            source = self.source(crate, rest[:count])
            item = source and self.item(source, rest[count])
            if item is not None:
                return self.declared_part(item, rest[count + 1 :], path)
        return None

    def declared_part(self, item, rest, path):
        if rest == (item.name,):
            return item
        if rest[:1] == ("TheVariants",) and len(rest) == 2:
            return self.variant(item, rest[1])
        return Module(path) if rest in ((), ("TheVariants",)) else None

    # ---- paths of code

    @cache
    def item(self, source, name):
        """An item of a module of code by its name."""
        for it in source.items:
            if it.name == name and it.kind in ("struct", "enum", "trait", "type", "const", "static"):
                return Key(source.path, name)
        return None

    def variant(self, key, name):
        return Key(key.path, key.name, name) if name in variants(*self.coded(key)) else None

    def coded(self, key):
        """The file and the item of a key of code."""
        path = Path(key.path).relative_to("crates")
        module = Path(*path.parts[2:]).with_suffix("").parts
        source = self.source(path.parts[0], () if module in (("lib",), ("main",)) else module)
        if " for " in key.name:
            return source, implementation(source, *key.name.split(" for "))
        return source, next(it for it in source.items if it.name == key.name and it.kind not in ("mod", "fn", "impl"))

    def has_member(self, key, name):
        """Whether a trait has a ghost member."""
        item = self.coded(key.whole())[1]
        return item.kind == "trait" and any(it.kind == "ghost" and it.name == name for it in item.items)

    def rust(self, source, parts):
        """What a path of code means in a file."""
        own = self.item(source, parts[0])
        if own is not None:
            return self.behind(own, parts[1:])
        used = code.rust_uses(source).get(parts[0])
        if used is not None:
            return self.rust_path(source, used + parts[1:])
        if parts[0] in ("crate", "std", "super") or parts[0] in self.crates:
            return self.rust_path(source, parts)
        if parts[0] in RUST:
            return Outer(("Rust", *parts))
        return None

    def behind(self, key, rest):
        if not rest:
            return key
        return self.variant(key, rest[0]) or Key(key.path, key.name, rest[0])

    def rust_path(self, source, parts):
        """What a path from a crate on means, through the names that modules pass on."""
        crate, module = source.crate, source.module
        if parts[0] == "crate" or parts[0] in self.crates:
            crate, module, parts = (crate if parts[0] == "crate" else parts[0]), (), parts[1:]
        elif parts[0] == "super":
            module, parts = module[:-1], parts[1:]
        elif self.source(crate, (*module, parts[0])) is None:
            return Outer(("Rust", *parts))
        while len(parts) > 1 and self.source(crate, (*module, parts[0])) is not None:
            module, parts = (*module, parts[0]), parts[1:]
        return self.rust(self.source(crate, module), list(parts))


def constructors(it):
    """The constructors of a `data` declaration."""
    where = antt.index_of(it.signature, "where")
    parts = antt.blocks(it.signature[where + 1 :])
    return [token.text for part in parts for token in part[: antt.index_of(part, ":")]]


def inner(source, item):
    """The text of a type in its braces or parentheses, without attributes."""
    text = source.bare[item.start : item.end]
    opened = re.compile(r"[({]").search(text, text.index(item.name) + len(item.name + item.generics))
    if opened is None:
        return ""
    begin = item.start + opened.end()
    return code.without_attributes(source, begin, code.closing(source.bare, begin - 1) - 1)


def implementation(source, trait, name):
    """The `impl` of a trait for a type in a file, or None."""
    head = re.compile(rf"\b{trait}(<.*>)?\s+for\s+{name}\b", re.S)
    return next((it for it in source.items if it.kind == "impl" and head.search(source.bare[it.start : it.body])), None)


def members_of(text):
    """The parts of a body between commas outside brackets."""
    parts, depth = [""], 0
    for letter in re.sub(r"->|=>", "  ", text):
        depth += (letter in "([{<") - (letter in ")]}>")
        if letter == "," and depth == 0:
            parts.append("")
        else:
            parts[-1] += letter
    return [part.strip() for part in parts if part.strip()]


def variants(source, item):
    if item.kind != "enum":
        return []
    return [re.match(r"\w+", part)[0] for part in members_of(inner(source, item))]


