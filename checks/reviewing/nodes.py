"""What each item of the repository rests on: the closure of a contract or a definition."""

import re
from pathlib import Path

from reviewing import antt, code
from reviewing.antt import Unread, tokens, within
from reviewing.names import Reader
from reviewing.repository import RUST_WORDS, Key, Node, implementation, inner, members_of
from reviewing.scopes import ClauseScope, DefinitionScope, bounds_of

TYPE = re.compile(r"(?<!')\b[A-Za-z_]\w*(?:::[A-Za-z_]\w*)*")

# The part of a key that stands for a struct with what its model's `view` makes of it.
VIEW = "view of"
VISIBLE = re.compile(r"^pub(?:\([^)]*\))?\s+")


class Nodes:
    def __init__(self, repository):
        self.repository = repository
        self.known, self.scopes = {}, {}

    def node(self, key):
        key = key if key.path.endswith(".rt") and (key.part == VIEW or self.is_member(key)) else key.whole()
        if key not in self.known:
            with within(key.path):
                self.known[key] = self.definition(key) if key.path.endswith(".antt") else self.coded(key)
        return self.known[key]

    def below(self, node):
        """The keys of what a node rests on."""
        return {self.node(it).key for it in node.targets if isinstance(it, Key)}

    def is_member(self, key):
        return key.part != "" and self.repository.coded(key.whole())[1].kind in ("trait", "impl")

    # ---- definitions

    def definition(self, key):
        read = self.repository.definitions(key.path)
        it = read.declarations[key.name]
        if key.path not in self.scopes:
            self.scopes[key.path] = DefinitionScope(self.repository, key.path)
        reader = Reader(self.scopes[key.path], key.path)
        reader.declaration(it)
        fields = fields_of(it) if it.kind == "record" else set()
        return Node(key, it.first, read.lines[it.first - 1 : it.last], reader.found, reader.members, fields)

    # ---- code

    def coded(self, key):
        source, item = self.repository.coded(key.whole())
        if key.part == VIEW:
            return self.value(key, source, item, implementation(source, "Model", item.name), ("Value", "view"))
        read = {"struct": self.struct, "enum": self.enum, "type": self.alias}
        read |= {"trait": self.trait, "impl": self.implemented}
        return read.get(item.kind, self.constant)(key, source, item)

    def plain(self, key, source, item):
        return Node(key, source.line(item.start), lines_of(source, item.start, item.end))

    def empty(self, key, source, item):
        return Node(key, source.line(item.start), [])

    def constant(self, key, source, item):
        return self.behind(":", key, source, item)

    def alias(self, key, source, item):
        return self.behind("=", key, source, item)

    def behind(self, mark, key, source, item):
        node = self.plain(key, source, item)
        text = source.bare[item.start : item.end].partition(mark)[2]
        node.targets = self.types(source, text, bounds_of(item.generics), item)
        return node

    def enum(self, key, source, item):
        node = self.plain(key, source, item)
        generics = bounds_of(item.generics)
        for part in members_of(inner(source, item)):
            name = re.match(r"\w+", part)[0]
            body = part[len(name) :].strip()
            if body[:1] == "{":
                for named in members_of(body[1:-1]):
                    node.fields.add(named.partition(":")[0].strip())
                    node.targets += self.types(source, named.partition(":")[2], generics, item)
            else:
                node.targets += self.types(source, body.partition("=")[0], generics, item)
        return node

    def struct(self, key, source, item, plainly=False):
        model = implementation(source, "Model", item.name)
        if model is not None and not plainly:
            return self.value(key, source, item, model)
        node = self.plain(key, source, item)
        for part in members_of(inner(source, item)):
            self.field(node, source, item, VISIBLE.sub("", part))
        return node

    def field(self, node, source, item, part):
        name, _, text = part.partition(":") if re.match(r"(ghost )?\w+\s*:(?!:)", part) else ("", "", part)
        generics = bounds_of(item.generics)
        node.fields.add(name.strip().removeprefix("ghost "))
        if name.startswith("ghost "):
            names = {named.partition(":")[0].split()[-1] for named in members_of(inner(source, item))}
            uses = code.ghost_uses(source, source.items)
            self.term(node, source, text.strip()[1:-1], item, uses, generics, names)
        else:
            node.targets += self.types(source, text, generics, item)

    def implementation(self, member, key):
        """The member of a trait as a type implements it, or None."""
        for crate in (Path(member.path).parts[1], Path(key.path).parts[1]):
            for source in self.repository.sources(crate):
                item = implementation(source, member.name, key.name)
                if item is not None and any(it.kind == "ghost" and it.name == member.part for it in item.items):
                    return Key(source.path, f"{member.name} for {key.name}", member.part)
        return None

    def value(self, key, source, item, model, words=("Value",)):
        """What contracts see of a struct with a model, and with the word `view` also how."""
        node = self.struct(key, source, item, plainly=True) if "view" in words else self.empty(key, source, item)
        self.block(node, source, model, words)
        return node

    def implemented(self, key, source, item):
        node = self.empty(key, source, item)
        self.block(node, source, item, (key.part,))
        return node

    def block(self, node, source, block, names, bounds=None, own=None):
        """Adds these ghost members of an `impl` or a trait."""
        bounds = bounds_of(block.generics) if bounds is None else bounds
        node.lines.append(" ".join(source.code[block.start : block.body].split()) + " {")
        for it in block.items:
            if it.kind == "ghost" and it.name in names:
                node.lines += lines_of(source, source.code.rindex("\n", 0, it.start), it.end)
                text = source.code[it.start : it.end]
                for term in re.split(r"\}\s*=\s*\{", text[text.index("{") + 1 : text.rindex("}")]):
                    self.term(node, source, term, it, self.uses_at(source, block), bounds, own=own)
        node.lines.append("}")

    def trait(self, key, source, item):
        if not self.repository.has_member(key, key.part):
            raise Unread(f"{source.path}: {item.name} has no member {key.part}")
        node = self.empty(key, source, item)
        self.block(node, source, item, (key.part,), bounds_of(item.generics) | {"Self": []}, key.whole())
        return node

    def uses_at(self, source, block):
        own = code.ghost_uses(source, block.items)
        names = {use.name for use in own}
        return [use for use in code.ghost_uses(source, source.items) if use.name not in names] + own

    def term(self, node, source, text, item, uses, bounds, bound=frozenset(), own=None):
        """Adds what a term of the code rests on."""
        reader = Reader(ClauseScope(self.repository, source, uses, bounds, own), source.path)
        reader.term(tokens(text, source.path, source.line(item.start)), frozenset(bound))
        node.targets += reader.found
        node.members += reader.members

    def types(self, source, text, generics, item):
        """The types and constants that a type names."""
        found = []
        for match in TYPE.finditer(re.sub(r"'\w+", " ", text)):
            parts = match[0].split("::")
            if parts[0] in RUST_WORDS or parts[0] in generics or parts[0] == item.name:
                continue
            target = self.repository.rust(source, parts)
            if target is None:
                raise Unread(f"{source.path}:{source.line(item.start)}: {match[0]} isn't in scope")
            found.append(target)
        return found


def lines_of(source, start, end):
    """The lines of a part of the code, without attributes, comments and blank lines."""
    return [line.rstrip() for line in code.without_attributes(source, start, end).splitlines() if line.strip()]


def fields_of(it):
    where = antt.index_of(it.signature, "where")
    return {part[part[0].text == "pub"].text for part in antt.blocks(it.signature[where + 1 :])}
