"""The contracts of functions, and all that a contract or a definition rests on."""

import re
from dataclasses import dataclass, field

from reviewing import code
from reviewing.antt import Unread
from reviewing.names import Reader
from reviewing.nodes import VIEW, lines_of
from reviewing.repository import Key, Module, Node, Outer, implementation, members_of
from reviewing.scopes import ClauseScope, bounds_of

# What a clause says of a reference, and the fields of the kit's types.
OF_REFERENCES = {"now", "old", "new", "entry", "exit"}
KIT_FIELDS = {
    "Book": {"log"},
    "Box": {"value"},
    "HeapCircularBuffer": {"items", "capacity"},
    "IndexMap": {"entries"},
    "IndexSet": {"keys"},
    "Named": {"tracked", "key", "book"},
    "Rc": {"value"},
    "Reader": {"place"},
    "Seen": {"log", "book"},
    "Snapshot": {"value"},
    "Vec": {"items"},
    "Writer": {"desk", "shown", "value"},
}


@dataclass
class Function:
    """A function with a contract: its file, its item, and the `impl` or trait that it is in."""

    source: object
    item: object

    @property
    def owner(self):
        """The type or the trait of a method, or nothing."""
        parent = self.item.parent
        return code.owner(self.source, parent) if parent else ""

    def names(self):
        path = [self.source.crate, *self.source.module, *filter(None, [self.owner]), self.item.name]
        return "::".join(path)

    def head(self):
        return self.source.bare[self.item.start : self.item.body]

    def bounds(self):
        parent = self.item.parent
        found = bounds_of(parent.generics, self.source.bare[parent.start : parent.body]) if parent else {}
        return found | bounds_of(self.item.generics, self.head())

    def types(self):
        """The types of the parameters and of the result, by their names. A trait's own `Self` is no type."""
        head, item = self.head(), self.item
        own = self.owner if item.parent is not None and item.parent.kind == "impl" else ""
        opened = head.index("(", head.index(item.name) + len(item.name + item.generics))
        closed = code.closing(head, opened)
        found = {"result": re.sub(r"\bwhere\b.*", "", head[closed:], flags=re.S).replace("->", "")}
        for part in members_of(head[opened + 1 : closed - 1]):
            name, _, text = part.partition(":")
            found[re.search(r"\w+\s*$", name)[0].strip()] = text or "Self"
        return {name: re.sub(r"\bSelf\b", own, text) for name, text in found.items()}


def functions(repository):
    """The functions with a contract."""
    for crate in repository.crates:
        for source in repository.sources(crate):
            for item in source.items:
                for it in [item, *item.items]:
                    if it.kind == "fn" and it.clauses:
                        yield Function(source, it)


def contract(nodes, function):
    """The node of a contract: what its clauses name, and the types of the values that they name."""
    source, item, parent = function.source, function.item, function.item.parent
    types, bounds = function.types(), function.bounds()
    own = Key(source.path, parent.name) if parent and parent.kind == "trait" else None
    uses = nodes.uses_at(source, parent) if parent else code.ghost_uses(source, source.items)
    reader = Reader(ClauseScope(nodes.repository, source, uses, bounds, own), source.path)
    known = set(types) | {name for kind, name, _ in item.clauses if kind == "ghost"}
    named = set()
    for _, _, found in item.clauses:
        reader.term(found, known)
        named |= {token.parts()[0] for token in found if token.kind == "path"} & set(types)
    lines = lines_of(source, item.start, code.clauses_at(source, item.body)[1])
    node = Node(Key(source.path, function.names()), source.line(item.start), lines, reader.found, reader.members)
    for name in sorted(named):
        of_value = [viewed(nodes, target) for target in nodes.types(source, types[name], bounds, item)]
        node.targets += of_value + implemented(nodes, of_value)
    return node


def implemented(nodes, types):
    """The members of traits that the views of these types name, as other types among them implement the traits."""
    types = [it for it in types if isinstance(it, Key)]
    named = [it for key in types if key.part == VIEW for it in nodes.node(key).targets if isinstance(it, Key)]
    found = [nodes.implementation(it, key) for it in named if it.part for key in types]
    return [it for it in found if it is not None]


def viewed(nodes, target):
    """A type of the contract itself: of a struct with a model, its view too."""
    if isinstance(target, Key) and target.part == "":
        source, item = nodes.repository.coded(target)
        if item.kind == "struct" and implementation(source, "Model", item.name) is not None:
            return Key(target.path, target.name, VIEW)
    return target


@dataclass
class Reading:
    """All that a contract rests on, lowest first, and the names of the kit's libraries at which it ends."""

    nodes: list = field(default_factory=list)
    outer: set = field(default_factory=set)


def reading(nodes, root):
    """What a node rests on, and itself last."""
    found, seen = Reading(), set()

    def visit(node):
        seen.add(node.key)
        for target in node.targets:
            if isinstance(target, Outer):
                found.outer.add(target)
            elif isinstance(target, Module):
                raise Unread(f"{node.key.path}: {'.'.join(target.parts)} is a module")
            else:
                below = nodes.node(target)
                if below.key not in seen:
                    visit(below)
        found.nodes.append(node)

    visit(root)
    viewed_keys = {node.key.whole() for node in found.nodes if node.key.part == VIEW}
    found.nodes = [node for node in found.nodes if node.key not in viewed_keys]
    check_members(found)
    return found


def check_members(found):
    """Each field that a term names must be one of a record that was reached, or of a type of the kit."""
    known = OF_REFERENCES.union(*(node.fields for node in found.nodes))
    known = known.union(*(KIT_FIELDS.get(it.name, ()) for it in found.outer))
    for node in found.nodes:
        for member, token in node.members:
            if not member.isdigit() and member not in known:
                raise Unread(f"{node.key.path}:{token.line}: no record has the field {member}")
