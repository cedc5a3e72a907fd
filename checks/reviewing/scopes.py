"""What the names of a file of definitions mean, and those of a clause in the code."""

import re

from reviewing.antt import Unread
from reviewing.repository import STD_CONSTRUCTORS, Key, Outer, constructors, members_of

# Traits without a member that a clause names.
PLAIN = {"Clone", "Copy", "Drop", "Send", "Sync"}


class Scope:
    """The names that `use` lines bring in."""

    parameters = frozenset()

    def __init__(self, repository, path, uses):
        self.repository, self.path = repository, path
        self.items, self.modules, self.parts = {}, {}, {}
        for use in uses:
            self.bring(use)

    def bring(self, use):
        target = self.repository.find(use.path)
        if target is None:
            raise Unread(f"{self.path}:{use.line}: {'.'.join(use.path)} isn't there")
        if use.is_module:
            self.modules[use.name] = use.path
        else:
            self.add(use.name, target)

    def add(self, name, target):
        self.items[name] = target
        if "◌" in name:
            for part in filter(None, name.split("◌")):
                self.parts[part] = target

    def resolve(self, parts):
        """What a name means, and the fields behind it: an item, a constructor behind its type, or a module's item."""
        head, rest = parts[0], list(parts[1:])
        item = self.items.get(head)
        if item is not None and rest:
            part = self.constructor(item, rest[0])
            if part is not None:
                return part, rest[1:]
        if rest and head in self.modules:
            target = self.repository.find([*self.modules[head], rest[0]])
            return (target, rest[1:]) if target is not None else (None, [])
        return item, rest

    def constructor(self, item, name):
        if not isinstance(item, Key) or item.part:
            return None
        if item.path.endswith(".rt"):
            return self.repository.variant(item, name)
        it = self.repository.definitions(item.path).declarations[item.name]
        return Key(item.path, item.name, name) if it.kind == "data" and name in constructors(it) else None

    def operator(self, text):
        return self.parts.get(text)

    def is_constructor(self, target, token):
        if isinstance(target, Outer):
            if target.name not in STD_CONSTRUCTORS:
                raise Unread(f"{self.path}:{token.line}: a pattern has {token.text} of {'.'.join(target.path)}")
            return True
        return isinstance(target, Key) and target.part != ""


class DefinitionScope(Scope):
    """Also the declarations of the file itself."""

    def __init__(self, repository, path):
        read = repository.definitions(path)
        super().__init__(repository, path, read.uses)
        for it in read.declarations.values():
            for name in constructors(it) if it.kind == "data" else []:
                self.add(name, Key(path, it.name, name))
        for name in read.declarations:
            self.add(name, Key(path, name))


class ClauseScope(Scope):
    """Also what the code around a clause knows: type parameters with their traits, types and constants, and in a trait
    its own members."""

    def __init__(self, repository, source, uses, bounds, own=None):
        super().__init__(repository, source.path, uses)
        self.own = own
        self.source, self.bounds, self.parameters = source, bounds, frozenset(bounds)

    def resolve(self, parts):
        if self.own is not None and self.repository.has_member(self.own, parts[0]):
            return Key(self.own.path, self.own.name, parts[0]), list(parts[1:])
        if parts[0] in self.bounds and len(parts) > 1:
            return self.member(parts), list(parts[2:])
        target, rest = super().resolve(parts)
        if target is not None:
            return target, rest
        for count in (2, 1):
            target = self.repository.rust(self.source, list(parts[:count])) if len(parts) >= count else None
            if isinstance(target, Outer) or (target is not None and self.is_known(target)):
                return target, list(parts[count:])
        return None, []

    def is_known(self, key):
        """Whether a path's last name is that of a variant, and not of a field."""
        return key.part == "" or self.repository.variant(key.whole(), key.part) is not None

    def member(self, parts):
        """The member of a trait that a type parameter is bound by."""
        outer = []
        for bound in self.bounds[parts[0]]:
            target = self.repository.rust(self.source, bound)
            if isinstance(target, Outer) and target.name not in PLAIN:
                outer.append(target)
            elif isinstance(target, Key) and self.repository.has_member(target, parts[1]):
                return Key(target.path, target.name, parts[1])
        return Outer((*outer[0].path[:-1], f"{outer[0].name}.{parts[1]}")) if len(outer) == 1 else None


def bounds_of(generics, head=""):
    """The traits that each type parameter is bound by, at the parameters or behind `where` in a head."""
    found, where = {}, re.search(r"\bwhere\b(.*)", head, re.S)
    for part in [*members_of(generics[1:-1]), *members_of(where[1] if where else "")]:
        name, _, traits = part.partition(":")
        if re.fullmatch(r"\w+", name.strip()):
            paths = [re.match(r"\w+(::\w+)*", it.strip()) for it in traits.split("+")]
            found.setdefault(name.strip(), []).extend(it[0].split("::") for it in paths if it)
    return found
