"""Finds what the names of a term mean: a local, or an item of the scope of its file."""

import re

from reviewing.antt import CLOSER, Unread, blocks, closing, declared, index_of, split

# Words of the language, which no `use` line brings in.
WORDS = {"→", "×", ":", "=", "|", "¬", "Type", "Unit", "tt", "⊥", "absurd", "_", "in", "λ"}
NUMERAL = re.compile(r"\d\w*")


class Reader:
    """Reads terms in a scope, and keeps what their names mean, and the fields that they name."""

    def __init__(self, scope, path):
        self.scope, self.path = scope, path
        self.found, self.members = [], []

    def fault(self, token, what):
        return Unread(f"{self.path}:{token.line}: {what}")

    def name(self, token, bound):
        """Looks a name up: locals come before the scope's items, and those before parts of operators."""
        parts = token.parts()
        if token.text in WORDS or token.text in self.scope.parameters or NUMERAL.fullmatch(parts[0]):
            return
        if parts[0] in bound:
            self.members += [(part, token) for part in parts[1:]]
            return
        target, rest = self.scope.resolve(parts)
        if target is None:
            target, rest = self.scope.operator(token.text.strip("◌")), []
        if target is None:
            raise self.fault(token, f"{token.text} isn't in scope")
        self.found.append(target)
        self.members += [(part, token) for part in rest]

    def term(self, found, bound):
        for part in split(found, ",", ";"):
            self.sequence(part, frozenset(bound))

    def sequence(self, part, bound):
        """Reads a term without commas. What a binder binds is known up to the end of the term."""
        at = 0
        while at < len(part):
            token = part[at]
            if token.text == "λ":
                at, bound = self.binders(part, at + 1, bound)
            elif token.text == "let":
                at, bound = self.let(part, at, bound)
            elif token.text == "do":
                self.do(part[at + 1 :], bound, token)
                return
            elif token.text == "record":
                at = self.record(part, at + 1, bound)
            elif token.text in CLOSER and token.kind == "mark":
                at, bound = self.group(part, at, bound)
            elif token.kind == "path":
                self.name(token, bound)
                at += 1
            elif token.kind == "member":
                self.members += [(member, token) for member in token.parts()]
                at += 1
            elif token.kind == "string":
                at += 1
            else:
                raise self.fault(token, f"{token.text} begins an unknown form")

    def group(self, part, at, bound):
        """Reads what is in brackets: a binder, an implicit argument by its name, or a term."""
        end = closing(part, at)
        inner = part[at + 1 : end]
        colon, equals = index_of(inner, ":"), index_of(inner, "=")
        if colon is not None and all(token.kind == "path" and "." not in token.text for token in inner[:colon]):
            self.term(inner[colon + 1 :], bound)
            bound = bound | {token.text for token in inner[:colon]}
        elif part[at].text == "{" and equals == 1:
            self.term(inner[2:], bound)
        else:
            self.term(inner, bound)
        return end + 1, bound

    def binders(self, part, at, bound):
        """Reads the binders of a λ up to the dot."""
        while part[at].text != ".":
            if part[at].text in CLOSER:
                end = closing(part, at)
                if index_of(part[at + 1 : end], ":") is not None:
                    at, bound = self.group(part, at, bound)
                else:
                    bound = bound | self.pattern(part[at + 1 : end], bound)
                    at = end + 1
            elif part[at].kind == "path" and "." not in part[at].text:
                bound, at = bound | {part[at].text}, at + 1
            else:
                raise self.fault(part[at], f"{part[at].text} is no binder")
        return at + 1, bound

    def let(self, part, at, bound):
        depth, end = 0, at
        while depth or end == at:
            depth += {"let": 1, "in": -1}.get(part[end].text, 0)
            end = closing(part, end) + 1 if part[end].text in CLOSER else end + 1
        inner = part[at + 1 : end - 1]
        equals = index_of(inner, "=")
        colon = index_of(inner[:equals], ":")
        if colon is not None:
            self.term(inner[colon + 1 : equals], bound)
        self.term(inner[equals + 1 :], bound)
        return end, bound | self.pattern(inner[: equals if colon is None else colon], bound)

    def do(self, found, bound, token):
        """Reads a block whose steps are joined by the operator >>= of the scope."""
        join = self.scope.operator(">>=")
        if join is None:
            raise self.fault(token, ">>= isn't in scope")
        self.found.append(join)
        for step in blocks(found):
            arrow = index_of(step, "←")
            self.term(step[0 if arrow is None else arrow + 1 :], bound)
            if arrow is not None:
                bound = bound | self.pattern(step[:arrow], bound)

    def record(self, part, at, bound):
        """Reads a record's literal, or a changed one, whose head comes before the braces."""
        opened = index_of(part, "{", start=at)
        self.sequence(part[at:opened], bound)
        end = closing(part, opened)
        for given in split(part[opened + 1 : end], ";"):
            if given:
                if given[1].text != "=":
                    raise self.fault(given[0], "a field has no value")
                self.members.append((given[0].text, given[0]))
                self.term(given[2:], bound)
        return end + 1

    def pattern(self, found, bound):
        """Reads a pattern, and returns the names that it binds."""
        names = set()
        for token in found:
            if token.kind != "path" or token.text in WORDS or NUMERAL.fullmatch(token.text):
                continue
            target, rest = self.scope.resolve(token.parts())
            target = target or self.scope.operator(token.text)
            if target is not None and self.scope.is_constructor(target, token):
                self.found.append(target)
            elif "." in token.text or rest:
                raise self.fault(token, f"{token.text} is no constructor")
            else:
                names.add(token.text)
        return names

    def telescope(self, found, bound):
        """Reads the parameters of a record or a data type."""
        at = 0
        while at < len(found):
            at, bound = self.group(found, at, bound)
        return bound

    def declaration(self, it, bound=frozenset()):
        colon = index_of(it.signature, ":")
        if it.kind == "definition":
            self.term(it.signature[colon + 1 :], bound)
            for clause in it.clauses:
                self.clause(it.name, clause, bound)
            return
        bound = self.telescope(it.signature[2:colon], bound)
        where = index_of(it.signature, "where")
        self.term(it.signature[colon + 1 : where], bound)
        for part in blocks(it.signature[where + 1 :]):
            part = part[1:] if part[0].text == "pub" else part
            colon = index_of(part, ":")
            self.term(part[colon + 1 :], bound)
            if it.kind == "record":
                bound = bound | {part[0].text}

    def clause(self, name, part, bound):
        equals, where = index_of(part, "="), index_of(part, "where")
        bound = bound | self.pattern(part[part[0].text == name : equals], bound)
        if where is not None:
            inner = declared(blocks(part[where + 1 :]), self.path)
            bound = bound | set(inner)
            for it in inner.values():
                self.declaration(it, bound)
        self.term(part[equals + 1 : where], bound)
