"""Policy sources and contexts files, as docs/FORMATS.md says.

Files are strings with one character for each byte (latin-1)."""

from itertools import product

CLASSES = [
    ("service_manager", ["add", "find", "list"]),
    ("binder", ["impersonate", "call", "set_context_mgr", "transfer"]),
]

SKIPPED = [
    "auditallow",
    "type_transition",
    "expandattribute",
    "allowxperm",
    "auditallowxperm",
    "dontauditxperm",
    "neverallowxperm",
]

RULES = ["allow", "neverallow", "dontaudit"]

WHITE = " \t\r\n"
LETTERS = "abcdefghijklmnopqrstuvwxyzABCDEFGHIJKLMNOPQRSTUVWXYZ"
REST = LETTERS + "0123456789_.-"

MOST_BYTES = 4194304
MOST_TYPES = 4096
MOST_ATTRIBUTES = 1024
MOST_RULES = 65536
MOST_ENTRIES = 16384


class Refused(Exception):
    """The policy is refused. The text is that of the last table of the page; the lines are those that it names.

    `all` has the refusal itself, or if a neverallow rule is broken those for all of these."""

    def __init__(self, text, *lines):
        super().__init__(text)
        self.text, self.lines, self.said, self.all = text, lines, "", [self]


class Syntax(Exception):
    """A syntax fault in the statement that is being read."""


def is_word(text):
    return text != "" and text[0] in LETTERS and all(letter in REST for letter in text)


class Source:
    """A policy source that is read from its beginning on."""

    def __init__(self, text):
        self.text, self.at, self.line = text, 0, 1

    def now(self):
        """The next byte, or nothing at the end."""
        return self.text[self.at : self.at + 1]

    def forward(self):
        if self.now() == "\n":
            self.line += 1
        self.at += 1

    def skip_comment(self):
        while self.now() not in ("", "\n"):
            self.forward()

    def skip_white(self):
        """Skips white space and comments."""
        while self.now() != "" and self.now() in WHITE + "#":
            if self.now() == "#":
                self.skip_comment()
            else:
                self.forward()

    def word_here(self):
        """The word that begins at the next byte, or nothing."""
        end = self.at
        if self.now() == "" or self.now() not in LETTERS:
            return ""
        while end < len(self.text) and self.text[end] in REST:
            end += 1
        return self.text[self.at : end]

    def peek(self):
        """The next token: a word or one other byte, or nothing at the end."""
        self.skip_white()
        return self.word_here() or self.now()

    def next(self):
        token = self.peek()
        self.at += len(token)
        return token

    def want(self, token):
        if self.next() != token:
            raise Syntax

    def word(self):
        token = self.next()
        if not is_word(token):
            raise Syntax
        return token

    def name(self):
        """The name of a type or an attribute."""
        token = self.word()
        if token == "self":
            raise Syntax
        return token

    def names(self):
        """Names with commas between them."""
        found = [self.name()]
        while self.peek() == ",":
            self.next()
            found.append(self.name())
        return found

    def skip_statement(self):
        """Skips up to the next `;` outside comments and strings."""
        while self.now() != ";":
            if self.now() == "":
                raise Syntax
            if self.now() == "#":
                self.skip_comment()
                continue
            if self.now() == '"':
                rest_of_line = self.text[self.at + 1 :].split("\n", 1)[0]
                if '"' in rest_of_line:
                    self.at += 1 + rest_of_line.index('"')
            self.forward()


class Set:
    """What its positive items name (`plus`) less what its `-` items name (`minus`); or the complement of that."""

    def __init__(self):
        self.is_complement, self.plus, self.minus = False, [], []

    def has(self, names):
        """Whether it denotes what goes by these names: itself, and the attributes of a type."""
        plus = any(item == "*" or item in names for item in self.plus)
        minus = any(item in names for item in self.minus)
        return (plus and not minus) != self.is_complement

    def words(self):
        return [item for item in self.plus + self.minus if item not in ("*", "self")]


def read_group(source, found):
    """The items of a group, whose `{` is read."""
    if source.peek() == "}":
        raise Syntax
    depth, is_empty = 1, False
    while depth > 0:
        token = source.next()
        if token == "{":
            depth, is_empty = depth + 1, True
            continue
        if token == "}":
            if is_empty:
                raise Syntax
            depth -= 1
            continue
        is_empty = False
        if token == "-":
            found.minus.append(source.word())
        elif token == "*" or is_word(token):
            found.plus.append(token)
        else:
            raise Syntax


def read_set(source, is_target=False):
    found = Set()
    token = source.next()
    if token == "~":
        found.is_complement = True
        token = source.next()
        if token == "*":
            raise Syntax
    if token == "{":
        read_group(source, found)
    elif token == "*" or is_word(token):
        found.plus.append(token)
    else:
        raise Syntax
    if "self" in found.minus or ("self" in found.plus and (found.is_complement or not is_target)):
        raise Syntax
    return found


class Statement:
    """A statement by its first word, with the line of that; a rule has four sets, the others names."""

    def __init__(self, kind, line):
        self.kind, self.line, self.names = kind, line, []
        self.source = self.target = self.classes = self.perms = None

    def selected(self):
        """The names of the classes that a rule selects, with their permissions."""
        return [(name, perms) for name, perms in CLASSES if self.classes.has([name])]

    def is_open(self):
        others = [word for word in self.classes.words() if word not in [name for name, _ in CLASSES]]
        return "*" in self.classes.plus or self.classes.is_complement or others != []


def read_rest(source, statement):
    """What follows the first word of a statement, up to its `;`."""
    if statement.kind in SKIPPED:
        source.skip_statement()
    elif statement.kind in ("attribute", "permissive"):
        statement.names = [source.name()]
    elif statement.kind == "type":
        statement.names = source.names()
    elif statement.kind == "typeattribute":
        statement.names = [source.name()] + source.names()
    else:
        statement.source, statement.target = read_set(source), read_set(source, True)
        source.want(":")
        statement.classes, statement.perms = read_set(source), read_set(source)
    source.want(";")


def read_statements(text):
    """The statements that aren't skipped, rules only if their class selects one of the two; or the first fault."""
    source, found, rules = Source(text), [], 0
    while source.peek() != "":
        line = source.line
        try:
            if source.peek() == ";":
                source.next()
                continue
            statement = Statement(source.word(), line)
            if statement.kind not in SKIPPED + RULES + ["attribute", "type", "typeattribute", "permissive"]:
                raise Refused(f"rules: unsupported statement at line {line}", line)
            read_rest(source, statement)
        except Syntax:
            raise Refused(f"rules: syntax at line {line}", line) from None
        if statement.kind in RULES:
            if statement.selected() == []:
                continue
            rules += 1
            if rules > MOST_RULES:
                raise Refused("rules: too many")
        found.append(statement)
    return found


class Rule:
    """A rule with its types and its accesses: pairs of a class and a permission of it."""

    def __init__(self, line, words, sources, targets, has_self, accesses):
        self.line, self.words, self.sources, self.targets = line, words, sources, targets
        self.has_self, self.accesses = has_self, accesses

    def covers(self, source, target, kind, perm):
        if (kind, perm) not in self.accesses or source not in self.sources:
            return False
        return target in self.targets or (self.has_self and source == target)


class Policy:
    """An accepted policy."""

    def __init__(self, rules_text, contexts_text):
        self.types, self.attributes, self.permissive = [], [], []
        self.line_of_name = {}
        self.rules = {kind: [] for kind in RULES}
        if len(rules_text) > MOST_BYTES:
            raise Refused("rules: too large")
        statements = read_statements(rules_text)
        self.attributes_of = {}
        for statement in statements:
            self.declare(statement)
        for statement in statements:
            self.join(statement)
        for statement in statements:
            self.keep(statement)
        self.entries = read_contexts(contexts_text)
        for line, _, context in self.entries:
            if type_of(context) not in self.types:
                raise Refused(f"contexts: undeclared type at line {line}", line)
        found = [self.judge(*rules) for rules in product(self.rules["neverallow"], self.rules["allow"])]
        broken = [refused for refused in found if refused is not None]
        if broken:
            broken[0].all = broken
            raise broken[0]

    def declare(self, statement):
        if statement.kind not in ("type", "attribute"):
            return
        name, line = statement.names[0], statement.line
        if name in self.types or name in self.attributes:
            raise Refused(f"rules: declared twice at line {line}", line)
        self.line_of_name[name] = line
        if statement.kind == "type":
            self.types.append(name)
            self.attributes_of[name] = []
        else:
            self.attributes.append(name)
        if len(self.types) > MOST_TYPES or len(self.attributes) > MOST_ATTRIBUTES:
            raise Refused("rules: too many")

    def join(self, statement):
        if statement.kind not in ("type", "typeattribute"):
            return
        name, attributes = statement.names[0], statement.names[1:]
        if name not in self.types or not all(attribute in self.attributes for attribute in attributes):
            raise Refused(f"rules: unknown name at line {statement.line}", statement.line)
        self.attributes_of[name] += attributes

    def keep(self, statement):
        line = statement.line
        if statement.kind == "permissive":
            if statement.names[0] not in self.types:
                raise Refused(f"rules: unknown name at line {line}", line)
            self.permissive += statement.names
        elif statement.kind in RULES:
            for word in statement.source.words() + statement.target.words():
                if word not in self.types and word not in self.attributes:
                    raise Refused(f"rules: unknown name at line {line}", line)
            for word in statement.perms.words():
                if not statement.is_open() and not any(word in perms for _, perms in statement.selected()):
                    raise Refused(f"rules: unknown permission at line {line}", line)
            self.rules[statement.kind].append(self.rule(statement))

    def rule(self, statement):
        accesses = []
        for kind, perms in statement.selected():
            accesses += [(kind, perm) for perm in perms if statement.perms.has([perm])]
        has_self = "self" in statement.target.plus
        words = statement.source.words() + statement.target.words()
        sources, targets = self.named(statement.source), self.named(statement.target)
        return Rule(statement.line, words, sources, targets, has_self, accesses)

    def named(self, items):
        """The types that a set denotes."""
        return [name for name in self.types if items.has([name] + self.attributes_of[name])]

    def judge(self, never, allow):
        """The refusal if the allow rule breaks the neverallow rule, or nothing."""
        both = [access for access in never.accesses if access in allow.accesses]
        if both == []:
            return None
        for source in self.types:
            for target in self.types:
                for kind, perm in both:
                    if never.covers(source, target, kind, perm) and allow.covers(source, target, kind, perm):
                        words = f"neverallow at line {never.line} by allow at line {allow.line}"
                        access = f"{source} {target} {kind} {perm}"
                        return Refused(f"{words}: {access}", never.line, allow.line)
        return None

    def line_of(self, source, target, kind, perm):
        """The line of the first allow rule that grants an access, or nothing."""
        for rule in self.rules["allow"]:
            if rule.covers(source, target, kind, perm):
                return rule.line
        return None

    def is_silent(self, source, target, kind, perm):
        return any(rule.covers(source, target, kind, perm) for rule in self.rules["dontaudit"])

    def passes_as_permissive(self, source, target):
        return source in self.permissive and target in self.types

    def is_allowed(self, source, target, kind, perm):
        return self.line_of(source, target, kind, perm) is not None or self.passes_as_permissive(source, target)

    def keys(self):
        found = []
        for _, key, _ in self.entries:
            if key not in found:
                found.append(key)
        return found

    def entry(self, name):
        """The line and the context that label a name."""
        for wanted in (name, "*"):
            for line, key, context in self.entries:
                if key == wanted:
                    return line, context
        raise AssertionError("a policy has a default label")

    def label(self, name):
        return self.entry(name)[1]

    def counts(self):
        kept = len(self.rules["allow"]) + len(self.rules["neverallow"])
        return len(self.types), len(self.attributes), kept, len(self.keys())


def type_of(context):
    return context.split(":")[2]


def is_printable(text):
    return text != "" and all("\x21" <= byte <= "\x7e" for byte in text)


def is_context(text):
    parts = text.split(":", 3)
    return len(parts) >= 3 and all(is_printable(part) for part in parts)


def words_of(line):
    return [word for word in line.replace("\t", " ").replace("\r", " ").split(" ") if word != ""]


def read_contexts(text):
    """The entries of a contexts file, each with its line, key and context; or the first refusal."""
    lines = [(number, words_of(line)) for number, line in enumerate(text.split("\n"), 1)]
    lines = [(number, words) for number, words in lines if words != [] and not words[0].startswith("#")]
    if len(text) > MOST_BYTES or len(lines) > MOST_ENTRIES:
        raise Refused("contexts: too large")
    found = []
    for number, words in lines:
        if len(words) == 1 or not is_context(words[1]):
            raise Refused(f"contexts: bad line {number}", number)
        earlier = [entry for entry in found if entry[1] == words[0]]
        if earlier != [] and words[0] == "*":
            raise Refused(f"contexts: second default at line {number}", number)
        if earlier != [] and earlier[0][2] != words[1]:
            text = f"contexts: line {number} gives another context than line {earlier[0][0]}"
            raise Refused(text, number, earlier[0][0])
        found.append((number, words[0], words[1]))
    if not any(key == "*" for _, key, _ in found):
        raise Refused("contexts: no default")
    return found
