"""Draws policies: a usual one of six types, some of whose rules are left out and some put in."""

TYPES = ["servicemanager", "server", "app", "iso", "thing", "rest"]
ATTRIBUTES = ["domain", "caller"]
CLIENT_TYPES = ["server", "app", "iso"]
NAMES = ["a", "b", "thing.x", "Z/9"]
CLASS_WORDS = ["service_manager", "binder", "file"]
PERM_WORDS = ["add", "find", "list", "impersonate", "call", "set_context_mgr", "transfer"]
PERMS_OF = {"service_manager": PERM_WORDS[:3], "binder": PERM_WORDS[3:]}

# The rules that let clients do most things. Each is left out now and then.
USUAL_RULES = [
    "allow servicemanager self:binder set_context_mgr;",
    "allow caller servicemanager:binder call;",
    "allow { caller } servicemanager : binder { transfer };",
    "allow servicemanager caller:binder { call transfer };",
    "allow caller server:binder call;",
    "allow server ~{ server app }:binder call;",
    "allow { domain -servicemanager } { caller } :binder transfer;",
    "allow caller thing:service_manager { add find };",
    "allow { server app } rest:{ service_manager file } ~list;",
    "allow server servicemanager:service_manager list;",
]

# Rules that silence or let pass what clients often meet, and those whose `self` has `-` items beside it.
OTHER_RULES = [
    "allow caller { self thing -server -app }:{ binder service_manager } ~list;",
    "allow domain { -caller self }:binder impersonate;",
    "dontaudit domain { thing rest }:service_manager { add find };",
    "dontaudit ~server *:service_manager *;",
    "dontaudit caller ~{ thing }:{ binder service_manager } { call list find };",
    "permissive app;",
    "permissive servicemanager;",
    "permissive iso;",
]

ODD_STATEMENTS = [
    ";",
    "auditallow a b:c { d; };",
    'type_transition a b:c "x;y" d;',
    'expandattribute domain "true;\n;',
    "allow unknown other:file read;",
    "allow server unknown:binder call;",
    "allow server app:binder find;",
    "allow server app:{ binder file } { find call };",
    "allow server app:~service_manager { find -call };",
    "allow server app:{ binder -file } find;",
    "type server;",
    "attribute domain;",
    "typeattribute thing caller;",
    "typeattribute domain caller;",
    "typeattribute iso unknown;",
    "type more, domain, caller, domain;",
    "permissive domain;",
    "permissive app",
    "role r;",
    "self;",
    "type self;",
    "allow ~self app:binder call;",
    "allow app ~{ self }:binder call;",
    "allow app { -self }:binder call;",
    "allow app { { self } -app }:binder call;",
    "allow app { }:binder call;",
    "allow app a -b:binder call;",
    "allow app * : * *;",
    "allow * { * -thing } : binder { * -call };",
    "allow{app}{ { server } { - app } }:binder~call;",
    "allow app server:binder call",
    "neverallow * self:binder impersonate;",
    "neverallow ~{ server } thing:service_manager add;",
    "dontaudit * *:* *;",
    "# a comment; allow",
    "dontaudit caller rest:service_manager\n find # x\n;",
    "allow 1a b:binder call;",
    "allow a- b:binder call;",
]

CONTEXTS = ["u:object_r:thing:s0", "u:object_r:rest:s0", "u:object_r:rest:s0:c1,c2", "u:r:thing"]

ODD_ENTRIES = [
    "# thing.x u:r:thing:s0",
    "a",
    "a u:r",
    "a u:r:unknown:s0",
    "* u:object_r:rest:s0",
    "b\tu:object_r:thing:s0\rmore words",
    "  b  u:object_r:thing:s0 # more",
    "a u:r::s0",
    "a u:r:thing:",
    "thing.x #u:r:thing:s0",
    "",
]


class PolicyDrawing:
    """What is drawn from a generator of random numbers."""

    def __init__(self, chance):
        self.chance = chance

    def is_so(self, share):
        return self.chance.random() < share

    def one(self, items):
        return self.chance.choice(items)

    def items(self, words, has_self=False):
        """The items of a group."""
        found = []
        for _ in range(self.chance.randint(1, 3)):
            sign = self.one(["", "", "- ", "-"])
            found.append(sign + self.one(words))
        if has_self:
            found.insert(0, "self")
        if self.is_so(0.1):
            found.append("{ " + self.one(words) + " }")
        if self.is_so(0.1):
            found.append("*")
        return "{ " + " ".join(found) + " }"

    def set(self, words, is_target=False):
        kind = self.chance.random()
        if kind < 0.5:
            return self.one(words)
        if kind < 0.55:
            return "*"
        if kind < 0.62:
            return "~ " + self.one(words)
        if kind < 0.7:
            return "~" + self.items(words)
        if is_target and kind < 0.8:
            return "self" if self.is_so(0.3) else self.items(words, True)
        return self.items(words)

    def rule(self, kind):
        names = TYPES + ATTRIBUTES
        classes = self.set(CLASS_WORDS) if self.is_so(0.3) else self.one(CLASS_WORDS[:2])
        perms = self.set(PERMS_OF[classes]) if classes in PERMS_OF else self.one(["*", "~call", "{ * -find }", "call"])
        return f"{kind} {self.set(names)} {self.set(names, True)}:{classes} {perms};"

    def statement(self):
        kind = self.chance.random()
        if kind < 0.45:
            return self.rule("allow")
        if kind < 0.6:
            return self.rule("dontaudit")
        if kind < 0.85:
            return self.one(OTHER_RULES)
        if kind < 0.9:
            return self.rule("neverallow")
        if kind < 0.97:
            return self.one(["auditallow a b;", "allow x y:file read;", "# no rule", "typeattribute thing caller;", ""])
        return self.one(ODD_STATEMENTS)

    def rules(self):
        lines = ["attribute domain;", "attribute caller;", "type servicemanager, domain;"]
        lines += [f"type {name}, domain, caller;" for name in CLIENT_TYPES]
        lines += ["type thing;", "type rest;"]
        missing = self.one([0, 0.05, 0.2])
        lines += [line for line in USUAL_RULES if not self.is_so(missing)]
        for _ in range(self.one([0, 1, 2, 5])):
            lines.insert(self.chance.randint(8, len(lines)), self.statement())
        if self.is_so(0.1):
            lines.insert(self.chance.randint(8, len(lines)), self.rule("neverallow"))
        if self.is_so(0.1):
            self.chance.shuffle(lines)
        if self.is_so(0.08):
            lines.insert(self.chance.randint(0, len(lines)), self.one(ODD_STATEMENTS))
        return "\n".join(lines) + self.one(["\n", "\n", "", " # end"])

    def contexts(self):
        lines = [f"* {self.one(CONTEXTS)}"]
        for name in NAMES:
            if self.is_so(0.6):
                lines.append(f"{name} {self.one(CONTEXTS)}")
        if self.is_so(0.08):
            lines.append(self.one(ODD_ENTRIES))
        if self.is_so(0.1):
            lines.append(self.one(lines))
        self.chance.shuffle(lines)
        return "\n".join(lines) + self.one(["\n", "\n", ""])

    def changed_policy(self, rules):
        """A policy near another one."""
        lines = rules.split("\n")
        at = self.chance.randrange(len(lines))
        if self.is_so(0.5) and len(lines) > 1:
            del lines[at]
        else:
            lines.insert(at, self.statement())
        return "\n".join(lines)

    def changed(self, text):
        """A text with some of its bytes changed, taken out, put in or repeated."""
        for _ in range(self.one([1, 1, 2, 5])):
            at = self.chance.randint(0, len(text))
            byte = self.one([*'\n #"{};~-*:,\r\t\0\xffa0'])
            end = at + self.one([0, 1, 1, 2, 9])
            middle = self.one([byte, "", byte * 3, text[at:end] * 2])
            text = text[:at] + middle + text[end:]
        return text
