"""Draws scripts and questions from a seed.

Names, types and clients are few, so that requests meet. A script has reloads, deaths, watches and small journals, and
some parts of it are the stories below, in which one rule of the page decides the answer. A line is drawn with an eye to
what the model answered to those before it, so that clients are live and journals are sealed when they are full."""

from dataclasses import dataclass, field

from model import Model, Script, answer_next
from modelling.lines import Input

from .policies import CLASS_WORDS, CLIENT_TYPES, NAMES, PERM_WORDS, PERMS_OF, TYPES, PolicyDrawing

UIDS = {"server": [1000, 1000, 100001000], "app": [10007, 1000, 10000, 9999], "iso": [99001, 90000, 1000, 99999]}
ODD_NAMES = ["%61", "%6120", "%", "*", "a:b", "a" * 127, "a" * 128, "%00ff", "%ZZ", "%6", "a%"]

LOG_FRONTS = [[], ["journal=7", "version=1"], ["Dec", "01", "host", "svcmgr[9]:"], ["SELinux", ":"], ["\xff\x00"]]
ODD_LOG_WORDS = ["{", "}", "avc:", "denied", "granted", "name=a", "tclass=binder", "scontext=u:r:app:s0", "\x80=", "="]
FEW, LITTLE = [1, 1, 1, 2, 3, 0], [0, 0, 0, 1, 2]

RULE_KINDS = [None, None, None, "allow", "allow", "neverallow", "dontaudit", "dontaudit", "auditallow"]

ODD_LINES = ["", " ", "1", "1 ", "1 take ", "1  take", "01 take", "1 frob", "hello 1 1", "4294967296 take", "seal now"]
ODD_LINES += ["denials ", "reload 1 2", "reload 1 4294967296 0", "explain 1 2 3 4", "1 add a o1 2 8", "\xff\x00", "#"]
ODD_LINES += [f"1 call 1 -{' o1' * 17}", f"1 call 1 {'00' * 1025}", "1 list 4294967296", "1 take\r"]
ODD_LINES += ["reload 18446744073709551615 0 0", "reload 18446744073709551616 0 0", "reload 1 4194305 0"]


@dataclass
class Case:
    """Two policies, a script by its lines (a `reload` with its files is one), the journal's slots and questions."""

    rules: str
    contexts: str
    script: list
    slots: int
    new_rules: str = ""
    new_contexts: str = ""
    questions: list = field(default_factory=list)


class Drawing(PolicyDrawing):
    """A script that is drawn line by line, and the manager of the model that answers it."""

    def __init__(self, chance):
        super().__init__(chance)
        self.model, self.manager, self.script = Model(), None, []

    def say(self, line):
        """Adds a line. If it finds the journal full, mostly a seal is added, and the line once more."""
        reply = self.answer(line)
        if reply == "failed journal-full" and self.is_so(0.6):
            self.answer("seal")
            reply = self.answer(line)
        return reply

    def answer(self, line):
        self.script.append(line + ("" if line.startswith("reload ") and "\n" in line else "\n"))
        if self.manager is None:
            return ""
        return answer_next(self.manager, Script(), Input(self.script[-1]))[0]

    def say_all(self, *lines):
        for line in lines:
            self.say(line)

    # Fields.

    def name(self):
        if self.is_so(0.6):
            return self.one(NAMES[:2])
        return self.one(NAMES if self.is_so(0.9) else ODD_NAMES)

    def client(self):
        live = [client.number for client in self.manager.live()] if self.manager else []
        if live and self.is_so(0.95):
            return self.one(live)
        return self.one([0, 1, 2, 3, 70])

    def reference(self):
        kind = self.chance.random()
        if kind < 0.5:
            return f"o{self.chance.randint(0, 2)}"
        return f"h{self.chance.randint(1, 3)}" if kind < 0.92 else self.one(["null", "h0", "h99", "x1", "o01", ""])

    def payload(self):
        return self.one(["-", "-", "00", "C0ffee", "0", "", "ab" * 20])

    # Lines.

    def connect(self, kind=None, uid=None):
        """A client says hello. Its number, or that of the one before it if it is refused."""
        kind = kind or self.one(CLIENT_TYPES)
        kind = kind if self.is_so(0.97) else self.one(["rest", "domain", "unknown", "servicemanager"])
        uid = uid or self.one(UIDS.get(kind, [1000]))
        self.say(f"hello {self.chance.randint(100, 300)} {uid} u:r:{kind}:s0{self.one(['', '', ':c1'])}")
        return max(1, len(self.manager.clients)) if self.manager else 1

    def reload(self, rules=None):
        rules = self.rules() if rules is None else rules
        contexts = self.contexts()
        now = self.manager.version if self.manager else 1
        expected = now if self.is_so(0.8) else self.one([0, 1, 2])
        return f"reload {expected} {len(rules)} {len(contexts)}\n{rules}{contexts}"

    def explain(self):
        kind = self.one(CLASS_WORDS[:2])
        source, target = self.one(TYPES[:4]), self.one(TYPES)
        return f"explain {source} {target} {kind} {self.one(PERMS_OF[kind] if self.is_so(0.9) else PERM_WORDS)}"

    def request(self):
        """A line of a client."""
        kind = self.chance.random()
        flags = self.one([1, 2, 4, 8, 15, 0])
        if kind < 0.17:
            return f"add {self.name()} {self.reference()} {self.chance.randint(0, 1)} {flags}"
        if kind < 0.36:
            return f"{self.one(['get', 'check'])} {self.name()}"
        if kind < 0.45:
            return f"watch {self.name()} o{self.chance.randint(0, 1)}"
        if kind < 0.49:
            return f"unwatch {self.name()} o{self.chance.randint(0, 1)}"
        if kind < 0.58:
            return f"unregister {self.name()} {self.reference()}"
        if kind < 0.7:
            passed = [self.reference() for _ in range(self.one([0, 0, 1, 2, 3]))]
            return " ".join([f"call {self.chance.randint(1, 3)} {self.payload()}", *passed])
        if kind < 0.78:
            return f"release {self.chance.randint(1, 3)}"
        if kind < 0.88:
            return "take"
        if kind < 0.91:
            return "bye"
        return f"list {flags}" if kind < 0.97 else "version"

    def say_any(self):
        kind = self.chance.random()
        if kind < 0.84:
            self.say(f"{self.client()} {self.request()}")
        elif kind < 0.88:
            self.connect()
        else:
            lines = [self.explain, lambda: "denials", lambda: "seal", self.reload, lambda: self.one(ODD_LINES)]
            self.say(self.one(lines)())

    # Stories.

    def full_inbox(self):
        """A client with two watches of a name, whose inbox has room for some of two notices, or for none."""
        one, two = self.connect("server"), self.connect("app")
        self.say_all(f"{one} add a o1 1 8", f"{two} get a", f"{one} watch b o2", f"{one} watch b o3")
        if self.manager and self.manager.slots > 600 and self.manager.clients[two - 1].handles:
            self.say_all(*[f"{two} call 1 -"] * self.one([254, 255, 255, 256]))
        self.say_all(f"{one} add b o4 1 8", f"{one} take", f"{two} call 1 - o5", f"{two} call 1 -", f"{one} take")

    def passed_on(self):
        """A client adds an object of another one under a second name; then one of them dies or unregisters."""
        one, two = self.connect("server"), self.connect(self.one(["server", None]), 1000)
        self.say_all(f"{one} add a o1 1 8", f"{two} get a", f"{two} add b h1 1 8")
        for _ in range(self.one([1, 2, 3])):
            what = ["bye", "bye", "unregister b h1", "unregister b h1", "unregister a o1", "release 1", "list 15"]
            what.append("call 1 - o1")
            self.say(f"{self.one([one, two, two, two])} {self.one(what)}")
        self.say_all(f"{self.connect('app')} get b", f"{two} unregister b h1", f"{two} call 1 00 h1")

    def death(self):
        """The owner of an object dies that another client holds."""
        one, two = self.connect(None, 1000), self.connect()
        self.say_all(f"{one} add a o1 1 8", f"{two} get a", f"{one} call 1 -", f"{one} bye", f"{two} call 1 - h1")
        self.say_all(f"{two} add b h1 1 8", f"{two} get a", f"{two} release 1", f"{two} call 1 -")

    def numbers(self):
        """A client takes handles, releases one, and takes another."""
        one, two = self.connect("server"), self.connect(self.one(["server", "app"]))
        self.say_all(*[f"{one} add {name} o{number} 1 8" for number, name in enumerate(NAMES)])
        for _ in range(12):
            what = [f"get {self.one(NAMES)}", f"get {self.one(NAMES)}", f"release {self.chance.randint(1, 3)}"]
            self.say(f"{two} {self.one(what)}")

    def explained(self):
        """The same question before and after a reload that moves the lines."""
        question = self.explain()
        self.say(question)
        self.say(self.reload("\n" * self.chance.randint(0, 3) + self.rules()))
        self.say_all(question, self.explain(), self.explain())

    def isolated(self):
        """A client that is isolated or allowed little."""
        client = self.connect("iso")
        for _ in range(4):
            what = ["watch {} o1", "watch {} o2", "add {} o1 0 8", "get {}"]
            self.say(f"{client} {self.one(what).format(self.one(NAMES[:2]))}")

    def many_denials(self):
        """More denials than are kept."""
        client = self.connect("app")
        self.say_all(*[f"{client} list 15", f"{client} add a o1 0 8"] * 515, "denials")

    def many_clients(self):
        for _ in range(66):
            self.connect()
        self.say_all(f"{self.client()} bye")
        self.say_all(f"{self.connect()} version")

    def say_story(self):
        stories = [self.full_inbox, self.passed_on, self.passed_on, self.death, self.numbers, self.explained]
        stories.append(self.isolated)
        if self.is_so(0.02):
            stories = [self.many_denials, self.many_clients]
        self.one(stories)()

    def say_script(self):
        for _ in range(self.chance.randint(1, 3)):
            self.connect()
        for _ in range(self.one([1, 3, 5])):
            if self.is_so(0.4):
                self.say_story()
            else:
                for _ in range(self.chance.randint(1, 12)):
                    self.say_any()
        if self.is_so(0.5):
            self.say("denials")

    # Questions.

    def question(self):
        kind = 1 if self.forbidden() and self.is_so(0.4) else self.chance.random()
        if kind < 0.2:
            return ("label", self.one([*NAMES, "*", "none", "%61", "a b"]))
        words = [self.one(TYPES), self.one(TYPES), self.one(CLASS_WORDS[:2]), self.one(PERM_WORDS)]
        words[3] = self.one(PERMS_OF[words[2]]) if self.is_so(0.8) else words[3]
        if self.is_so(0.1):
            words[self.chance.randint(0, 3)] = self.one(["unknown", "domain", "file", "self", ""])
        if kind < 0.45:
            is_name = self.is_so(0.3)
            return ("explain", is_name, words[0], self.one(NAMES) if is_name else words[1], words[2], words[3])
        if kind < 0.75:
            given = [word if self.is_so(0.3) else None for word in words]
            name = self.one([*NAMES, "*"]) if given[1] is None and self.is_so(0.3) else None
            left = given[0], given[1], name, given[2], given[3]
            return ("access", *left) if kind < 0.6 else ("rules", self.one(RULE_KINDS), *left)
        if kind < 0.8:
            return ("unused",)
        if kind < 0.83:
            return ("types", self.one([*TYPES, "domain", "unknown", ""]) if self.is_so(0.4) else None)
        if kind < 0.86:
            words = self.one([*TYPES, "domain", "unknown"]), self.one([*PERMS_OF["service_manager"], "call", "unknown"])
            return ("names", words[0], words[1] if self.is_so(0.7) else None)
        return ("diff", self.is_so(0.5)) if kind < 0.92 else ("suggest", self.log())

    # Logs.

    def forbidden(self):
        """The neverallow rules that have a source, each with every access that it covers."""
        nevers = self.manager.policy.rules["neverallow"] if self.manager else []
        return [(rule, access) for rule in nevers if rule.sources for access in rule.accesses]

    def denial(self):
        """A line of a log, mostly one that has a record."""
        kind = self.one(CLASS_WORDS)
        words_of_kind = PERMS_OF.get(kind, PERM_WORDS) if self.is_so(0.9) else PERM_WORDS
        perms = [self.one(words_of_kind) for _ in range(self.one(FEW))]
        types = [self.one(TYPES if self.is_so(0.9) else ["unknown", "domain"]) for _ in range(2)]
        forbidden = self.forbidden()
        if forbidden and self.is_so(0.6):
            rule, (kind, perm) = self.one(forbidden)
            types[0] = self.one(rule.sources)
            types[1], perms = self.one(rule.targets or [types[0]]), [perm, *perms]
        contexts = [f"u:r:{name}:s0" if self.is_so(0.97) else self.one(["u:r", "u:r:", "", "a:b:c"]) for name in types]
        words = [*self.one(LOG_FRONTS), "avc:", "denied", "{", *perms, "}", "for", "pid=7"]
        if self.is_so(0.5):
            words.append(f"name={self.one([*NAMES, *ODD_NAMES])}")
        words += [f"scontext={contexts[0]}", f"tcontext={contexts[1]}", f"tclass={kind}", "permissive=0"]
        for _ in range(self.one(LITTLE)):
            at = self.chance.randint(0, len(words) - 1)
            odd = [words[at], self.one(ODD_LOG_WORDS)]
            words[at : at + 1] = self.one([[], [words[at]] * 2, [self.one(words)], odd])
        return self.one([" ", " ", " ", "  ", "\t"]).join(words) + self.one(["", "", " ", "\r"])

    def log(self):
        """A log of denials, whose lines come again."""
        kept = [self.denial() for _ in range(self.chance.randint(1, 12))]
        log = [self.one(kept) if self.is_so(0.4) else line for line in kept]
        if self.is_so(0.1):
            log.append(self.one(kept).ljust(self.one([65536, 65537])))
        text = "\n".join(log) + self.one(["\n", ""])
        return self.changed(text) if self.is_so(0.2) else text

    # Cases.

    def policy(self):
        """A policy, mostly one that is accepted, and its manager if it is."""
        slots = self.one([2, 3, 4, 5, 6, 8, 11, 20]) if self.is_so(0.25) else self.one([1048576, 1000])
        while True:
            rules, contexts = self.rules(), self.contexts()
            self.manager, _ = self.model.opened(rules, contexts, slots)
            if self.manager or self.is_so(0.3):
                return Case(rules, contexts, self.script, slots)

    def case(self):
        case = self.policy()
        self.say_script()
        case.new_rules, case.new_contexts = self.changed_policy(case.rules), self.contexts()
        case.questions = [self.question() for _ in range(2)]
        return case

    def changed_case(self):
        """A case with bytes changed at random."""
        case = self.case()
        if self.is_so(0.6):
            case.script = self.changed("".join(case.script)).splitlines(keepends=True)
        else:
            case.rules, case.contexts = self.changed(case.rules), self.one([case.contexts, self.changed(case.contexts)])
        if self.is_so(0.05):
            case.script.append("1" * self.one([4095, 4096, 4097, 4098]) + self.one(["\n", ""]))
        return case
