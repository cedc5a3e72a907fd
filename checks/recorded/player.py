"""Says what svcmgr must answer, from the answers of Android's service manager. README.md has the table and marks."""

import re
import subprocess
import tempfile
from collections import Counter
from dataclasses import dataclass, field
from pathlib import Path

from .cases import Bad, escaped, read_case, spelled, unspelled

MANAGER = "servicemanager"
APP_REFUSED = "-1 App UIDs cannot add services."

# Svcmgr's reply to each answer, by request. {type} and {uid} are the caller's, {label} is the type of the name's label.
DENIED = "exception -1 denied {type} {label} service_manager "
REPLIES = {
    "add": {
        "0": "ok",
        APP_REFUSED: "exception -1 app {uid}",
        "-1 SELinux denied.": DENIED + "add",
        "-3 Null binder.": "exception -3 null-binder",
        "-3 Invalid service name.": "exception -3 invalid-name",
        "-5 Couldn't linkToDeath.": "exception -5 dead-owner",
    },
    "watch": {"0": "ok", "-1": DENIED + "find", "-3 Invalid service name.": "exception -3 invalid-name"},
    "unwatch": {
        "0": "ok",
        "-1 SELinux denied.": DENIED + "find",
        "-5 Nothing to unregister.": "exception -5 nothing-to-unregister",
    },
    "unregister": {
        "0": "ok",
        "-4 Null service.": "exception -4 null-binder",
        "-1 SELinux denied.": DENIED + "add",
        "-5 Service not registered.": "exception -5 not-registered",
        "-5 Different service registered under this name.": "exception -5 other-object",
        "-5 Can't unregister, known client.": "exception -5 in-use",
        "-5 Can't unregister, pending client.": "exception -5 in-use",
    },
    "list": {"-1 SELinux denied.": f"exception -1 denied {{type}} {MANAGER} service_manager list"},
    "get": {"null": "null"},
}

# The answers at which a mark may be, and svcmgr's reply there.
IN_USE = r"-5 Can't unregister, (known|pending) client\."
DIFFERING = {
    ("unregister", "adder-code"): (r"-7 Service can only unregister itself\.", "exception -1 not-adder"),
    ("unregister", "adder-pid"): (
        rf"0|-5 Different service registered under this name\.|{IN_USE}",
        "exception -1 not-adder",
    ),
    ("unregister", "in-use"): (IN_USE, "ok"),
    ("watch", "isolated-watch"): (r"0|-3 .*", "exception -1 isolated {uid}"),
    ("unwatch", "isolated-watch"): ("0", "exception -5 nothing-to-unregister"),
    ("watch", "null-callback"): (r"-4 Null callback\.", "malformed"),
}

# The steps after which a name that was in use can be unregistered.
FREED = "in-use timer({0}own-handle)?({0}callback)?: 0".format(f": {IN_USE}; in-use ")

AUDIT = re.compile(
    r"avc denied \{ (add|find|list) \} for (pid=\d+ uid=\d+) name=(.*) "
    r"(scontext=\S+ tcontext=\S+ tclass=service_manager permissive=[01])"
)

# The first words of replies to changes, which take a slot of the journal.
CHANGES = {"client", "ok", "handle", "registered", "call", "bye", "reloaded"}

# Those that a unit test's assertions hold of.
FINE = {"ok", "handle", "own", "null", "names"}


@dataclass
class Client:
    """A client: its handles, each with its object and the number of its grants, and what it may take, oldest first."""

    pid: int
    uid: int
    context: str
    held: dict = field(default_factory=dict)
    inbox: list = field(default_factory=list)

    def kind(self):
        return self.context.split(":")[2]

    def is_isolated(self):
        return 90_000 <= self.uid % 100_000 <= 99_999


@dataclass
class Asked:
    """A request of a client, and svcmgr's reply to it."""

    client: Client
    kind: str
    words: list
    said: str

    def name(self):
        return unspelled(self.words[0])


class Player:
    """A case that is played. The state is what svcmgr's replies and audit lines depend on."""

    def __init__(self, policies):
        self.policies, self.version, self.length = policies, 1, 1
        self.clients, self.marked = {}, Counter()

    # ---- what is there

    def label(self, name):
        """The context of a name: that of the exact key, otherwise that of `*`."""
        lines = [line.encode().split() for line in self.policies[self.version - 1][1].splitlines()]
        keys = {words[0]: words[1].decode() for words in reversed(lines) if words and not words[0].startswith(b"#")}
        return keys.get(name, keys[b"*"])

    def head(self):
        return f"journal={self.length} version={self.version} "

    def note(self, said):
        """Follows svcmgr's reply."""
        word = said.split(" ")[0]
        self.length += word in CHANGES
        self.version += word == "reloaded"

    def kind_of(self, mark):
        """Counts a mark, and says of which kind it is."""
        self.marked[mark.partition(":")[0]] += 1
        return mark.partition(":")[0].split(" ")[0]

    # ---- audit lines

    def audit(self, line, name):
        """A recorded audit line as svcmgr has it. That of a list has no name."""
        found = AUDIT.fullmatch(line)
        if not found or found[3] != ("service_manager" if found[1] == "list" else escaped(name)):
            raise Bad(f"no audit line of this request: {line}")
        shown = "" if found[1] == "list" else " name=" + spelled(name.replace(b"\1", b"\0"))
        return f"{self.head()}avc: denied {{ {found[1]} }} for {found[2]}{shown} {found[4]}"

    def clause(self, kind, asked):
        client = asked.client
        who = f"pid={client.pid} uid={client.uid} name={spelled(asked.name())} scontext={client.context}"
        return f"{self.head()}clause: denied {kind} for {who}"

    def asked_again(self, watcher, name, permissive):
        who = f"pid={watcher.pid} uid={watcher.uid} name={spelled(name)} scontext={watcher.context}"
        what = f"tcontext={self.label(name)} tclass=service_manager permissive={permissive}"
        return f"{self.head()}avc: denied {{ find }} for {who} {what}"

    # ---- replies

    def expected(self, item, said):
        """The reply to a request, and its audit lines. Svcmgr's own reply says the number of a new handle."""
        first, *words = item.request.split(" ")
        if first.isdigit():
            kind = "get" if words[0] == "check" else words[0]
            asked = Asked(self.clients[int(first)], kind, words[1:], said)
            if kind in REPLIES:
                return self.judged(item, asked)
        is_bare = not (item.marks or item.notices or item.audit != [[]])
        if not is_bare or (item.answers != ["-"] and not (first.isdigit() and words[0] == "take")):
            raise Bad(f"more than an answer: {item.request}")
        if first == "hello":
            self.clients[len(self.clients) + 1] = Client(int(words[0]), int(words[1]), words[2])
            return f"client {len(self.clients)}", []
        if first == "reload":
            return f"reloaded {self.version + 1}", []
        return self.of_the_driver(item, asked), []

    def of_the_driver(self, item, asked):
        """The reply to a request that Android's manager isn't asked."""
        client, words = asked.client, asked.words
        if asked.kind == "take":
            return self.taken(item, asked)
        if asked.kind == "release":
            held = client.held[int(words[0])]
            held[1] -= 1
            if held[1] == 0:
                del client.held[int(words[0])]
        if asked.kind == "call":
            node = client.held[int(words[0])][0]
            self.clients[int(node.split(".")[0])].inbox.append((client, node))
        return "bye" if asked.kind == "bye" else "ok"

    def judged(self, item, asked):
        """The reply and the audit lines of a request that Android's manager has answered."""
        kinds = [self.kind_of(mark) for mark in item.marks]
        answer, audit, name = item.answers[0], item.audit[0], asked.name()
        if "nul-name" in kinds:
            if b"\0" not in name:
                raise Bad("nul-name at another name")
            kinds.remove("nul-name")
            answer, audit, name = item.answers[1], item.audit[1], name.replace(b"\0", b"\1")
        lines = [self.audit(line, name) for line in audit]
        if "clause-line" in kinds:
            kinds.remove("clause-line")
            if (asked.kind, answer) not in (("add", APP_REFUSED), ("get", "null")) or lines:
                raise Bad("clause-line at another answer")
            lines.append(self.clause("app" if asked.kind == "add" else "isolated", asked))
        elif answer == APP_REFUSED:
            raise Bad("no clause-line")
        if kinds == ["isolated-watch"] and asked.kind == "watch":
            lines.append(self.clause("isolated", asked))
        reply = self.differing(item, asked, kinds, answer) if kinds else self.alike(asked, answer)
        return reply, lines + self.notified(item, asked.name())

    def filled(self, reply, asked):
        client, label = asked.client, self.label(asked.name()).split(":")[2]
        return reply.format(type=client.kind(), uid=client.uid, label=label)

    def differing(self, item, asked, kinds, answer):
        """The reply where a mark says that svcmgr differs."""
        rule = DIFFERING.get((asked.kind, kinds[0]))
        if not rule or len(set(kinds)) > 1 or (len(kinds) > 1 and kinds[0] != "in-use"):
            raise Bad(f"marks: {kinds}")
        if not re.fullmatch(rule[0], answer):
            raise Bad(f"{kinds[0]} at the answer {answer}")
        if kinds[0] == "in-use" and not re.fullmatch(FREED, "; ".join(item.marks)):
            raise Bad("in use for ever")
        return self.filled(rule[1], asked)

    def alike(self, asked, answer):
        """The reply that corresponds to an answer."""
        word, *names = answer.split(" ")
        if asked.kind == "list" and word == "list":
            return " ".join([f"names {self.version} {self.length} {len(names)}", *names])
        if asked.kind == "get" and "." in answer:
            return self.reference(asked, answer, "own ", "handle ")
        if answer not in REPLIES[asked.kind]:
            raise Bad(f"no correspondence for {asked.kind}: {answer}")
        return self.filled(REPLIES[asked.kind][answer], asked)

    # ---- references and notices

    def reference(self, asked, node, own, handle):
        """An object as a client is given it. The handle's number is svcmgr's choice: it is no other object's, and it
        is the same whenever the client is given the object again."""
        held = asked.client.held
        owner, number = node.split(".")
        if self.clients[int(owner)] is asked.client:
            return own + number
        found = re.search(f"{handle}([1-9][0-9]*)$", asked.said)
        if not found:
            return f"{handle}(any)"
        chosen, had = int(found[1]), next((one for one, (what, _) in held.items() if what == node), None)
        if had not in (None, chosen):
            return f"{handle}{had}"
        if chosen in held and held[chosen][0] != node:
            return f"{handle}(another, since {chosen} is another object's)"
        held.setdefault(chosen, [node, 0])[1] += 1
        return f"{handle}{chosen}"

    def notified(self, item, name):
        """Puts notices into inboxes. Returns the audit lines of the checks that svcmgr makes for them."""
        lines = []
        for notice in item.notices:
            watcher = self.clients[int(notice.callback.split(".")[0])]
            kinds = [self.kind_of(mark) for mark in notice.marks]
            if kinds == ["isolated-watch"] and not watcher.is_isolated():
                raise Bad("isolated-watch at another caller")
            if kinds not in ([], ["isolated-watch"], ["told-again"], ["asked-again"]):
                raise Bad(f"marks at a notice: {kinds}")
            if kinds == ["asked-again"] or notice.marks == ["told-again"]:
                lines.append(self.asked_again(watcher, name, int(kinds == ["asked-again"])))
            if kinds in ([], ["asked-again"]):
                watcher.inbox.append(notice)
        return lines

    def taken(self, item, asked):
        """The reply to a `take`."""
        if not asked.client.inbox:
            self.must_be(item, "none")
            return "empty"
        first = asked.client.inbox.pop(0)
        if isinstance(first, tuple):
            caller, node = first
            self.must_be(item, f"call {node}")
            return f"call o{node.split('.')[1]} {caller.pid} {caller.uid} -"
        self.must_be(item, f"+ {first.callback} {first.name} {first.node}")
        shown = f"registered o{first.callback.split('.')[1]} {spelled(unspelled(first.name))} "
        return shown + self.reference(asked, first.node, "o", "h")

    @staticmethod
    def must_be(item, answer):
        if item.answers != [answer]:
            raise Bad(f"{item.request} is answered {item.answers[0]}, not {answer}")


def holds(assertion, said, item):
    """Whether svcmgr's reply is as a unit test asserts."""
    word, *words = said.split(" ")
    kind, *rest = assertion.split(" ")
    if item.marks not in ([], ["clause-line"]):
        return True
    if kind == "+":
        return [word, *words[:2]] == ["registered", f"o{rest[0].split('.')[1]}", rest[1]]
    if kind == "list":
        return word == "names" and words[3:] == rest
    if kind[0] == "-":
        return [word, *words[:1]] == ["exception", kind]
    named = {"ok": word in FINE, "not-ok": word == "exception", "none": said == "empty", "null": said == "null"}
    return named.get(kind, kind == "unasked" or word in ("handle", "own"))


def script_of(policies, items):
    lines, version = b"", 1
    for item in items:
        if item.request == "reload":
            rules, contexts = policies[version]
            lines += f"reload {version} {len(rules)} {len(contexts)}\n{rules}{contexts}".encode()
            version += 1
        else:
            lines += item.request.encode() + b"\n"
    return lines


def run(program, policies, items):
    """The status of svcmgr, its replies and its audit lines."""
    with tempfile.TemporaryDirectory(prefix="android-", dir="/tmp") as name:
        files = [Path(name, "rules"), Path(name, "contexts")]
        for file, text in zip(files, policies[0]):
            file.write_bytes(text.encode())
        script = script_of(policies, items)
        ran = subprocess.run([program, "run", *files], input=script, capture_output=True, timeout=60)
    return ran.returncode, *(stream.decode("latin-1").split("\n")[:-1] for stream in (ran.stdout, ran.stderr))


def compared(player, items, replies):
    """What differs in replies, and the audit lines that are expected."""
    differences, lines = [], []
    for item, said in zip(items, replies):
        reply, more = player.expected(item, said)
        lines += more
        at = f"`{item.request}`, where Android answers {' ~ '.join([item.answers[0], *item.marks])}"
        if reply != said:
            differences.append(f"{at}: {said}, but it should be {reply}")
        broken = [assertion for assertion in item.assertions if not holds(assertion, said, item)]
        differences += [f"{at}: {said}, but the unit test asserts {assertion}" for assertion in broken]
        player.note(said)
    return differences, lines


def first_difference(lines, logged):
    for number, (line, said) in enumerate(zip([*lines, "none"], [*logged, "none"]), 1):
        if line != said:
            return [f"audit line {number}: {said}, but it should be {line}"]
    return []


@dataclass
class Played:
    """What differs in a case, how many requests and audit lines it has, and the marks in it."""

    differences: list
    requests: int = 0
    audit: int = 0
    marked: Counter = field(default_factory=Counter)


def play(program, text):
    """Plays the text of a case on a program."""
    try:
        policies, items = read_case(text)
        player = Player(policies)
        status, replies, logged = run(program, policies, items)
        differences, lines = compared(player, items, replies)
        if status != 0 or len(replies) != len(items):
            differences.insert(0, f"status {status}, and {len(replies)} replies to {len(items)} requests")
        return Played(differences or first_difference(lines, logged), len(items), len(logged), player.marked)
    except (Bad, KeyError, IndexError, ValueError, TypeError) as fault:
        return Played([f"the case is wrong: {fault!r}"])
