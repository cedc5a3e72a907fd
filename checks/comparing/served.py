"""Runs a drawn script over the sockets of a server, and says how its answers differ from the model's.

A conversation is a list of pairs of a peer and what it sends: `admin` or the number of a client's connection, and a
line with its newline. After a line that is cut, or nothing at all, the connection ends."""

import contextlib
import copy
import subprocess
import time
from itertools import groupby, zip_longest

from model import Administrator, Client, Script, answer_next
from modelling.lines import Input
from talking import PATIENCE, Connection, Lines, Wrong, listening

from .programs import FILES

ADMIN = "admin"

# Audit lines that are compared: with more of them some may be lost.
MOST_LINES = 400

# Clients' connections: one that finds no worker would wait.
MOST_CONNECTIONS = 60

# Seconds after which a connection without a client is made anew.
AGE = 4

# Steps of a search for an order.
MOST_STEPS = 20000
GIVEN_UP = "the search for an order was given up"


class Speaker(Connection):
    def __init__(self, path):
        super().__init__(path)
        self.since = time.monotonic()

    def line(self):
        """The next line without its newline, as the model has it."""
        return self.lines.line().rstrip("\n")

    def reply(self):
        """A reply, with the audit lines that follow a `denials`."""
        first = self.line()
        number = int(first.split(" ")[1]) if first.startswith("denials ") else 0
        return "\n".join([first, *[self.line() for _ in range(number)]])

    def end(self):
        with contextlib.suppress(OSError):
            self.stream.shutdown(1)


class Server:
    """A server with the policy of a case, and the connections to it."""

    def __init__(self, program, case, connections):
        self.folder, self.speakers = program.folder, {}
        self.listening = listening(program.path, "clients", "admins")
        program.put(case)
        words = [program.path, "serve", "--journal", str(case.slots), "--workers", str(connections + 2)]
        words += ["--audit", "--socket", "clients", "--admin", "admins", *FILES[:2]]
        self.child = subprocess.Popen(words, cwd=self.folder, stdin=subprocess.DEVNULL, stderr=subprocess.PIPE)
        self.said = Lines(self.child.stderr.fileno())

    def __enter__(self):
        return self

    def __exit__(self, *_):
        for speaker in self.speakers.values():
            speaker.stream.close()
        self.child.kill()
        self.child.wait()
        self.child.stderr.close()
        for name in "clients", "admins", "clients.lock", "admins.lock":
            (self.folder / name).unlink(missing_ok=True)

    def speaker(self, who):
        if who not in self.speakers:
            self.speakers[who] = Speaker(self.folder / ("admins" if who == ADMIN else "clients"))
        return self.speakers[who]

    def drop(self, who):
        if who in self.speakers:
            self.speakers.pop(who).stream.close()

    def renew(self, who):
        """Drops a connection that the server may end soon, since no `hello` of it is answered by a number."""
        if who in self.speakers and time.monotonic() - self.speakers[who].since > AGE:
            self.drop(who)

    def await_length(self, length):
        """Waits until the journal has a length, after a connection has ended."""
        until = time.monotonic() + PATIENCE
        while True:
            self.speaker(ADMIN).send(b"version\n")
            came = self.speaker(ADMIN).line()
            if came.endswith(f" {length}"):
                return
            if time.monotonic() > until:
                raise Wrong(f"the length is {came!r} in place of {length}")
            time.sleep(0.002)

    def audit_lines(self, number):
        """As many audit lines as that, without the warnings between them."""
        found = []
        while len(found) < number:
            line = self.said.line()
            if line == "":
                break
            if not line.startswith("warning: "):
                found.append(line.rstrip("\n"))
        return found


def expect(came, wanted, what):
    if came != wanted:
        raise Wrong(f"{what}:\n  program: {came!r}\n  page:    {wanted!r}")


class Talk:
    """The model's side of a server."""

    def __init__(self, manager):
        self.manager, self.peers, self.audit = manager, {}, []

    def peer(self, who):
        if who not in self.peers:
            self.peers[who] = Administrator() if who == ADMIN else Client()
        return self.peers[who]

    def answer(self, who, text):
        """The reply to a line, or nothing where the connection ends; then its client dies."""
        peer, reply = self.peer(who), None
        if text != "":
            reply, lines = answer_next(self.manager, peer, Input(text))
            self.audit += lines
        peer.has_ended = peer.has_ended or text == ""
        number = getattr(peer, "number", None)
        if peer.has_ended and number is not None and self.manager.clients[number - 1].is_live:
            self.manager.bye(self.manager.clients[number - 1])
        return reply


def say(server, talk, who, texts):
    """Sends what a peer says next, and compares the replies."""
    said, number = [], getattr(talk.peer(who), "number", None)
    for text in texts:
        if talk.peer(who).has_ended:
            break
        said.append((text, talk.answer(who, text)))
    if said == []:
        return
    if number is None:
        server.renew(who)
    speaker = server.speaker(who)
    speaker.send("".join(text for text, _ in said).encode("latin-1"))
    if said[-1][0] == "" or said[-1][1] == "fault cut":
        speaker.end()
    for text, wanted in said:
        if wanted is not None:
            came = "\n".join(speaker.line() for _ in wanted.split("\n"))
            expect(came, wanted, f"connection {who} sends {text!r}")
    if talk.peer(who).has_ended:
        end(server, talk, who)


def end(server, talk, who):
    """The server ends a connection, whose client is dead then."""
    expect(server.speaker(who).line(), "", f"connection {who} ends, and then comes")
    server.drop(who)
    if who == ADMIN:
        talk.peers.pop(who)
    server.await_length(talk.manager.length)


def say_all(server, talk, conversation):
    """One peer after another. What a peer says until another one speaks is sent at once."""
    for who, group in groupby(conversation, key=lambda pair: pair[0]):
        say(server, talk, who, [text for _, text in group])


def begin(server, model, case):
    """The model's side, or nothing if the server says why it doesn't begin."""
    manager, fault = model.opened(case.rules, case.contexts, case.slots)
    expect(server.said.line(), fault or server.listening, "the server says")
    return manager and Talk(manager)


@contextlib.contextmanager
def talking(program, model, case, conversation):
    """A server and the model's side after a conversation, or no model's side if the server says why it doesn't begin."""
    with Server(program, case, len({who for who, _ in conversation})) as server:
        talk = begin(server, model, case)
        if talk is not None:
            say_all(server, talk, conversation)
        yield server, talk


def difference_served(program, model, case, conversation):
    """How a server's answers to a conversation differ from the model's, or nothing."""
    try:
        with talking(program, model, case, conversation) as (server, talk):
            if talk is not None and len(talk.audit) <= MOST_LINES:
                expect(server.audit_lines(len(talk.audit)), talk.audit, "audit lines")
    except (Wrong, OSError) as wrong:
        return str(wrong)
    return None


def conversation_of(drawing, case):
    """A script as what connections send, and seals between. Some connections end without a `bye`, or within a line."""
    manager, _ = drawing.model.opened(case.rules, case.contexts, case.slots)
    found, clients, connections = [], {}, 0
    seals = drawing.one([0, 0, 0.05, 0.3])
    for line in case.script:
        if drawing.is_so(seals):
            found.append((ADMIN, "seal\n"))
        reply = answer_next(manager, Script(), Input(line))[0] if manager else ""
        first, _, rest = line.partition(" ")
        if first == "hello" and connections == MOST_CONNECTIONS:
            break
        if first == "hello":
            connections += 1
            found.append((connections, line))
            if reply.startswith("client "):
                clients[reply.split(" ")[1]] = connections
        elif first in clients:
            if rest == "bye\n":
                rest = drawing.one([rest, "", "add a o1", "take"])
            found.append((clients[first], rest))
        else:
            found.append((drawing.one([ADMIN, ADMIN, *clients.values()]) if rest == "" else ADMIN, line))
    return found


# Several connections at once.


def ask_at_once(server, parts):
    """The replies to what each peer says, sent by a line of each in turn without waiting for an answer."""
    for who in parts:
        server.speaker(who)
    for turn in zip_longest(*parts.values(), fillvalue=""):
        for who, line in zip(parts, turn):
            server.speaker(who).send(line.encode("latin-1"))
    came = {who: [] for who in parts}
    for who, lines in parts.items():
        while len(came[who]) < len(lines) and came[who][-1:] != ["bye"]:
            came[who].append(server.speaker(who).reply())
    return came


def state_of(talk):
    """A text that is the same for the same state."""
    manager = {name: value for name, value in vars(talk.manager).items() if name != "policy"}
    return repr((sorted(manager.items()), [(who, vars(peer)) for who, peer in talk.peers.items()]))


def copied(talk):
    policy = talk.manager.policy
    return copy.deepcopy(talk, {id(policy): policy})


def has_order(talk, parts, came, last):
    """Whether the model gives all replies in some order, and then `last` to a `denials`. None if the search is long."""
    seen, steps = set(), 0
    waiting = [(talk, {who: 0 for who in parts})]
    while waiting:
        talk, at = waiting.pop()
        steps += 1
        if steps > MOST_STEPS:
            return None
        if all(at[who] == len(came[who]) for who in parts):
            if talk.manager.denials() == last:
                return True
            continue
        for who, lines in parts.items():
            if at[who] == len(came[who]):
                continue
            after = copied(talk)
            if after.answer(who, lines[at[who]]) != came[who][at[who]]:
                continue
            place = {**at, who: at[who] + 1}
            state = (tuple(place.values()), state_of(after))
            if state not in seen:
                seen.add(state)
                waiting.append((after, place))
    return False


def parts_at_once(drawing, talk):
    """What three connections send at once: clients that are there, a new one, and now and then an administrator."""
    there = [who for who, peer in talk.peers.items() if who != ADMIN and not peer.has_ended and peer.number]
    drawing.chance.shuffle(there)
    parts = {who: [] for who in there[:2]}
    new = drawing.one([ADMIN, "new"]) if drawing.is_so(0.7) or len(there) < 3 else there[2]
    parts[new] = []
    for who, lines in parts.items():
        if who == "new":
            lines.append("hello 77 1000 u:r:server:s0\n")
        for _ in range(drawing.chance.randint(3, 6)):
            of_admin = drawing.one(["version", "seal", "denials", drawing.explain()])
            lines.append(f"{of_admin if who == ADMIN else drawing.request()}\n")
    return parts


def difference_at_once(program, model, case, conversation, drawing):
    """As `difference_served`, for connections that speak at once after a conversation."""
    try:
        with talking(program, model, case, conversation) as (server, talk):
            if talk is None:
                return None
            parts = parts_at_once(drawing, talk)
            came = ask_at_once(server, parts)
            last = server.speaker(ADMIN)
            last.send(b"denials\n")
            last = last.reply()
            found = has_order(talk, parts, came, last)
    except (Wrong, OSError) as wrong:
        return str(wrong)
    if found is None:
        return GIVEN_UP
    if not found:
        said = [f"{who} sends {lines!r}\n  program: {came[who]!r}" for who, lines in parts.items()]
        return "\n".join(["no order gives these replies:", *said, f"then the records are {last!r}"])
    return None
