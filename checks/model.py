"""A plain model of docs/FORMATS.md, written from that page alone: what svcmgr answers, in lists and loops.

`Model` has the parts that may be replaced by wrong ones (checks/wrong_models.py). checks/scripts compares it with the
program. All texts are strings with one character for each byte (latin-1)."""

from dataclasses import dataclass

from modelling import questions
from modelling.lines import Cut, Input, Malformed, Request, TooLong
from modelling.lines import read_administrator, read_client, read_hello, read_script
from modelling.manager import Manager
from modelling.policies import Policy, Refused

SLOTS = 1048576


class Script:
    """A script, which says of each line who asks."""

    def __init__(self):
        self.has_ended = False

    def read(self, words):
        return read_script(words)

    def answered(self, request, reply):
        """What an answer makes of the peer."""


class Client(Script):
    """A client's connection. Its number is that of the client, once a `hello` is answered by it."""

    def __init__(self):
        super().__init__()
        self.number = None

    def read(self, words):
        if self.number is None:
            return read_hello(words)
        request = read_client(words)
        request.client = self.number
        return request

    def answered(self, request, reply):
        if request.word == "hello" and reply.startswith("client "):
            self.number = int(reply.split(" ")[1])
        self.has_ended = self.has_ended or reply == "bye"


class Administrator(Script):
    def read(self, words):
        if words == ["version"]:
            return Request("policy_version", None, [None])
        return read_administrator(words)


def answer_next(manager, peer, given):
    """Answers what comes next from a peer: the reply, and its audit lines."""
    try:
        try:
            request = peer.read(given.line().split(" "))
        except Malformed:
            return "malformed", []
        if request.word == "reload":
            version, rules, contexts = request.fields
            request.fields = [version, given.take(rules), given.take(contexts)]
    except (Cut, TooLong) as fault:
        peer.has_ended = True
        return "fault long" if isinstance(fault, TooLong) else "fault cut", []
    reply, lines = manager.answer(request)
    peer.answered(request, reply)
    return reply, lines


@dataclass
class Model:
    policy: type = Policy
    manager: type = Manager

    def opened(self, rules, contexts, slots=SLOTS):
        """The manager of a policy, and what the program says if there is none."""
        try:
            manager = self.manager(questions.read_policy(rules, contexts, self.policy), slots)
        except Refused as refused:
            return None, f"policy refused: {refused.text}\n"
        line = manager.opening()
        return (manager, "") if line is None else (None, line + "\n")

    def run(self, rules, contexts, script, slots=SLOTS):
        """What `svcmgr run` writes to standard output and to standard error, and its status."""
        manager, fault = self.opened(rules, contexts, slots)
        if manager is None:
            return "", fault, 1
        peer, given, replies, audit = Script(), Input(script), [], []
        while not peer.has_ended and not given.is_over():
            reply, lines = answer_next(manager, peer, given)
            replies.append(reply)
            audit += lines
        is_long = replies[-1:] == ["fault long"]
        if is_long:
            audit.append("fault: a line is too long")
        return questions.lines(replies), questions.lines(audit), int(is_long)

    def asks(self, command, *rest):
        """What `check` and the commands that answer questions write, and their status."""
        return getattr(questions, command)(self.policy, *rest)
