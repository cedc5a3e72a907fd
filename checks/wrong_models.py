"""Wrong models: each gets one rule of docs/FORMATS.md wrong. `checks/scripts --wrong-models` finds all of them."""

import re

from model import Model
from modelling.manager import Answer, Manager, is_isolated
from modelling.policies import Policy, Rule


class FindBeforeCall(Manager):
    """A `get` needs `find` before it needs `call`."""

    def get(self, caller, name):
        service, lines = self.service(name), list(self.lines)
        is_barred = service is not None and not service.is_for_isolated and is_isolated(caller.uid)
        if not is_barred and not self.may_find(caller, name):
            return "null"
        self.lines = lines
        return super().get(caller, name)


class RisingNumbers(Manager):
    """A new handle's number is greater than those that the client holds."""

    def new_number(self, client):
        return 1 + max([number for number, _, _ in client.handles], default=0)


class AdderFrees(Manager):
    """The death of a client removes the services that it added."""

    def dies_with(self, service, client):
        return service.adder == client.number or super().dies_with(service, client)


class JudgedTogether(Manager):
    """All watchers are judged before any of them is notified, so that none takes the room of another."""

    def deliver(self, notices):
        room = [self.may_take(self.clients[watch.client - 1], item) for watch, item in notices]
        for (watch, item), has_room in zip(notices, room):
            if has_room:
                watcher = self.clients[watch.client - 1]
                watcher.inbox.append(f"registered o{watch.number} {watch.name} {self.grant(watcher, item)}")


class ListKept(Manager):
    """The audit lines of a `list` are kept for `denials`."""

    def is_kept(self, request):
        return True


class IsolatedBeforeFind(Manager):
    """A `watch` is refused to isolated processes before `find` is needed."""

    def need_watching(self, caller, name):
        self.need_no_isolated(caller, name)
        self.need_label(caller, name, "find")


class DeadAfterPermission(Manager):
    """A `call` needs the permission before its object's owner must be live."""

    def need_call(self, caller, owner):
        self.need(caller, owner.context, "binder", "call")
        if not owner.is_live:
            raise Answer("dead")


class OwnHandleInUse(Manager):
    """A handle of the caller's own keeps its service from being unregistered."""

    def holders(self, caller):
        return self.live()


class NothingKept(Manager):
    """No slot of the journal is kept for the deaths of live clients."""

    def slots_kept(self):
        return 0


class FirstPolicyExplains(Manager):
    """After a reload `explain` gives the lines of the first policy still."""

    def __init__(self, policy, slots):
        super().__init__(policy, slots)
        self.first = policy

    def explain(self, *access):
        line = self.first.line_of(*access)
        return f"unwritten {self.version}" if line is None else f"allowed {self.version} {line}"


class LessRule(Rule):
    """A rule whose `self` adds no pair of what the `-` items of its target name."""

    def covers(self, source, target, kind, perm):
        is_less = source == target and target not in self.targets and target in self.less
        return not is_less and super().covers(source, target, kind, perm)


class SelfLessItems(Policy):
    """What a `-` item names isn't added by `self` either."""

    def rule(self, statement):
        rule = super().rule(statement)
        found = LessRule(rule.line, rule.words, rule.sources, rule.targets, rule.has_self, rule.accesses)
        minus = statement.target.minus
        found.less = [name for name in self.types if any(item in minus for item in [name] + self.attributes_of[name])]
        return found


class SilencedKept(Manager):
    """Denials that a `dontaudit` rule covers are kept for `denials`."""

    def answer(self, request):
        self.silenced = []
        reply, lines = super().answer(request)
        return reply, [line for line in lines if line not in self.silenced]

    def note(self, who, perm, name, target, kind, is_permissive):
        super().note(who, perm, name, target, kind, is_permissive)
        if super().is_silent((who.context.split(":")[2], target.split(":")[2], kind, perm)):
            self.silenced.append(self.lines[-1])

    def is_silent(self, access):
        return False


class TargetOfTheLog(Model):
    """`suggest` passes names over: the target is always that of the log."""

    def asks(self, command, *rest):
        if command == "suggest":
            rest = *rest[:-1], re.sub("name=[^ \t\r\n]*", "", rest[-1])
        return super().asks(command, *rest)


MANAGERS = [
    FindBeforeCall,
    RisingNumbers,
    AdderFrees,
    JudgedTogether,
    ListKept,
    IsolatedBeforeFind,
    DeadAfterPermission,
    OwnHandleInUse,
    NothingKept,
    FirstPolicyExplains,
    SilencedKept,
]

WRONG = [(kind.__name__, Model(manager=kind)) for kind in MANAGERS]
WRONG.append((SelfLessItems.__name__, Model(policy=SelfLessItems)))
WRONG.append((TargetOfTheLog.__name__, TargetOfTheLog()))
