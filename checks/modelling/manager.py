"""The manager: clients, services, watches, the journal and the audit records, as docs/FORMATS.md says.

Each check is a method of its own, so that checks/wrong_models.py can get one of them wrong."""

from dataclasses import dataclass, field

from .lines import GREATEST, in_digits, is_valid, written
from .policies import Refused, type_of

MOST_CLIENTS = 64
MOST_NAMES = 4096
MOST_WATCHES = 4096
MOST_HANDLES = 65536
MOST_DELIVERIES = 256
MOST_RECORDS = 1024


class Answer(Exception):
    """A request is answered by this line, by the first check that fails."""


@dataclass
class Process:
    number: int
    pid: int
    uid: int
    context: str
    is_live: bool = True
    # The client's handles: each a list of its number, the object and how often it was granted.
    handles: list = field(default_factory=list)
    # The lines of what waits in the inbox, oldest first.
    inbox: list = field(default_factory=list)

    def handle(self, number):
        return next((handle for handle in self.handles if handle[0] == number), None)

    def handle_to(self, item):
        return next((handle for handle in self.handles if handle[1] == item), None)


@dataclass
class Service:
    """A service. Its object is a pair: the number of its owner and the owner's number for it."""

    name: str
    item: tuple
    is_for_isolated: bool
    flags: int
    adder: int


@dataclass
class Watch:
    name: str
    client: int
    number: int


def is_application(uid):
    return uid % 100000 >= 10000


def is_isolated(uid):
    return 90000 <= uid % 100000 <= 99999


class Manager:
    def __init__(self, policy, slots):
        self.policy, self.version = policy, 1
        self.process = Process(0, 1, 1000, "u:r:servicemanager:s0")
        self.slots, self.used, self.length, self.segment = slots, 1, 1, 1
        self.clients, self.services, self.watches = [], [], []
        # The newest audit lines, and those of the request that is being answered.
        self.kept, self.lines = [], []

    def opening(self):
        """Nothing, or the line that says why the manager can't begin."""
        name = type_of(self.process.context)
        if self.policy.is_allowed(name, name, "binder", "set_context_mgr"):
            return None
        return f"open denied {name} {name} binder set_context_mgr"

    # The journal.

    def live(self):
        return [client for client in self.clients if client.is_live]

    def slots_kept(self):
        """One for the death of each live client."""
        return len(self.live())

    def need_slot(self, more_kept=0):
        if self.used + 1 + self.slots_kept() + more_kept > self.slots:
            raise Answer("failed journal-full")

    def change(self, more_kept=0):
        self.need_slot(more_kept)
        self.enter()

    def enter(self):
        self.used += 1
        self.length += 1

    # Access.

    def note(self, who, perm, name, target, kind, is_permissive):
        known = "" if name is None else f" name={written(name)}"
        self.lines.append(
            f"journal={self.length} version={self.version} avc: denied {{ {perm} }} for pid={who.pid} uid={who.uid}"
            f"{known} scontext={who.context} tcontext={target} tclass={kind} permissive={is_permissive}"
        )

    def note_clause(self, who, clause, name):
        self.lines.append(
            f"journal={self.length} version={self.version} clause: denied {clause} for pid={who.pid} uid={who.uid}"
            f" name={written(name)} scontext={who.context}"
        )

    def is_granted(self, who, target, kind, perm, name=None):
        """Whether a process has a permission on a context, which is the label of the name if one is given."""
        access = (type_of(who.context), type_of(target), kind, perm)
        if self.policy.line_of(*access) is not None:
            return True
        passes = self.policy.passes_as_permissive(*access[:2])
        if not self.is_silent(access):
            self.note(who, perm, name, target, kind, int(passes))
        return passes

    def is_silent(self, access):
        return self.policy.is_silent(*access)

    def need(self, who, target, kind, perm, name=None):
        if not self.is_granted(who, target, kind, perm, name):
            words = "failed" if kind == "binder" else "exception -1"
            raise Answer(f"{words} denied {type_of(who.context)} {type_of(target)} {kind} {perm}")

    def need_manager(self, caller, perm):
        self.need(caller, self.process.context, "binder", perm)

    def may_find(self, caller, name):
        return self.is_granted(caller, self.policy.label(name), "service_manager", "find", name)

    def need_label(self, caller, name, perm):
        self.need(caller, self.policy.label(name), "service_manager", perm, name)

    # Objects and handles.

    def owner(self, item):
        return self.clients[item[0] - 1]

    def object_of(self, caller, reference):
        """The object that a reference other than `null` names."""
        letter, number = reference
        if letter == "o":
            return caller.number, number
        handle = caller.handle(number)
        if handle is None:
            raise Answer("failed bad-handle")
        return handle[1]

    def passed_object(self, caller, reference):
        """The object that a client passes to the manager, or nothing for `null`."""
        if reference is None:
            return None
        item = self.object_of(caller, reference)
        self.need_manager(caller, "transfer")
        return item

    def new_number(self, client):
        """The least positive number that the client doesn't hold."""
        number = 1
        while client.handle(number) is not None:
            number += 1
        return number

    def grant(self, client, item):
        """The reference by which the client has an object, granted once more unless it is its own."""
        if item[0] == client.number:
            return f"o{item[1]}"
        handle = client.handle_to(item)
        if handle is None:
            handle = [self.new_number(client), item, 0]
            client.handles.append(handle)
        handle[2] += 1
        return f"h{handle[0]}"

    def has_room(self, client, items):
        """Whether the client's handles have room for objects."""
        new = []
        for item in items:
            if item[0] != client.number and client.handle_to(item) is None and item not in new:
                new.append(item)
        return len(client.handles) + len(new) <= MOST_HANDLES

    def service(self, name):
        return next((service for service in self.services if service.name == name), None)

    # Requests. Each is answered by its method's value, or by the `Answer` that it raises.

    def answer(self, request):
        """The line that answers a request, and its audit lines."""
        self.lines = []
        try:
            reply = self.judged(request)
        except Answer as answer:
            reply = str(answer)
        if self.is_kept(request):
            self.kept = (self.kept + self.lines)[-MOST_RECORDS:]
        return reply, self.lines

    def is_kept(self, request):
        """Whether the audit lines of such a request are kept for `denials`."""
        return request.word != "list"

    def judged(self, request):
        if request.client is None:
            return getattr(self, request.word)(*request.fields)
        if not any(client.number == request.client for client in self.live()):
            return "failed not-connected"
        caller = self.clients[request.client - 1]
        word = {"check": "get", "list": "names", "version": "policy_version"}.get(request.word, request.word)
        return getattr(self, word)(caller, *request.fields)

    def hello(self, pid, uid, context):
        if len(self.live()) >= MOST_CLIENTS or len(self.clients) >= GREATEST:
            raise Answer("failed too-many-clients")
        self.change(1)
        self.clients.append(Process(len(self.clients) + 1, pid, uid, context))
        return f"client {len(self.clients)}"

    def add(self, caller, name, reference, is_for_isolated, flags):
        self.need_manager(caller, "call")
        item = self.passed_object(caller, reference)
        if is_application(caller.uid):
            self.note_clause(caller, "app", name)
            raise Answer(f"exception -1 app {caller.uid}")
        self.need_label(caller, name, "add")
        if item is None:
            raise Answer("exception -3 null-binder")
        if not is_valid(name):
            raise Answer("exception -3 invalid-name")
        if not self.owner(item).is_live:
            raise Answer("exception -5 dead-owner")
        old = self.service(name)
        if old is None and len(self.services) >= MOST_NAMES:
            raise Answer("exception -5 table-full")
        self.need_slot()
        notices = self.notices([watch for watch in self.watches if watch.name == name], item)
        self.enter()
        if old is not None:
            self.services.remove(old)
        self.services.append(Service(name, item, is_for_isolated, flags, caller.number))
        self.deliver(notices)
        return "ok"

    def get(self, caller, name):
        self.need_manager(caller, "call")
        service = self.service(name)
        if service is not None and not service.is_for_isolated and is_isolated(caller.uid):
            self.note_clause(caller, "isolated", name)
            return "null"
        if not self.may_find(caller, name) or service is None:
            return "null"
        self.need(self.process, caller.context, "binder", "transfer")
        if service.item[0] == caller.number:
            return f"own {service.item[1]}"
        if not self.has_room(caller, [service.item]):
            raise Answer("failed target-full")
        self.change()
        return f"handle {self.grant(caller, service.item)[1:]}"

    def names(self, caller, mask):
        self.need_manager(caller, "call")
        self.need(caller, self.process.context, "service_manager", "list")
        found = sorted(service.name for service in self.services if service.flags & mask != 0)
        return " ".join([f"names {self.version} {self.length} {len(found)}", *found])

    def watch(self, caller, name, reference):
        self.need_manager(caller, "call")
        self.need_manager(caller, "transfer")
        self.need_watching(caller, name)
        if not is_valid(name):
            raise Answer("exception -3 invalid-name")
        if len(self.watches) >= MOST_WATCHES:
            raise Answer("exception -5 table-full")
        watch = Watch(name, caller.number, reference[1])
        service = self.service(name)
        self.need_slot()
        notices = [] if service is None else self.notices([watch], service.item)
        self.enter()
        self.watches.append(watch)
        self.deliver(notices)
        return "ok"

    def need_watching(self, caller, name):
        self.need_label(caller, name, "find")
        self.need_no_isolated(caller, name)

    def need_no_isolated(self, caller, name):
        if is_isolated(caller.uid):
            self.note_clause(caller, "isolated", name)
            raise Answer(f"exception -1 isolated {caller.uid}")

    def unwatch(self, caller, name, reference):
        self.need_manager(caller, "call")
        self.need_manager(caller, "transfer")
        self.need_label(caller, name, "find")
        watch = Watch(name, caller.number, reference[1])
        if watch not in self.watches:
            raise Answer("exception -5 nothing-to-unregister")
        self.change()
        self.watches = [other for other in self.watches if other != watch]
        return "ok"

    def unregister(self, caller, name, reference):
        self.need_manager(caller, "call")
        item = self.passed_object(caller, reference)
        if item is None:
            raise Answer("exception -4 null-binder")
        self.need_label(caller, name, "add")
        service = self.service(name)
        if service is None:
            raise Answer("exception -5 not-registered")
        if service.adder != caller.number:
            raise Answer("exception -1 not-adder")
        if service.item != item:
            raise Answer("exception -5 other-object")
        if any(client.handle_to(item) is not None for client in self.holders(caller)):
            raise Answer("exception -5 in-use")
        self.change()
        self.services.remove(service)
        return "ok"

    def holders(self, caller):
        """The clients whose handle to a service keeps it from being unregistered."""
        return [client for client in self.live() if client is not caller]

    def call(self, caller, number, payload, references):
        item = self.object_of(caller, ("h", number))
        owner = self.owner(item)
        self.need_call(caller, owner)
        items = []
        for reference in references:
            if reference is not None:
                items.append(self.object_of(caller, reference))
                self.need(caller, owner.context, "binder", "transfer")
            else:
                items.append(None)
        passed = [passed for passed in items if passed is not None]
        if len(owner.inbox) >= MOST_DELIVERIES or not self.has_room(owner, passed):
            raise Answer("failed target-full")
        self.change()
        held = ["null" if passed is None else self.grant(owner, passed) for passed in items]
        payload = in_digits(payload) or "-"
        owner.inbox.append(" ".join([f"call o{item[1]} {caller.pid} {caller.uid} {payload}", *held]))
        return "ok"

    def need_call(self, caller, owner):
        if not owner.is_live:
            raise Answer("dead")
        self.need(caller, owner.context, "binder", "call")

    def release(self, caller, number):
        handle = caller.handle(number)
        if handle is None:
            raise Answer("failed bad-handle")
        self.change()
        handle[2] -= 1
        if handle[2] == 0:
            caller.handles.remove(handle)
        return "ok"

    def take(self, caller):
        if caller.inbox == []:
            return "empty"
        self.change()
        return caller.inbox.pop(0)

    def bye(self, caller):
        self.enter()
        caller.is_live, caller.handles, caller.inbox = False, [], []
        self.watches = [watch for watch in self.watches if watch.client != caller.number]
        self.services = [service for service in self.services if not self.dies_with(service, caller)]
        return "bye"

    def dies_with(self, service, client):
        return service.item[0] == client.number

    def policy_version(self, _):
        return f"version {self.version} {self.length}"

    # Notices.

    def notices(self, watches, item):
        """The watches that are notified of an object, by the checks of each."""
        return [(watch, item) for watch in watches if self.may_be_notified(watch)]

    def may_be_notified(self, watch):
        watcher = self.clients[watch.client - 1]
        if not self.may_find(watcher, watch.name):
            return False
        return all(
            self.is_granted(self.process, watcher.context, "binder", perm) for perm in ("call", "transfer")
        )

    def deliver(self, notices):
        for watch, item in notices:
            watcher = self.clients[watch.client - 1]
            if self.may_take(watcher, item):
                held = self.grant(watcher, item)
                watcher.inbox.append(f"registered o{watch.number} {watch.name} {held}")

    def may_take(self, watcher, item):
        """Whether a watcher's inbox and handles have room for a notice, after the ones before it."""
        return len(watcher.inbox) < MOST_DELIVERIES and self.has_room(watcher, [item])

    # Administrators' requests.

    def reload(self, expected, rules, contexts):
        try:
            policy = self.made_policy(rules, contexts)
        except Refused as refused:
            return f"refused {refused.text}"
        if expected != self.version:
            return f"moved {self.version}"
        self.change()
        self.policy, self.version = policy, self.version + 1
        return f"reloaded {self.version}"

    def made_policy(self, rules, contexts):
        return type(self.policy)(rules, contexts)

    def explain(self, source, target, kind, perm):
        line = self.policy.line_of(source, target, kind, perm)
        return f"unwritten {self.version}" if line is None else f"allowed {self.version} {line}"

    def denials(self):
        return "\n".join([f"denials {len(self.kept)}", *self.kept])

    def seal(self):
        if self.used == 0:
            return "empty"
        number, self.segment, self.used = self.segment, self.segment + 1, 0
        return f"sealed {number} {self.length}"
