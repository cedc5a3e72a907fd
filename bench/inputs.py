"""The inputs of the benchmark: policies and scripts of growing size, each from a seed."""

import random
import re
from dataclasses import dataclass
from typing import Callable, Iterator

Lines = Iterator[str]

SERVER = "u:r:system_server:s0"
APPLICATION = "u:r:untrusted_app:s0"

# The services of a server, and the types that their names have. bench/load.rs calls them service.n0 and so on.
SERVER_NAMES = 500
SERVER_TYPES = 50


@dataclass(frozen=True)
class Input:
    """One input: `size` is what grows, and `requests` the number of a script's lines. Without a script, a policy is to
    be checked, or a question about it is to be answered: `access`, `rules`, `unused`, `types`, `diff` with itself, also
    with `--rules`, or `check --all` of a policy that is refused. The script of `suggest` is a log."""

    name: str
    size: int
    rules: Callable[[], Lines]
    contexts: Callable[[], Lines]
    script: Callable[[], Lines] | None = None
    requests: int = 0
    question: str | None = None


# ---- policies


def types_of(count: int, draw: random.Random) -> Lines:
    """Domains and services in equal parts, each with two attributes of its kind; each eighth service is a core one."""
    attributes = count // 20
    yield "attribute domain;"
    yield "attribute service;"
    yield "attribute core;"
    for n in range(attributes):
        yield f"attribute d{n};"
        yield f"attribute s{n};"
    for n in range(count // 2):
        a, b = draw.sample(range(attributes), 2)
        yield f"type dom{n}, domain, d{a}, d{b};"
        a, b = draw.sample(range(attributes), 2)
        yield f"type svc{n}, service, core;" if n % 8 == 0 else f"type svc{n}, service, s{a}, s{b};"


def source(count: int, draw: random.Random) -> str:
    chance = draw.random()
    if chance < 0.2:
        return f"d{draw.randrange(count // 20)}"
    if chance < 0.22:
        return f"{{ domain -dom{draw.randrange(count // 2)} }}"
    return f"dom{draw.randrange(count // 2)}"


def target(count: int, draw: random.Random) -> str:
    chance = draw.random()
    if chance < 0.2:
        return f"s{draw.randrange(count // 20)}"
    if chance < 0.22:
        return f"{{ service -core -svc{draw.randrange(count // 2)} }}"
    return f"{{ svc{draw.randrange(count // 2)} -core }}"


def policy(count: int, seed: int) -> Lines:
    """`count` types, fifteen times as many allow rules, and a neverallow rule for each four types. None is broken: a
    core service is never the target of an allow rule, and `impersonate` and `set_context_mgr` are never granted."""
    draw = random.Random(seed)
    yield from types_of(count, draw)
    for _ in range(15 * count):
        if draw.random() < 0.5:
            perms = draw.choice(["find", "find", "{ add find }"])
            yield f"allow {source(count, draw)} {target(count, draw)}:service_manager {perms};"
        else:
            yield f"allow {source(count, draw)} dom{draw.randrange(count // 2)}:binder {{ call transfer }};"
    for _ in range(count // 4):
        a, b = draw.randrange(count // 2), draw.randrange(count // 2)
        yield draw.choice([
            f"neverallow {{ domain -dom{a} }} {{ core -svc{b} }}:service_manager {{ add find }};",
            f"neverallow ~dom{a} svc{b}:binder impersonate;",
            f"neverallow {{ service -svc{a} }} {{ domain -dom{b} }}:binder set_context_mgr;",
        ])


def broken_policy(count: int, broken: int, seed: int) -> Lines:
    """The same policy, with as many neverallow rules behind it that forbid what some of its allow rules allow."""
    lines = list(policy(count, seed))
    yield from lines
    allows = [line for line in lines if line.startswith("allow ")]
    for line in random.Random(seed).sample(allows, broken):
        yield f"never{line}"


def policy_contexts(count: int) -> Lines:
    for n in range(count // 2):
        yield f"name{n} u:object_r:svc{n}:s0"
    yield "* u:object_r:svc0:s0"


def wide_policy(types: int, allows: int, neverallows: int, seed: int) -> Lines:
    """Types, and rules of all permissions for nearly all sources and nearly half of the targets: of one half of the
    types in the allow rules, of the other half in the neverallow rules."""
    draw = random.Random(seed)
    for attribute in ("a", "g", "n"):
        yield f"attribute {attribute};"
    for k in range(types):
        yield f"type w{k}, a, {'gn'[k % 2]};"
    for word, attribute, count in (("allow", "g", allows), ("neverallow", "n", neverallows)):
        for _ in range(count):
            source, target = draw.randrange(types), draw.randrange(types)
            yield f"{word} {{ a -w{source} }} {{ {attribute} -w{target} }}:{{ binder service_manager }} *;"


def wide_contexts() -> Lines:
    yield "* u:object_r:w0:s0"


def manager_policy() -> Lines:
    """The policy of the scripts: servers and applications may make all their requests."""
    yield "attribute client;"
    yield "type servicemanager;"
    yield "type system_server, client;"
    yield "type untrusted_app, client;"
    yield "type some_service;"
    yield "allow servicemanager self:binder set_context_mgr;"
    yield "allow client servicemanager:binder { call transfer };"
    yield "allow servicemanager client:binder { call transfer };"
    yield "allow client some_service:service_manager { add find };"
    yield "allow client servicemanager:service_manager list;"
    yield "allow client client:binder { call transfer };"


def manager_contexts() -> Lines:
    yield "* u:object_r:some_service:s0"


def server_policy() -> Lines:
    """Applications may find every service and list them, and the system server may add them."""
    yield "attribute client;"
    yield "attribute service;"
    yield "type servicemanager;"
    yield "type system_server, client;"
    yield "type untrusted_app, client;"
    for n in range(SERVER_TYPES):
        yield f"type service_type{n}, service;"
    yield "allow servicemanager self:binder set_context_mgr;"
    yield "allow client servicemanager:binder { call transfer };"
    yield "allow servicemanager client:binder { call transfer };"
    yield "allow client servicemanager:service_manager list;"
    yield "allow client service:service_manager find;"
    yield "allow system_server service:service_manager add;"


def server_contexts() -> Lines:
    for n in range(SERVER_NAMES):
        yield f"service.n{n} u:object_r:service_type{n % SERVER_TYPES}:s0"
    yield "* u:object_r:service_type0:s0"


def late_policy(rules: int) -> Lines:
    """Rules that grant nothing that is needed, followed by the scripts' policy: each decision comes late."""
    yield "type other;"
    for _ in range(rules):
        yield "allow other other:binder call;"
    yield from manager_policy()


# ---- scripts


def versions(requests: int) -> Lines:
    """The simplest request, which changes nothing and checks no rule."""
    yield f"hello 100 1000 {SERVER}"
    for _ in range(requests):
        yield "1 version"


# Lines outside the grammar: an unknown word, a missing field, no client's number, a name that can't be decoded.
MALFORMED = ("1 frobnicate activity", "1 add activity o1 0", "first get activity", "1 get %zz")


def malformed(requests: int) -> Lines:
    yield f"hello 100 1000 {SERVER}"
    for n in range(requests):
        yield MALFORMED[n % len(MALFORMED)]


def clients(count: int) -> Lines:
    for n in range(count):
        yield f"hello {100 + n} {1000 + n} {SERVER if n == 0 else APPLICATION}"


def services(count: int) -> Lines:
    for n in range(count):
        yield f"1 add service.n{n} o{n % 500 + 1} {n % 2} {1 << n % 4}"


def mixed(requests: int, seed: int) -> Lines:
    """Gets, adds, lists and versions of 8 clients over 100 names."""
    draw = random.Random(seed)
    yield from clients(8)
    yield from services(100)
    for _ in range(requests):
        chance = draw.random()
        name = f"service.n{int(100 * draw.random() * draw.random())}"
        if chance < 0.70:
            yield f"{draw.randint(1, 8)} get {name}"
        elif chance < 0.80:
            yield f"{draw.randint(1, 8)} check none.n{draw.randrange(100)}"
        elif chance < 0.90:
            yield f"1 add {name} o{draw.randint(1, 100)} 0 8"
        elif chance < 0.95:
            yield f"{draw.randint(1, 8)} list {draw.randint(1, 15)}"
        else:
            yield f"{draw.randint(1, 8)} version"


def many_names(names: int, requests: int, seed: int) -> Lines:
    draw = random.Random(seed)
    yield from clients(2)
    yield from services(names)
    for _ in range(requests):
        yield f"2 get service.n{draw.randrange(names)}"


def many_clients(count: int, requests: int, seed: int) -> Lines:
    draw = random.Random(seed)
    yield from clients(count)
    yield from services(100)
    for _ in range(requests):
        yield f"{draw.randint(1, count)} get service.n{draw.randrange(100)}"


def many_objects(objects: int) -> Lines:
    """A client that gets `objects` different objects, each added before."""
    yield from clients(2)
    for n in range(objects):
        yield f"1 add service o{n + 1} 0 8"
        yield "2 get service"


def calls(rounds: int) -> Lines:
    """A call with three references, what it delivers taken, and its new handle released."""
    yield from clients(2)
    yield "1 add service o1 0 8"
    yield "2 get service"
    for n in range(rounds):
        yield f"2 call 1 c0ffee o{n % 1000 + 5} h1 null"
        yield "1 take"
        yield "1 release 1"


def many_watches(watches: int, adds: int) -> Lines:
    """Adds of a name with `watches` watches, each of which notifies all watchers; each watcher empties its inbox."""
    yield from clients(64)
    for n in range(watches):
        yield f"{n % 63 + 2} watch service o{n + 1}"
    for n in range(adds):
        yield f"1 add service o{n % 100 + 1} 0 8"
        for k in range(watches):
            yield f"{k % 63 + 2} take"


def many_deaths(count: int) -> Lines:
    """A client that connects, adds a name, watches it, takes, and ends."""
    for n in range(count):
        client = n + 1
        yield f"hello {100 + n % 1000} 1000 {SERVER}"
        yield f"{client} watch service.n{n % 100} o2"
        yield f"{client} add service.n{n % 100} o1 0 8"
        yield f"{client} take"
        yield f"{client} bye"


def lists(requests: int) -> Lines:
    """Two decisions each."""
    yield f"hello 100 1000 {SERVER}"
    for _ in range(requests):
        yield "1 list 15"


def denials(types: int, lines: int, accesses: int, seed: int) -> Lines:
    """A log of so many denied accesses of the policy of `check: types`, half of them with names, in random order."""
    draw = random.Random(seed)
    kept = []
    for _ in range(accesses):
        source, target = draw.randrange(types // 2), draw.randrange(types // 2)
        words = f"scontext=u:r:dom{source}:s0 tcontext=u:r:"
        if draw.random() < 0.5:
            perm, name = draw.choice(["add", "find"]), f"name=name{target} "
            kept.append((perm, f"{name}{words}svc{target}:s0 tclass=service_manager"))
        else:
            kept.append((draw.choice(["call", "transfer"]), f"{words}dom{target}:s0 tclass=binder"))
    for n in range(lines):
        perm, fields = draw.choice(kept)
        yield f"journal={n} version=1 avc: denied {{ {perm} }} for pid={100 + n % 1000} uid=10007 {fields} permissive=0"


def text(lines: Lines) -> str:
    return "".join(line + "\n" for line in lines)


def reloads(count: int, types: int, seed: int) -> Lines:
    rules, contexts = text(policy(types, seed)), text(policy_contexts(types))
    for n in range(count):
        yield f"reload {n + 1} {len(rules)} {len(contexts)}\n{rules}{contexts}".removesuffix("\n")


# ---- for checkpolicy


def checkpolicy_source(rules: str) -> str:
    """The rules with the least that checkpolicy needs around them."""
    types = re.findall(r"^type (\w+)", rules, re.MULTILINE)
    before = [
        "class service_manager",
        "class binder",
        "sid kernel",
        "class service_manager { add find list }",
        "class binder { impersonate call set_context_mgr transfer }",
    ]
    roles = ["role r;", "role r types {", *types, "};"]
    behind = [*roles, "user u roles { r };", f"sid kernel u:r:{types[0]}"]
    return text(iter(before)) + rules + text(iter(behind))


# ---- all of them


def run_input(name: str, size: int, requests: int, script: Callable[[], Lines]) -> Input:
    return Input(name, size, manager_policy, manager_contexts, script, requests)


# The least size of an input that is made smaller.
LEAST = 40


def all_inputs(seed: int, part: int = 1) -> Iterator[Input]:
    """All inputs, with what grows in them divided by `part`, down to LEAST."""

    def one(wanted: int) -> int:
        return min(wanted, max(wanted // part, LEAST))

    def sizes(*wanted: int) -> dict[int, None]:
        return dict.fromkeys(map(one, wanted))

    gets, notices, reloaded, decisions, wide, logged = map(one, (50_000, 100_000, 1000, 5000, 4096, 2400))
    for n in sizes(1000, 2000, 4000):
        yield Input("check: types", n, lambda n=n: policy(n, seed), lambda n=n: policy_contexts(n))
    for n in sizes(13_000, 26_000, 52_000):
        yield Input("check: wide allow rules", n, lambda n=n: wide_policy(wide, n, 1, seed), wide_contexts)
    for n in sizes(13_000, 26_000, 52_000):
        yield Input("check: wide neverallow rules", n, lambda n=n: wide_policy(wide, 1, n, seed), wide_contexts)
    for question in ("check", "check --all"):
        for n in sizes(600, 1200, 2400):
            rules, contexts = lambda n=n: broken_policy(n, 29, seed), lambda n=n: policy_contexts(n)
            yield Input(f"{question}: 29 broken rules", n, rules, contexts, question=question)
    for question in ("access", "rules", "unused", "types", "diff", "diff --rules"):
        for n in sizes(1000, 2000, 4000):
            rules, contexts = lambda n=n: policy(n, seed), lambda n=n: policy_contexts(n)
            yield Input(f"{question}: types", n, rules, contexts, question=question)
    for n in sizes(25_000, 50_000, 100_000):
        rules, log = lambda: policy(logged, seed), lambda n=n: denials(logged, n, 100, seed)
        yield Input("suggest: denials", n, rules, lambda: policy_contexts(logged), log, n, "suggest")
    for n in sizes(200_000, 400_000, 800_000):
        yield run_input("run: versions", n, n, lambda n=n: versions(n))
    for n in sizes(200_000, 400_000, 800_000):
        yield run_input("run: malformed lines", n, n, lambda n=n: malformed(n))
    for n in sizes(200_000, 400_000, 800_000):
        yield run_input("run: mixed requests", n, n, lambda n=n: mixed(n, seed))
    for n in sizes(1000, 2000, 4000):
        yield run_input("run: names", n, gets, lambda n=n: many_names(n, gets, seed))
    for n in sizes(16, 32, 64):
        yield run_input("run: clients", n, gets, lambda n=n: many_clients(n, gets, seed))
    for n in sizes(5000, 10_000, 20_000):
        yield run_input("run: objects", n, 2 * n, lambda n=n: many_objects(n))
    for n in sizes(50_000, 100_000, 200_000):
        yield run_input("run: calls", n, 3 * n, lambda n=n: calls(n))
    for n in sizes(63, 630, 4095):
        adds = max(notices // n, 1)
        yield run_input("run: watches", n, n + adds * (n + 1), lambda n=n, adds=adds: many_watches(n, adds))
    for n in sizes(20_000, 40_000, 80_000):
        yield run_input("run: deaths", n, 5 * n, lambda n=n: many_deaths(n))
    for n in sizes(10, 20, 40):
        yield run_input("run: reloads", n, n, lambda n=n: reloads(n, reloaded, seed))
    for n in sizes(7500, 15_000, 30_000):
        rules, script = lambda n=n: late_policy(n), lambda: lists(decisions)
        yield Input("run: rules before the one", n, rules, manager_contexts, script, decisions)
