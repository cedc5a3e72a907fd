"""The commands that judge a policy and answer questions about it, as docs/FORMATS.md says.

Each gives what it writes to standard output and to standard error, and its status."""

import re
from itertools import product

from .lines import is_valid, written
from .policies import CLASSES, MOST_BYTES, RULES, Policy, Refused, is_context, type_of, words_of

ACCESSES = [(kind, perm) for kind, perms in CLASSES for perm in perms]

# The most bytes of a line of a log that is read, and of a log.
MOST_LINE, MOST_LOG = 65536, 67108864


class Unknown(Exception):
    """A word of a question that names nothing."""


def read_policy(rules, contexts, kind=Policy):
    """The policy of two files, of which no more is read than shows that one is too large."""
    return kind(rules[: MOST_BYTES + 1], contexts[: MOST_BYTES + 1])


def lines(found):
    return "".join(f"{line}\n" for line in found)


def statement(rest):
    """The statement with which these lines begin, on one line."""
    found = rest[0].split("#")[0]
    for line in rest[1:]:
        if found.rstrip(" \t\r").endswith(";"):
            break
        front, semicolon, _ = line.split("#")[0].partition(";")
        found = f"{found}\n{front}{semicolon}"
    return re.sub("[ \t\r\n]+", " ", found.strip(" \t\r\n"))[:4096]


def shown(text, numbers, files):
    """The statements and lines of these numbers that a refusal names, each after its file and its number."""
    path, file = files[text.startswith("contexts: ")]
    every = file.split("\n")
    is_whole = text.startswith(("contexts: ", "rules: unsupported "))
    found = [(line, every[line - 1] if is_whole else statement(every[line - 1 :])) for line in numbers]
    return lines(f"{path}:{line}: {text}" for line, text in found)


def check(kind, rules, contexts, paths=None, is_all=False):
    """With two paths, what a refusal names is shown."""
    try:
        policy = read_policy(rules, contexts, kind)
    except Refused as refused:
        refusals, numbers = [refused], refused.lines
        if is_all:
            refusals = refused.all
            numbers = dict.fromkeys(line for found in refusals for line in found.lines)
        files = list(zip(paths, (rules, contexts))) if paths else None
        told = lines(f"policy refused: {found.text}" for found in refusals)
        return told, shown(refused.text, numbers, files) if paths else "", 1
    types, attributes, kept, labels = policy.counts()
    return f"policy ok: {types} types, {attributes} attributes, {kept} rules, {labels} labels\n", "", 0


def asked(question):
    """A question that is answered by a function of its policies, and its faults."""

    def answer(kind, *rest):
        try:
            return question(kind, *rest)
        except Refused as refused:
            return f"policy refused: {refused.text}\n", refused.said, 2
        except Unknown as unknown:
            return "", f"fault: unknown {unknown}\n", 2

    return answer


def known_kind(rule_kind):
    if rule_kind is not None and rule_kind not in RULES:
        raise Unknown(f"kind {rule_kind}")


def known(policy, source, target, kind, perm):
    """Looks up the words that are given, in this order."""
    for what, word, names in (
        ("type", source, policy.types),
        ("type", target, policy.types),
        ("class", kind, [name for name, _ in CLASSES]),
        ("permission", perm, [each for name, each in ACCESSES if kind in (None, name)]),
    ):
        if word is not None and word not in names:
            raise Unknown(f"{what} {word}")


def type_of_name(policy, name):
    return policy.label(name).split(":")[2]


@asked
def label(kind, rules, contexts, name):
    line, context = read_policy(rules, contexts, kind).entry(name)
    return f"{context} {line}\n", "", 0


@asked
def explain(kind, rules, contexts, is_name, source, target, class_, perm):
    policy = read_policy(rules, contexts, kind)
    if is_name:
        target = type_of_name(policy, target)
    known(policy, source, target, class_, perm)
    line = policy.line_of(source, target, class_, perm)
    found = ["unwritten" if line is None else f"allowed {line}"]
    if source in policy.permissive:
        found.append("permissive")
    return lines(found), "", 1 if found == ["unwritten"] else 0


@asked
def access(kind, rules, contexts, source=None, target=None, name=None, class_=None, perm=None):
    policy = read_policy(rules, contexts, kind)
    if name is not None:
        target = type_of_name(policy, name)
    known(policy, source, target, class_, perm)
    wanted = (source, target, class_, perm)
    found = []
    for each in every_access(policy):
        if all(want is None or want == is_ for want, is_ in zip(wanted, each)) and policy.is_allowed(*each):
            line = policy.line_of(*each)
            found.append(f"{' '.join(each)} {'permissive' if line is None else line}")
    return lines(found), "", 0


@asked
def rules(kind, rules, contexts, path, rule_kind=None, source=None, target=None, name=None, class_=None, perm=None):
    policy = read_policy(rules, contexts, kind)
    if name is not None:
        target = type_of_name(policy, name)
    known_kind(rule_kind)
    known(policy, source, target, class_, perm)
    wanted = (source, target, class_, perm)
    left = [
        each for each in every_access(policy) if all(want is None or want == is_ for want, is_ in zip(wanted, each))
    ]
    kept = [rule for each in RULES if rule_kind in (None, each) for rule in policy.rules[each]]
    found = sorted(rule.line for rule in kept if any(rule.covers(*each) for each in left))
    every = rules.split("\n")
    return lines(f"{path}:{line}: {statement(every[line - 1 :])}" for line in found), "", 0


@asked
def types(kind, rules, contexts, name=None):
    policy = read_policy(rules, contexts, kind)
    if name is not None and name not in policy.types + policy.attributes:
        raise Unknown(f"type {name}")
    found = [
        ("type", each, *(other for other in policy.attributes if other in policy.attributes_of[each]))
        for each in policy.types
    ]
    found += [
        ("attribute", each, *(other for other in policy.types if each in policy.attributes_of[other]))
        for each in policy.attributes
    ]
    return lines(" ".join(words) for words in found if name in (None, words[1])), "", 0


@asked
def names(kind, rules, contexts, source, perm=None):
    policy, perm = read_policy(rules, contexts, kind), perm or "find"
    known(policy, source, None, "service_manager", perm)
    found = [(key, type_of(context)) for _, key, context in policy.entries]
    listed = [each for each in found if policy.is_allowed(source, each[1], "service_manager", perm)]
    return lines(" ".join(each) for each in listed), "", 0


def covered_by(policy, rule):
    return {access for access in every_access(policy) if rule.covers(*access)}


def unused_rules(policy):
    granted, found = set(), []
    for rule in policy.rules["allow"]:
        covered = covered_by(policy, rule)
        found += [("rule", rule.line)] if covered <= granted else []
        granted |= covered
    return found + [
        ("dontaudit", rule.line) for rule in policy.rules["dontaudit"] if covered_by(policy, rule) <= granted
    ]


def unused_names(policy):
    """The attributes and then the types that are of no use."""
    words = {word for each in RULES for rule in policy.rules[each] for word in rule.words}
    given = {name for names in policy.attributes_of.values() for name in names}
    used = words | set(policy.permissive) | {type_of(context) for _, _, context in policy.entries}
    for rule in policy.rules["allow"] + policy.rules["dontaudit"]:
        used.update(rule.sources, rule.targets)
    attributes = [("attribute", name) for name in policy.attributes if name not in given & words]
    return attributes + [("type", name) for name in policy.types if name not in used]


def unused_keys(policy):
    """The lines and the keys of the entries that are of no use."""
    added = {access[1] for access in every_access(policy) if access[3] == "add" and policy.is_allowed(*access)}
    entries = [(line, key, type_of(context)) for line, key, context in policy.entries if key != "*"]
    return [(line, key) for line, key, name in entries if not is_valid(key) or name not in added]


@asked
def unused(kind, rules, contexts, paths):
    policy, every = read_policy(rules, contexts, kind), rules.split("\n")
    found = [f"{word} {paths[0]}:{n}: {statement(every[n - 1 :])}" for word, n in unused_rules(policy)]
    found += [f"{word} {paths[0]}:{policy.line_of_name[name]}: {name}" for word, name in unused_names(policy)]
    found += [f"key {paths[1]}:{line}: {written(key)}" for line, key in unused_keys(policy)]
    return lines(found), "", 1 if found else 0


def record_of(line):
    """The source, target, class, permissions and name of a line's record, or nothing."""
    words = words_of(line)
    for before in ("avc:", "denied", "{"):
        if before not in words:
            return None
        words = words[words.index(before) + 1 :]
    if "}" not in words:
        return None
    perms, fields = words[: words.index("}")], words[words.index("}") + 1 :]
    source, target, class_, name = (
        [word.removeprefix(key) for word in fields if word.startswith(key)]
        for key in ("scontext=", "tcontext=", "tclass=", "name=")
    )
    if [len(source), len(target), len(class_)] != [1, 1, 1] or len(name) > 1:
        return None
    if not is_context(source[0]) or not is_context(target[0]):
        return None
    return type_of(source[0]), type_of(target[0]), class_[0], perms, name_in(name[0]) if name else None


def name_in(word):
    digits = re.fullmatch("%((?:[0-9a-fA-F]{2})*)", word)
    return bytes.fromhex(digits[1]).decode("latin-1") if digits else word


def verdict(policy, name, *access):
    """What a policy says of an access to the service of a name, or to none."""
    for word in access[:2]:
        if word not in policy.types:
            return f"unknown {word}"
    line = policy.line_of(*access)
    if line is not None:
        return f"allowed {line}"
    for rule in policy.rules["neverallow"]:
        if rule.covers(*access):
            return f"forbidden {rule.line}"
    return "missing" if name is None or name in policy.keys() else f"default {written(name)}"


@asked
def suggest(kind, rules, contexts, log):
    policy = read_policy(rules, contexts, kind)
    if len(log) > MOST_LOG:
        return "", "fault: log: too large\n", 2
    counts, skipped = {}, 0
    for line in log.split("\n"):
        skipped += len(line) > MOST_LINE
        record = record_of(line) if len(line) <= MOST_LINE else None
        if record is None:
            continue
        source, target, class_, perms, name = record
        target = target if name is None else type_of_name(policy, name)
        for access in ((source, target, *each) for each in ACCESSES if each[0] == class_ and each[1] in perms):
            found = f"{verdict(policy, name, *access)} {' '.join(access)}"
            counts[found] = counts.get(found, 0) + 1
    told = [f"{found} {count}" for found, count in counts.items()] + [f"skipped {skipped}"] * (skipped > 0)
    return lines(told), "", 0 if all(line.startswith("allowed ") for line in told) else 1


def every_access(policy):
    return [(source, target, *access) for source, target, access in product(policy.types, policy.types, ACCESSES)]


def only_first(first, second):
    """The accesses that only the first policy allows."""
    return [each for each in every_access(first) if first.is_allowed(*each) and not second.is_allowed(*each)]


def read_named(rules, contexts, kind, paths):
    """One of two policies, whose refusal names its files."""
    try:
        return read_policy(rules, contexts, kind)
    except Refused as refused:
        refused.said = f"fault: {' '.join(paths)}: policy refused\n"
        raise


def granting_rules(first, second, path, text):
    """The rules that are the first to grant what only the first policy allows, each behind its count."""
    counts, every = {}, text.split("\n")
    for each in only_first(first, second):
        line = first.line_of(*each)
        counts[line] = counts.get(line, 0) + 1
    without = counts.pop(None, 0)
    found = [f"{counts[line]} {path}:{line}: {statement(every[line - 1 :])}" for line in sorted(counts)]
    return found + [f"{without} permissive"] * (without > 0)


@asked
def diff(kind, rules, contexts, new_rules, new_contexts, paths, by_rules=False):
    old = read_named(rules, contexts, kind, paths[:2])
    new = read_named(new_rules, new_contexts, kind, paths[2:])
    if by_rules:
        found = [f"- {each}" for each in granting_rules(old, new, paths[0], rules)]
        found += [f"+ {each}" for each in granting_rules(new, old, paths[2], new_rules)]
    else:
        found = [f"- {' '.join(each)}" for each in only_first(old, new)]
        found += [f"+ {' '.join(each)}" for each in only_first(new, old)]
    for key in old.keys() + [key for key in new.keys() if key not in old.keys()]:
        if old.label(key) != new.label(key):
            found.append(f"~ {key} {old.label(key)} {new.label(key)}")
    for sign, one, other in (("-", old, new), ("+", new, old)):
        only = [name for name in one.types if name in one.permissive and name not in other.permissive]
        found += [f"{sign} permissive {name}" for name in only]
    return lines(found), "", 1 if found else 0
