"""Changes recorded cases, to see that the player finds what differs."""

import random
import re

UNSEEN_PAIR = {"= -5 Can't unregister, known client.", "= -5 Can't unregister, pending client."}
FOUND = re.compile(r"= \d+\.\d+")


def lines_of(text, first):
    """The lines of a case, and the indices of those that begin with this, behind `[lines]`."""
    lines = text.split("\n")
    return lines, [n for n in range(lines.index("[lines]"), len(lines)) if lines[n].startswith(first)]


def kind_at(lines, answer):
    """The kind of request that has the answer with this index."""
    words = next(lines[n] for n in range(answer, 0, -1) if lines[n].startswith("> ")).split(" ")[1:]
    kind = words[1] if words[0].isdigit() else words[0]
    return "get" if kind == "check" else kind


def swapped(lines, pairs, draw):
    """The text after two lines have changed places, of a pair of indices that is drawn."""
    if not pairs:
        return None
    one, other = draw.choice(pairs)
    lines[one], lines[other] = lines[other], lines[one]
    return "\n".join(lines)


def swap_answers(text, draw):
    """Two different answers to requests of a kind change places."""
    lines, answers = lines_of(text, "= ")
    bare = [n for n in answers if not lines[n + 1].startswith("~")]

    def is_seen(one, other):
        both = {lines[one], lines[other]}
        kinds = {kind_at(lines, one), kind_at(lines, other)}
        found = all(FOUND.fullmatch(line) for line in both)
        return len(both) == 2 and len(kinds) == 1 and both != UNSEEN_PAIR and not found

    pairs = [(one, other) for one in bare for other in bare if one < other and is_seen(one, other)]
    return swapped(lines, [] if "~ nul-name" in lines else pairs, draw)


def swap_found(text, draw):
    """Two objects that were found change places. It shows if svcmgr's replies tell later which is which."""
    lines, answers = lines_of(text, "= ")
    found = [n for n in answers if FOUND.fullmatch(lines[n])]
    return swapped(lines, [(m, n) for m in found for n in found if m < n and lines[m] != lines[n]], draw)


def swap_notices(text, draw):
    """Two notices of one client, which it takes later, change places."""
    lines, notices = lines_of(text, "+ ")

    def is_seen(n):
        one, other = lines[n], lines[n + 1]
        is_taken = f"= {one}" in lines and f"= {other}" in lines
        return is_taken and one != other and one.split(".")[0] == other.split(".")[0]

    return swapped(lines, [(n, n + 1) for n in notices if n + 1 in notices and is_seen(n)], draw)


def drop(first):
    """A line that begins so is dropped. Of notices, one that is taken later."""

    def change(text, draw):
        lines, found = lines_of(text, first)
        if first == "+ ":
            found = [n for n in found if f"= {lines[n]}" in lines]
        if not found or "~ nul-name" in lines:
            return None
        del lines[draw.choice(found)]
        return "\n".join(lines)

    return change


def put_mark(text, draw):
    """A mark is put at an answer."""
    lines, answers = lines_of(text, "= ")
    marks = ["adder-code", "in-use timer: 0", "isolated-watch", "clause-line", "adder-pid"]
    lines.insert(draw.choice(answers) + 1, f"~ {draw.choice(marks)}")
    return "\n".join(lines)


def alter(pattern, index, other):
    """A word of a request with this pattern is another one."""

    def change(text, draw):
        lines, requests = lines_of(text, "> ")
        fitting = [n for n in requests if re.fullmatch(f"> {pattern}", lines[n])]
        if not fitting:
            return None
        n = draw.choice(fitting)
        words = lines[n].split(" ")
        words[index] = other(words[index])
        lines[n] = " ".join(words)
        return "\n".join(lines)

    return change


ADD = r"\d+ add \S+ \S+ [01] \d+"

# What must show in a case, and what need not.
SEEN = {
    "two answers swapped": swap_answers,
    "an answer dropped": drop("= "),
    "a notice dropped": drop("+ "),
    "two notices of one client swapped": swap_notices,
    "an audit line dropped": drop("avc "),
    "a mark dropped": drop("~ "),
    "a mark put in": put_mark,
}
MAYBE_SEEN = {
    "two found objects swapped": swap_found,
    "allowIsolated turned": alter(ADD, 5, lambda word: "10"[int(word)]),
    "other dump flags": alter(ADD, 6, lambda word: str((int(word) ^ 15) & 31)),
    "another mask": alter(r"\d+ list \d+", 3, lambda word: "31" if word == "0" else "0"),
    "another user": alter("hello .*", 3, lambda word: "10001" if int(word) % 100_000 < 10_000 else "1000"),
    "another object": alter(r"\d+ (add|watch|unwatch|unregister) \S+ o\d.*", 4, lambda word: "o77"),
}
CHANGES = {**SEEN, **MAYBE_SEEN}


def changed(name, text, count):
    """Pairs of a kind of change and the changed text of a case, from a seed: its name."""
    for n in range(count):
        draw = random.Random(f"{name} {n}")
        kind = list(CHANGES)[(n + draw.randrange(len(CHANGES))) % len(CHANGES)]
        other = CHANGES[kind](text, draw)
        if other not in (None, text):
            yield kind, other
