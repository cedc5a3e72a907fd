"""The pages of docs/reading: what contracts rest on, by crate and file, lowest first."""

import re
import textwrap
from dataclasses import dataclass, field
from heapq import heapify, heappop, heappush
from pathlib import Path

from reviewing.antt import Unread
from reviewing.contracts import contract, functions, reading
from reviewing.nodes import VIEW, Nodes
from reviewing.repository import RUST, Key

# The pages, in the order in which they are read: what an earlier one has is only named in a later one.
PAGES = {
    "verdict": ["sm_history::Verdict::verdict"],
    "check": ["sm_questions::checking::check", "sm_questions::judging::check_all"],
    "questions": [
        "sm_questions::labelling::label",
        "sm_questions::explaining::explain",
        "sm_questions::listing::access",
        "sm_questions::rule_listing::rules",
        "sm_listings::listing::types",
        "sm_listings::naming::names",
        "sm_suggestions::suggesting::suggest",
        "sm_unused::listing::unused",
        "sm_questions::comparing::diff",
        "sm_questions::rule_diff::diff_rules",
    ],
    "run_script": ["sm_script::running::run_script"],
    "serve": ["sm_serve::serving::serve"],
}

WIDTH = 120
HEAD = """# What {names} on

{count}: what a reviewer reads to know what {contracts} says. They are without comments, and lowest first: a definition comes
after those that it rests on. `checks/reading NAME` prints them with those that other pages have, where NAME is {paths}.
`checks/reading --update` writes this page.
"""


class Unknown(Exception):
    """A name of no contract, or of several."""


@dataclass
class Page:
    """What some contracts rest on, arranged; and the lines of its text."""

    names: list
    nodes: list = field(default_factory=list)
    outer: list = field(default_factory=list)

    def lines(self):
        return sum(len(lines_of(node)) for node in self.nodes)

    def count(self):
        return f"{len(self.nodes):,} definitions, {self.lines():,} lines"


def lines_of(node):
    return [line.rstrip() for line in node.lines if line.strip()]


class Library:
    """The contracts and the definitions of the repository, by their names."""

    def __init__(self, repository):
        self.repository, self.nodes = repository, Nodes(repository)
        self.functions = {it.names(): it for it in functions(repository)}
        self.definitions = {}
        for crate in repository.crates:
            for path in sorted((repository.root / "crates" / crate / "specs").rglob("*.antt")):
                file = str(path.relative_to(repository.root))
                module = path.relative_to(repository.root / "crates" / crate / "specs").with_suffix("").parts
                for name in repository.definitions(file).declarations:
                    self.definitions["::".join([crate, *module, name])] = Key(file, name)

    def find(self, name):
        """The whole name of a public function with a contract, or of a definition."""
        if name in self.functions or name in self.definitions:
            return name
        public = [it for it, function in self.functions.items() if function.item.is_public]
        found = [it for it in [*public, *self.definitions] if it.endswith(f"::{name}")]
        if len(found) != 1:
            raise Unknown("\n".join([f"no contract {name}" if not found else f"{name} is one of these:", *found]))
        return found[0]

    def page(self, names):
        """What the contracts of these whole names rest on."""
        page, outer = Page(names), set()
        for name in names:
            found = reading(self.nodes, self.root(name))
            known = {node.key for node in page.nodes}
            page.nodes += [node for node in found.nodes if node.key not in known]
            outer |= found.outer
        page.nodes = self.arranged(page.nodes)
        page.outer = sorted({outer_name(it) for it in outer})
        return page

    def root(self, name):
        if name in self.functions:
            return contract(self.nodes, self.functions[name])
        return self.nodes.node(self.definitions[name])

    def arranged(self, nodes):
        """These nodes so that each comes after those that it rests on, and by crate and file as far as that allows."""
        keys = {node.key for node in nodes}
        viewed = {key.whole(): key for key in keys if key.part == VIEW}
        below = {node.key: self.nodes.below(node) for node in nodes}
        below = {key: {viewed.get(it, it) for it in found} for key, found in below.items()}
        files = files_in_order([node.key.path for node in nodes], below)
        crates = self.repository.crates
        place = {node.key: (crates.index(crate_of(node)), files.index(node.key.path), node.order) for node in nodes}
        by_key = {node.key: node for node in nodes}
        waits = {key: (found & keys) - {key} for key, found in below.items()}
        above = {key: [other for other in waits if key in waits[other]] for key in keys}
        ready = [(place[key], count, key) for count, key in enumerate(waits) if not waits[key]]
        heapify(ready)
        found = []
        while ready:
            key = heappop(ready)[2]
            found.append(by_key[key])
            for other in above[key]:
                waits[other].remove(key)
                if not waits[other]:
                    heappush(ready, (place[other], len(keys) + len(found), other))
        if len(found) != len(nodes):
            raise Unread("definitions rest on each other")
        return found


def files_in_order(paths, below):
    """The files of these items, each after those that it rests on, unless these rest on it too."""
    begun, order, files = set(), [], {path: set() for path in paths}
    for key, targets in below.items():
        files[key.path] |= {it.path for it in targets if it.path in files}

    def visit(path):
        begun.add(path)
        for other in sorted(files[path]):
            if other not in begun:
                visit(other)
        order.append(path)

    for path in files:
        if path not in begun:
            visit(path)
    return order


def crate_of(node):
    return Path(node.key.path).parts[1]


def file_of(node):
    return "/".join(Path(node.key.path).parts[2:])


def outer_name(it):
    return "::".join(it.path[-2:]) if it.path[0] == "Rust" and it.path[-2] in RUST else it.name


def grouped(nodes, word):
    """The nodes in groups of neighbours of which the word is the same."""
    groups = []
    for node in nodes:
        if not groups or word(groups[-1][0]) != word(node):
            groups.append([])
        groups[-1].append(node)
    return groups


def printed(page):
    """The lines that a command prints of a page."""
    found = []
    for group in grouped(page.nodes, lambda it: it.key.path):
        found += [f"-- {group[0].key.path}", ""]
        for node in group:
            found += [*lines_of(node), ""]
    return [*found, f"-- of the kit: {' '.join(page.outer)}"]


def shown_name(node):
    return node.key.name if node.key.part in ("", VIEW) else f"{node.key.name}.{node.key.part}"


def wrapped(text):
    return textwrap.wrap(text, WIDTH, break_long_words=False, break_on_hyphens=False)


def written(page, earlier):
    """The text of a page. `earlier` has the page of each definition that an earlier one has."""
    short = [f"`{name.split('::')[-1]}`" for name in page.names]
    rests = f"{listed(short)} {'rests' if len(short) == 1 else 'rest'}"
    says = short[0] if len(short) == 1 else "each of them"
    paths = listed([f"`{name}`" for name in page.names], "or")
    head = HEAD.format(names=rests, count=page.count(), contracts=says, paths=paths)
    title, *body = head.split("\n\n")
    found = [title, "", *sum(([*wrapped(" ".join(part.split())), ""] for part in body), [])]
    for crate in grouped(page.nodes, crate_of):
        found += [f"## {crate_of(crate[0])}", ""]
        found += named_elsewhere(crate, earlier)
        for group in grouped([node for node in crate if node.key not in earlier], file_of):
            found += [f"`{file_of(group[0])}`:", "", "```"]
            found += sum(([*lines_of(node), ""] for node in group), [])[:-1]
            found += ["```", ""]
    found += ["## The kit", "", *wrapped("Here a reading ends: " + ", ".join(f"`{name}`" for name in page.outer) + ".")]
    return "\n".join(found) + "\n"


def named_elsewhere(nodes, earlier):
    """Lines with the names of those that an earlier page has."""
    by_page = {}
    for node in nodes:
        if node.key in earlier:
            by_page.setdefault(earlier[node.key], []).append(f"`{shown_name(node)}`")
    found = []
    for name, names in by_page.items():
        found += [*wrapped(f"On [{name}.md]({name}.md): {', '.join(names)}."), ""]
    return found


def listed(words, last="and"):
    return words[0] if len(words) == 1 else f"{', '.join(words[:-1])} {last} {words[-1]}"


def all_pages(library):
    """The text of each page, by its path."""
    earlier, found = {}, {}
    for name, names in PAGES.items():
        page = library.page(names)
        found[Path("docs", "reading", f"{name}.md")] = written(page, earlier)
        for node in page.nodes:
            earlier.setdefault(node.key, name)
    return found


def restated(text, library):
    """A page with the right numbers behind each `checks/reading CONTRACT` that it gives numbers for, or None without."""
    form = r"(`checks/reading (\S+)`[^`.]*?)[\d,]+ definitions, [\d,]+ lines"
    found, number = re.subn(form, lambda it: it[1] + library.page([library.find(it[2])]).count(), text)
    return found if number else None
