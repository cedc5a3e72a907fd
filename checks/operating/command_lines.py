"""Command lines: scripts, checks and questions, and what is said of those that can't be answered."""

import os
import re
import select
import subprocess
from itertools import chain, product

from operating.servers import HELLO, check, expect, room
from talking import BROKEN, DEVICE, LABELS, PATIENCE, ROOT, Lines, Wrong

TOUR = (ROOT / "examples" / "tour.te").read_text()
OPENS = "allow servicemanager self:binder set_context_mgr;\n"
TOUR_LABELS = (ROOT / "examples" / "tour_contexts").read_text()


@check
def refused_command_lines(program):
    lines = [
        ["--socket", "", "--admin", "a"],
        ["--socket", "s", "--admin", ""],
        ["--socket", "s", "--admin", "s"],
        ["--socket", "s", "--admin", "a", "--status", ""],
        ["--socket", "s", "--admin", "a", "--status", "s"],
        ["--socket", "s", "--admin", "a", "--status", "a"],
        ["--socket", "s", "--admin", "a", "--mode", "1777"],
        ["--socket", "s", "--admin", "a", "--mode", "rw"],
        ["--socket", "s", "--admin", "a", "--seal-at", "1"],
        ["--socket", "s", "--admin", "a", "--journal", "9", "--seal-at", "5"],
        ["--socket", "s", "--admin", "a", "--seal-at", "524289"],
        ["--socket", "s", "--admin", "a", "--seal-bytes", "4095"],
        ["--socket", "s", "--admin", "a", "--journal", "+9"],
        ["--socket", "s", "--admin", "a", "--workers", "016"],
        ["--socket", "s", "--admin", "a", "--audit-rate", "5"],
        ["--socket", "s", "--admin", "a", "--audit", "--audit-rate", "1000001"],
        ["--socket", "s", "--admin", "a", "--audit", "--audit-rate", "00"],
        ["--socket", "s", "--admin", "a", "--take-wait", "60001"],
        ["--socket", "s", "--admin", "a", "--take-wait", "-1"],
        ["--socket", "s", "--admin", "a", "--take-wait", "01"],
    ]
    with room() as folder:
        for words in lines:
            words = [program, "serve", *words, "rules", "labels"]
            ended = subprocess.run(words, cwd=folder, capture_output=True, timeout=PATIENCE)
            expect((ended.returncode, ended.stdout), (2, b""), f"{words} ends with")
            if not ended.stderr.startswith(b"error: "):
                raise Wrong(f"{words} says {ended.stderr!r}")
    ended = subprocess.run([program, "--version"], capture_output=True, timeout=PATIENCE)
    expect((ended.returncode, ended.stderr), (0, b""), "--version ends with")
    if not ended.stdout.startswith(b"svcmgr "):
        raise Wrong(f"--version says {ended.stdout!r}")


def help_of(program, *words):
    ended = subprocess.run([program, *words, "--help"], capture_output=True, text=True, timeout=PATIENCE)
    expect((ended.returncode, ended.stdout), (2, ""), f"{[*words, '--help']} ends with")
    return ended.stderr


def commands_in(text):
    """The commands that a help lists, less the parser's own."""
    return set(re.findall(r"^  ([a-z]+) ", text, re.MULTILINE)) - {"help"}


def options_in(text):
    return set(re.findall(r"--[a-z-]+", text))


@check
def pages_of_options(program):
    """The manual page and the completion have the commands and the options of `--help`, and no others."""
    commands, requests = commands_in(help_of(program)), commands_in(help_of(program, "admin"))
    expect(completed("svcmgr "), commands | {"--help", "--version"}, "svcmgr is completed to")
    expect(completed("svcmgr admin "), requests, "svcmgr admin is completed to")
    found = set()
    for command in commands:
        options = options_in(help_of(program, command))
        expect(completed(f"svcmgr {command} -"), options, f"svcmgr {command} - is completed to")
        found |= options
    expect("answers malformed" in help_of(program, "admin"), True, "svcmgr admin --help tells of the wrong socket")
    manual = re.findall(r"\.?Fl -([a-z-]+)", (ROOT / "docs" / "svcmgr.1").read_text())
    expect({f"--{name}" for name in manual}, found | {"--version"}, "docs/svcmgr.1 has")


# What is around the rules in a `policy.conf`, in the order of its sections.
COMPILED = (
    """class service_manager
class binder
sid kernel
class service_manager { add find list }
class binder { impersonate call set_context_mgr transfer }
sensitivity s0;
dominance { s0 }
category c0;
level s0:c0;
mlsconstrain binder call (l1 eq l2);
policycap network_peer_controls;
""",
    """role r;
role r types domain;
user u roles { r } level s0 range s0 - s0:c0;
sid kernel u:r:servicemanager:s0
fs_use_xattr ext4 u:object_r:activity_service:s0;
genfscon proc / u:object_r:activity_service:s0
""",
)


@check
def page_of_compiled_policies(program):
    """What docs/ANDROID.md makes of a `policy.conf` are the rules, on the lines where they were."""
    page = (ROOT / "docs" / "ANDROID.md").read_text()
    command = re.search(r"^(examples/rules-of policy\.conf > policy\.te)$", page, re.MULTILINE)[1]
    before, behind = COMPILED
    asked = [
        (["bash", "-c", f"{ROOT}/{command}"], ""),
        ([program, "check", "policy.te", "labels"], "policy ok: 6 types, 2 attributes, 8 rules, 2 labels\n"),
        (
            [program, *"explain policy.te labels untrusted_app activity_service service_manager find".split()],
            f"allowed {len(before.splitlines()) + 17}\n",
        ),
    ]
    with room() as folder:
        (folder / "policy.conf").write_text(before + DEVICE + behind)
        (folder / "labels").write_text(LABELS)
        for words, told in asked:
            ended = subprocess.run(words, cwd=folder, capture_output=True, text=True, timeout=PATIENCE)
            expect((ended.returncode, ended.stdout, ended.stderr), (0, told, ""), f"{words} ends with")


# Sources the completion, and prints what it completes the last of its words to.
COMPLETE = """source "$0" && COMP_WORDS=("$@") COMP_CWORD=$(($# - 1)) && "_${1//-/_}" &&
    printf '%s\n' "${COMPREPLY[@]}" """

# Command lines in a folder with the files `labels` and `rules`, and what their last word is completed to.
COMPLETED = [
    ("svcmgr a", "access admin"),
    ("svcmgr run ", "labels rules"),
    ("svcmgr check r", "rules"),
    ("svcmgr check --s", "--show"),
    ("svcmgr admin v", "version"),
    ("svcmgr admin --admin ", "labels rules"),
    ("svcmgr admin --admin rules ", "version denials seal reload explain"),
    ("svcmgr admin --admin rules s", "seal"),
    ("svcmgr admin reload ", "labels rules"),
    ("svcmgr admin reload rules l", "labels"),
    ("svcmgr admin --admin rules reload ", "labels rules"),
    ("svcmgr access --class ", "service_manager binder"),
    ("svcmgr access rules labels --class b", "binder"),
    ("svcmgr access --perm ", "add find list impersonate call set_context_mgr transfer"),
    ("svcmgr access --class binder --perm c", "call"),
    ("svcmgr access --class binder ", "labels rules"),
    ("svcmgr access --source ", "labels rules"),
    ("svcmgr ru", "run rules"),
    ("svcmgr un", "unused"),
    ("svcmgr unused --", "--help"),
    ("svcmgr unused ", "labels rules"),
    ("svcmgr rules --k", "--kind"),
    ("svcmgr rules --kind ", "allow neverallow dontaudit"),
    ("svcmgr rules rules labels --kind d", "dontaudit"),
    ("svcmgr rules --kind allow --class s", "service_manager"),
    ("svcmgr rules --perm t", "transfer"),
    ("svcmgr rules --kind allow ", "labels rules"),
    ("svcmgr t", "types"),
    ("svcmgr types --o", "--of"),
    ("svcmgr types --of domain ", "labels rules"),
    ("svcmgr n", "names"),
    ("svcmgr names --s", "--source"),
    ("svcmgr names --perm ", "add find list"),
    ("svcmgr names --source app ", "labels rules"),
    ("svcmgr su", "suggest"),
    ("svcmgr suggest --h", "--help"),
    ("svcmgr suggest ", "labels rules"),
    ("svcmgr diff rules labels n", ""),
    ("svcmgr diff --r", "--rules"),
    ("svcmgr-doorkeeper --re", "--relay"),
    ("svcmgr-doorkeeper --relay --mo", "--mode"),
    ("svcmgr-doorkeeper --socket ", "labels rules"),
    ("svcmgr-doorkeeper --socket rules --server l", "labels"),
    ("svcmgr-doorkeeper --contexts r", "rules"),
    ("svcmgr-doorkeeper --seats ", ""),
    ("svcmgr-doorkeeper --mode 6", ""),
]


def completed(line, folder=None):
    """What the last word of a command line is completed to."""
    words = ["bash", "-c", COMPLETE, ROOT / "examples" / "completion.bash", *line.split(" ")]
    ended = subprocess.run(words, cwd=folder, capture_output=True, text=True, timeout=PATIENCE)
    expect((ended.returncode, ended.stderr), (0, ""), f"the completion of {line!r} ends with")
    return set(ended.stdout.split())


@check
def completed_words(program):
    with room() as folder:
        for name in ("labels", "rules"):
            (folder / name).touch()
        for line, words in COMPLETED:
            expect(completed(line, folder), set(words.split()), f"{line!r} is completed to")


# A statement of a refused policy at line 22 of its source, and what is shown of it.
NEVER = "neverallow untrusted_app *:service_manager add;"
SHOWN = [
    (NEVER, NEVER),
    ("neverallow untrusted_app\n\t*:service_manager {\r\n  add # find;\n\n};", NEVER.replace("add", "{ add }")),
    ("neverallow untrusted_app *:service_manager add # it;\n  ; type other;", NEVER.replace(";", " ;")),
    (f";;{NEVER} # end", f";;{NEVER}"),
    (NEVER.replace("add", "{" + " add" * 2000 + "}"), NEVER.replace("add", "{" + " add" * 2000 + "}")[:4096]),
]


@check
def shown_statements(program):
    with room() as folder:
        (folder / "labels").write_text(LABELS)
        for written, shown in SHOWN:
            (folder / "rules").write_text(BROKEN.replace(NEVER, written))
            words = [program, "check", "--show", "rules", "labels"]
            ended = subprocess.run(words, cwd=folder, capture_output=True, text=True, timeout=PATIENCE)
            expect(ended.stderr.splitlines()[0], f"rules:22: {shown}", f"of {written!r} it is shown")
            expect((ended.returncode, len(ended.stderr.splitlines())), (1, 2), f"{written!r} ends with")


@check
def scripts_and_checks(program):
    """The statuses of `run` and `check`, and what they say."""
    broken = "neverallow at line 22 by allow at line 24: untrusted_app activity_service service_manager add\n"
    shown = (
        "broken:22: neverallow untrusted_app *:service_manager add;\n"
        "broken:24: allow { domain -system_server } activity_service:service_manager { add find };\n"
    )
    denied = "open denied servicemanager servicemanager binder set_context_mgr\n"
    missing = "fault: nowhere: No such file or directory (os error 2)\n"
    asked = [
        (["run", "rules", "labels"], 0, "client 1\nok\nbye\n", ""),
        (["run", "broken", "labels"], 1, "", f"policy refused: {broken}"),
        (["run", "unopened", "labels"], 1, "", denied),
        (["run", "nowhere", "labels"], 1, "", missing),
        (["check", "rules", "labels"], 0, "policy ok: 6 types, 2 attributes, 8 rules, 2 labels\n", ""),
        (["check", "broken", "labels"], 1, f"policy refused: {broken}", ""),
        (["check", "--show", "broken", "labels"], 1, f"policy refused: {broken}", shown),
        (["check", "--show", "rules", "labels"], 0, "policy ok: 6 types, 2 attributes, 8 rules, 2 labels\n", ""),
        (["check", "--all", "rules", "labels"], 0, "policy ok: 6 types, 2 attributes, 8 rules, 2 labels\n", ""),
        (["check", "--all", "--show", "broken", "labels"], 1, f"policy refused: {broken}", shown),
        (["check", "--all", "nowhere", "labels"], 1, "", missing),
        (["check", "unopened", "labels"], 0, "policy ok: 6 types, 2 attributes, 7 rules, 2 labels\n", ""),
        (["check", "nowhere", "labels"], 1, "", missing),
        (["serve", "--socket", "s", "--admin", "a", "unopened", "labels"], 1, "", denied),
    ]
    with room() as folder:
        texts = ("rules", DEVICE), ("broken", BROKEN), ("unopened", DEVICE.replace(OPENS, "")), ("labels", LABELS)
        for name, text in texts:
            (folder / name).write_text(text)
        script = f"{HELLO}\n1 add activity o1 0 8\n1 bye\n".encode()
        for words, status, told, said in asked:
            ended = subprocess.run([program, *words], cwd=folder, input=script, capture_output=True, timeout=PATIENCE)
            came = ended.returncode, ended.stdout.decode(), ended.stderr.decode()
            expect(came, (status, told, said), f"{' '.join(words)} ends with")


# Faults of command lines, each as the words that it puts in place of good ones, its status and what is said of it.
UNKNOWN_OPTION = ({"option": "--unknown"}, 2, "error: ")
UNKNOWN_TYPE = ({"untrusted_app": "app"}, 2, "fault: unknown type app\n")
DENIED = ({"rules": "unopened"}, 1, "open denied servicemanager servicemanager binder set_context_mgr\n")


def missing(word, path, file="", status=1):
    return {word: path}, status, f"fault: {file or path}: No such file or directory (os error 2)\n"


def faults_of_policy(rules, labels, line, status=1, named=False):
    """A file of a policy is missing, or the policy is refused by this line of its rules or its labels. One of two
    policies is named then."""

    def refused(bad, text):
        files = " ".join(f"bad-{file}" if file == bad else file for file in (rules, labels))
        said = f"fault: {files}: policy refused\n" if named else ""
        return {bad: f"bad-{bad}"}, status, f"policy refused: {text} {line}\n{said}"

    files = [[missing(file, f"no-{file}", status=status)] for file in (rules, labels)]
    return *files, [refused(rules, "rules: unknown name at line"), refused(labels, "contexts: bad line")]


# The good words of each command, and its faults in the order in which they are looked for.
FIRST = [UNKNOWN_OPTION], *faults_of_policy("rules", "labels", 1)
ASKED = [UNKNOWN_OPTION], *faults_of_policy("rules", "labels", 1, 2), [UNKNOWN_TYPE]
OLD, NEW = faults_of_policy("rules", "labels", 1, 2, True), faults_of_policy("new", "newlabels", 2, 2, True)
SOCKETS = [missing("socket", "gone/s", "gone/s.lock")], [missing("admin", "away/a", "away/a.lock")]
FAULTS = {
    "run rules labels": [*FIRST, [DENIED]],
    "check rules labels": FIRST,
    "serve --socket socket --admin admin rules labels": [*FIRST, [DENIED], *SOCKETS],
    "explain rules labels untrusted_app activity_service service_manager find": ASKED,
    "access --source untrusted_app rules labels": ASKED,
    "rules --source untrusted_app rules labels": ASKED,
    "types --of untrusted_app rules labels": ASKED,
    "names --source untrusted_app rules labels": ASKED,
    "suggest rules labels": ASKED[:-1],
    "unused rules labels": ASKED[:-1],
    "diff rules labels new newlabels": [[UNKNOWN_OPTION], *OLD, *NEW],
    "diff --rules rules labels new newlabels": [[UNKNOWN_OPTION], *OLD, *NEW],
}


def faulty_lines(words, faults):
    """The words of each command line with one fault or two, with the status and what is said of the earlier one."""
    for at, earlier in enumerate(faults):
        for (first, *ending), (second, *_) in product(earlier, [({},), *chain(*faults[at + 1 :])]):
            if not first.keys() & second.keys():
                given = first | second
                options = [given["option"]] if "option" in given else []
                yield [words[0], *(given.get(word, word) for word in words[1:]), *options], *ending


@check
def order_of_faults(program):
    texts = {
        "rules": DEVICE,
        "labels": LABELS,
        "new": DEVICE,
        "newlabels": LABELS,
        "bad-rules": "permissive app;\n",
        "bad-labels": "activity\n",
        "bad-new": "\npermissive app;\n",
        "bad-newlabels": "\nactivity\n",
        "unopened": DEVICE.replace(OPENS, ""),
    }
    with room() as folder:
        for name, text in texts.items():
            (folder / name).write_text(text)
        for command, faults in FAULTS.items():
            for words, status, said in faulty_lines(command.split(), faults):
                ended = subprocess.run([program, *words], cwd=folder, capture_output=True, timeout=PATIENCE)
                came = (ended.stdout + ended.stderr).decode()
                # The rest of what is said of a wrong command line is the library's.
                came = said if said == "error: " and came.startswith(said) else came
                expect((ended.returncode, came), (status, said), f"{' '.join(words)} ends with")


@check
def script_of_many_reads(program):
    """Each line is read by itself."""
    with room() as folder:
        (folder / "rules").write_text(DEVICE)
        (folder / "labels").write_text(LABELS)
        streams = {"stdin": subprocess.PIPE, "stdout": subprocess.PIPE, "stderr": subprocess.STDOUT, "bufsize": 0}
        with subprocess.Popen([program, "run", "rules", "labels"], cwd=folder, **streams) as child:
            replies = Lines(child.stdout.fileno())
            for line, reply in [(HELLO, "client 1"), *[("1 version", "version 1 2")] * 1000]:
                child.stdin.write(f"{line}\n".encode())
                expect(replies.line(), f"{reply}\n", f"{line!r} is answered")


# A file of rules that is compared with the tour's, and its labels.
NEW_TOUR = TOUR.replace(
    "allow untrusted_app system_server:binder transfer;\n",
    "allow untrusted_app private_service:service_manager find;\n",
)
# Two rules without which the tour's policy is the same.
NEEDLESS = """allow untrusted_app activity_service:service_manager find;
dontaudit untrusted_app activity_service:service_manager find;
"""

NEW_TOUR_LABELS = """activity u:object_r:activity_service:s0
window   u:object_r:private_service:s0
*        u:object_r:private_service:s0
media    u:object_r:activity_service:s0
"""

QUESTIONS = [
    ("label rules labels activity", 0, "u:object_r:activity_service:s0 1\n"),
    ("label rules labels foo", 0, "u:object_r:private_service:s0 3\n"),
    ("explain rules labels untrusted_app activity_service service_manager find", 0, "allowed 27\n"),
    ("explain rules labels untrusted_app activity_service service_manager add", 1, "unwritten\n"),
    ("explain --name rules labels isolated_app window service_manager find", 0, "allowed 28\n"),
    ("explain permissive labels isolated_app activity_service service_manager find", 0, "allowed 28\npermissive\n"),
    ("explain permissive labels isolated_app activity_service service_manager add", 0, "unwritten\npermissive\n"),
    (
        "access rules labels --source isolated_app",
        0,
        "isolated_app servicemanager binder call 20\nisolated_app activity_service service_manager find 28\n",
    ),
    (
        "access rules labels --name window --perm find",
        0,
        "system_server activity_service service_manager find 24\n"
        "untrusted_app activity_service service_manager find 27\n"
        "isolated_app activity_service service_manager find 28\n",
    ),
    (
        "access --target system_server --class binder rules labels",
        0,
        "servicemanager system_server binder call 32\n"
        "servicemanager system_server binder transfer 11\n"
        "untrusted_app system_server binder call 34\n"
        "untrusted_app system_server binder transfer 35\n",
    ),
    ("access rules labels --source private_service", 0, ""),
    (
        "rules rules labels --source isolated_app",
        0,
        "rules:20: allow isolated_app servicemanager:binder call;\n"
        "rules:28: allow isolated_app activity_service:service_manager find;\n",
    ),
    (
        "rules device devicelabels --source untrusted_app --name activity",
        0,
        "device:17: allow binderuser activity_service:service_manager find;\n"
        "device:22: neverallow untrusted_app *:service_manager add;\n",
    ),
    (
        "rules --kind allow --target activity_service --class service_manager --perm find device devicelabels",
        0,
        "device:17: allow binderuser activity_service:service_manager find;\n",
    ),
    ("rules device devicelabels --kind dontaudit", 0, ""),
    ("types --of binderuser device devicelabels", 0, "attribute binderuser system_server untrusted_app isolated_app\n"),
    ("types device devicelabels --of system_server", 0, "type system_server domain binderuser\n"),
    ("names --source untrusted_app device devicelabels", 0, "activity activity_service\n"),
    ("names device devicelabels --perm add --source system_server", 0, "activity activity_service\n"),
    ("names --perm list device devicelabels --source=untrusted_app", 0, ""),
    ("unused rules labels", 0, ""),
    (
        "unused needless labels",
        1,
        "rule needless:36: allow untrusted_app activity_service:service_manager find;\n"
        "dontaudit needless:37: dontaudit untrusted_app activity_service:service_manager find;\n",
    ),
    (
        "unused declared keys",
        1,
        "attribute declared:36: nobody\ntype declared:37: nothing\nkey keys:4: %613a62\n",
    ),
    ("diff rules labels rules labels", 0, ""),
    ("diff --rules rules labels rules labels", 0, ""),
    (
        "diff rules labels new newlabels",
        1,
        "- untrusted_app system_server binder transfer\n"
        "+ untrusted_app private_service service_manager find\n"
        "~ window u:object_r:activity_service:s0 u:object_r:private_service:s0\n"
        "~ media u:object_r:private_service:s0 u:object_r:activity_service:s0\n",
    ),
    (
        "diff rules labels device devicelabels",
        1,
        "- system_server private_service service_manager add\n"
        "- system_server private_service service_manager find\n"
        "+ servicemanager isolated_app binder call\n"
        "+ isolated_app servicemanager binder transfer\n"
        "~ window u:object_r:activity_service:s0 u:object_r:default_android_service:s0\n"
        "~ * u:object_r:private_service:s0 u:object_r:default_android_service:s0\n",
    ),
]

# Questions without an answer, with what is said on standard output and on standard error.
UNKNOWN_NAME = "policy refused: rules: unknown name at line 1\n"
NOWHERE = "fault: nowhere: No such file or directory (os error 2)\n"
UNANSWERED = [
    ("explain rules labels app activity_service service_manager find", "", "fault: unknown type app\n"),
    ("explain rules labels untrusted_app activity service_manager find", "", "fault: unknown type activity\n"),
    ("explain rules labels untrusted_app activity_service file read", "", "fault: unknown class file\n"),
    ("explain rules labels untrusted_app activity_service binder find", "", "fault: unknown permission find\n"),
    ("access rules labels --source app", "", "fault: unknown type app\n"),
    ("access rules labels --class binder --perm find", "", "fault: unknown permission find\n"),
    ("rules rules labels --kind auditallow --source app", "", "fault: unknown kind auditallow\n"),
    ("rules rules labels --kind allow --source app", "", "fault: unknown type app\n"),
    ("types rules labels --of app", "", "fault: unknown type app\n"),
    ("names rules labels --source app", "", "fault: unknown type app\n"),
    ("names rules labels --source untrusted_app --perm call", "", "fault: unknown permission call\n"),
    ("label nowhere labels foo", "", NOWHERE),
    ("explain rules nowhere untrusted_app activity_service service_manager find", "", NOWHERE),
    ("access rules nowhere", "", NOWHERE),
    ("rules rules nowhere", "", NOWHERE),
    ("types rules nowhere", "", NOWHERE),
    ("names rules nowhere --source untrusted_app", "", NOWHERE),
    ("suggest rules nowhere", "", NOWHERE),
    ("unused rules nowhere", "", NOWHERE),
    ("diff rules labels nowhere labels", "", NOWHERE),
    ("diff --rules rules labels nowhere labels", "", NOWHERE),
    ("label refused labels foo", UNKNOWN_NAME, ""),
    ("explain refused labels untrusted_app activity_service service_manager find", UNKNOWN_NAME, ""),
    ("access refused labels", UNKNOWN_NAME, ""),
    ("rules refused labels", UNKNOWN_NAME, ""),
    ("types refused labels", UNKNOWN_NAME, ""),
    ("names refused labels --source app", UNKNOWN_NAME, ""),
    ("suggest refused labels", UNKNOWN_NAME, ""),
    ("unused refused labels", UNKNOWN_NAME, ""),
    ("diff refused labels rules labels", UNKNOWN_NAME, "fault: refused labels: policy refused\n"),
    (
        "diff rules labels rules refused",
        "policy refused: contexts: bad line 1\n",
        "fault: rules refused: policy refused\n",
    ),
]


def tour_in(folder):
    """The tour's policy and others in a folder."""
    texts = {
        "rules": TOUR,
        "labels": TOUR_LABELS,
        "new": NEW_TOUR,
        "newlabels": NEW_TOUR_LABELS,
        "device": DEVICE,
        "devicelabels": LABELS,
        "permissive": TOUR + "permissive isolated_app;\n",
        "needless": TOUR + NEEDLESS,
        "declared": TOUR + "attribute nobody;\ntype nothing;\n",
        "keys": TOUR_LABELS + "a:b u:object_r:activity_service:s0\n",
        "refused": "permissive app;\n",
    }
    for name, text in texts.items():
        (folder / name).write_text(text)


@check
def questions(program):
    """The answers to questions and their statuses, and the faults of questions without an answer."""
    asked = [(line, status, told, "") for line, status, told in QUESTIONS]
    asked += [(line, 2, told, said) for line, told, said in UNANSWERED]
    with room() as folder:
        tour_in(folder)
        for line, status, told, said in asked:
            words, none = [program, *line.split()], subprocess.DEVNULL
            ended = subprocess.run(words, cwd=folder, stdin=none, capture_output=True, timeout=PATIENCE)
            came = ended.returncode, ended.stdout.decode(), ended.stderr.decode()
            expect(came, (status, told, said), f"{line} ends with")


DENIED_FIND = (
    "avc: denied {{ find }} for pid=7 uid=10007 name={name} scontext=u:r:{source}:s0 tcontext=u:object_r:rest:s0 "
    "tclass=service_manager permissive=0\n"
)
LOGS = [
    ("", "", 0),
    ("no denial\n\x00\xff\n", "", 0),
    (
        DENIED_FIND.format(name="activity", source="untrusted_app") * 2,
        "allowed 17 untrusted_app activity_service service_manager find 2\n",
        0,
    ),
    (
        DENIED_FIND.replace("find", "add").format(name="activity", source="untrusted_app"),
        "forbidden 22 untrusted_app activity_service service_manager add 1\n",
        1,
    ),
    (
        DENIED_FIND.format(name="%613a62", source="untrusted_app"),
        "default %613a62 untrusted_app default_android_service service_manager find 1\n",
        1,
    ),
    (
        DENIED_FIND.format(name="activity", source="system_app"),
        "unknown system_app system_app activity_service service_manager find 1\n",
        1,
    ),
    ("avc:".ljust(65536) + "\n" + "avc:".ljust(65537) + "\n", "skipped 1\n", 1),
]
MOST_LOG = 67108864


@check
def suggestions(program):
    """What `suggest` says of logs, also of one that is as large as a log may be, and of a larger one."""
    asked = [(log.encode("latin-1"), status, told, "") for log, told, status in LOGS]
    asked += [(b"\n" * MOST_LOG, 0, "", ""), (b"\n" * (MOST_LOG + 1), 2, "", "fault: log: too large\n")]
    with room() as folder:
        tour_in(folder)
        for log, status, told, said in asked:
            words = [program, "suggest", "device", "devicelabels"]
            ended = subprocess.run(words, cwd=folder, input=log, capture_output=True, timeout=PATIENCE)
            came = ended.returncode, ended.stdout.decode(), ended.stderr.decode()
            expect(came, (status, told, said), f"suggest of {log[:200]!r} ends with")


def wait_until_nobody_reads(pipe):
    """Waits while a child of another experiment, which runs no program of its own yet, still has the other end."""
    ends = select.poll()
    ends.register(pipe, 0)
    if not ends.poll(PATIENCE * 1000):
        raise Wrong("the other end of a pipe is still open")


@check
def unread_answers(program):
    """Answers that can't be written: quiet if nobody reads them, and then neither `allowed` nor `no difference`."""
    asked = [
        ("label rules labels activity", 0),
        ("access rules labels", 0),
        ("rules rules labels", 0),
        ("types rules labels", 0),
        ("names device devicelabels --source untrusted_app", 0),
        ("suggest rules labels", 1),
        ("unused needless labels", 1),
        ("explain rules labels untrusted_app activity_service service_manager find", 1),
        ("diff rules labels new newlabels", 1),
        ("diff --rules rules labels new newlabels", 1),
        ("label refused labels activity", 2),
        ("check --all --show refused labels", 1),
    ]
    log = DENIED_FIND.format(name="activity", source="untrusted_app").encode()
    with room() as folder:
        tour_in(folder)
        for line, status in asked:
            words, given = [program, *line.split()], {"cwd": folder, "input": log, "timeout": PATIENCE}
            there, here = os.pipe()
            os.close(there)
            wait_until_nobody_reads(here)
            ended = subprocess.run(words, stdout=here, stderr=subprocess.PIPE, **given)
            os.close(here)
            expect((ended.returncode, ended.stderr), (status, b""), f"{line} ends with, if nobody reads,")
            with open("/dev/full", "wb") as full:
                ended = subprocess.run(words, stdout=full, stderr=subprocess.PIPE, **given)
            came, status = (ended.returncode, ended.stderr), 1 if words[1] == "check" else 2
            expect(came, (status, b"fault: a write failed\n"), f"{line} ends with, if the disk is full,")
