"""Runs the program on a drawn case, and says how its answers differ from the model's."""

import subprocess
from pathlib import Path

from talking import PATIENCE

FILES = ["rules", "contexts", "newrules", "newcontexts"]


class Program:
    """The program in a folder of its own, with the files of a case."""

    def __init__(self, path, folder):
        self.path, self.folder = path, Path(folder)

    def put(self, case):
        for name, text in zip(FILES, (case.rules, case.contexts, case.new_rules, case.new_contexts)):
            (self.folder / name).write_bytes(text.encode("latin-1"))

    def ask(self, words, given=""):
        """What a command line writes to standard output and to standard error, and its status."""
        command, given = [self.path, *words], given.encode("latin-1")
        try:
            ended = subprocess.run(command, cwd=self.folder, input=given, capture_output=True, timeout=PATIENCE)
        except subprocess.TimeoutExpired:
            return "", f"it hasn't ended after {PATIENCE} seconds", None
        return ended.stdout.decode("latin-1"), ended.stderr.decode("latin-1"), ended.returncode


def command_of(question):
    """The command line of a question."""
    command, *words = question
    options, files = [], FILES[:2]
    if command == "explain":
        options, words = ["--name"] if words[0] else [], words[1:]
    elif command in ("access", "rules"):
        names = ["--kind"] * (command == "rules") + ["--source", "--target", "--name", "--class", "--perm"]
        for option, word in zip(names, words):
            options += [option, word] if word is not None else []
        words = []
    elif command == "types":
        options, words = ["--of", *words] if words[0] is not None else [], []
    elif command == "names":
        options, words = ["--source", words[0], *(["--perm", words[1]] if words[1] is not None else [])], []
    elif command == "diff":
        options, words, files = ["--rules"] if words[0] else [], [], FILES
    elif command == "suggest":
        words = []
    return [command, *options, *files, *words]


def commands(case):
    """Each command line of a case, with its input and the model's way to answer it."""
    files = (case.rules, case.contexts)
    script = "".join(case.script)
    run = ["run", "--journal", str(case.slots), *FILES[:2]]
    asked = [
        (run, script, lambda model: model.run(*files, script, case.slots)),
        (["check", "--show", *FILES[:2]], "", lambda model: model.asks("check", *files, FILES[:2])),
        (["check", "--all", "--show", *FILES[:2]], "", lambda model: model.asks("check", *files, FILES[:2], True)),
    ]
    for question in case.questions:
        more = {"diff": (case.new_rules, case.new_contexts, FILES), "rules": FILES[:1], "unused": (FILES[:2],)}
        texts = (*files, *more.get(question[0], ()))

        def answer(model, question=question, texts=texts):
            return model.asks(question[0], *texts, *question[1:])

        given = question[1] if question[0] == "suggest" else ""
        asked.append((command_of(question), given, answer))
    return asked
