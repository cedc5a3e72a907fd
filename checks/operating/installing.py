"""What examples/install puts where, and what it leaves of an administrator's policy."""

import os
import subprocess
from itertools import chain
from pathlib import Path

from operating.servers import check, expect, room
from talking import BROKEN, PATIENCE, ROOT

POLICY = {"etc/svcmgr/policy.te", "etc/svcmgr/service_contexts"}

# The files whose text is that of the repository's, besides the program and the units.
COPIES = {
    "bin/svcmgr-doorkeeper": "examples/doorkeeper",
    "etc/svcmgr/policy.te": "examples/policy.te",
    "etc/svcmgr/service_contexts": "examples/service_contexts",
    "lib/sysusers.d/svcmgr.conf": "examples/svcmgr.sysusers",
    "share/bash-completion/completions/svcmgr": "examples/completion.bash",
    "share/bash-completion/completions/svcmgr-doorkeeper": "examples/completion.bash",
    "share/man/man1/svcmgr.1": "docs/svcmgr.1",
    "share/man/man8/svcmgr-doorkeeper.8": "docs/svcmgr-doorkeeper.8",
}


def install(program, folder, *words):
    """Installs below a folder, or uninstalls; returns what it says of the policy's folder."""
    env = os.environ | {"SVCMGR": str(Path(program).resolve())}
    words = [ROOT / "examples" / "install", "--prefix", str(folder), *words]
    ended = subprocess.run(words, env=env, capture_output=True, text=True, timeout=PATIENCE)
    expect((ended.returncode, ended.stderr), (0, ""), f"{words} ends with")
    return [line for line in ended.stdout.splitlines() if line.startswith("kept ")]


def there(folder):
    return {str(path.relative_to(folder)) for path in folder.rglob("*") if not path.is_dir()}


def texts(program, prefix, settings):
    """The text of each file that is installed below a prefix. Units get it, and the policy's folder."""
    found = {"bin/svcmgr": Path(program).read_bytes()}
    found |= {file: (ROOT / source).read_bytes() for file, source in COPIES.items()}
    for unit in chain(*(ROOT.glob(f"examples/svcmgr*.{kind}") for kind in ("service", "socket"))):
        text = unit.read_text().replace("/usr/local/bin/", f"{prefix}/bin/")
        found[f"lib/systemd/system/{unit.name}"] = text.replace("/etc/svcmgr/", f"{settings}/").encode()
    return found


def expect_text(folder, name, wanted):
    expect((folder / name).read_bytes() == wanted, True, f"{name} is what it is installed from")
    runs = name.startswith("bin/")
    expect((folder / name).stat().st_mode & 0o777, 0o755 if runs else 0o644, f"the mode of {name}")


@check
def what_is_installed(program):
    """Each file with its text and its mode, and units with the paths of the prefix; then nothing."""
    with room() as name:
        folder = Path(name).resolve() / "local"
        expect(install(program, folder), [], "what is kept")
        wanted = texts(program, folder, folder / "etc" / "svcmgr")
        expect(there(folder), set(wanted), "files")
        for file, text in wanted.items():
            expect_text(folder, file, text)
        words = [folder / "bin" / "svcmgr", "check", *(folder / file for file in sorted(POLICY))]
        expect(subprocess.run(words, capture_output=True, timeout=PATIENCE).returncode, 0, "the installed svcmgr check")
        expect(install(program, folder, "--uninstall"), [], "what is kept")
        expect(there(folder), set(), "files that are left")
        expect((folder / "etc" / "svcmgr").exists(), False, "the policy's folder is left")


@check
def policy_of_an_administrator(program):
    """It stays as it is, also where it is one file alone."""
    for own in POLICY, *({file} for file in POLICY):
        with room() as name:
            folder = Path(name).resolve()
            for file in own:
                (folder / file).parent.mkdir(parents=True, exist_ok=True)
                (folder / file).write_text(BROKEN)
            for words in [], ["--uninstall"]:
                expect(len(install(program, folder, *words)), 1, "lines about what is kept")
                expect(there(folder) & POLICY, own, "files of the policy")
                expect({(folder / file).read_text() for file in own}, {BROKEN}, "texts of the policy")
            expect(there(folder), own, "files that are left")
