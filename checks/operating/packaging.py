"""The Debian package that examples/deb makes."""

import gzip
import os
import re
import shutil
import subprocess
from pathlib import Path

from operating.installing import POLICY, texts
from operating.servers import check, expect, room
from talking import ROOT, LeftOut

# Seconds for a command of Debian's. lintian takes five of them where nothing else runs.
SLOW = 300

# The package's files beside those that are installed, and the programs of its installation and removal.
DOCUMENTS = {"changelog.gz", "changelog.Debian.gz", "copyright"}
SCRIPTS = {"postinst", "prerm", "postrm"}


def said(*words, env=None):
    """What a command writes, which must succeed."""
    ended = subprocess.run(words, env=env, stdout=subprocess.PIPE, stderr=subprocess.STDOUT, text=True, timeout=SLOW)
    expect((ended.returncode, ended.stdout if ended.returncode else ""), (0, ""), f"{words[0]} ends with")
    return ended.stdout


def made(program, folder):
    """The path of the package of a program."""
    if not shutil.which("dpkg-deb"):
        raise LeftOut("dpkg-deb isn't installed")
    env = os.environ | {"SVCMGR": str(Path(program).resolve())}
    return said(ROOT / "examples" / "deb", folder, env=env).strip()


def packed(name):
    """Where the package has a file that is installed below a prefix."""
    if name in POLICY:
        return name
    return f"usr/{name}.gz" if "/man/" in name else f"usr/{name}"


def text_of(path):
    return gzip.decompress(path.read_bytes()) if path.suffix == ".gz" else path.read_bytes()


def expect_entries(package, files):
    """The package has these files, and each of its files and folders is root's with the usual permissions."""
    lines = [line.split(maxsplit=5) for line in said("dpkg-deb", "--contents", package).splitlines()]
    for mode, owner, *_, path in lines:
        usual = "drwxr-xr-x" if path.endswith("/") else "-rwxr-xr-x" if path.startswith("./usr/bin/") else "-rw-r--r--"
        expect((mode, owner), (usual, "root/root"), f"{path} has")
    packed_files = {path[2:] for *_, path in lines if not path.endswith("/")}
    expect(files - packed_files, set(), "files that the package hasn't")
    expect(packed_files - files, set(), "further files of the package")


@check
def debian_package(program):
    """It has what is installed below /usr, the policy as configuration files, and the program's version."""
    with room() as name:
        package, tree = made(program, name), Path(name) / "tree"
        said("dpkg-deb", "--raw-extract", package, tree)
        installed = {packed(file): text for file, text in texts(program, "/usr", "/etc/svcmgr").items()}
        documents = {f"usr/share/doc/svcmgr/{file}" for file in DOCUMENTS} | {"usr/share/lintian/overrides/svcmgr"}
        expect_entries(package, {*installed, *documents})
        for file, text in installed.items():
            expect(text_of(tree / file) == text, True, f"{file} is what is installed")
        conffiles = set(said("dpkg-deb", "--info", package, "conffiles").split())
        expect(conffiles, {f"/{file}" for file in POLICY}, "configuration files")
        expect(set(re.findall(r" \*  (\w+)", said("dpkg-deb", "--info", package))), SCRIPTS, "scripts")
        version = said(program, "--version").split()[1]
        expect(said("dpkg-deb", "--field", package, "Version").strip(), f"{version}-1", "the version")


@check
def lintian_of_the_package(program):
    """lintian finds no error and no warning that isn't explained in the package."""
    if not shutil.which("lintian"):
        raise LeftOut("lintian isn't installed")
    with room() as name:
        expect(said("lintian", "--allow-root", made(program, name)), "", "lintian says")
