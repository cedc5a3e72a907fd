"""A container in which systemd runs, with what examples/install installs: for checks/systemd.

Its programs are those of this machine's /usr, which it can't change. Its other folders are its own, and so is its
network. Of units it has what systemd has in /usr and what is installed, up to `basic.target`."""

import contextlib
import json
import os
import re
import shutil
import signal
import subprocess
import tempfile
from pathlib import Path

from operating.servers import comes_true
from talking import PATIENCE, ROOT, Connection, LeftOut, Wrong

UNITS = "svcmgr.socket", "svcmgr-admin.socket", "svcmgr-doorkeeper.service", "svcmgr.service"

# What is process 1. systemd-nspawn passes no control of memory where the kernel has it in a hierarchy of its own.
START = """if [ -d /memory ]; then mount --bind /memory /sys/fs/cgroup/memory; fi
exec /usr/lib/systemd/systemd systemd.unit=basic.target"""

GROUPS = Path("/sys/fs/cgroup")

# Whether systemd runs here. It makes the control groups of containers then.
IS_BOOTED = Path("/run/systemd/system").exists()


@contextlib.contextmanager
def control_groups(name):
    """Control groups for a container, by the names of their hierarchies, as far as systemd doesn't make them."""
    made = {}
    try:
        for one in ["memory"] if IS_BOOTED else ["", "systemd", "unified", "memory"]:
            if os.access(GROUPS / one / "cgroup.procs", os.W_OK):
                made[one] = GROUPS / one / name
                made[one].mkdir()
        yield made
    finally:
        for group in made.values():
            comes_true(lambda group=group: is_removed(group), f"{group} is removed")


def is_removed(group):
    """Whether no process is in a control group or below it. It is removed then."""
    with contextlib.suppress(OSError):
        for folder, _, _ in os.walk(group, topdown=False):
            os.rmdir(folder)
    return not group.exists()


def make_root(program, folder):
    """The folders of a container: its root, and what is installed into it."""
    root, installed = folder / "root", folder / "installed"
    for name in "etc/svcmgr", "etc/systemd/system", "dev", "proc", "run", "sys", "tmp", "usr", "var":
        (root / name).mkdir(parents=True)
    for link in Path("/").iterdir():
        if link.is_symlink() and str(link.readlink()).lstrip("/").startswith("usr/"):
            (root / link.name).symlink_to(link.readlink())
    (root / "etc/machine-id").write_text(f"{os.urandom(16).hex()}\n")
    shutil.copy(ROOT / "examples" / "enter.py", root / "etc")
    env = os.environ | {"SVCMGR": str(Path(program).resolve()), "DESTDIR": str(installed)}
    subprocess.run([ROOT / "examples" / "install"], env=env, check=True, capture_output=True, timeout=PATIENCE)
    return root, installed


@contextlib.contextmanager
def host_of(folder, root, installed):
    """The systemd-nspawn of a container. The check is left out where none can be started."""
    name = f"svcmgr-{os.getpid()}"
    with control_groups(name) as groups:
        words = ["systemd-nspawn", "--quiet", "--register=no", "--console=pipe", "--private-network"]
        words += [f"--machine={name}", f"--directory={root}", "--bind-ro=/usr"]
        words += [f"--bind={installed}/{it}:/{it}" for it in ("usr/local", "etc/svcmgr")]
        if not IS_BOOTED:
            words.append("--keep-unit")
        if "memory" in groups:
            words.append(f"--bind={groups['memory']}:/memory")

        def enter():
            for one, group in groups.items():
                if one != "memory":
                    (group / "cgroup.procs").write_text("0")

        with open(folder / "log", "w+") as log:
            how = {"stdin": subprocess.DEVNULL, "stdout": log, "stderr": log, "preexec_fn": enter}
            if subprocess.run([*words, "/bin/true"], **how, timeout=PATIENCE).returncode:
                raise LeftOut(f"systemd-nspawn starts no container: {(folder / 'log').read_text().strip()[-200:]}")
            yield subprocess.Popen([*words, "/bin/sh", "-c", START], **how)


def first_process(host):
    """The number here of a container's process 1, or nothing."""
    with contextlib.suppress(FileNotFoundError):
        for number in Path(f"/proc/{host.pid}/task/{host.pid}/children").read_text().split():
            if re.search(r"^NSpid:.*\t1$", Path(f"/proc/{number}/status").read_text(), re.MULTILINE):
                return int(number)
    return None


@contextlib.contextmanager
def booted(program):
    """A container whose systemd is up. Its first process is killed at the end, and with it all others."""
    with tempfile.TemporaryDirectory(prefix="systemd-", dir="/tmp") as name:
        folder = Path(name)
        folder.chmod(0o755)
        root, installed = make_root(program, folder)
        with host_of(folder, root, installed) as host:
            try:
                comes_true(lambda: host.poll() is not None or first_process(host), "process 1 starts")
                if host.poll() is not None:
                    raise Wrong((folder / "log").read_text().strip()[-200:])
                yield Container(first_process(host), installed).up()
            finally:
                if number := first_process(host):
                    os.kill(number, signal.SIGKILL)
                else:
                    host.kill()
                host.wait(PATIENCE)


class Container:
    """A running container. Paths are those in it, without their `/`."""

    def __init__(self, leader, installed):
        self.leader, self.installed, self.since = leader, installed, 0

    def up(self):
        """Waits until systemd has started, and makes the users of the units."""
        comes_true(lambda: self.run("systemctl", "is-active", "basic.target").returncode == 0, "systemd is up")
        self.does("systemd-sysusers", "/usr/local/lib/sysusers.d/svcmgr.conf")
        self.reset()
        return self

    def path(self, name):
        return Path(f"/proc/{self.leader}/root/{name}")

    def run(self, *words, user=0, **others):
        """Runs a command in the container."""
        into = "--mount", "--uts", "--ipc", "--net", "--pid", "--setuid", str(user), "--setgid", str(user)
        how = {"capture_output": True, "text": True, "timeout": PATIENCE} | others
        return subprocess.run(["nsenter", f"--target={self.leader}", *into, "--", *words], **how)

    def does(self, *words, **others):
        """What a command prints, which must succeed."""
        ended = self.run(*words, **others)
        if ended.returncode:
            raise Wrong(f"{' '.join(words)} has status {ended.returncode}: {ended.stderr.strip()[-300:]}")
        return ended.stdout

    def show(self, unit, name):
        """A property of a unit."""
        return self.does("systemctl", "show", "--value", f"--property={name}", unit).rstrip("\n")

    def state(self, unit="svcmgr"):
        return f"{self.show(unit, 'ActiveState')} {self.show(unit, 'SubState')}"

    def is_running(self):
        return self.state() == "active running"

    def process(self, unit="svcmgr"):
        """The number in the container of a unit's process."""
        return int(self.show(unit, "MainPID"))

    def read(self, number, name):
        """A file of /proc about a process of the container."""
        return self.path(f"proc/{number}/{name}").read_text()

    def client(self):
        return Connection(self.path("run/svcmgr/clients"))

    def admin(self):
        return Connection(self.path("run/svcmgr/admins"))

    def network(self, number):
        """The network of a process."""
        return os.readlink(self.path(f"proc/{number}/ns/net"))

    def setting(self, unit, name):
        """A setting of a service's unit, as it is installed."""
        found = re.search(f"^{name}=(.*)$", self.unit_text(f"{unit}.service"), re.MULTILINE)
        if not found:
            raise Wrong(f"{unit}.service has no {name}=")
        return found[1]

    def unit_text(self, unit):
        return (self.installed / "usr/local/lib/systemd/system" / unit).read_text()

    def replace_unit(self, unit, text):
        """A unit in place of the one that is installed."""
        self.path(f"etc/systemd/system/{unit}").write_text(text)
        self.does("systemctl", "daemon-reload")

    def edit_unit(self, unit, old, new):
        text = self.unit_text(unit)
        if old not in text:
            raise Wrong(f"{unit} doesn't have {old!r}")
        self.replace_unit(unit, text.replace(old, new))

    def write(self, name, text):
        """Writes a file of the policy's folder."""
        (self.installed / "etc/svcmgr" / name).write_text(text)

    def entries(self, *options):
        """Those of the journal, oldest first."""
        return map(json.loads, self.does("journalctl", "--quiet", "--output=json", *options).splitlines())

    def journal(self, *options, unit="svcmgr"):
        """The priorities and the lines of a unit's programs in the journal, since the last reset."""
        entries = [it for it in self.entries(f"--unit={unit}", *options) if it.get("SYSLOG_IDENTIFIER") == unit]
        return [(int(it["PRIORITY"]), it["MESSAGE"]) for it in entries if time_of(it) > self.since]

    def reset(self):
        """Stops the units, and leaves them and the policy as they were installed."""
        self.run("systemctl", "stop", *UNITS)
        for unit in UNITS:
            self.path(f"etc/systemd/system/{unit}").unlink(missing_ok=True)
        for name in "policy.te", "service_contexts":
            self.write(name, (ROOT / "examples" / name).read_text())
        shutil.rmtree(self.path("run/svcmgr"), ignore_errors=True)
        self.does("systemctl", "daemon-reload")
        self.run("systemctl", "reset-failed", *UNITS)
        self.does("journalctl", "--sync")
        self.since = time_of(*self.entries("--lines=1"))
        return self


def time_of(entry):
    return int(entry["__MONOTONIC_TIMESTAMP"])
