"""The home of a user in which contrib/install works, the daemon that runs there by the lines of its unit, and scripts as modules."""

import importlib.machinery
import importlib.util
import os
import shlex
import signal
import stat
import subprocess

from clients import LIMIT, Client, wait_to_listen
from daemons import free_port
from scripts import Failure, write
from scripts import read as content

ROOT = os.path.dirname(os.path.dirname(os.path.dirname(os.path.abspath(__file__))))
CONTRIB = f"{ROOT}/contrib"
NAME = "mpd_daemon"
MANAGER = """#!/bin/sh
echo "$*" >> {calls}
case " $* " in *" {refused} "*) exit 1 ;; esac
"""


class Home:
    """The home of a user, and what contrib/install does there; no systemd runs, unless one is feigned."""

    def __init__(self, folder, program):
        self.path, self.program, self.port = f"{folder}/home", program, free_port()
        self.folder, self.units = f"{self.path}/.local/share/{NAME}", f"{self.path}/.config/systemd/user"
        self.config, self.unit = f"{self.folder}/{NAME}.toml", f"{self.units}/{NAME}.service"
        self.installed, self.music = f"{self.path}/.local/bin/{NAME}", f"{self.folder}/music"
        self.tools = f"{folder}/tools"
        for it in (self.path, self.tools, f"{folder}/run"):
            os.makedirs(it)
        left_out = {"XDG_CONFIG_HOME", "DBUS_SESSION_BUS_ADDRESS"}
        self.environment = {key: it for key, it in os.environ.items() if key not in left_out}
        self.environment |= {"HOME": self.path, "XDG_RUNTIME_DIR": f"{folder}/run", "PATH": f"{self.tools}:{os.environ['PATH']}"}
        self.feign_manager("show-environment")

    def feign_manager(self, refused):
        """A systemctl that notes how it is called, and refuses this word."""
        put(f"{self.tools}/systemctl", MANAGER.format(calls=shlex.quote(f"{self.tools}/calls"), refused=refused), 0o755)

    def calls(self):
        return content(f"{self.tools}/calls").decode().splitlines()

    def run(self, *words, status=0):
        """What contrib/install prints."""
        words = [f"{CONTRIB}/install", *words]
        done = subprocess.run(words, env=self.environment, capture_output=True, text=True, timeout=LIMIT, check=False)
        if done.returncode != status:
            raise Failure(f"{words[1:]}: status {done.returncode}, {done.stdout}{done.stderr}")
        return done.stdout + done.stderr

    def install(self, *words, **how):
        return self.run(self.program, "--tcp", f"127.0.0.1:{self.port}", *words, **how)

    def uninstall(self, **how):
        return self.run("--uninstall", **how)

    def client(self):
        return Client(("127.0.0.1", self.port))


class Service:
    """A daemon that runs by the lines of a unit."""

    def __init__(self, home):
        self.home, said = home, settings_of(home.unit)
        words = shlex.split(said["ExecStart"][0].replace("%h", home.path))
        folder = said["WorkingDirectory"][0].replace("%h", home.path)
        how = {"stdin": subprocess.DEVNULL, "stdout": subprocess.DEVNULL, "stderr": subprocess.PIPE, "umask": int(said["UMask"][0], 8)}
        self.process = subprocess.Popen(words, cwd=folder, **how)

    def __enter__(self):
        wait_to_listen(self.process, ("127.0.0.1", self.home.port), self.process.stderr.read)
        return self.home.client()

    def __exit__(self, *_):
        self.process.send_signal(signal.SIGTERM)
        self.process.wait(LIMIT)
        self.process.stderr.close()


def put(path, text, mode=0o644):
    write(path, text)
    os.chmod(path, mode)


def settings_of(unit):
    """The values of each key of a unit, in order."""
    found = {}
    for line in content(unit).decode().replace("\\\n", " ").splitlines():
        key, is_setting, value = line.partition("=")
        if is_setting and not line.startswith("#"):
            found.setdefault(key, []).append(value)
    return found


def run_before(unit, folder, root, word=""):
    """Runs what a unit has before its daemon, where it has this word, in this folder, with the files below this root; what that told."""
    told = ""
    for line in settings_of(unit).get("ExecStartPre", ()):
        if word not in line:
            continue
        may_fail, line = line.startswith("-"), line.lstrip("-")
        line = line.replace("/usr/local/bin/", f"{root}/usr/local/bin/").replace("/etc/", f"{root}/etc/")
        done = subprocess.run(shlex.split(line), cwd=folder, capture_output=True, text=True, timeout=LIMIT, umask=0o007, check=False)
        if done.returncode and not may_fail:
            raise Failure(f"{line}: status {done.returncode}, {done.stderr}")
        told += done.stdout + done.stderr
    return told


def tree(folder):
    """What stands below a folder: kind, mode, time and content of each path."""
    found = {}
    for at, folders, names in os.walk(folder):
        for path in [*(f"{at}/{it}" for it in folders), *(f"{at}/{it}" for it in names)]:
            looked = os.lstat(path)
            data = content(path) if stat.S_ISREG(looked.st_mode) else None
            found[os.path.relpath(path, folder)] = looked.st_mode, looked.st_mtime_ns, data
    return found


def files_in(folder):
    """What stands below a folder but for folders."""
    return {path for path, (mode, *_) in tree(folder).items() if not stat.S_ISDIR(mode)}


def mode_of(path):
    return stat.S_IMODE(os.lstat(path).st_mode)


def script_of(path):
    """A script of the checkout as a module."""
    loader = importlib.machinery.SourceFileLoader(os.path.basename(path), f"{ROOT}/{path}")
    module = importlib.util.module_from_spec(importlib.util.spec_from_loader(os.path.basename(path), loader))
    loader.exec_module(module)
    return module
