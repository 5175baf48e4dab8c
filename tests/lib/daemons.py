"""Running daemons and consoles, each in a folder of its own, and what rows ask of them."""

import contextlib
import os
import resource
import signal
import socket
import subprocess
import sys
import threading
import time

from clients import LIMIT, Client, Console, wait_for, wait_to_listen
from journal_files import Journal
from scripts import Failure, configuration, write
from waves import wave_of


@contextlib.contextmanager
def standing_still(process):
    """The process does nothing meanwhile."""
    process.send_signal(signal.SIGSTOP)
    os.waitpid(process.pid, os.WUNTRACED)
    yield
    process.send_signal(signal.SIGCONT)


def free_port(host="127.0.0.1"):
    family = socket.AF_INET6 if ":" in host else socket.AF_INET
    with socket.socket(family) as bound:
        bound.setsockopt(socket.SOL_SOCKET, socket.SO_REUSEADDR, 1)
        bound.bind((host, 0))
        return bound.getsockname()[1]


def ran(*words, **how):
    """A program that has ended, with what it wrote."""
    return subprocess.run(words, **{"capture_output": True, "timeout": LIMIT, "check": False, **how})


def ran_well(*words, given=b""):
    """What a program printed that must end well."""
    done = ran(*words, input=given, timeout=None)
    if done.returncode:
        raise Failure(f"{words[:3]}: {done.stderr.decode(errors='replace')[-300:]}")
    return done.stdout


def python_with(*modules):
    """A Python that has these modules, this one or Debian's; None where there is none."""
    pythons = (it for it in (sys.executable, "/usr/bin/python3") if os.path.exists(it))
    return next((it for it in pythons if not ran(it, "-c", f"import {', '.join(modules)}").returncode), None)


class Daemon:
    """A running daemon, in a folder of its own with a, b, music/, and what it is told by keywords of the configuration."""

    def __init__(self, program, folder, **settings):
        self.program, self.folder = program, folder
        os.makedirs(f"{folder}/music", exist_ok=True)
        self.port = free_port()
        self.settings = {"tcp": f"127.0.0.1:{self.port}", "unix": "socket", "output": "sound", **settings}
        self.path = os.path.join(folder, "socket")
        self.write()
        self.process, self.lines, self.listening = None, [], None

    def write(self):
        write(f"{self.folder}/c.toml", configuration([f"{key}={value}" for key, value in self.settings.items() if value]))

    def ran(self, *words, **how):
        """The program at a task over its configuration, once that has ended."""
        return ran(self.program, *words, "c.toml", cwd=self.folder, **how)

    def outcome(self, *words, **how):
        """How such a task ends, and the lines of both streams."""
        done = self.ran(*words, text=True, **how)
        return done.returncode, done.stdout.splitlines(), done.stderr.splitlines()

    def create(self):
        done = self.ran("create")
        if done.returncode or done.stdout != b"created\n":
            raise Failure(f"create: {done}")
        return self

    def start(self, *limits, **how):
        """Begins it, and waits until it listens."""
        self.begin(*limits, **how)
        wait_to_listen(self.process, self.path, lambda: self.lines)
        return self

    def begin(self, limits=(), stdout=subprocess.DEVNULL, stderr=subprocess.PIPE, settings=None, ended_by=(), umask=-1):
        """Limits are pairs for setrlimit, settings what its environment has more. What it writes to another standard error than a pipe of
        its own isn't taken. These signals end it too, as in a shell."""

        def limit():
            # Signals end it, also where the test was begun by `nohup`.
            for it in (signal.SIGHUP, signal.SIGINT, signal.SIGTERM, *ended_by):
                signal.signal(it, signal.SIG_DFL)
            for what, count in limits:
                resource.setrlimit(what, (count, resource.getrlimit(what)[1]))

        how = {"cwd": self.folder, "stdin": subprocess.DEVNULL, "stdout": stdout, "stderr": stderr, "umask": umask}
        how |= {"restore_signals": False, "env": {**os.environ, **(settings or {})}}
        self.process = subprocess.Popen([self.program, "serve", "c.toml"], preexec_fn=limit, **how)
        self.listening = threading.Thread(target=self.listen, args=(self.process.stderr or contextlib.nullcontext(),))
        self.listening.start()

    def listen(self, stream):
        """Takes what it writes to standard error."""
        with stream as lines:
            self.lines.extend(line.decode().rstrip("\n") for line in lines or ())

    def console(self, greeted=True, settings=None, **how):
        """A client of a console in its place."""
        return Console(self.program, "c.toml", greeted, cwd=self.folder, env={**os.environ, **(settings or {})}, **how)

    def journal(self):
        return Journal(f"{self.folder}/a", f"{self.folder}/b")

    def client(self, **how):
        return Client(self.path, **how)

    def tcp_client(self, **how):
        return Client(("127.0.0.1", self.port), **how)

    def end(self):
        """Waits for its end; the exit status. All that it wrote to standard error stands in `lines` then."""
        try:
            status = self.process.wait(LIMIT)
        except subprocess.TimeoutExpired as fault:
            raise Failure("it does not end") from fault
        self.listening.join(LIMIT)
        return status

    def kill(self, how=signal.SIGKILL):
        self.process.send_signal(how)
        return self.end()

    def end_by(self, client, seconds=2):
        """A client's `kill` ends it, and soon."""
        begun = time.monotonic()
        client.send("kill\n")
        check("the status", self.end(), 0)
        check("at once", time.monotonic() - begun < seconds, True)

    def has(self, **settings):
        """These values stand in its status."""
        with self.client() as client:
            check("the status", {it: client.value("status", it) for it in settings}, settings)

    def __enter__(self):
        return self

    def __exit__(self, *_):
        if self.process and self.process.poll() is None:
            self.process.kill()
            self.process.wait()


def open_files(process):
    """The paths of the files that it has open."""
    found, folder = [], f"/proc/{process.pid}/fd"
    for it in os.listdir(folder):
        with contextlib.suppress(FileNotFoundError):  # It is closed meanwhile.
            found.append(os.readlink(f"{folder}/{it}"))
    return found


def memory_of(process, name="VmRSS"):
    """What /proc tells of its memory by this name, in KiB: VmRSS what is resident, VmHWM the most since it began."""
    with open(f"/proc/{process.pid}/status", encoding="utf-8") as status:
        return next(int(line.split()[1]) for line in status if line.startswith(f"{name}:"))


def serving(program, folder, **settings):
    """A daemon over a new journal."""
    return Daemon(program, folder, **settings).create().start()


def knowing(program, folder, songs, limits=(), **settings):
    """A daemon over a new journal that has read these songs, each with its samples."""
    daemon = Daemon(program, folder, **settings).create()
    for name, values in songs.items():
        put_song(daemon, name, values)
    with daemon.start(limits).client() as client:
        update(client)
    return daemon


def make_pipe(folder):
    """The folder of a daemon that plays into a pipe."""
    os.makedirs(folder, exist_ok=True)
    os.mkfifo(f"{folder}/sound")


def refused(program, folder, settings, status, lines):
    """A start that must fail so, with these last lines on standard error."""
    ended, _, said = Daemon(program, folder, **settings).outcome("serve")
    if ended != status or said[len(said) - len(lines) :] != list(lines):
        raise Failure(f"{settings}: status {ended}, {said}; wanted {status}, {lines}")


def put_song(daemon, name, values, **how):
    write(f"{daemon.folder}/music/{name}", wave_of(values, **how))


def update(client):
    """Has the music read, and waits until it is."""
    client.do("update")
    client.settle()


def check(what, found, wanted):
    if found != wanted:
        raise Failure(f"{what}: {str(found)[:300]}, not {str(wanted)[:300]}")


@contextlib.contextmanager
def limited(process, what, count):
    """The process has this limit meanwhile."""
    before = resource.prlimit(process.pid, what)
    resource.prlimit(process.pid, what, (count, before[1]))
    yield
    with contextlib.suppress(ProcessLookupError):  # It has ended meanwhile.
        resource.prlimit(process.pid, what, before)
