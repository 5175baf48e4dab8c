"""What is run over the built programs: one list of parts, for `tests/gate` over the proved programs and `tests/run` over checked builds.

A part is a command of tests/, which exits with 0 where all is well. Parts run side by side."""

import concurrent.futures
import contextlib
import glob
import os
import re
import shutil
import subprocess
import tempfile
import threading
import time
from typing import NamedTuple

import builds
from scripts import text_of

TESTS = os.path.dirname(os.path.dirname(os.path.abspath(__file__)))
COUNTS = re.compile(r"(\d+) passed, (\d+) failed")
# So many lines of what a part printed are passed on: of one that failed, and of scripts, some of which say what they met.
MOST_LINES = 80
# What a build takes at most, in bytes.
MEMORY = 2_000_000_000
# Held by a part that listens on ports, which were free a moment before.
PORTS = threading.Lock()


def tail(lines):
    """The last of these lines, and how many are left out."""
    left = len(lines) - MOST_LINES
    return [f"({left} lines before these)", *lines[left:]] if left > 0 else lines


class Part(NamedTuple):
    """A command, in which {NAME} stands for the path of a program, {room} for that of a folder of its own, {scripts} for tests/scripts."""

    name: str
    command: str
    # Whether it counts as what its last line has, 'N passed, M failed', and not as one.
    is_counted: bool = False
    listens: bool = False
    # Without these commands on the path it is left out.
    wants: tuple = ()
    # Whether it loads a library into the program, which one that is linked statically doesn't take.
    loads: bool = False
    # Why it tells nothing of a program that an emulator runs.
    here_alone: str = ""
    # Whether it compiles C for the machine of the programs.
    compiles: bool = False

    def programs(self):
        """The names of the programs that it runs."""
        return sorted(set(re.findall(r"\{(\w+)\}", self.command)) - {"room", "scripts"})

    def run(self, paths):
        """Runs it over programs by their names: its exit status, and what it printed."""
        with tempfile.TemporaryDirectory(prefix="part-") as room, PORTS if self.listens else contextlib.nullcontext():
            words = [it.format(room=room, scripts=f"{TESTS}/scripts", **paths) for it in self.command.split()]
            how = {"cwd": room, "stdin": subprocess.DEVNULL, "stdout": subprocess.PIPE, "stderr": subprocess.STDOUT, "errors": "replace"}
            ran = subprocess.run([f"{TESTS}/{words[0]}", *words[1:]], check=False, **how)
        return ran.returncode, ran.stdout.strip().split("\n")


PARTS = [
    Part("toolchain", "toolchain"),
    Part("shim", "shim", is_counted=True, compiles=True),
    Part("console", "run_scripts {mpd_daemon}", is_counted=True),
    Part("serve", "serve {mpd_daemon}", listens=True, loads=True),
    Part("import", "import {mpd_daemon}", listens=True),
    Part("install", "install {mpd_daemon}", listens=True, here_alone="what it packs and installs would be the emulator's call"),
    Part("stock", "stock {mpd_daemon}", listens=True, loads=True),
    Part("loop", "run_scripts {test_driver} {scripts}/loop", is_counted=True),
    Part("workers", "run_scripts {test_driver} {scripts}/workers", is_counted=True),
    Part("stages", "run_scripts {test_driver} {scripts}/stages", is_counted=True),
    Part("stored", "run_scripts {test_driver} {scripts}/stored", is_counted=True),
    Part("clients", "run_scripts {test_driver} {scripts}/clients", is_counted=True),
    Part("refusals", "refusals {test_driver}"),
    Part("simulation", "simulation {test_driver}"),
    Part("kill", "crash {mpd_daemon} kill --rounds 80"),
    Part("image", "crash {mpd_daemon} image", loads=True),
    Part("fault", "crash {mpd_daemon} fault", loads=True),
    Part("copy", "crash {mpd_daemon} copy --rounds 20"),
    Part("soak", "soak {mpd_daemon} --lives 8 --life 0.5 --minutes 0.05", listens=True),
    Part("migration", "migration {mpd_daemon}"),
    Part("refused_memory", "refused_memory {mpd_daemon} {test_driver}", loads=True),
    Part("sox_tree", "sox_tree {mpd_daemon} {room}/sox", wants=("sox", "soxi")),
    Part("tags_beside_mpd", "tags_beside_mpd {mpd_daemon} {room}/tags", listens=True, wants=("mpd", "ffmpeg", "sox")),
    Part("encoders", "encoders {mpd_daemon} {room}/encoders", listens=True, wants=("flac", "ffmpeg")),
    Part("decoder", "decoder {room}/decoder", is_counted=True, wants=("ffmpeg", "sox")),
    Part("profile", "profile {mpd_daemon}"),
    Part("believed", "believed"),
    Part("documents", "documents {mpd_daemon}", listens=True, here_alone="what is typed there packs and installs the program"),
    Part("planted", "planted --look"),
    Part("mutants", "mutants --look"),
]


def possible(parts, report):
    """Those of which nothing is missing; the others are named."""
    for part in parts:
        lacking = [it for it in part.wants if not shutil.which(it)]
        if lacking:
            report.say(f"{part.name}: left out, without {' and '.join(lacking)} on the path")
        else:
            yield part


def tests():
    """The tests of the crates that have any as parts, for where `rt ci` has not run them."""
    crates, names = f"{os.path.dirname(TESTS)}/crates", set()
    for path in glob.glob(f"{crates}/*/src/**/*.rt", recursive=True):
        if "#[test]" in text_of(path):
            names.add(os.path.relpath(path, crates).split("/")[0])
    return [Part(it, f"lib/builds.py --tests {it}") for it in sorted(names)]


class Report:
    """Lines with the time so far in front, and the count."""

    def __init__(self):
        self.begun, self.passed, self.failed, self.lock = time.monotonic(), 0, 0, threading.Lock()

    def say(self, text, more=()):
        seconds = int(time.monotonic() - self.begun)
        with self.lock:
            print("\n".join([f"[{seconds // 60:3}:{seconds % 60:02}] {text}", *(f"         {it}" for it in more)]), flush=True)

    def count(self, passed, failed, text, more=()):
        with self.lock:
            self.passed, self.failed = self.passed + passed, self.failed + failed
        self.say(f"FAILED: {text}" if failed else text, more)

    def end(self):
        """Prints the last line; the exit status."""
        taken = os.times()
        self.say(f"{(taken.children_user + taken.children_system) / 60:.1f} processor minutes")
        print(f"{self.passed} passed, {self.failed} failed")
        return 1 if self.failed or not self.passed else 0

    def take(self, part, path_of):
        """Runs a part over programs whose paths are told by name, or None, and counts it."""
        paths = {it: path_of(it) for it in part.programs()}
        if lacking := [it for it, path in paths.items() if path is None]:
            return self.count(0, 1, f"{part.name}: not run, without {' and '.join(lacking)}")
        begun = time.monotonic()
        status, lines = part.run(paths)
        counts = part.is_counted and COUNTS.fullmatch(lines[-1])
        passed, failed = map(int, counts.groups()) if counts else (status == 0, status != 0)
        text = f"{lines[-1] if part.name in lines[-1] else f'{part.name}: {lines[-1]}'} ({time.monotonic() - begun:.0f} s)"
        return self.count(passed, failed or status != 0, text, tail(lines[:-1]) if status or part.is_counted else ())


def lanes():
    """How many parts stand side by side."""
    return builds.lanes(MEMORY)


@contextlib.contextmanager
def side_by_side():
    """A pool of threads, in which nothing more is begun once one ends by a fault or Ctrl-C comes."""
    with concurrent.futures.ThreadPoolExecutor(lanes()) as pool:
        tasks = []
        try:
            yield lambda *call: tasks.append(pool.submit(*call)) or tasks[-1]
            for it in concurrent.futures.as_completed(tasks):
                it.result()
        except BaseException:
            pool.shutdown(wait=False, cancel_futures=True)
            raise
