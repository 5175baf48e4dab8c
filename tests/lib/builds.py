#!/usr/bin/env python3
"""Programs of this checkout, made from source with run-time checks in place of proofs, in the folder out/checked.

    tests/lib/builds.py NAME            builds this program of crates.txt, and prints its path
    tests/lib/builds.py --tests NAME    builds the tests of this crate and runs them

Beside each stands the sum of all that it was made of, so that nothing is built twice, and `./start` and the tests share theirs. Where
something can't be built, the compiler's own lines are printed. A build takes one processor and up to 1.4 GB. It exits with 1 where something
is wrong.
"""

import contextlib
import hashlib
import os
import shutil
import signal
import subprocess
import sys
import tempfile

from scripts import read, text_of, write

ROOT = os.path.dirname(os.path.dirname(os.path.dirname(os.path.abspath(__file__))))
# How much is done to make them quick: from 0 on, each level takes longer to build. At 0 the scripts take ten times as long.
LEVEL = 1
SECONDS = 60
# What a check of the prover was seen to take at most, in bytes.
CHECK = 5_000_000_000


def lanes(memory):
    """How many things that take so many bytes stand side by side: one a processor, as far as the free memory goes."""
    with open("/proc/meminfo", encoding="utf-8") as file:
        free = next(int(line.split()[1]) * 1024 for line in file if line.startswith("MemAvailable:"))
    return max(1, min(len(os.sched_getaffinity(0)), free // memory))


def settings_of_proofs():
    """The environment of `rt ci`, with how many checks it makes at once, RT_JOBS. Left to itself it reckons with up to three times the
    memory that they take, and a large crate of the longest chain waits for the others to end."""
    return {"RT_JOBS": str(lanes(CHECK)), **os.environ}


def uses():
    """Of each crate of crates.txt, the names of those of them that it uses."""
    listed = dict(line.split(":", 1) for line in text_of(f"{ROOT}/crates.txt").splitlines() if line.strip())
    return {name: [it for it in low.split() if it in listed] for name, low in listed.items()}


def on_long_chains(share=0.94):
    """The names of the crates that stand on a chain of crates, each over the one before it, whose sources have together at least this share of
    the bytes of the longest one: in the gate each waits for those below it, so these decide how long it takes."""
    listed = uses()
    own = {name: sum(os.path.getsize(it) for it in sources(name)) for name in listed}
    above = {name: [it for it in listed if name in listed[it]] for name in listed}
    down, up = most(own, listed), most(own, above)
    through = {name: down[name] + up[name] - own[name] for name in listed}
    return {name for name in listed if through[name] >= share * max(through.values())}


def most(own, beside):
    """Of each name the most that a chain has that begins with it and goes on to what stands beside each."""
    found = {}

    def of(name):
        if name not in found:
            found[name] = own[name] + max(map(of, beside[name]), default=0)
        return found[name]

    return {name: of(name) for name in own}


def copy_crates(to, names=None, without=("out", "must-fail", "mutants")):
    """Copies the crates, or these, without what is made of them, and without the wrong bodies that the gate tries, if not said otherwise."""
    for name in names or uses():
        shutil.copytree(f"{ROOT}/crates/{name}", f"{to}/crates/{name}", ignore=shutil.ignore_patterns(*without))
    shutil.copy(f"{ROOT}/HANDLES", to)
    lines = text_of(f"{ROOT}/crates.txt").splitlines(keepends=True)
    write(f"{to}/crates.txt", "".join(it for it in lines if not names or it.partition(":")[0] in names))


def sources(crate):
    """The paths of the files of a crate that a check reads."""
    paths = []
    for part in ("src", "specs", "proofs"):
        for at, folders, files in os.walk(f"{ROOT}/crates/{crate}/{part}"):
            folders.sort()
            paths += [f"{at}/{it}" for it in sorted(files)]
    return paths


def crates_of(name):
    """The names of this crate and of all below it."""
    listed, found = uses(), [name]
    for it in found:
        found += [below for below in listed[it] if below not in found]
    return found


def sum_of_sources(name):
    """A sum of all that a program is made of: the toolchain, what crates.txt and HANDLES say, and the files of the crates."""
    said = subprocess.run(["rt", "version"], capture_output=True, check=True).stdout
    whole = hashlib.sha256(said)
    paths = [f"{ROOT}/crates.txt", f"{ROOT}/HANDLES"]
    for crate in crates_of(name):
        paths += sources(crate)
    for path in paths:
        text = read(path)
        whole.update(f"{os.path.relpath(path, ROOT)} {len(text)}\n".encode() + text)
    return whole.hexdigest()


def commit():
    """The checkout's commit; `unknown` where git can't tell."""
    words = ["git", "describe", "--always", "--abbrev=12", "--exclude=*", "--dirty=.changed"]
    with contextlib.suppress(OSError):
        told = subprocess.run(words, cwd=ROOT, capture_output=True, text=True, check=False)
        if told.returncode == 0:
            return told.stdout.strip()
    return "unknown"


class Built:
    """A program in the folder `out`, with the sum of its sources beside it."""

    def __init__(self, path, stamp):
        self.path, self.stamp = path, stamp

    def is_there(self):
        try:
            return text_of(f"{self.path}.stamp") == self.stamp and os.access(self.path, os.X_OK)
        except OSError:
            return False

    def forget(self):
        with contextlib.suppress(FileNotFoundError):
            os.remove(f"{self.path}.stamp")

    def note(self):
        write(f"{self.path}.build", f"{self.how()} build of commit {commit()}, sources {self.stamp[:16]}\n")
        write(f"{self.path}.stamp", self.stamp)
        return True

    def how(self):
        """Whether it was proved, or has run-time checks in place of proofs, by its folder: for `--version`."""
        return os.path.basename(os.path.dirname(self.path))


def end_in_order():
    """Has a signal end this program so that its temporary folders go; one that is ignored, as below nohup, stays so."""
    for which in (signal.SIGTERM, signal.SIGHUP):
        if signal.getsignal(which) == signal.SIG_DFL:
            signal.signal(which, lambda *_: sys.exit(1))


def build(built, make, crate):
    """Builds it where it isn't there; whether it is there then."""
    if built.is_there():
        return True
    built.forget()
    with tempfile.TemporaryFile("w+", errors="replace") as log:
        if make(crate, LEVEL, built.path, log):
            return built.note()
        log.seek(0)
        print(log.read()[-4000:])
    print(f"{crate.name} was not built, or doesn't answer its own file stdin by its file stdout")
    return False


def answers(program, words, path):
    """Whether it answers its crate's own file stdin by its file stdout, which may have changed since it was built."""
    given = {"input": program.stream("stdin") or b"", "stdout": subprocess.PIPE, "stderr": subprocess.DEVNULL}
    with tempfile.TemporaryDirectory(prefix="answers-") as room:
        ran = subprocess.run([path, *words], cwd=room, timeout=SECONDS, check=False, **given)
    return ran.returncode == 0 and ran.stdout == (program.stream("stdout") or b"")


def main(words):
    if len(words) != 1 + (words[:1] == ["--tests"]):
        sys.exit(__doc__.strip())
    import toolchain

    end_in_order()
    is_tests, name = len(words) == 2, words[-1]
    if not os.path.isdir(f"{ROOT}/crates/{name}"):
        sys.exit(f"there is no crate {name}")
    crate = toolchain.program_of(ROOT, name)
    built = Built(f"{ROOT}/out/checked/{name}{'_tests' if is_tests else ''}", sum_of_sources(name))
    if is_tests:
        return 0 if build(built, toolchain.build_tests, crate) and toolchain.run_tests(built.path) == 0 else 1
    if not build(built, toolchain.build_checked, crate):
        return 1
    if not answers(crate, toolchain.words_of(crate), built.path):
        print(f"{name} doesn't answer its own file stdin by its file stdout")
        return 1
    print(built.path)
    return 0


if __name__ == "__main__":
    sys.exit(main(sys.argv[1:]))
