"""A running driver of scripts, which is given lines and prints behind each what that gave, and a point; and what a crash may leave of its
files."""

import mmap
import os
import subprocess
import tempfile
import threading

import daemons
import journal_files
import preload
import scripts
import under

END = b".\n"
# A driver of a script is killed after so many seconds.
SECONDS = under.seconds(60)
# So much is taken by a pipe that nobody reads.
PIPE = 32_768


class Ended(scripts.Failure):
    """The driver has ended by itself."""


class Drive:
    """A running driver, in a folder of its own. With a library (lib/refuse_memory.c) it can be refused memory; it is killed after so many
    seconds."""

    def __init__(self, program, library=None, seconds=None):
        self.folder = tempfile.TemporaryDirectory(prefix="drive-")
        self.log, self.control = [], None
        settings = self.controlled(library) if library else None
        how = {"stdin": subprocess.PIPE, "stdout": subprocess.PIPE, "stderr": subprocess.PIPE, "cwd": self.folder.name}
        self.process = subprocess.Popen([os.path.abspath(program)], env=settings, **how)
        self.killer = threading.Timer(seconds, self.process.kill) if seconds else None
        if self.killer:
            self.killer.start()

    def controlled(self, library):
        path = f"{self.folder.name}/.counts"
        settings = preload.settings(library, path)
        with open(path, "r+b") as file:
            self.control = mmap.mmap(file.fileno(), preload.COUNTS)
        return settings

    def refuse(self, number):
        """So many allocations from now on one is refused; 0 refuses none."""
        if number:
            self.log.append((f"refuse {number}", []))
        self.control[16:] = (number and self.made() + number).to_bytes(8, "little")

    def made(self):
        """How many allocations it made so far."""
        return int.from_bytes(self.control[:8], "little")

    def refused(self):
        """How many were refused so far."""
        return int.from_bytes(self.control[8:16], "little")

    def ask(self, *lines):
        """What it prints behind each of these lines."""
        text = b"".join(it + b"\n" for it in lines)
        giver = threading.Thread(target=self.give, args=(text,)) if len(text) > PIPE else None
        if giver:
            giver.start()
        else:
            self.give(text)
        try:
            return [self.printed() for _ in lines]
        finally:
            if giver:
                giver.join()

    def do(self, *lines):
        """The same of texts, all of which the log keeps. A client may have got a part of a character."""
        self.give("".join(f"{it}\n" for it in lines).encode())
        found = []
        for line in lines:
            found.append([])
            self.log.append((line, found[-1]))
            found[-1] += [it.decode(errors="surrogateescape") for it in self.printed()]
        return found

    def give(self, text):
        try:
            self.process.stdin.write(text)
            self.process.stdin.flush()
        except BrokenPipeError:
            pass

    def printed(self):
        """What it prints behind the next line."""
        found = []
        while (line := self.process.stdout.readline()) != END:
            if not line.endswith(b"\n"):
                told = self.process.stderr.read().decode(errors="replace").strip()
                raise Ended(f"the driver ended with status {self.process.wait()}: {told[-300:]}")
            found.append(line[:-1])
        return found

    def peak(self):
        """The most memory that it has held, in bytes."""
        return 1024 * daemons.memory_of(self.process, "VmHWM")

    def finish(self):
        """Its input ends; it must end then, and have printed nothing more."""
        self.close_input()
        rest, told = self.process.stdout.read(), self.process.stderr.read().decode(errors="replace").strip()
        if self.process.wait() or rest or told:
            raise scripts.Failure(f"it ended with status {self.process.returncode} and {rest[:80]!r}: {told}")

    def end(self):
        if self.killer:
            self.killer.cancel()
        self.process.kill()
        self.close_input()
        self.process.stdout.close()
        self.process.stderr.close()
        self.process.wait()
        self.folder.cleanup()

    def close_input(self):
        try:
            self.process.stdin.close()
        except BrokenPipeError:
            pass

    def __enter__(self):
        return self

    def __exit__(self, kind, *_):
        try:
            if not kind:
                self.finish()
        finally:
            self.end()


def first_difference(one, other):
    """The first place at which two byte strings differ, or the length of the shorter."""
    low, high = 0, min(len(one), len(other))
    while low < high:
        middle = (low + high + 1) // 2
        if one[low:middle] == other[low:middle]:
            low = middle
        else:
            high = middle - 1
    return low


def torn(old, new, draw):
    """What may be left of a file that had the bytes `old` once and `new` in the end, where not all of it was synced."""
    low, high = first_difference(old, new), max(len(old), len(new))
    if low == high:
        return new
    place = draw.choice([draw.randint(low, high - 1), max(low, high - 1 - int(draw.expovariate(0.1)))])
    before = old.ljust(high, b"\0")
    way = draw.choice(["old", "cut", "front", "one", "gate"])
    if way == "old":
        return old
    if way == "cut":
        return new[:place]
    if way == "front":
        return new[:place] + before[place : len(new)]
    if way == "one":
        return new[:place] + draw.choice([before[place : place + 1], draw.randbytes(1)]) + new[place + 1 :]
    return without_gate(new)


def without_gate(content):
    """A journal's file whose last record's gate is still closed."""
    try:
        lengths, place = journal_files.records_of(content)
    except IndexError:
        return content
    at = place - lengths[-1] if lengths else 0
    return content[:at] + b"\0" + content[at + 1 :]


def generation(files):
    """The greatest generation of a file whose gate is open."""
    return max(int.from_bytes(it[12:20], "little") if it[:1] == b"\xa5" else 0 for it in files)


def filled(files, left, volume, folder):
    """The two files of a journal, with records behind those that stand until so many are left before a checkpoint."""
    paths = [f"{folder}/.{it}" for it in "ab"]
    for path, content in zip(paths, files):
        scripts.write(path, content)
    journal_files.Journal(*paths).fill(left, volume)
    return [*map(scripts.read, paths)]
