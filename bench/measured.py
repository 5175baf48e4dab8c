"""What the benchmarks have in common: consoles that are asked one request after the other, bare appends, and the songs."""

import os
import resource
import shutil
import subprocess
import sys
import time

sys.path.insert(0, f"{os.path.dirname(os.path.dirname(os.path.abspath(__file__)))}/tests/lib")
import clients
from daemons import memory_of
from scripts import configuration, wave, write
from songs import FEW, QUARTER, infos, uri

SONGS, FULL = 20_000, 65_536
# What fills a queue to these lengths.
ADDING = {FEW: ["add few"], QUARTER: ["add few", "add many"], FULL: ["add few", "add many"] * 4}
# How long a song's file is, of silence: with its tags it has less than 4 KiB.
FRAMES = 1_000


class Console(clients.Console):
    """A running console. Times are nanoseconds from a request's first byte to its answer's last."""

    def __init__(self, program, config):
        begun = time.perf_counter_ns()
        super().__init__(program, config)
        self.opening = time.perf_counter_ns() - begun

    def piece(self):
        return os.read(self.process.stdout.fileno(), 1 << 20) or sys.exit("the console ended")

    def timed(self, request):
        """The bytes of the answer to a request, and its time."""
        line, pieces, tail = request.encode() + b"\n", [], b""
        begun = time.perf_counter_ns()
        self.process.stdin.write(line)
        while not is_ended(tail, pieces):
            pieces.append(self.piece())
            tail = tail[-4:] + pieces[-1][-4:]
        taken = time.perf_counter_ns() - begun
        answer = b"".join(pieces)
        if answer.startswith(b"ACK"):
            sys.exit(f"{request}: {answer.decode()}")
        return answer, taken

    def time(self, request):
        return self.timed(request)[1]

    def do_all(self, requests, at_once=64):
        """Sends requests that are answered by `OK` alone, some at once."""
        for start in range(0, len(requests), at_once):
            some = requests[start : start + at_once]
            self.send("".join(f"{it}\n" for it in some))
            for request in some:
                if self.line() != b"OK":
                    sys.exit(f"refused: {request}")

    def memory(self, name):
        """What is resident, or the most of that since it began or `forget_peak`, in KiB."""
        return memory_of(self.process, name)

    def forget_peak(self):
        write(f"/proc/{self.process.pid}/clear_refs", "5")

    def end(self):
        if super().end() != 0:
            sys.exit("the console ended with a fault")


def is_ended(tail, pieces):
    """Whether an answer with this end is whole."""
    return tail == b"OK\n" or tail.endswith(b"\nOK\n") or bool(pieces) and pieces[0].startswith(b"ACK") and tail.endswith(b"\n")


class Appends:
    """Appends to a file as the journal makes them, bare: a write and a sync, then a write of one byte and a sync."""

    def __init__(self, path):
        self.file, self.end = os.open(path, os.O_RDWR | os.O_CREAT | os.O_TRUNC, 0o666), 0

    def time(self, length=32):
        """Appends so many bytes, and gives the nanoseconds."""
        text = bytes(length)
        begun = time.perf_counter_ns()
        os.pwrite(self.file, text, self.end + 1)
        os.fdatasync(self.file)
        os.pwrite(self.file, b"\xa5", self.end)
        os.fdatasync(self.file)
        self.end += length
        return time.perf_counter_ns() - begun


def configure(folder, music):
    """Writes a configuration with journal files `a` and `b` in a folder, which is made, and gives its path."""
    os.makedirs(folder)
    config = os.path.join(folder, "mpd_daemon.toml")
    write(config, configuration([f"music={music}", f"journal_a={folder}/a", f"journal_b={folder}/b"]))
    return config


def create(program, folder, music):
    """Makes a fresh journal in a folder, which is made too, and gives the path of its configuration."""
    config = configure(folder, music)
    made = subprocess.run([program, "create", config], capture_output=True, check=False)
    if made.returncode or made.stdout != b"created\n":
        sys.exit(f"create: {made}")
    return config


def make_music(music):
    """Makes the songs where they are missing."""
    if os.path.exists(music):
        return
    part = music + ".part"
    shutil.rmtree(part, ignore_errors=True)
    for number in range(SONGS):
        path = os.path.join(part, uri(number))
        os.makedirs(os.path.dirname(path), exist_ok=True)
        with open(path, "wb") as file:
            file.write(wave(FRAMES, infos(number)))
    os.rename(part, music)


class Pass:
    """A plain pass over the songs: lists each folder, opens each file and reads 4 KiB of it."""

    def __init__(self):
        self.count, self.room = 0, [bytearray(4096)]

    def visit(self, folder):
        with os.scandir(folder) as entries:
            for entry in entries:
                if entry.is_dir(follow_symlinks=False):
                    self.visit(entry.path)
                else:
                    self.read(entry.path)

    def read(self, path):
        file = os.open(path, os.O_RDONLY)
        os.readv(file, self.room)
        os.close(file)
        self.count += 1

    def time(self, music):
        """The nanoseconds of the pass, and how many of them the system's own calls took."""
        before, begun = resource.getrusage(resource.RUSAGE_SELF).ru_stime, time.perf_counter_ns()
        self.visit(music)
        taken, system = time.perf_counter_ns() - begun, resource.getrusage(resource.RUSAGE_SELF).ru_stime - before
        if self.count != SONGS:
            sys.exit("the music has other files than were made: remove it")
        return taken, system * 1e9
