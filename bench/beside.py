"""The daemon and MPD in one run: how they are begun and asked, and how times are told.

A benchmark is given the program and the path of an MPD of version 0.23; FOLDER, on a disk, keeps the music for the next run, and without it
all stands in a temporary folder. Times are nanoseconds, and are told in microseconds: the median, and the 99th percentile in parentheses."""

import collections
import contextlib
import os
import select
import signal
import statistics
import subprocess
import sys
import tempfile
import time

ROOT = os.path.dirname(os.path.dirname(os.path.abspath(__file__)))
sys.path[:0] = [f"{ROOT}/tests/lib", f"{ROOT}/contrib/lib"]
import layout
from clients import Client
from daemons import Daemon, make_pipe, memory_of
from measured import QUARTER, SONGS, Appends
from other_mpd import RealMpd
from scripts import read

OURS, STOCK, MPD, BARE = "ours", "ours with stock_clients", "MPD", "bare append"
# The setting by which clients made for MPD are served.
SERVED = {"stock_clients:": "true"}
# So long a queue is, and so many rounds of a row there are, unless they take so many seconds, the last one apart.
ENTRIES, ROUNDS, SECONDS = 16_000, 4, 5
# What MPD's configuration has beside that of the tests.
OF_MPD = 'state_file "{0}/state"\nmax_output_buffer_size "65536"\n'


def connect(address):
    """A client that has read the greeting, which has a version of the server's own."""
    client = Client(address, greeted=False)
    client.line()
    return client


class Server:
    """A daemon, or MPD, in a folder of its own; the daemon with further settings."""

    def __init__(self, name, folder, music, program, settings):
        self.name, self.folder, self.process = name, folder, None
        if name == MPD:
            made = RealMpd(program, folder, OF_MPD.format(folder), music, "software")
            self.words = made.words
        else:
            make_pipe(folder)
            made = Daemon(program, folder, music=music, **settings).create()
            self.words = [program, "serve", "c.toml"]
        self.addresses = {"unix": f"{folder}/socket", "tcp": ("127.0.0.1", made.port)}

    def start(self):
        """Starts it, and gives the nanoseconds until it greets."""
        begun = time.perf_counter_ns()
        with open(f"{self.folder}/told", "ab") as told:
            how = {"stdin": subprocess.DEVNULL, "stdout": told, "stderr": told}
            how |= {} if self.name == MPD else {"env": layout.environment()}
            self.process = subprocess.Popen(self.words, cwd=self.folder, **how)
        while self.process.poll() is None:
            try:
                self.client().socket.close()
                return time.perf_counter_ns() - begun
            except OSError:
                time.sleep(0.0002)
        sys.exit(f"{self.name} ended: {read(f'{self.folder}/told').decode()}")

    def client(self):
        return connect(self.addresses["unix"])

    def end(self):
        if self.process and self.process.poll() is None:
            self.process.send_signal(signal.SIGTERM)
            self.process.wait()

    def resident(self):
        """The resident memory in KiB."""
        return memory_of(self.process)

    def processor(self):
        """The nanoseconds of processor time that it has taken, with its threads that have ended (clock_getcpuclockid(3))."""
        return time.clock_gettime_ns(~self.process.pid << 3 | 2)


@contextlib.contextmanager
def servers_of(said, kinds, make_music, name="music"):
    """A folder, and servers of these names with their settings, over the music of this name, which is made where it is missing; they are ended
    behind it."""
    kept = said.folder and os.path.abspath(said.folder)
    if kept:
        os.makedirs(kept, exist_ok=True)
    with tempfile.TemporaryDirectory(prefix="bench-", dir=kept) as room:
        music = f"{kept or room}/{name}"
        make_music(music)
        program = {MPD: said.beside}
        servers = [Server(it, f"{room}/{at}", music, program.get(it, said.program), kinds[it]) for at, it in enumerate(kinds)]
        try:
            yield room, servers
        finally:
            for it in servers:
                it.end()


def in_turns(servers, rounds):
    """Each server in each of so many rounds, the last one first in every second."""
    for turn in range(rounds):
        yield from servers[:: 1 if turn % 2 else -1]


class Bench:
    """What takes turns in rounds, and bare appends beside it."""

    def __init__(self, servers, folder, pool):
        self.servers, self.folder, self.appends, self.pool = servers, folder, Appends(f"{folder}/bare"), pool

    def turns(self, round_of):
        """The times, by name, that rounds of each server give."""
        times, end = collections.defaultdict(list), time.monotonic() + SECONDS
        for at, server in enumerate(in_turns(self.servers, ROUNDS)):
            if at and not at % len(self.servers) and time.monotonic() > end:
                break
            for name, taken in round_of(server).items():
                times[name] += taken
        return times

    def append(self, count=1):
        return [self.appends.time() for _ in range(count)]


def fill(bench):
    """Has all songs read, and fills the queue."""
    for server in bench.servers:
        with server.client() as client:
            if client.value("stats", "songs") != str(SONGS):
                client.do("update")
                while client.value("status", "updating_db"):
                    time.sleep(0.05)
            client.do("add few", "add many")
            if client.value("status", "playlistlength") != str(QUARTER):
                sys.exit(f"{server.name}: not all songs were added")
            client.do(f"delete {ENTRIES}:")


def print_load(bench):
    print(f"{os.cpu_count()} processors, load {os.getloadavg()[0]:.1f}; {BARE} {told(bench.append(200))}", flush=True)


def late(times):
    """The 99th percentile."""
    return sorted(times)[(len(times) * 99 - 1) // 100]


def told(times):
    return f"{statistics.median(times) / 1e3:.1f} ({late(times) / 1e3:.1f})"


def ratio(times, one=OURS, other=MPD, less=0):
    """The median of the one, with so much taken off, to that of the other."""
    return (statistics.median(times[one]) - less) / statistics.median(times[other])


def show(title, times, *further):
    """Prints a row, with what is to be said of it besides."""
    said = [f"{name} {told(taken)}" for name, taken in sorted(times.items(), reverse=True) if taken]
    ratios = [f"ratio {ratio(times):.2f}"] if MPD in times else []
    print(f"{title}: {'; '.join([*said, *ratios, *further])}", flush=True)


def ask_all(address, clients, lines, moment=0, bare=None, before=()):
    """So many clients ask these lines from this moment on, each the next one when it was answered: the times, those of bare appends between
    them where a file for these is given, and when all was over. Before that each asks for what is to be asked before."""
    asking = [connect(address) for _ in range(clients)]
    for it in asking:
        it.do(*before)
    streams = {it.socket.fileno(): it.socket for it in asking}
    poll, room, begun, ends, times, left = select.epoll(), bytearray(1 << 20), {}, {}, [], iter(lines)
    appends, plain = Appends(bare) if bare else None, []

    def ask(number):
        line = next(left, None)
        if line:
            ends[number], begun[number] = b"", time.perf_counter_ns()
            streams[number].sendall(line)

    while time.perf_counter_ns() < moment:
        pass
    for number in streams:
        poll.register(number, select.EPOLLIN)
        ask(number)
    while begun:
        for number, _ in poll.poll():
            length = streams[number].recv_into(room)
            ends[number] = (ends[number] + room[max(length - 3, 0) : length])[-3:]
            if ends[number] == b"OK\n":
                times.append(time.perf_counter_ns() - begun.pop(number))
                plain += [appends.time()] if appends else []
                ask(number)
            elif not length or room.startswith(b"ACK"):
                raise ValueError(bytes(room[: min(length, 200)]))
    return times, plain, time.perf_counter_ns()
