"""Faults of tests/crash: each call of the journal's files fails in turn, under the console, under the daemon, and where a journal is made.

lib/fail_calls.c is loaded into the program, which wants a C compiler: from run to run the next call of file a or b fails, once alone and
once with all after it, until a run meets no fault; so too from a journal of layout 1 on, which is brought to layout 2 first. A client has
the music read and makes changes, of the daemon some at once, in front of one of which comes a checkpoint. What it is answered, also behind
a fault over the files that were opened again, must be what the requests before it leave, of which those in which it was cut off may be
kept, a front of them, or not; a program that ends says so and ends with 3; and what is found then without faults is what was answered, with
a front of the requests that were cut off.

Of a daemon with `stock_clients` each call that wants room fails so in turn, by ENOSPC: it never ends, answers what would change that the
disk is full, or keeps it, and changes again once there is room; or it is killed in front of such a call. And any call fails by ENOSPC, as
on a file system that copies what it overwrites.
"""

import concurrent.futures
import contextlib
import errno
import functools
import itertools
import os
import random
import re
import signal
import subprocess
import tempfile

import crashes
import preload
from clients import GREETING, is_whole, wait_for, wait_to_listen
from daemons import LIMIT, Daemon
from scripts import Failure, read

# So many requests are sent at least, and so many records left before a checkpoint.
REQUESTS, LEFT = 8, 4
MOST_CALLS, ALL = 500, 1_000_000
# The first calls make room in pieces: of those in the middle few fail.
ROOM, EDGE, MIDDLE = 130, 4, 32
IS_FULL = re.compile(rb"(list_OK\n)*ACK \[52@\d+\] \{\w+\} disk full\n")


class Console:
    """A client of a console, over the same streams all the while."""

    # How many requests are sent at once.
    TOGETHER = (1,)
    FIRST = crashes.fresh()

    def __init__(self, daemon, settings=None):
        with open(f"{daemon.folder}/told", "wb") as told:
            self.client = daemon.console(False, settings, stderr=told)
        # Behind a fault the next client is greeted.
        self.client.ENDS, self.process = (b"OK", GREETING[:-1]), self.client.process

    def connect(self):
        """A client, or None where the program is gone."""
        return self.client if self.client.line() == GREETING[:-1] else None

    def reconnect(self):
        """A request in front of which the fault came is served to the next client: its answer is passed over."""
        with contextlib.suppress(OSError):
            self.client.send(b"reconnect\n")
        return self.client if any(b'"reconnect"' in line for line in iter(self.client.line, None)) else None

    def exchange(self, front, client, requests):
        front.exchange(client, *requests)

    def end(self):
        return self.client.end()


class Served:
    """A client of a daemon, which connects again."""

    TOGETHER, FIRST = (1, 2, 4), crashes.fresh()

    def __init__(self, daemon, settings):
        self.daemon, self.client = daemon, None
        with open(f"{daemon.folder}/told", "wb") as told:
            daemon.begin(stderr=told, settings=settings)
        self.process = daemon.process

    def connect(self):
        with contextlib.suppress(OSError, Failure):
            wait_to_listen(self.process, self.daemon.path)
            self.client = self.daemon.client()
            return self.client
        return None

    reconnect = connect

    def exchange(self, front, client, requests):
        front.exchange(client, *requests)

    def end(self):
        with contextlib.suppress(OSError):
            if self.client:
                self.client.send(b"kill\n")
        return self.process.wait(LIMIT)


class Wide(Served):
    """A client of one with `stock_clients`, which knows its songs and may be told that the disk is full."""

    TOGETHER, FIRST = (1,), None

    def __init__(self, daemon, settings):
        super().__init__(daemon, settings)
        self.FIRST, self.is_full = wide(crashes.Music(daemon.folder, True)), False

    def exchange(self, front, client, requests):
        """Sends one request, and takes its answer; a change that is refused so changes nothing."""
        client.send(requests[0])
        if not is_whole(answer := client.answered()):
            raise ConnectionResetError("an answer was cut off")
        self.is_full = bool(IS_FULL.fullmatch(answer))
        if self.is_full:
            if not front.is_record(len(front.states) - 1):
                raise Failure(f"{front.commands[-1]} changes nothing, and is answered {answer}")
            front.states[-1], front.answers[-1] = front.states[-2], answer
        front.take(answer)


def wide(music):
    """The state of a new journal with `stock_clients` that has read this music."""
    state = crashes.fresh(is_wide=True)
    state.scanned(music.songs)
    return state.restarted()


def prepared_wide(program, folder):
    """A daemon with `stock_clients` that has read its music, over a journal with few records left before a checkpoint."""
    daemon, music = crashes.prepared(program, folder, is_wide=True), crashes.Music(folder, True)
    with daemon.console() as console:
        crashes.Front(crashes.fresh(is_wide=True), random.Random(0), False).scan(console, music)
        crashes.ended(console)
    daemon.journal().fill(LEFT, 100)
    return daemon


def use(side, music, draw):
    """Sends the requests, and goes on behind a fault from what is read then, as far as that can be told: the last that was sent."""
    front, count, client, is_read = crashes.Front(side.FIRST, draw, False), 0, side.connect(), True
    while client and (count < REQUESTS or not is_read):
        try:
            if not is_read:
                found, is_known = front.found(client)
                if not is_known:
                    return front
                front, is_read = crashes.Front(front.states[found].restarted(), draw, False), True
            elif not front.states[-1].songs:
                front.scan(client, music)
            else:
                requests = [front.next_request() for _ in range(draw.choice(side.TOGETHER))]
                count += len(requests)
                side.exchange(front, client, requests)
        except OSError:
            client, is_read = side.reconnect(), False
    return front


def used_full(how, daemon, settings, draw):
    """A client uses a daemon with `stock_clients` where a call fails that wants room, for a while, or from then on, when it is killed in the
    end in half of the runs; or it is killed in that call's place. What was wrong, or None."""
    side = Wide(daemon, settings)
    front, client, is_killed = crashes.Front(side.FIRST, draw, False), side.connect(), how == "killed"
    try:
        with contextlib.suppress(*[OSError] * is_killed):
            for _ in range(REQUESTS) if client else ():
                side.exchange(front, client, [front.next_request()])
            if how == "for a while" and met(daemon):
                wait_for("room", lambda: not side.exchange(front, client, [front.next_request()]) and not side.is_full)
        if how == "from then on" and draw.random() < 0.5:
            side.process.kill()
            is_killed = True
        status, told = side.end(), read(f"{daemon.folder}/told").decode().splitlines()
        wanted = -signal.SIGKILL if is_killed and (how != "killed" or met(daemon)) else 0
        if status != wanted or any("fault" in it for it in told):
            return f"it ended with {status}, {told}"
        with daemon.console(stderr=subprocess.DEVNULL) as console:
            front.found(console)
            crashes.ended(console)
        return None
    except (Failure, OSError) as fault:
        return str(fault)
    finally:
        side.process.kill()


def met(daemon):
    """How many calls failed."""
    return preload.counts(f"{daemon.folder}/counts")[1]


def used(kind, daemon, settings, draw):
    """A client uses it in this environment; what was wrong, or None."""
    music, side = crashes.Music(daemon.folder), kind(daemon, settings)
    try:
        front = use(side, music, draw)
        status, told = side.end(), read(f"{daemon.folder}/told").decode().splitlines()
        if status not in (0, 3) or status == 3 and (not told or told[-1] != "disk fault"):
            return f"it ended with {status}, {told}"
        if status == 3 and not met(daemon):
            return f"it ended without a fault, {told}"
        with daemon.console(stderr=subprocess.DEVNULL) as console:
            front.found(console)
            crashes.ended(console)
        return None
    except (Failure, OSError) as fault:
        return str(fault)
    finally:
        side.process.kill()


def created(daemon, settings, _):
    """A journal is made, which says so and ends with 3 where a call fails; what was wrong, or None."""
    done = daemon.ran("create", env={**os.environ, **settings})
    status, printed, said = (3, b"", b"disk fault\n") if met(daemon) else (0, b"created\n", b"")
    is_right = (done.returncode, done.stdout) == (status, printed) and done.stderr.endswith(said)
    return None if is_right else str(done)


def is_tried(first):
    """Of the pieces of a room the first and last ones, and some between."""
    return first % ROOM < EDGE or ROOM - EDGE < first % ROOM or first % MIDDLE == 0


def swept(name, room, library, seed, last, prepare, run, **words):
    """Runs with a fault at each call in turn, alone or with all up to the last: what was wrong, and how many runs met one."""
    found, count = [], 0
    for first in filter(is_tried if words else None, range(1, MOST_CALLS)):
        with tempfile.TemporaryDirectory(dir=room) as folder:
            daemon = prepare(folder)
            settings = preload.settings(library, f"{folder}/counts", FIRST=first, LAST=last or first, **words)
            text = run(daemon, settings, random.Random(f"{seed}.{first}"))
            found += [f"{name}, call {first}: {text}"] if text else []
            if not met(daemon):
                return found, count
        count += 1
    return [*found, f"{name}: no end"], count


def run(program, room, given):
    """A run for each call: what went wrong, and what is told of them."""
    how, sweeps = (room, preload.library("fail_calls", room), given.seed), []
    with concurrent.futures.ThreadPoolExecutor(given.jobs) as pool:
        for last, faults in ((0, "alone"), (ALL, "and all after it")):
            sweeps.append(pool.submit(swept, f"create, {faults}", *how, last, functools.partial(Daemon, program), created))
            for kind, is_old in itertools.product((Console, Served), (False, True)):
                prepare = functools.partial(crashes.prepared, program, left=LEFT, is_old=is_old)
                name = f"{kind.__name__}, layout {1 if is_old else 2}, {faults}"
                sweeps.append(pool.submit(swept, name, *how, last, prepare, functools.partial(used, kind)))
        prepare = functools.partial(prepared_wide, program)
        for way, last, words in (("for a while", 0, {}), ("from then on", ALL, {}), ("killed", 0, {"KILLS": 1})):
            run_full = functools.partial(used_full, way)
            sweeps.append(pool.submit(swept, f"full, {way}", *how, last, prepare, run_full, ERRNO=errno.ENOSPC, FULL=1, **words))
        for last, faults in ((0, "alone"), (ALL, "and all after it")):
            run_wide = functools.partial(used, Wide)
            sweeps.append(pool.submit(swept, f"full anywhere, {faults}", *how, last, prepare, run_wide, ERRNO=errno.ENOSPC))
        results = [it.result() for it in sweeps]
    wrong = [text for found, _ in results for text in found] + ["a sweep met no fault"] * (not all(count for _, count in results))
    return wrong, f"fault: {sum(count for _, count in results)} calls failed, each in a run"
