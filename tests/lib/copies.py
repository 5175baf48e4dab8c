"""Copies of tests/crash: the two files of a journal are copied while a daemon writes them, as docs/RUNNING.md says, and each copy is
opened.

A client changes things all the while, many at once, and by long lists, so that checkpoints come. Half of the copies are made by `cp`, the
others piece by piece, and most of these wait in the middle of a file until one checkpoint was made, or two. Each copy must be whole by
`look`, and what a console or a daemon finds in it must be the state after a front of the changes: every list whole, and nothing older than
what was answered when the copy was begun.

RUNNING says: the file in use first, then the other; and once more where the generation has grown by more than one meanwhile. To see what
that is for, `--once` takes each copy as it is, of which some are bad; with `--keep-order` b is copied before a, whichever is in use."""

import contextlib
import os
import random
import shutil
import subprocess
import threading

import crashes
from clients import wait_for
from daemons import Daemon, ran
from scripts import Failure

USUAL = 40
# So many requests are sent at once, with so many lists of so many stickers of so many bytes: fifty lists are a checkpoint's distance.
TOGETHER, LISTS, STICKERS, LENGTH = (1, 5, 20), 10, 20, 4000
# What the stickers of a list begin with, in turn; so many requests are answered at most before a copy is begun.
KINDS, MOST_BEFORE = 7, 100
# The bytes of a piece of a slow copy, and for how many checkpoints it waits in a file, for how many seconds at most.
PIECES, WAITS, SECONDS = (1, 200_000), (0, 1, 2), 10
# How often a look at files that change is tried, each of which reads them up to three times; each so manieth copy is opened by a daemon.
TRIES, SERVED = 10, 10
FILLS = [[["sticker", "set", "song", "a.wav", f"fill{it}", f"{kind}-{'x' * LENGTH}"] for it in range(STICKERS)] for kind in range(KINDS)]


class Writer(threading.Thread):
    """A client that changes things until it is told to end."""

    def __init__(self, daemon, state, draw):
        super().__init__()
        self.daemon, self.draw, self.front, self.fault = daemon, draw, crashes.Front(state, draw), None
        self.is_over, self.lists = threading.Event(), 0

    def run(self):
        try:
            with self.daemon.client() as client:
                while not self.is_over.is_set():
                    requests = [self.front.next_request() for _ in range(self.draw.choice(TOGETHER))]
                    self.front.exchange(client, *requests, *(self.list() for _ in range(LISTS)))
        except (OSError, Failure) as fault:
            self.fault = fault

    def list(self):
        self.lists += 1
        commands = FILLS[self.lists % KINDS]
        return self.front.request(commands, self.front.states[-1].after(commands), False)

    def __enter__(self):
        self.start()
        return self

    def __exit__(self, *_):
        self.is_over.set()
        self.join()


def look(daemon):
    """The file in use and the generation, by the program."""
    done = daemon.ran("look", text=True)
    said = dict(it.split(": ", 1) for it in done.stdout.splitlines())
    if done.returncode or said["whole"] != "yes":
        raise Failure(f"look: {done}")
    return said["file"], int(said["generation"])


def look_beside(daemon):
    """A look at files that change, again where it came to no end."""
    for it in range(TRIES):
        try:
            return look(daemon)
        except Failure:
            if it == TRIES - 1:
                raise


def copy_slowly(path, to, draw, journal):
    """Copies a file from its front to its end, in pieces; between two of them it may wait for checkpoints."""
    place, waits = draw.random() * os.path.getsize(path), draw.choice(WAITS)
    with open(path, "rb", buffering=0) as file, open(to, "wb") as copy:
        while piece := file.read(draw.randint(*PIECES)):
            copy.write(piece)
            if waits and place <= copy.tell():
                generation, waits = journal.generation(journal.in_use()) + waits, 0
                with contextlib.suppress(Failure):
                    wait_for("checkpoints", lambda: journal.generation(journal.in_use()) >= generation, SECONDS)


def copy_by_cp(path, to, *_):
    ran("cp", path, to, check=True)


class Copier:
    """Copies of a daemon's journal, each in a folder of its own."""

    def __init__(self, daemon, room, given):
        self.daemon, self.room, self.given = daemon, room, given
        # Copies with a checkpoint in between, and that were made again; requests beside them, and how far behind the last answer each is.
        self.crossed, self.again, self.requests, self.ahead = 0, 0, 0, []

    def copy(self, number, state):
        """Makes a copy, as RUNNING says, and opens it: what is wrong with it, or None, and the state behind it."""
        to, how = Daemon(self.daemon.program, f"{self.room}/{number}", tcp=""), copy_by_cp if number % 2 else copy_slowly
        requests, draw = (random.Random(f"{self.given.seed}.{number}.{it}") for it in ("requests", "copy"))
        with Writer(self.daemon, state, requests) as writer:
            front, before = writer.front, draw.randrange(MOST_BEFORE)
            wait_for("changes", lambda: front.answered > before or writer.fault)
            while True:
                used, first = look_beside(self.daemon)
                least = front.answered
                for it in "ba" if self.given.keep_order else (used, "b" if used == "a" else "a"):
                    how(f"{self.daemon.folder}/{it}", f"{to.folder}/{it}", draw, self.daemon.journal())
                last, most = look_beside(self.daemon)[1], len(front.states)
                self.crossed += last != first
                if last <= first + 1 or self.given.once:
                    break
                self.again, how = self.again + 1, copy_by_cp
        self.requests += len(front.answers)
        try:
            if writer.fault:
                raise writer.fault
            self.ahead.append(self.opened(to, number, front, range(least, most)) - least)
            shutil.rmtree(to.folder)
            return None, front.states[-1]
        except (Failure, OSError) as fault:
            return f"copy {number}: {fault} (the generation was {first} before and {last} behind it)", front.states[-1]

    def opened(self, to, number, front, places):
        """The place of the state that a console finds in the copy, or sometimes a daemon, behind a look."""
        look(to)
        if number % SERVED == SERVED - 1:
            with to.start(), to.client() as client:
                return front.found(client, places)[0]
        with to.console(stderr=subprocess.DEVNULL) as console:
            found, _ = front.found(console, places)
            crashes.ended(console)
        return found


def run(program, room, given):
    """So many copies: what went wrong, and what is told of them."""
    daemon, count = crashes.prepared(program, f"{room}/daemon"), given.rounds or USUAL
    wrong, music, front = [], crashes.Music(daemon.folder), crashes.Front(crashes.fresh(), random.Random(given.seed))
    copier = Copier(daemon, room, given)
    with daemon.start(), daemon.client() as client:
        front.scan(client, music)
        state = front.states[-1]
        for number in range(count):
            fault, state = copier.copy(number, state)
            wrong += [fault] if fault else []
    told = f"{copier.crossed} with a checkpoint in between, {copier.again} made again"
    return wrong, f"copy: {count} copies beside {copier.requests} requests, up to {max(copier.ahead, default=0)} ahead ({told})"
