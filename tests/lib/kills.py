"""Kills of tests/crash: a console or a daemon is killed at random moments, and what it answered must be there again.

Of the daemon, where what waits together is a group, nothing is played and no music is read, which would change the state at moments of
their own. A journal is filled up to where a checkpoint is near, so that most of the lives cross one; half of them are killed right after the
file that wasn't in use was first written to, inside of the checkpoint or behind it. Of a console's, files of the music come, go and change
before some of the updates."""

import collections
import contextlib
import os
import random
import signal
import threading
import time

import changes
import crashes
from scripts import Failure

USUAL = 200
# How often, where all is answered, the music changes under a console; and how many records are left at most before a checkpoint.
SCANS, MOST_LEFT = 0.1, 40
# This part of the lives are those of a daemon.
SERVED = 0.5
# A checkpoint is made where a console is killed so soon; the seconds of the others.
SOON, SECONDS = (0.001, 0.01), (0.0, 0.02, 0.4, 0.4)


class Killer(threading.Thread):
    """Kills a program some time after it began, or where it is so long after a file was written to."""

    def __init__(self, process, delay, path):
        super().__init__()
        self.process, self.delay, self.path, self.until = process, delay, path, time.monotonic() + 2
        self.first = path and os.stat(path).st_mtime_ns

    def run(self):
        while self.path and os.stat(self.path).st_mtime_ns == self.first and time.monotonic() < self.until:
            time.sleep(0.0001)
        time.sleep(self.delay)
        self.process.kill()


def use_until_killed(daemon, front, music, draw, totals):
    """Sends changes, and takes the answers that are written until the program is killed, one of a console or of a daemon."""
    # Some are killed before they have opened the journal, most in the middle of their answers, and half of all around a checkpoint.
    is_served, journal = draw.random() < SERVED, daemon.journal()
    other, generation = journal.other(), journal.generation(journal.in_use())
    first, is_watched = os.stat(other).st_mtime_ns, draw.random() < 0.5
    if is_served:
        client = daemon.start().client(greeted=False)
        process, how = daemon.process, ([changes.reading], None, 0)
    else:
        client = daemon.console(greeted=False)
        process, how = client.process, ([changes.playing, changes.reading], music, SCANS)
    delay, unanswered = draw.uniform(0.0, draw.choice(SOON if is_watched else SECONDS)), draw.randint(1, crashes.MOST_UNANSWERED)
    killer = Killer(process, delay, other if is_watched else None)
    killer.start()
    if client.line() is not None:
        front.take_all(client, unanswered, *how)
    killer.join()
    if process.wait() != -signal.SIGKILL:
        raise Failure("it ended by itself")
    is_begun, stands = os.stat(other).st_mtime_ns != first, journal.generation(journal.in_use()) > generation
    totals += collections.Counter(served=is_served, checkpoints=stands, cut=is_begun and not stands)


def begun(daemon, music, draw):
    """The state of a new journal once the folder is read."""
    for it in crashes.FILES:
        with contextlib.suppress(FileNotFoundError):
            os.remove(f"{daemon.folder}/{it}")
    front = crashes.Front(crashes.fresh(is_wide=music.is_wide), draw)
    with daemon.create().console() as console:
        front.scan(console, music)
        crashes.ended(console)
    return front.states[-1].restarted()


def run(program, room, given):
    """So many kills: what went wrong, and what is told of them."""
    draw, count = random.Random(given.seed), given.rounds or USUAL
    daemon, music = crashes.prepared(program, room, output="/dev/null"), crashes.Music(room)
    totals, sent, state = collections.Counter(), collections.Counter(), begun(daemon, music, draw)
    for kill in range(count):
        front = crashes.Front(state, draw)
        try:
            daemon.journal().fill(draw.randrange(MOST_LEFT), int(state.settings["volume"]))
            use_until_killed(daemon, front, music, draw, totals)
            with daemon.console() as console:
                found, is_known = front.found(console)
                crashes.ended(console)
            # The order number alone can't be read: where it may be another, the next goes on over a fresh journal.
            state = front.states[found].restarted() if is_known else begun(daemon, music, draw)
        except (Failure, OSError) as fault:
            return [f"kill {kill}: {fault}"], f"kill: {kill + 1} kills"
        sent += front.sent
        changed, more = front.changes(0, front.answered), front.changes(front.answered, found)
        totals += collections.Counter(answered=front.answered, changes=changed, kept=more, fresh=not is_known)
    requests = ", ".join(f"{number} {name}" for name, number in sorted(sent.items()))
    told = (
        f"sent: {requests}\n"
        f"kill: {count} kills, {totals['served']} of a daemon; requests answered: {totals['answered']}, {totals['changes']} of them changes, "
        f"lost: 0; changes kept that were not answered yet: {totals['kept']}; fresh journals: {totals['fresh'] + 1}; "
        f"lives with a checkpoint: {totals['checkpoints']}, killed inside of one: {totals['cut']}"
    )
    return [], told
