"""How far long work is: on a terminal a line that is written anew each second, elsewhere a line a minute."""

import os
import sys
import threading
import time

EACH, SELDOM = 1, 60
# So many seconds pass, and this part of the whole is done, before it is told how long the rest takes.
FIRST, PART = 10, 0.1
# What is below a crate is read when it is proved, which was seen to take this part of the time that the same bytes of its own take.
BELOW = 0.04
# Begins the line of a terminal anew.
CLEARED = "\r\x1b[K"


def clock(seconds):
    """Minutes and seconds, or hours and minutes."""
    minutes, seconds = divmod(int(seconds), 60)
    return f"{minutes // 60} h {minutes % 60:02} min" if minutes >= 60 else f"{minutes}:{seconds:02}"


class Progress:
    """Tells what `shown` answers for as long as it is open: a text, or None where there is nothing to tell."""

    def __init__(self, shown, stream=sys.stderr):
        self.shown, self.stream, self.begun = shown, stream, time.monotonic()
        self.is_terminal = stream.isatty()
        self.over, self.lock = threading.Event(), threading.Lock()
        self.thread = threading.Thread(target=self.tell, daemon=True)

    def __enter__(self):
        self.thread.start()
        return self

    def __exit__(self, *_):
        self.over.set()
        self.thread.join()
        self.clear()

    def seconds(self):
        return time.monotonic() - self.begun

    def tell(self):
        while not self.over.wait(EACH if self.is_terminal else SELDOM):
            if text := self.shown():
                with self.lock:
                    self.write(f"{CLEARED}{text[: width(self.stream) - 1]}" if self.is_terminal else f"{text}\n")

    def say(self, text):
        """A line that stays."""
        with self.lock:
            self.write(f"{CLEARED}{text}\n" if self.is_terminal else f"{text}\n")

    def clear(self):
        if self.is_terminal:
            self.write(CLEARED)

    def write(self, text):
        self.stream.write(text)
        self.stream.flush()


def width(terminal):
    """How many columns a terminal has."""
    try:
        return os.get_terminal_size(terminal.fileno()).columns or 80
    except OSError:
        return 80


def rest(done, whole, seconds):
    """Text of how long the rest takes about, where so much of the whole took so many seconds; empty where nobody can tell yet."""
    if done <= 0 or done < whole * PART or seconds < FIRST:
        return ""
    return f", about {clock(max(0, whole - done) * seconds / done)} to go"


class Crates:
    """Crates that are proved, each behind those that it uses, so many at once. Each is weighed by the bytes of what is read of it."""

    def __init__(self, root, uses, at_once):
        own = {it: weight_of(f"{root}/crates/{it}") for it in uses}
        self.uses, self.at_once, self.kept, self.proved = uses, at_once, set(), set()
        # Those below each crate, of which each stands behind its own.
        self.below = {}
        for name in uses:
            self.look_below(name)
        self.weights = {it: own[it] + BELOW * sum(own[low] for low in low_ones) for it, low_ones in self.below.items()}

    def look_below(self, name):
        if name not in self.below:
            self.below[name] = {it for low in self.uses[name] for it in (low, *self.look_below(low))}
        return self.below[name]

    def take(self, name, is_kept):
        """Notes that one is done; those that were proved before took no time."""
        (self.kept if is_kept else self.proved).add(name)

    def count(self):
        return len(self.kept | self.proved)

    def left(self):
        """The weight of those that are still to be proved. While a chain of them is proved one by one, nothing is beside it."""
        chains = {}
        for name in (it for it in self.below if it not in self.kept | self.proved):
            chains[name] = self.weights[name] + max((chains.get(it, 0) for it in self.uses[name]), default=0)
        return max(sum(self.weights[it] for it in chains), self.at_once * max(chains.values(), default=0))

    def shown(self, seconds):
        done = sum(self.weights.get(it, 0) for it in self.proved - self.kept)
        return f"{self.count()} of {len(self.weights)} crates are proved ({clock(seconds)}{rest(done, done + self.left(), seconds)})"


def weight_of(folder):
    """The bytes of a crate's code, definitions and proofs."""
    places = (place for part in ("src", "specs", "proofs") for place in os.walk(f"{folder}/{part}"))
    return sum(os.path.getsize(f"{at}/{it}") for at, _, files in places for it in files)


def processor_seconds():
    """What this process and all that it has begun have taken of processors so far."""
    ticks, parents = {}, {}
    for name in filter(str.isdigit, os.listdir("/proc")):
        try:
            with open(f"/proc/{name}/stat", encoding="utf-8", errors="replace") as file:
                words = file.read().rpartition(")")[2].split()
        except OSError:
            continue
        parents[int(name)], ticks[int(name)] = int(words[1]), sum(map(int, words[11:15]))
    return sum(it for pid, it in ticks.items() if is_below(pid, parents)) / os.sysconf("SC_CLK_TCK")


def is_below(pid, parents):
    """Whether a process was begun by this one, or by one that was."""
    while pid in parents and pid != os.getpid():
        pid = parents[pid]
    return pid == os.getpid()
