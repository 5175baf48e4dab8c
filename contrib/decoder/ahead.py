"""What is read ahead: a scan asks for one file after the other, in each folder by the bytes of the names, and meanwhile other processes
read the heads of those that come next."""

import bisect
import contextlib
import hashlib
import itertools
import mmap
import os
import socket
import struct
import time
import zlib

# How many files are read ahead of the one that was asked for; more are wanted where this many are no longer left.
COUNT, LEFT = 16, 8
# How many files are known at once, and for how many seconds.
MOST_KNOWN, SECONDS = 64, 5
# For how many seconds one that is being read is waited for, and how long at a time; then who asked reads it too.
PATIENCE, SHORTLY = 0.25, 0.0003
# How many folders are looked into for the files that come next, and how many entries of folders are kept.
MOST_FOLDERS, MOST_ENTRIES = 8, 100_000
# The states of a file: it comes behind one that was asked for, it is to be read, it is being read, its head is there.
NEXT, WANTED, BEGUN, THERE = range(1, 5)
# In memory stand a key for each file that is known, the number of the next place, and at each place a state, since when, and a sum and
# the length of the head behind them, which has so many bytes at most.
KEY, NUMBER, PLACE, MOST_HEAD = 16, struct.Struct("<I"), struct.Struct("<BdII"), 8192
KEYS = MOST_KNOWN * KEY


class Table:
    """The files that are known, in memory of all processes. Any of them may die at any time, so that nothing is locked: what two write at
    once fits no sum, and is none."""

    def __init__(self):
        self.memory = mmap.mmap(-1, KEYS + NUMBER.size + MOST_KNOWN * (PLACE.size + MOST_HEAD))

    def at(self, place):
        return KEYS + NUMBER.size + place * (PLACE.size + MOST_HEAD)

    def find(self, key):
        """The place of a file, and its state; none where it isn't known any more."""
        place, rest = divmod(self.memory.find(key, 0, KEYS), KEY)
        if rest:  # Also of -1.
            return None, None
        state, since, _, _ = PLACE.unpack_from(self.memory, self.at(place))
        return (place, state) if 0 <= time.monotonic() - since < SECONDS else (None, None)

    def add(self, key, state):
        """Knows a file in place of the one that was added first."""
        place = NUMBER.unpack_from(self.memory, KEYS)[0] % MOST_KNOWN
        NUMBER.pack_into(self.memory, KEYS, place + 1)
        self.enter(place, state)
        self.memory[place * KEY : (place + 1) * KEY] = key

    def enter(self, place, state, key=b"", head=b""):
        at = self.at(place)
        self.memory[at + PLACE.size : at + PLACE.size + len(head)] = head
        PLACE.pack_into(self.memory, at, state, time.monotonic(), zlib.crc32(key + head), len(head))

    def head(self, place, key):
        """The head that is there; none where it isn't whole, or another file's by now."""
        at = self.at(place)
        _, _, told, length = PLACE.unpack_from(self.memory, at)
        head = self.memory[at + PLACE.size : at + PLACE.size + min(length, MOST_HEAD)]
        return head if zlib.crc32(key + head) == told else None

    def drop(self, place):
        self.memory[place * KEY : (place + 1) * KEY] = bytes(KEY)


class Ahead:
    """Which files are read ahead below a folder. It is made before the processes: some take what others read."""

    def __init__(self, folder, is_read):
        self.folder, self.is_read, self.table, self.listings = os.fsencode(folder), is_read, Table(), {}
        self.wanted, self.asking = socket.socketpair(socket.AF_UNIX, socket.SOCK_SEQPACKET)
        self.asking.setblocking(False)

    def take(self, path):
        """Whether a file was known that is asked for now, and its head, if it was read ahead. It isn't known any more then."""
        key, end = key_of(path), time.monotonic() + PATIENCE
        place, state = self.table.find(key)
        while state == BEGUN and time.monotonic() < end:
            time.sleep(SHORTLY)
            place, state = self.table.find(key)
        if place is None:
            return False, None
        head = self.table.head(place, key) if state == THERE else None
        self.table.drop(place)
        return True, head

    def follow(self, path, was_known):
        """Has the files read that come behind one whose head was asked for. Where it wasn't known itself it may be the only one that is
        asked for: then the next one is known from now on, and nothing is read."""
        behind = self.behind(path) if self.is_read else iter(())
        first = [*itertools.islice(behind, LEFT + 1 if was_known else 1)]
        if len(first) > LEFT and self.table.find(key_of(first[LEFT]))[0] is not None:
            return
        for it in itertools.chain(first, itertools.islice(behind, COUNT - LEFT - 1 if was_known else 0)):
            key = key_of(it)
            place, state = self.table.find(key)
            if place is None:
                self.table.add(key, WANTED if was_known else NEXT)
            elif was_known and state == NEXT:
                self.table.enter(place, WANTED)
            else:
                continue
            if was_known:
                with contextlib.suppress(BlockingIOError):  # So many are wanted already.
                    self.asking.send(it)

    def read(self, head_of):
        """Reads what is wanted, for ever. The call gives the head of a file by its path, or None."""
        while True:
            path = self.wanted.recv(1 << 16)
            key = key_of(path)
            place, state = self.table.find(key)
            if state != WANTED:
                continue
            self.table.enter(place, BEGUN)
            head = head_of(path)
            place, state = self.table.find(key)
            if state == BEGUN and head:
                self.table.enter(place, THERE, key, head[:MOST_HEAD])
            elif state == BEGUN:
                self.table.drop(place)

    def behind(self, path):
        """The files of the same ending behind a file, in the order of a scan."""
        ending, looks = os.path.splitext(path)[1].lower(), iter(range(MOST_FOLDERS))
        while path:
            path, _, name = path.rpartition(b"/")
            yield from (it for it in self.files(path, looks, name) if it.lower().endswith(ending))

    def files(self, folder, looks, after=b""):
        """The files of a folder behind a name, and in the folders there, as long as there are looks."""
        if next(looks, None) is None:
            return
        entries = self.listing(folder)
        for name, is_folder in itertools.islice(entries, bisect.bisect_right(entries, (after, True)), None):
            path = folder + b"/" + name if folder else name
            if is_folder:
                yield from self.files(path, looks)
            else:
                yield path

    def listing(self, folder):
        """The names in a folder by their bytes, each with whether it is one of a folder; none where it can't be read."""
        place = os.path.join(self.folder, folder)
        with contextlib.suppress(OSError):
            changed = os.stat(place).st_mtime_ns
            known, entries = self.listings.get(folder, (None, []))
            if known != changed:
                with os.scandir(place) as found:
                    entries = sorted((it.name, it.is_dir()) for it in itertools.islice(found, MOST_ENTRIES))
                if sum(1 + len(it) for _, it in self.listings.copy().values()) + len(entries) > MOST_ENTRIES:
                    self.listings.clear()
                self.listings[folder] = changed, entries
            return entries
        return []


def key_of(path):
    return hashlib.blake2b(path, digest_size=KEY).digest()
