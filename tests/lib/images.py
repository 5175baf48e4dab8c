"""Images of tests/crash: what a crash may leave of the journal's files is drawn and opened, and the player found is one that was.

A client makes changes at random: of a console, one request after the other, or of a daemon, many at once, so that they are groups. What the
program does to the two files, and when it answers, is recorded by lib/record_calls.c, which wants a C compiler. Then a moment of that
record is drawn, also inside a write, and for each file what a crash may leave of it then: a length between the least and the greatest since
its last sync, and at each byte that was written since then, or that lies behind the least length, the byte from before, the new one, or any
other. The files of such a crash are opened by another console, which must answer as a state behind a write of records that had begun at
that moment, and as none from before the last request that was answered then: so of a group all or nothing. In half of the records a
checkpoint is made, half of them begin with a journal of layout 1, which is brought to another first, and a quarter each are of a daemon, of
a console, of a console with `stock_clients`, so layout 3, and of a daemon with these, whose player is used too, and goes on behind the
crash."""

import bisect
import collections
import concurrent.futures
import copy
import itertools
import os
import random
import struct
import subprocess
import tempfile
import typing

import crashes
import drives
import journal_files
import preload
from crashes import FILES
from scripts import Failure, read, write

# How many images are opened, and of each record.
USUAL, EACH = 1_200, 75
# How many requests a console is sent, and how many a daemon at least, of which so many at once; and how many records of the journal are
# left at most before a checkpoint, where there is to be one.
REQUESTS, MANY, TOGETHER, MOST_LEFT = 24, 60, (1, 2, 5, 20), 20
# The kinds of records: a daemon, and `stock_clients`; layout 1 at first; a checkpoint.
KINDS = [*itertools.product(((True, False), (False, False), (False, True), (True, True)), (True, False), (True, False))]
# A file with fewer bytes has no head. Before the first checkpoint a crash leaves that beside a full one, which an emptied one may be, too.
HEAD, EMPTIED = 32, b"where it had more, the other file may have an older state; if a copy has them, end this at once and put both back\n"


class Call(typing.NamedTuple):
    """A call that was recorded: a write, a cut or a sync of a file, or what was written to the output."""

    kind: str
    file: str
    at: int
    content: bytes


class Window:
    """A file since its last sync: its bytes at that sync and with all that was done since then, both without the zeros at their end, its
    length now, the least and the greatest one, and which parts were written."""

    def __init__(self, content, length=None):
        self.base = self.now = content.rstrip(b"\0")
        self.length = self.least = self.greatest = len(content) if length is None else length
        self.written = []

    def after(self, call):
        if call.kind == "s":
            return Window(self.now, self.length)
        window = copy.copy(self)
        if call.kind == "c":
            window.now, window.length = self.now[: call.at].rstrip(b"\0"), call.at
            window.least, window.greatest = min(self.least, call.at), max(self.greatest, call.at)
        else:
            end = call.at + len(call.content)
            window.now = (self.now[: call.at].ljust(call.at, b"\0") + call.content + self.now[end:]).rstrip(b"\0")
            window.length, window.greatest = max(self.length, end), max(self.greatest, end)
            window.written = [*self.written, (call.at, end)]
        return window

    def image(self, draw):
        """What a crash may leave. Behind the last byte that isn't zero before or now, zeros are left, or any bytes."""
        length = draw.choice([self.least, self.greatest, draw.randint(self.least, self.greatest)])
        found, last = bytearray(self.base[:length].ljust(length, b"\0")), max(len(self.base), len(self.now))
        parts = [(at, min(end, length)) for at, end in [*self.written, (self.least, length)] if at < length]
        loose = sorted({it for at, end in parts for it in range(at, min(end, last))})
        new, share = self.now.ljust(last, b"\0"), draw.random()
        way = draw.choice(["old", "new", "front", "mixed", "any"])
        for place, at in enumerate(loose):
            if way == "any":
                found[at] = draw.randrange(256)
            elif way == "new" or way == "front" and place < share * len(loose) or way == "mixed" and draw.random() < share:
                found[at] = new[at]
        for at, end in parts if way == "any" else ():
            found[max(at, last) : end] = draw.randbytes(max(0, end - max(at, last)))
        return bytes(found)


class Record:
    """What a program did: its calls, the state behind each record of the journal, and how long the record of calls was when a state was
    answered."""

    def __init__(self, program, library, folder, draw, kind):
        (self.is_served, self.is_wide), is_old, has_checkpoint = kind
        self.folder, self.draw, self.music = folder, draw, crashes.Music(folder, self.is_wide)
        left = draw.randrange(MOST_LEFT) if has_checkpoint else None
        self.plays = False if self.is_served and self.is_wide else None
        goes_on = {} if self.plays is None else {"resume": "paused"}
        self.daemon = crashes.prepared(program, folder, left, is_old, self.is_wide, **goes_on)
        self.journal, self.front = self.daemon.journal(), crashes.Front(crashes.fresh(is_wide=self.is_wide), draw, False)
        self.windows, self.marks, self.moments = [{it: Window(read(f"{folder}/{it}")) for it in FILES}], [], []
        self.use({"LD_PRELOAD": library, "CALLS": f"{folder}/calls"})
        # The places of the states that are records.
        self.places = [0, *(it for it in range(1, len(self.front.states)) if self.front.is_record(it))]
        # How many records stood, behind each call; those that came by one write are a group.
        self.counts = [self.count()]
        for start, call in calls_of(read(f"{folder}/calls")):
            self.windows.append({**self.windows[-1], call.file: self.windows[-1][call.file].after(call)})
            self.moments.append(max((place for length, place in self.marks if length <= start), default=0))
            self.counts.append(self.count() if call.content == b"\xa5" else self.counts[-1])
        if self.counts[-1] - self.counts[0] != len(self.places) - 1:
            raise ValueError(f"{len(self.places) - 1} changes are {self.counts[-1] - self.counts[0]} records")
        self.groups = collections.Counter(it - was for was, it in zip(self.counts, self.counts[1:]) if it - was > 1)

    def count(self):
        """How many records went before and stand, by the file in use."""
        used = max(self.windows[-1].values(), key=lambda it: drives.generation([it.now]))
        content = used.now.ljust(used.length, b"\0")
        return int.from_bytes(content[20:28], "little") + len(journal_files.records_of(content)[0])

    def use(self, settings):
        """Makes changes, the first of which is a scan, and takes their answers."""
        if self.is_served:
            client = self.daemon.start(settings=settings).client()
        else:
            client = self.daemon.console(settings=settings, stderr=subprocess.DEVNULL)
        others = [] if self.plays is None else [crashes.playing]
        with client, self.daemon:
            self.mark()
            self.front.scan(client, self.music)
            self.mark()
            most = len(self.front.answers) + (MANY if self.is_served else REQUESTS)
            while len(self.front.answers) < most:
                count = self.draw.choice(TOGETHER) if self.is_served else 1
                self.front.exchange(client, *(self.front.next_request(others) for _ in range(count)))
                self.mark()
            if not self.is_served:
                crashes.ended(client)

    def mark(self):
        self.marks.append((os.stat(f"{self.folder}/calls").st_size, self.front.answered))

    def image(self):
        """The bytes of both files after a crash, and the places of the states of which one must be found in them."""
        at = self.draw.randrange(len(self.moments))
        answered = bisect.bisect(self.places, self.moments[at]) - 1
        begun = sorted({it - self.counts[0] for it in self.counts[: at + 2]})
        return {it: self.windows[at + 1][it].image(self.draw) for it in FILES}, [self.places[it] for it in begun if it >= answered]

    def told(self):
        """What must be said on standard error of the files that stand there."""
        (short, length), (used, _) = sorted(((it, os.path.getsize(it)) for it in self.journal.paths), key=lambda it: it[1])
        is_first = length < HEAD and self.journal.generation(used) == 1 and len(journal_files.appended(used)) >= journal_files.RECORDS
        line = f"{os.path.basename(short)}: it has {length} bytes: ".encode() + EMPTIED if is_first else b""
        layout = 3 if self.is_wide else 2
        return line + (journal_files.MIGRATED.replace(b"2", b"%d" % layout) if self.journal.layout() < layout else b"")

    def fault(self, images, places):
        """Opens the files of a crash; what is wrong with what is found, or None."""
        for name, content in images.items():
            write(f"{self.folder}/{name}", content)
        try:
            wanted = self.told()
            said = self.look(places) if self.plays is None else self.look_at_player(places)
        except (Failure, OSError, IndexError) as fault:  # Files that no crash may leave can end within a record.
            return str(fault)
        return f"it said {said} and not {wanted}" if said != wanted else None

    def look(self, places):
        """A console finds the state at one of these places; what it said."""
        with self.daemon.console(stderr=subprocess.PIPE) as console:
            self.front.found(console, places)
            crashes.ended(console)
            return console.process.stderr.read()

    def look_at_player(self, places):
        """The same of a daemon, whose player goes on."""
        self.daemon.lines.clear()
        with self.daemon.start(), self.daemon.client() as client:
            self.front.found(client, places, self.plays)
            self.daemon.kill()
        return "".join(f"{it}\n" for it in self.daemon.lines if not it.startswith("[")).encode()


def calls_of(record):
    """The calls of the two files that were done, each with the length of the record in front of it."""
    at = 0
    while at < len(record):
        start, (kind, file, offset, count, is_done) = at, struct.unpack_from("<5q", record, at)
        at += 40
        content = record[at : at + count] if chr(kind) in "wo" else b""
        at += len(content)
        if chr(kind) in "wcs" and chr(file) in FILES:
            if not is_done:
                raise ValueError("the system failed a call")
            yield start, Call(chr(kind), chr(file), offset, content)


def opened(program, library, room, seed):
    """Makes a record, and opens images of it: what was wrong, how many kinds of images there were, and the record's groups."""
    with tempfile.TemporaryDirectory(dir=room) as folder, crashes.full_pipe(f"{folder}/sound"):
        record, found, seen = Record(program, library, folder, random.Random(seed), KINDS[seed % len(KINDS)]), [], set()
        for _ in range(EACH):
            images, places = record.image()
            seen.add(hash(tuple(images.values())))
            if text := record.fault(images, places):
                found.append(f"seed {seed}: {text}")
        return found, len(seen), record.groups


def run(program, room, given):
    """So many images, over records of all kinds in turn: what went wrong, and what is told of them."""
    count = max((given.rounds or USUAL) // EACH, 1)
    library = preload.library("record_calls", room)
    with concurrent.futures.ThreadPoolExecutor(given.jobs) as pool:
        results = list(pool.map(lambda seed: opened(program, library, room, seed), range(given.seed, given.seed + count)))
    wrong, kinds = [text for found, _, _ in results for text in found], sum(it for _, it, _ in results)
    groups = sum((it for _, _, it in results), collections.Counter())
    wrong += ["there was no group"] * (count >= len(KINDS) and not groups)
    told = f"{count} records, {groups.total()} groups of up to {max(groups, default=0)}"
    return wrong, f"image: {EACH * count} images opened, {kinds} of them unlike the others of their record; {told}"
