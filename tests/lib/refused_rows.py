"""The rows of tests/refused_memory: lines of the driver for a core, journals and stages, and whole runs of the program; what each does
where one of its allocations is refused, and what it may do."""

import os
import re
import shutil
import subprocess

import journal_files
import preload
import refusals
import scripts
import under

SECONDS = under.seconds(60)
# What a program says that ends for want of memory itself.
ENDED = re.compile(r"out of memory|no memory|OutOfMemory|memory allocation failed")

# ---- lines for a core

SONGS = ["a.wav 16000 Title One Artist Anna", "b.wav 8000", "d/c.wav 12000 Title Three Artist Anna Album Blue", "d/e/f.wav 16000"]
BEGINNING = [
    *("make_core", "connect 1", "1> update", *(f"put {it}" for it in SONGS), "batch 1", "scanned 1"),
    *("1> addid a.wav", "1> addid b.wav", "1> addid d/c.wav", "1> save old", "1> save other", "1> sticker set song a.wav n v"),
    *("1> prio 7 1", "spell"),
]
# Where no song is current, and where one plays and a job runs.
SITUATIONS = {refusals.Situation(False, False): [], refusals.Situation(True, False): ["1> random 1", "1> play 1", "1> update"]}
# Behind what a row begins with, client 2 comes and waits for every subsystem.
WAITS = ["connect 2", "2> idle"]
EVENTS = ["connect 3", "connect 2", "gone 2", "gone 1", "scanned 2", "fed 1 100", "fed 2 9000", "ended 2", "broken 2 source"]
# What is collected for a batch is no event.
BATCHES = [["put b.wav 9000", "drop a.wav", "put z.wav 8000 Title Last", "batch 2"], ["drop b.wav", "drop d/c.wav", "batch 2"]]
QUIET = "1> setvol 40"
# By these is seen what is there.
LOOKS = ["saved", "connect 4", "4> status", "4> idle", "order", "scan_order"]

# ---- lines for journals and stages

# A file with a fresh state, whose key is of zeros, and records behind it that set the volume to 40.
STATE = f"{'00' * 40} 01000000 01000000 64 {'00' * 20}"
FRESH = f"{scripts.head(1, 0, 69).hex()} {STATE}"
RECORDS = 3
FEW, FULL = (f"a has {FRESH} a5 {'02000000 0228 a5' * (count - 1)} 02000000 0228 00" for count in (RECORDS, 4_096))
BYTES = ["a bytes", "b bytes"]
# One in layout 1, to which no record is added.
OLD = f"a has {scripts.head(1, 0, 69, layout=1).hex()} {STATE} a5 02000000 0228 00"
DISK_FAULTS = ["refused 6 disk fault"], ["refused 42 broken by a disk fault"]
# What goes before it, the line, and whether a journal or a stage stands over the files even where it is refused.
CALLS = [
    (["a has -", "b has -"], "make_journal 010203", False),
    ([FEW, "b has -"], "open_journal", False),
    ([FEW, "b has -", "open_journal"], "append 0228", True),
    ([FEW, "b has -", "open_journal"], "checkpoint 010203", True),
    (["a has -", "b has -"], "make_stage", False),
    ([FEW, "b has -"], "open_stage", False),
    ([FULL, "b has -"], "open_stage", False),
    ([FEW, "b has -", "open_stage"], "checkpoint", True),
    ([FEW, "b has -", "open_stage", "connect 1"], "line 1 setvol 41", True),
    ([FEW, "b has -", "open_stage", "connect 1"], "list 1 setvol 41 & repeat 1 & status", True),
    ([OLD, "b has -"], "open_journal", False),
    ([OLD, "b has -"], "open_stage", False),
    ([OLD, "b has -", "open_stage"], "connect 1", True),
]
# An event before which a checkpoint is due, and the next one.
DUE = [FULL, "b has -", "open_stage"], "connect 1", "connect 2"

# ---- what the program is given, over a journal with one song in the queue and a folder with two more

GIVEN = ['add ""', "setvol 40", "save old", "update", "listallinfo"]
LOOKED = "status\nplaylistinfo\nlistallinfo\nlistplaylists\n"
CONFIG = f'music = "music"\njournal_a = "a"\njournal_b = "b"\nkey = "{"5a" * 32}"\n'
FILES = ["a", "b"]
HELLO = "OK MPD 0.23.0\n"


class Place:
    """A folder of its own for runs in which allocations are counted and one is refused."""

    def __init__(self, folder, library):
        self.folder, self.library = folder, library
        os.makedirs(folder)

    def run(self, words, given, refused=0):
        """Runs a program, in which this allocation is refused: how it ended, how many allocations it made, and whether one was refused."""
        with open(f"{self.folder}/input", "w+b") as file:
            file.write(given.encode())
            file.seek(0)
            settings = preload.settings(self.library, f"{self.folder}/counts", refused)
            how = {"stdin": file, "capture_output": True, "env": settings, "cwd": self.folder, "check": False, "timeout": SECONDS}
            done = subprocess.run(words, **how)
        count, met = preload.counts(f"{self.folder}/counts")
        return done, count, met > 0


class Run:
    """A run of the driver: what it printed behind each line, how many allocations it made, whether one was refused, and whether it ended
    for that itself."""

    def __init__(self, place, program, lines, refused=0):
        done, self.count, self.was_refused = place.run([program], "".join(f"{it}\n" for it in lines), refused)
        self.groups, printed = [], []
        for line in done.stdout.decode().splitlines():
            if line == ".":
                self.groups.append(printed)
                printed = []
            else:
                printed.append(line)
        self.told = done.stderr.decode()
        self.has_ended = done.returncode == 1 and bool(ENDED.search(self.told))
        self.is_well = self.has_ended or done.returncode == 0 and not self.told and len(self.groups) == len(lines)


class Line:
    """A line of the driver: what goes before it, what it prints with memory enough, and what is there before and behind it then."""

    wanted = states = None

    def run(self, place, lines, refused=0):
        run = Run(place, self.program, lines, refused)
        if not refused and (run.has_ended or not run.is_well):
            raise ValueError(f"{self.name}: with memory enough it ended otherwise: {run.told}")
        return run

    def begin(self, place):
        """Runs it with memory enough; the numbers of its allocations."""
        self.prepare(place)
        before, behind = (self.run(place, it).count for it in (self.front, [*self.front, self.line]))
        return range(before + 1, behind + 1)

    def fault(self, place, number):
        """What is wrong where this allocation is refused, or None; and whether the driver ended itself."""
        run, looked = self.looked(place, number)
        if not run.is_well or not run.was_refused:
            return f"it ended otherwise: {run.told}", False
        # A disk in memory that wants memory has failed; what is left of its file is the matter of other scripts.
        if run.has_ended or (printed := run.groups[len(self.front)]) in DISK_FAULTS:
            return None, run.has_ended
        left = [state for lines, state in [(self.wanted, "after"), *self.refused()] if lines == printed]
        if not left:
            return f"it printed {printed}", False
        return None if any(looked == self.states[it] for it in left) else f"it printed {printed}, and then there is {looked}", False


class Event(Line):
    """A line for a core."""

    def __init__(self, program, front, line, command="", is_list=False):
        self.program, self.front, self.line, self.command, self.is_list = program, [*front, *WAITS], line, command, is_list
        self.name = f"{' '.join(front[len(BEGINNING) :])}: {line}"

    def lines(self, line):
        return [*self.front, *([line] if line else []), *LOOKS]

    def prepare(self, place):
        whole, quiet, still = (self.run(place, self.lines(it)) for it in (self.line, QUIET, None))
        self.wanted = whole.groups[len(self.front)]
        self.states = {name: run.groups[-len(LOOKS) :] for name, run in {"before": still, "quiet": quiet, "after": whole}.items()}

    def looked(self, place, number):
        run = self.run(place, self.lines(self.line), number)
        return run, run.groups[-len(LOOKS) :]

    def refused(self):
        """What it may print where memory is refused, and what is there behind it then."""
        yield ["no memory"], "before"
        for name in {self.command, "setvol"} if self.is_list else {self.command}:
            yield [f"1< ACK [52@0] {{{name}}} out of memory", "no memory at 0"], "before"
        if self.is_list:
            told = ["2< changed: mixer", "2< OK", "op 0228", "no memory at 1"]
            yield ["1< list_OK", f"1< ACK [52@1] {{{self.command}}} out of memory", *told], "quiet"
        # A session may refuse what its client sends, or what it is to be sent.
        for client in "1", "2", "3":
            lines = [f"{client} refused 7", f"{client} closed"]
            yield lines, "before"
            if own := [at for at, line in enumerate(self.wanted) if line.startswith(f"{client}< ")]:
                yield [*self.wanted[: own[0]], *lines, *self.wanted[own[-1] + 1 :]], "after"


class Call(Line):
    """A line for a journal or a stage. What is there are the bytes of both files."""

    def __init__(self, program, front, line, stands):
        self.program, self.front, self.line, self.stands = program, front, line, stands
        self.name = f"a of {len(front[0])} signs, {', '.join(front[1:])}: {line}"

    def closed(self, line, stands=True):
        return [*self.front, *([line] if line else []), *(["close"] if stands else []), *BYTES]

    def prepare(self, place):
        self.wanted = self.run(place, [*self.front, self.line]).groups[-1]
        self.states = {"before": self.run(place, self.closed(None, self.stands)).groups[-2:]}
        self.states["after"] = self.run(place, self.closed(self.line)).groups[-2:]
        for count in range(1, len(self.commands())):
            self.states[count] = self.run(place, self.closed(f"list 1 {' & '.join(self.commands()[:count])}")).groups[-2:]

    def commands(self):
        """The commands of the client's request, if it is one."""
        word, _, text = self.line.partition(" 1 ")
        return text.split(" & ") if word in ("line", "list") else []

    def looked(self, place, number):
        run = self.run(place, [*self.front, self.line], number)
        if run.has_ended or not run.is_well:
            return run, None
        stands = self.stands or run.groups[-1] == self.wanted
        return run, self.run(place, self.closed(self.line, stands), number).groups[-2:]

    def refused(self):
        for line in "refused 7 out of memory", "refused 43 out of memory":
            yield [line], "before"
        # A request that is refused memory inside is answered, and has a record where a command went before that one.
        for at, command in enumerate(self.commands()):
            record = [f"record {RECORDS + 1}"] if at else []
            refused = f"1< ACK [52@{at}] {{{command.split(' ')[0]}}} out of memory"
            yield ["event 2", *record, f"no memory at {at}", "outputs 1", refused], at or "before"


class Due(Call):
    """An event before which a checkpoint is due, which takes no memory: it stands where the event finds none. What is there are the bytes of
    both files behind the event, and behind the next."""

    def __init__(self, program, front, line, following):
        super().__init__(program, front, line, True)
        self.following = following

    def prepare(self, place):
        self.wanted = self.run(place, [*self.front, self.line]).groups[-1]
        made = self.run(place, self.closed(self.line)).groups[-2:]
        self.states = {"after": made + made}

    def looked(self, place, number):
        run, behind = super().looked(place, number)
        if behind is None:
            return run, None
        return run, behind + self.run(place, [*self.front, self.line, self.following, "close", *BYTES], number).groups[-2:]

    def refused(self):
        yield ["refused 43 out of memory"], "after"


class Program:
    """A whole run of the program, which makes a journal or serves a line, over a journal of layout 1 where that is said. What is there is
    what the next run answers."""

    config = CONFIG

    def __init__(self, program, given, is_old=False):
        self.program, self.given, self.is_old = program, given, is_old
        self.name, self.words = ("program: create", ["create"]) if given is None else (f"program: {given}", ["console"])
        self.name += ", from layout 1 on" * is_old
        self.files = self.wanted = self.states = None

    def run(self, place, words, given, refused=0):
        return place.run([self.program, *words, "c.toml"], given, refused)

    def begin(self, place):
        scripts.write(f"{place.folder}/c.toml", self.config.encode())
        scripts.write(f"{place.folder}/music/a.wav", scripts.wave(100, ["INAM=One"]))
        if self.given is not None:
            self.run(place, ["create"], "")
            self.run(place, ["console"], 'update\nadd ""\nsave other\n')
        for name in "d/b", "d/c":
            scripts.write(f"{place.folder}/music/{name}.wav", scripts.wave(200, ["IART=Anna"]))
        if self.is_old:
            journal_files.Journal(*(f"{place.folder}/{it}" for it in FILES)).make_old()
        self.files = {it: read(f"{place.folder}/{it}") for it in FILES}
        before = self.looked(place)
        self.put_back(place)
        done, count, _ = self.run(place, self.words, f"{self.given or ''}\n")
        self.wanted = done.returncode, done.stdout.decode(), done.stderr.decode()
        self.states = {"before": before, "after": self.looked(place)}
        return range(1, count + 1)

    def looked(self, place):
        """What the next run answers."""
        if self.given is None and not read(f"{place.folder}/a"):
            return self.run(place, ["create"], "")[0].returncode
        return self.run(place, ["console"], LOOKED)[0].stdout

    def put_back(self, place):
        """The files as they were."""
        for name, content in self.files.items():
            scripts.write(f"{place.folder}/{name}", content) if content is not None else remove(f"{place.folder}/{name}")

    def fault(self, place, number):
        self.put_back(place)
        done, _, was_refused = self.run(place, self.words, f"{self.given or ''}\n", number)
        # Of a file that could not be opened or read for want of memory a line says so first.
        found = done.returncode, done.stdout.decode(), done.stderr.decode().replace("c.toml: out of memory\njournal", "journal")
        if not was_refused:
            return "it made fewer allocations", False
        left = [state for answer, state in [(self.wanted, "after"), *self.refused()] if found in self.told(answer)]
        if not left:
            return f"it ended with {found}", False
        looked = self.looked(place)
        return None if any(looked == self.states[it] for it in left) else f"it ended with {found}, and then there is {looked}", False

    def told(self, answer):
        """The answer, also with the line that the journal was brought to layout 2 in front on standard error, and without."""
        status, out, told = answer
        line = journal_files.MIGRATED.decode()
        return [answer, (status, out, line + told), (status, out, told.removeprefix(line))] if self.is_old else [answer]

    def refused(self):
        yield (2, "", "journal refused: 7\n"), "before"
        if self.given is not None:
            yield (0, f"{HELLO}ACK [52@0] {{{self.given.split(' ')[0]}}} out of memory\n", ""), "before"
            for state in "before", "after":
                yield (0, HELLO, ""), state
                yield (0, "", ""), state
            if self.given == "update":
                yield self.wanted, "before"


# What a stock client asks for: in one piece, in lists, in steps with several values at once; the last one changes something.
ASKED = ["outputs", "tagtypes enable Title", "list Title group Artist", "count group Album", "command_list_ok_begin", "lsinfo", "playlist"]
ASKED += ["subscribe a", "channels", "sendmessage a x", "readmessages", "command_list_end"]
ASKED += ["find \"(artist =~ 'n+a$')\" albumartist Anna sort Track", "binarylimit 64", "albumart d/b.wav 0", "readpicture a.wav 0"]
ASKED += ["command_list_ok_begin", "ping", "albumart d/b.wav 30", "command_list_end", "status", "volume -30"]
# A picture that finds no room while it is asked for and read is told as one that is not there to be told.
UNREAD = r"ACK \[[25]@[0-9]+\] \{(?:albumart|readpicture)\} (?:the picture could not be read|one picture a command list)\n"
REFUSED = rf"ACK \[52@[0-9]+\] \{{\w+\}} out of memory\n|{UNREAD}"


class Conversation(Program):
    """A stock client by hand. Each answer is the right one, or ends in a refusal for want of memory; behind one that is cut nothing comes.
    The volume is the new one where that was told, and else the old one, or either where the answer is missing."""

    config = CONFIG + "stock_clients = true\n"

    def __init__(self, program):
        super().__init__(program, "\n".join(ASKED))
        self.name, self.words, self.answers = "program: a stock client", ["console"], None

    def begin(self, place):
        scripts.write(f"{place.folder}/music/d/cover.png", b"0123456789" * 6)
        numbers = super().begin(place)
        self.answers = re.findall(r"(?:.*\n)*?(?:OK|ACK .*)\n", self.wanted[1].removeprefix(HELLO))
        return numbers

    def fault(self, place, number):
        self.put_back(place)
        done, _, was_refused = self.run(place, self.words, f"{self.given}\n", number)
        if not was_refused:
            return "it made fewer allocations", False
        found = done.returncode, done.stdout.decode(), done.stderr.decode().replace("c.toml: out of memory\njournal", "journal")
        states = ["before"] if found == (2, "", "journal refused: 7\n") else self.states_behind(found)
        looked = self.looked(place)
        return None if any(looked == self.states[it] for it in states) else f"it ended with {found}, and then there is {looked}", False

    def states_behind(self, found):
        """What may be there behind what was told; none where that is wrong."""
        status, text, told = found
        if status or told:
            return []
        rest = text.removeprefix(HELLO)
        if HELLO.startswith(text):
            return ["before"]
        for number, answer in enumerate(self.answers):
            if rest.startswith(answer):
                rest = rest[len(answer) :]
                continue
            same = os.path.commonprefix([rest.splitlines(True), answer.splitlines(True)])
            refusal = re.match(REFUSED, "".join(rest.splitlines(True)[len(same) :]))
            if not refusal:
                return ["before", "after"] if answer.startswith(rest) else []
            if number == len(self.answers) - 1:
                return [] if rest != "".join(same) + refusal[0] else ["before"]
            rest = rest[len("".join(same)) + len(refusal[0]) :]
        return [] if rest else ["after"]


def read(path):
    """What a file has, or None."""
    try:
        return scripts.read(path)
    except FileNotFoundError:
        return None


def remove(path):
    if os.path.exists(path):
        os.remove(path)


def rows(driver, program):
    """Each row, by its name."""
    found = {}
    for situation, front in SITUATIONS.items():
        begun = [*BEGINNING, *front]
        for command in refusals.commands(situation):
            lines = sorted((line for line, faults in command.lines() if not faults), key=len)
            for line in {lines[0], lines[-1]} if lines else ():
                name, both = line.split(" ")[0], f"command_list_ok_begin%nsetvol 40%n{line}%ncommand_list_end"
                for row in Event(driver, begun, f"1> {line}", name), Event(driver, begun, f"1> {both}", name, True):
                    found[row.name] = row
        for *before, line in [*([it] for it in EVENTS), *BATCHES]:
            row = Event(driver, [*begun, *before], line)
            found[row.name] = row
    for row in [*(Call(driver, *it) for it in CALLS), Due(driver, *DUE)]:
        found[row.name] = row
    programs = [*(Program(program, it) for it in [None, *GIVEN]), *(Program(program, it, True) for it in GIVEN[:3])]
    for row in [*programs, Conversation(program)]:
        found[row.name] = row
    return found


def sweep(folder, library, row):
    """Refuses each allocation of a row in turn: what was wrong, how many were refused, and at how many of them the driver ended itself."""
    place = Place(folder, library)
    numbers = row.begin(place)
    looked = [(number, *row.fault(place, number)) for number in numbers]
    shutil.rmtree(folder)
    return [f"{row.name}: allocation {it}: {text}" for it, text, _ in looked if text], len(looked), sum(it for _, _, it in looked)
