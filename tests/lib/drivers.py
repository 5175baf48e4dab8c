"""Scripts of the driver: a program that reads lines, does what each says, and prints what that gave, with a point behind it.

Each file `tests/scripts/FOLDER/NAME.events` is a script, run in a folder of its own. Its lines:

    # TEXT              a remark
    each FIRST LAST     the lines up to `end` stand there once for each of these numbers, and %i in them for the number
    end
    name NAME HEX..     these bytes have a name: %{NAME} in a line behind it stands for their hex digits, and %{NAME:FROM:TO} for those
                        of a part, where either place may be missing
    wave NAME RATE CHANNELS FRAMES SEED     a file of the folder is a WAVE file of so many frames of 16 bits; other numbers behind SEED
                        are other samples
    refuse K            of what the line behind it does the allocation of this number is refused
    cut                 it is run, too, with each send cut into two at the same place, for each place of its longest send
    memory COUNT        in the end the program has held at most so many bytes more than one that has done nothing
    < LINE              a line that the program must print behind the line before
    any other           a line of the program's input; crates/test_driver/README.md has them

In all of them `%{TEXT*N}` stands for a text N times, `%{head GENERATION BASE LENGTH}` for the head of a journal's file (scripts.py), and
in a line that must be printed

    %r                                  for a carriage return
    %sound{NAME FIRST COUNT PERCENT}    for the hex digits of so many frames of a `wave`, from a frame on, at a volume
    %wave{NAME FIRST COUNT PERCENT}     for those of a WAVE file of these frames at the file's rate and channels
    %numbers{FIRST LAST}                for the numbers from one to another, with spaces between them

Whatever way the bytes of a core's clients come and go, the same must be printed, line for line. So a script with a core is run whole, with
streams that take three bytes at a time, in pieces of one byte (not where it looks at memory), and cut, where it says so. A script in which
a disk fails at each call in turn has lines more (fuses.py).
"""

import concurrent.futures
import os
import re
import tempfile

import drives
import fuses
import preload
import waves
from scripts import Failure, text_of, whole

CORE, TAKES, PIECE = b"make_core", b"takes 3", b"pieces 1"
SEND = re.compile(rb"(\d+)(>-?)(?: (.*))?", re.DOTALL)
SOUND = re.compile(r"%(sound|wave)\{(\S+) (\d+) (\d+) (\d+)\}")
NUMBERS = re.compile(r"%numbers\{(\d+) (\d+)\}")


class Step:
    """A line of the program's input, and what is printed behind it."""

    def __init__(self, number, line):
        # Of each line that is wanted, `told` has the number in the script.
        self.number, self.line, self.wanted, self.told, self.refused = number, line, [], [], 0
        # In a script with fuses: whether it is done behind a refusal too, and the state that it leaves.
        self.is_always, self.leaves = False, None

    def compare(self, printed):
        compare(self, printed)

    def is_event(self):
        """Whether it must print an event's number."""
        return any(it.startswith(b"event ") for it in self.wanted)

    def length(self):
        """How many bytes its client sends; 0 where it is no send. A sign such as %n counts as one."""
        found = SEND.fullmatch(self.line)
        return len(re.sub(rb"%.", b".", found[3] or b"")) + (found[2] == b">") if found else 0

    def cut(self, place):
        """The line, cut at this place if it is a send."""
        found = SEND.fullmatch(self.line) if place else None
        return b"%s@%d%s" % (found[1], place, self.line[found.end(1) :]) if found else self.line


class Script:
    """A script, read."""

    def __init__(self, path):
        lines = list(enumerate(text_of(path).split("\n"), 1))
        self.steps, self.fused, self.refused, self.is_cut, self.memory = [], fuses.Fused(), 0, False, None
        self.waves, names = {}, {}
        # Those to which a line belongs.
        self.present = self.steps
        for number, line in spread(lines):
            line = named(line, names)
            if line.startswith("name "):
                _, name, digits = line.split(" ", 2)
                names[name] = bytes.fromhex(whole(digits).decode())
            elif line and not line.startswith("#"):
                self.take(number, line)

    def take(self, number, line):
        word, _, rest = line.partition(" ")
        if word == "<":
            self.want(number, rest)
        elif word == "wave":
            name, *numbers = rest.split()
            self.waves[name] = waves.wave_file(*map(int, numbers))
            self.add(number, f"file {name} {self.waves[name].hex()}")
        elif word == "refuse":
            self.refused = int(rest)
        elif line == "cut":
            self.is_cut = True
        elif word == "memory":
            self.memory = int(rest)
        elif not self.fused.take(self, number, line):
            self.add(number, line)

    def want(self, number, text):
        """Takes a line that must be printed."""
        if not self.present:
            raise Failure(f"line {number}: nothing was done before it")
        text = SOUND.sub(lambda it: self.sound(it[1], it[2], *map(int, it.groups()[2:])).hex(), text)
        text = NUMBERS.sub(lambda it: " ".join(map(str, range(int(it[1]), int(it[2]) + 1))), text)
        self.present[-1].wanted.append(whole(text).replace(b"%r", b"\r"))
        self.present[-1].told.append(number)

    def sound(self, form, name, *piece):
        return (waves.sound_of if form == "sound" else waves.piece_of)(self.waves[name], *piece)

    def add(self, number, line):
        """Takes a line of the program's input."""
        self.present.append(Step(number, whole(line)))
        self.present[-1].refused, self.refused = self.refused, 0

    def run(self, program):
        """Runs it, and gives what is to be said of it beside, or None."""
        if self.fused.fuses:
            return fuses.Sweep(self, program).run()
        peaks = {}
        for way, more, place in self.ways():
            try:
                printed, peaks[way] = self.printed(program, more, place)
                for step, lines in zip(self.steps, printed):
                    step.compare(lines)
            except Failure as fault:
                raise Failure(f"{way}: {fault}" if way != "whole" or self.has_core() else str(fault)) from fault
        return None if self.memory is None else self.look_at_memory(program, peaks["whole"])

    def has_core(self):
        return any(it.line == CORE for it in self.steps)

    def ways(self):
        """The ways in which it is run: the name of each, a line behind that which makes a core, and where each send is cut."""
        yield "whole", None, 0
        if self.has_core():
            yield "by three bytes", TAKES, 0
            if self.memory is None:
                yield "in pieces of one byte", PIECE, 0
            if self.is_cut:
                yield from ((f"cut at {it}", None, it) for it in range(1, max(step.length() for step in self.steps) + 1))

    def printed(self, program, more=None, place=0):
        """What the program prints behind each line, run in one of the ways, and the most memory that it held."""
        if any(it.refused for it in self.steps):
            return self.printed_refused(program), 0
        lines, places = [], []
        for step in self.steps:
            places.append(len(lines))
            lines += [step.cut(place), more] if more and step.line == CORE else [step.cut(place)]
        with drives.Drive(program, seconds=drives.SECONDS) as drive:
            printed = drive.ask(*lines)
            return [printed[it] for it in places], drive.peak()

    def printed_refused(self, program):
        """What it prints where memory is refused."""
        with tempfile.TemporaryDirectory(prefix="refuse-") as room:
            with drives.Drive(program, preload.library("refuse_memory", room), drives.SECONDS) as drive:
                found = []
                for step in self.steps:
                    drive.refuse(step.refused)
                    found += drive.ask(step.line)
                return found

    def look_at_memory(self, program, peak):
        with drives.Drive(program, seconds=drives.SECONDS) as drive:
            drive.ask(CORE, b"holds")
            fresh = drive.peak()
        text = f"{peak} bytes held at most, {fresh} by a program that does nothing, {self.memory} more are allowed"
        if peak > fresh + self.memory:
            raise Failure(text)
        return text


def spread(lines):
    """The lines, those between `each` and `end` as often as is said."""
    block, numbers = None, ()
    for number, line in lines:
        if line.startswith("each "):
            first, last = map(int, line.split()[1:])
            block, numbers = [], range(first, last + 1)
        elif line == "end":
            yield from ((at, text.replace("%i", str(it))) for it in numbers for at, text in block)
            block = None
        elif block is None:
            yield number, line
        else:
            block.append((number, line))


def named(line, names):
    """The line with the bytes of names in it."""

    def part(found):
        data, first, last = names.get(found[1]), found[2], found[3]
        return found[0] if data is None else data[int(first or 0) : int(last) if last else None].hex()

    return re.sub(r"%\{(\w+)(?::(\d*):(\d*))?\}", part, line)


def compare(step, printed):
    if printed == step.wanted:
        return
    at = next((it for it, (one, other) in enumerate(zip(printed, step.wanted)) if one != other), min(len(printed), len(step.wanted)))
    found, wanted = (it[at][:120].decode(errors="replace") if at < len(it) else "no more" for it in (printed, step.wanted))
    raise Failure(f"line {step.number}: printed line {at + 1} is {found!r}, wanted {wanted!r}")


def run_script(program, path):
    """What a script found wrong, or None, and what it has to say beside."""
    try:
        return None, Script(path).run(program)
    except (Failure, OSError, ValueError) as fault:
        return str(fault), None


def run_all(program, paths):
    """Each of these scripts with what it found wrong, or None. What one says beside is printed."""
    with concurrent.futures.ThreadPoolExecutor(4) as pool:
        for path, (fault, said) in zip(paths, pool.map(lambda path: run_script(program, path), paths)):
            if said:
                print(f"{os.path.basename(path).removesuffix('.events')}: {said}", flush=True)
            yield path, fault
