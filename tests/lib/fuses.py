"""Scripts of the driver in which a disk fails at each of its calls in turn.

A script with a line `fuse` is run again and again, each time by a program of its own: where that line stands, call K of the disk of file a,
or of b, is made to fail (`a stop K`, `a fail K`), for K from 1 on until a run meets no fault; with all calls behind it, and alone. Of
several such lines each has its turn. What is there then is looked at without a fault. Such a script has lines more:

    fuse               the next life is to meet the fault, or one behind it
    state NAME         the line before it leaves this state; the first one says what is there at first
    always LINE        a line by which a life ends, which is done behind a refusal too, unless no life began
    look NAME          by the lines up to the next one of these is told that the state of this name is found
    image FILE BYTES   where a crash may leave the file so, that is looked at too

In a run that meets no fault each line prints what it must. The first line that meets one is refused as broken by it. Of the lines behind
it events are refused too, those by which a life ends are done, where only the first line that is printed is compared, and others are passed
over. The disk has failed once then, and the other one never. What is found is the state that was there when a line was answered last, or
one that was left since, up to that of the line that was refused: so what a thread changes stands before a line that is answered. Over all
runs each state must be found, each image be left, and each disk fail behind each `fuse`.
"""

import itertools

from drives import SECONDS, Drive
from scripts import Failure, whole

REFUSED = [b"refused 42 broken by a disk fault"]
# Where one of these lines is refused, no life begins.
BEGINNINGS = b"make_stage", b"open_stage", b"make_workers", b"open_workers", b"make_loop", b"open_loop"
FILES, KINDS, MOST = "ab", ("stop", "fail"), 1_000


class Image:
    """What a crash may leave of a file."""

    def __init__(self, number, words):
        self.number = number
        self.file, _, self.content = words.partition(b" ")


class Fused:
    """What such a script has beside its lines: where a fuse is set, the state at first, how each state is told, and images."""

    def __init__(self):
        self.fuses, self.first, self.looks, self.images = [], None, {}, []

    def take(self, script, number, line):
        """Takes a line, if it is one of these words."""
        word, _, rest = line.partition(" ")
        if line == "fuse":
            self.fuses.append(len(script.steps))
        elif word == "state" and self.first is None:
            self.first = rest
        elif word == "state":
            script.steps[-1].leaves = rest
        elif word == "always":
            script.add(number, rest)
            script.present[-1].is_always = True
        elif word == "look":
            script.present = self.looks.setdefault(rest, [])
        elif word == "image":
            self.images.append(Image(number, whole(rest)))
        else:
            return False
        return True


class Sweep:
    """All runs of such a script."""

    def __init__(self, script, program):
        self.script, self.fused, self.program = script, script.fused, program
        self.states, self.images, self.count = set(), set(), 0

    def run(self):
        """Makes the runs, and says how many calls failed."""
        for place, file, kind in itertools.product(self.fused.fuses, FILES, KINDS):
            failed = sum(1 for _ in itertools.takewhile(lambda it: it, self.runs(place, file, kind)))
            if not 0 < failed < MOST:
                raise Failure(f"the disk of file {file} failed in {failed} runs")
            self.count += failed
        if missing := self.fused.looks.keys() - self.states:
            raise Failure(f"no run left the state {min(missing)}")
        if missing := {it.number for it in self.fused.images} - self.images:
            raise Failure(f"line {min(missing)}: no run left this image")
        return f"{self.count} calls failed, each in a run"

    def runs(self, place, file, kind):
        """Runs with a fault at each call in turn; whether each met it."""
        for number in range(1, MOST + 1):
            fuse = f"{file} {kind} {number}"
            try:
                with Drive(self.program, seconds=SECONDS) as drive:
                    has_failed = self.has_failed(drive, place, file, fuse.encode())
            except Failure as fault:
                raise Failure(f"{fuse} in front of line {self.script.steps[place].number}: {fault}") from fault
            yield has_failed

    def has_failed(self, drive, place, file, fuse):
        """A run with this fuse: whether it met it."""
        states, has_failed = self.live(drive, place, fuse)
        for name in FILES:
            found, wanted = drive.ask(f"{name} faults".encode())[0], [b"faults %d" % (has_failed and name == file)]
            if found != wanted:
                raise Failure(f"file {name} has {found}, wanted {wanted}")
        self.look(drive, states, None)
        for image in self.fused.images:
            if drive.ask(b"%s left %s" % (image.file, image.content))[0] == [b"yes"]:
                self.images.add(image.number)
                self.look(drive, states, image)
        return has_failed

    def live(self, drive, place, fuse):
        """Does the lines up to a fault: the states of which one must be found then, and whether there was one."""
        states = [self.fused.first]
        for at, step in enumerate(self.script.steps):
            if at == place:
                drive.ask(fuse)
            printed, left = drive.ask(step.line)[0], [step.leaves] if step.leaves else []
            if printed == REFUSED:
                if not begins_life(step):
                    self.end(drive, self.script.steps[at + 1 :])
                return states + left, True
            step.compare(printed)
            states = (states + left)[-1 if step.wanted else 0 :]
        return states[-1:], False

    def end(self, drive, steps):
        """Ends a life in which a line was refused; its further events are refused too."""
        for step in itertools.takewhile(lambda it: not begins_life(it), steps):
            wanted = step.wanted[:1] if step.is_always else REFUSED
            if (step.is_always or step.is_event()) and drive.ask(step.line)[0][:1] != wanted:
                raise Failure(f"line {step.number}: behind a refusal it prints something else than {wanted}")

    def look(self, drive, states, image):
        """Finds one of these states in the files; where an image is given, its file is as that says."""
        front, faults = [b"aside", *([b"%s has %s" % (image.file, image.content)] if image else [])], []
        for name in states:
            fault = self.fault_of(drive, front, self.fused.looks[name])
            if not fault:
                self.states.add(name)
                return
            faults.append(f"not {name} ({fault})")
        raise Failure(f"{f'line {image.number}, image: ' if image else ''}what is found is {', '.join(faults)}")

    def fault_of(self, drive, front, steps):
        """Does the lines of a look over copies of the files, up to one that prints what it must not, which is told, and those that end a
        life."""
        found, has_life = None, False
        drive.ask(*front)
        for step in steps:
            if has_life if step.is_always else not found:
                printed = drive.ask(step.line)[0]
                has_life = not printed if begins_life(step) else has_life
                found = found or self.difference(step, printed)
        drive.ask(b"back")
        return found

    def difference(self, step, printed):
        try:
            step.compare(printed)
        except Failure as fault:
            return str(fault)
        return None


def begins_life(step):
    return step.line.partition(b" ")[0] in BEGINNINGS
