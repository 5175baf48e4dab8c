"""The rows of tests/refused_memory of a loop: turns of the daemon's loop, its calls by themselves, what its threads report, and
a daemon's lives.

What each client gets from the row's line on, over some turns more, and what one that comes then finds, is compared with that of a run with
memory enough. Where one allocation is refused it may be the same, however the turns part it. Or one client is let go of: what it got is a
front of that, and its request was done, or was not. Or its request is answered by `ACK [52@..] .. out of memory`, and was not done. Nobody
else gets other bytes than in a run in which it was done, or not. Where a turn ends early nobody loses a byte: what it left is served by the
next.
"""

import re

import refused_rows
import rows

REPORTED = "refused 43 out of memory"
ENDED_EARLY = "refused 43"
NOTHING = "nothing done, refused 43"
# A stream of the driver that finds no room for what it takes has failed.
FAILED = r"refused 48 the connection of client \d+ failed"
BROKEN = re.compile(r"refused 42\b")
PART = re.compile(rf"event \d+|(?:before|collected|no memory at) \d+|refused 43|{NOTHING}|done|{REPORTED}|{FAILED}")
TOLD = re.compile(r"(\d+)(<) (.*)|(\d+) closed")

# Two clients, of which one waits for every subsystem, and a database of one song.
BEGINNING = [
    *("make_loop", "connect 1", "connect 2", "turn", "1> update", "turn", "put a.wav 16000", "batch 1", "scanned 1", "turn"),
    *("1> addid a.wav", "2> idle", "turn", "2> idle", "turn"),
]
# What is done behind a row: the turns in which what was left is served, and a look at what there is.
BEHIND = ["turn"] * 4
LOOK = ["connect 4", "turn", "4> status%nidle", "turn", "turn"]
# The same of clients of the wide profile that say something to one another.
TALKS = ["2> noidle%nsubscribe a%nidle", "1> subscribe a", "turn", "2> idle", "turn"]
TALKS_LOOK = ["connect 4", "turn", "4> channels%nsendmessage a y%nstatus%nidle", "turn", "turn"]


def asked(*cells):
    """What each client asks for, by a row; None for one that only connects."""
    return {it.partition("> ")[0].removeprefix("connect "): it.partition("> ")[2] or None for it in cells}


class Told:
    """What a client got, and whether its stream was let go of."""

    def __init__(self):
        self.text, self.is_closed = "", False

    def __eq__(self, other):
        return (self.text, self.is_closed) == (other.text, other.is_closed)

    def __repr__(self):
        return f"{self.text!r}{' and the end' if self.is_closed else ''}"

    def take(self, line):
        """A line that is printed of it; behind one that has no end stands a sign."""
        if line is None:
            self.is_closed = True
        else:
            self.text += line.removesuffix("%") if line.endswith("%") else f"{line}\n"

    def is_front_of(self, whole):
        """Whether it was let go of with a front of what it would have got."""
        return self.is_closed and whole.text.startswith(self.text)

    def is_answered(self, whole):
        """Whether it was told once that memory was refused, between a front and an end of the lines that it would have got."""
        parts = re.split(r"^ACK \[52@\d+\] \{\w*\} out of memory\n", self.text, flags=re.MULTILINE)
        return len(parts) == 2 and whole.text.startswith(parts[0]) and whole.text.endswith(parts[1])


def told(groups):
    """What each client got; and a line that is none of a turn's, or None."""
    got, other = {}, None
    for line in (it for group in groups for it in group):
        if found := TOLD.fullmatch(line):
            client, text = (found[1], found[3]) if found[2] else (found[4], None)
            got.setdefault(client, Told()).take(text)
        elif not PART.fullmatch(line):
            other = line
    return got, other


class Turned(refused_rows.Line):
    """A line for a loop, behind which turns of the loop are made."""

    def __init__(self, program, front, line, asked=(), behind=(), is_report=False):
        self.program, self.asked, self.behind, self.is_report = program, dict(asked), behind, is_report
        self.begun, self.line, self.look = [*BEGINNING, *front], line, LOOK
        if front == TALKS:
            self.begun, self.look = ["profile wide", *self.begun], TALKS_LOOK
        told = [*front, *(f"{client}> {text}" for client, text in self.asked.items()), *behind]
        self.name = f"loop, {' '.join(told)[-80:]}: {line}"
        self.wanted, self.worlds = None, {}

    def front(self, quiet=None):
        """The lines before the row's; this client asks for nothing that leaves a trace in it."""
        sends = []
        for client, text in self.asked.items():
            sends += [f"connect {client}"] if text is None else [f"{client}> {'ping' if client == quiet else text}"]
        return [*self.begun, *sends, *self.behind]

    def begin(self, place):
        """Runs it with memory enough; the numbers of its allocations."""
        front = self.front()
        before, behind = (self.run(place, it).count for it in (front, [*front, self.line]))
        self.wanted = self.told(place, front, [self.line])
        # Nothing came of the row's line, or of what one client asked for.
        self.worlds = {None: self.told(place, front, [])}
        for client, text in self.asked.items():
            if text is not None:
                self.worlds[client] = self.told(place, self.front(client), [self.line])
        return range(before + 1, behind + 1)

    def told(self, place, front, line):
        return told(self.run(place, [*front, *line, *BEHIND, *self.look]).groups[len(front) :])[0]

    def fault(self, place, number):
        """What is wrong where this allocation is refused, or None; and whether the driver ended itself."""
        front = self.front()
        run = self.run(place, [*front, self.line, *BEHIND, *self.look], number)
        if not run.is_well or not run.was_refused:
            return f"it ended otherwise: {run.told}", False
        groups = run.groups[len(front) :]
        # A disk in memory that wants memory has failed: what comes then is the matter of other scripts.
        if run.has_ended or any(BROKEN.match(line) for line in groups[0]):
            return None, run.has_ended
        got, other = told(groups)
        if other:
            return f"it printed {other!r}", False
        if ENDED_EARLY in groups[0]:
            return None if got == self.wanted else f"a turn ended early, and clients got {got}, wanted {self.wanted}", False
        return self.judged(got, REPORTED in groups[0], any("no memory at" in line for group in groups for line in group)), False

    def judged(self, got, has_refused, is_answered):
        """What is wrong with what clients got, or None."""
        if has_refused and self.is_report:
            return None if got == self.worlds[None] else f"the report was refused, and clients got {got}"
        worlds = {"done": self.wanted, **{client: world for client, world in self.worlds.items() if client}}
        for name, world in worlds.items():
            changed = [it for it in {*got, *world} if got.get(it, Told()) != world.get(it, Told())]
            if name == "done" and not changed:
                return None
            # Where it was done, one client was let go of; where it was not, the one who asked for it, or it was told so.
            client = name if name != "done" else changed[0]
            if set(changed) <= {client} and self.is_refused(client, got.get(client, Told()), is_answered and name != "done"):
                return None
        return f"clients got {got}, wanted {self.wanted}"

    def is_refused(self, client, found, is_answered):
        """Whether memory was refused to this client: it was let go of, or an answer says so."""
        whole = self.wanted.get(client, Told())
        return found.is_front_of(whole) or is_answered and found.is_answered(whole)


# A daemon that many clients would end: where one of them is let go of, another does.
LIFE = [
    *("make_stage", "close", "daemon", "connect 1", "1> ping%nsetvol 40", "nobody", "nobody"),
    *(line for client in "234" for line in (f"connect {client}", f"{client}> kill", "nobody")),
]
LOOKED = ["daemon", "connect 1", "1> status%nkill", "serve"]
HELLO = "OK MPD 0.23.0"
ANSWERS = [HELLO], ["OK", "ACK [52@0] {ping} out of memory"], ["OK", "ACK [52@0] {setvol} out of memory"]
# How it may end before a client was served.
UNSERVED = ["journal refused 7"], ["no thread"]


class Lived(refused_rows.Line):
    """A run of a daemon, from its opening to its end."""

    name, front, line = "daemon: ping, setvol 40 and kill", LIFE, "serve"

    def __init__(self, program):
        self.program = program

    def prepare(self, place):
        """What is there is told by the run itself."""

    def fault(self, place, number):
        """What is wrong where this allocation is refused, or None; and whether the driver ended itself."""
        run = self.run(place, [*LIFE, self.line, *LOOKED], number)
        # A thread that ends late may not make the last of them.
        if not run.is_well:
            return f"it ended otherwise: {run.told}", False
        if run.has_ended:
            return None, True
        served, looked = run.groups[len(LIFE)], run.groups[-1]
        return self.judged(served, looked), False

    def judged(self, served, looked):
        got, _ = told([served])
        end = [line for line in served if not TOLD.fullmatch(line) and not line.startswith("faults of")]
        lines = {client: it.text.splitlines() for client, it in got.items()}
        if end != ["killed"]:
            return None if end in UNSERVED and not any(lines.values()) else f"it ended with {served}"
        for client, texts in lines.items():
            answers = ANSWERS if client == "1" else ([HELLO], ["ACK [52@0] {kill} out of memory"])
            if len(texts) > len(answers) or any(text not in some for text, some in zip(texts, answers)):
                return f"client {client} got {texts}"
        volumes = ["40"] if lines["1"][2:] == ["OK"] else ["40", "100"]
        return None if any(f"1< volume: {it}" in looked for it in volumes) else f"{served}, and then there is {looked}"


def all_rows(program):
    """Each row, by its name."""
    of = lambda word: rows.table("loop", word)
    found = [Turned(program, [], "turn", asked(*it)) for it in of("asked")] + [Turned(program, TALKS, "turn", asked(*it)) for it in of("talks")]
    found += [Turned(program, [], "turn", asked(*it), ["1 ends"]) for it in of("ended")]
    found += [Turned(program, front, line) for *front, line in of("calls")]
    found += [Turned(program, front, line, is_report=True) for *front, line in of("reports")]
    return {row.name: row for row in [*found, Lived(program)]}
