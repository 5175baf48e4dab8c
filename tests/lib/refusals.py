"""Which refusal a line gets: the table of every command and its arguments, tests/rows/refusals.txt, and the one order of docs/PROTOCOL.md.

Each argument has words that are well and words that are refused, and each refusal its step in the one order. What a line of some of these
words is refused for is the first of all faults that it has: the earlier step, and within a step the argument further left. So the lines of
all words of a command meet all pairs of refusals that one line can meet.
"""

import functools
import itertools
import re
import typing

import rows


class Fault(typing.NamedTuple):
    """A reason to refuse: its step in the one order, its number in docs/PROTOCOL.md or 0, its code and its text."""

    step: int
    number: int
    code: int
    text: str


class Word(typing.NamedTuple):
    """One or more words of a line, and what is wrong with the last of them, if anything is."""

    text: str
    fault: Fault | None = None

    def count(self):
        return len(self.text.split(" ")) if not self.text.startswith('"') else 1


class Situation(typing.NamedTuple):
    """What is there when the lines are sent: whether a song is current and a job runs, or else whether everything is at its limit."""

    is_playing: bool
    is_full: bool


class Command(typing.NamedTuple):
    """A command: its slots, each a list of words or, where None is among them, of words that may be left out from there on; what is refused
    whatever the words are; and argument lists of a wrong count."""

    name: str
    slots: list
    always: Fault | None = None
    miscounted: list = []

    def lines(self):
        """Each line, and its faults with the places of their arguments."""
        for chosen in itertools.product(*self.slots):
            if self.has_gap(chosen):
                continue
            place, faults, text = 0, [], self.name
            for word in filter(None, chosen):
                place, text = place + word.count(), f"{text} {word.text}"
                if word.fault:
                    faults.append((word.fault, place))
            yield text, [*faults, *([(self.always, 0)] if self.always else [])]

    def has_gap(self, chosen):
        """An argument that stands for itself is left out, and one behind it isn't."""
        gone = [it is None for it in chosen]
        return any(one and not (other or self.slots[at + 1][0].count() == 2) for at, (one, other) in enumerate(zip(gone, gone[1:])))


FAULTS = {name: Fault(*map(int, numbers), text) for name, *numbers, text in rows.table("refusals", "fault")}
WORD, LIST = re.compile(r"(.*?)(?: ([A-Z_]{3,})(?:\((\w+)\))?)?"), re.compile(r"(?:(.*) )?@(\w+)")


def stands(condition, situation):
    """Whether a line of the table stands in this situation."""
    return {"": True, "playing": situation.is_playing, "stopped": not situation.is_playing, "full": situation.is_full}[condition]


def words_of(cell, known):
    """The words of a cell: one, or those of a list."""
    if found := LIST.fullmatch(cell):
        return [Word(f"{found[1] or ''} {it.text}".strip(), it.fault) for it in known[found[2]]]
    text, name, tag = WORD.fullmatch(cell).groups()
    return [Word(text, name and FAULTS[name]._replace(text=FAULTS[name].text.replace("TAG", tag or "")))]


def slot_of(text, known):
    """The words of an argument."""
    name = text.rstrip("?")
    return [*known.get(name, [Word(it) for it in name.split(",")]), *[None] * text.endswith("?")]


@functools.cache
def commands(situation):
    """Every command of the profile, but for the lines of command lists."""
    known, found = {}, []
    for kind, names, *cells in rows.columns("refusals"):
        what, _, condition = kind.partition(", ")
        if what == "words" and stands(condition, situation):
            known[names] = [word for cell in cells for word in words_of(cell, known)]
        elif what == "command" and stands(condition, situation):
            slots, always, miscounted = [*cells, "", ""][:3]
            fault, _, where = always.partition(" ")
            always = FAULTS[fault] if fault and stands(where, situation) else None
            slots, lists = [slot_of(it, known) for it in slots.split()], [it.split() for it in miscounted.split("|")] if miscounted else []
            found += [Command(name, slots, always, lists) for name in names.split()]
    return found
