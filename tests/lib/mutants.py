"""Mutants that the prover must refuse, many tried in one check.

A mutant is an edit of a crate's code, in the form of the toolchain's must-fail edits, in the crate's folder `mutants/`.
Proofs are modular: what its callers know of a function is its contract. So edits of different functions stand in one check,
each judged at its own function: it is refused where the prover names a goal of that function which it did not prove. Of several
edits of one function the first stands in its place, each other in a copy of the function; the functions that no edit changes are
hollow, since the crate's own proof has them. One for which no such line comes goes into the next round, then it is tried alone,
and at last by the toolchain's own trial, a check of the whole crate, whose verdict stands.

As a control copies without an edit stand in the same check, and each goal of theirs must be proved. A function that has copies
with an edit has one of these, else nothing is said of those edits. So have the other functions that are changed, all of them or
some, spread over the crate. What can't have a copy, as a method of a trait, has a check without an edit. Where the control fails,
each edit of the crate is tried by the toolchain's own trial.
"""

import os
import re

import toolchain
from batches import Batch, Edit
from functions import Code

FOLDER = "mutants"
NAME = re.compile(r"[A-Za-z0-9_-][A-Za-z0-9_.-]*\.edit")
LINE = re.compile(r"(?m)^fn (\S+): (proved|.*)$")
# A goal of the function's own, in the line of a function that has no answer for it.
GOAL = re.compile(r"did not prove `[^`]*`")
# What is said of a function whose own goals are all proved, where something that it calls, or hands on, is not.
INHERITED = re.compile(r"(?:no proof|not proved): it (?:calls|passes) [^;]*(?:; it (?:calls|passes) [^;]*)*")
# One that the prover tells right before the line of a function whose proof file doesn't fit.
NOTE = re.compile(r"note: src/\S+:\d+:\d+: it is not proved that .*\((`[^`]*`)\)")
# One that its own proof file answers, and no longer rightly; a proof file that only names what an edit took away shows nothing.
ANSWER = re.compile(
    r"(?m)^(?:\./)?proofs/(\S+)/(?:Answers|Invariants|Proof)\.antt:\d+:\d+: error: "
    r"(`[^`]*`: (?!.*(?:has no field|is not in scope|has no `|was not admitted)).*)$"
)


def edits_of(crate):
    """The paths of the crate's edits, and the files in their folder that are none."""
    good, bad = [], []
    for at, _, files in os.walk(f"{crate.folder}/{FOLDER}"):
        for name in sorted(files):
            is_edit = NAME.fullmatch(name) and at == f"{crate.folder}/{FOLDER}"
            if is_edit or not name.endswith(".md"):
                (good if is_edit else bad).append(f"{at}/{name}")
    return good, bad


def unreadable(crate):
    """Why edits of the crate can't be applied, a line for each."""
    good, bad = edits_of(crate)
    for path in bad:
        yield f"{crate.name}: {os.path.relpath(path, crate.folder)} is no edit: letters, digits, _, - and ., and .edit at the end"
    for path in good:
        if why := toolchain.fault_of_edit(path, crate):
            yield f"{crate.name}: {os.path.relpath(path, crate.folder)}: {why}"
    Code(crate.folder)  # Its functions are found here already, so that the gate's trials don't end at one.


def label(path):
    """The folder of an edit."""
    return os.path.basename(os.path.dirname(path))


def in_gate(crate, kept, edits, jobs):
    """What `rt ci` is to say of a crate's must-fail edits, tried as mutants are."""
    return Trial(crate, kept, jobs).run(edits)


class Verdicts:
    """What a check printed of each function."""

    def __init__(self, status, output, crate):
        self.output, self.status = output, status
        self.lines = self.output.rstrip("\n").split("\n")
        self.of = {name.removeprefix(f"{crate.name}::"): said for name, said in LINE.findall(self.output)}
        self.answers = ANSWER.findall(self.output)
        self.notes, told = {}, []
        for line in self.lines:
            if note := NOTE.match(line):
                told.append(f"{note[1]} is not proved")
            elif found := LINE.match(line):
                self.notes[found[1].removeprefix(f"{crate.name}::")], told = told, []

    def reached(self):
        """Whether the prover was reached and judged these functions."""
        return self.lines[-1].startswith(("only=", "logic=")) or re.search(r"(?m)^only=\d+ proved=\d+", self.output)

    def holds(self, function):
        """Whether each goal of the function's own was proved, and of each closure in it; what it calls may be unproved."""
        said = {name: said for name, said in self.of.items() if is_within(name, function)}
        return bool(said) and all(it == "proved" or INHERITED.fullmatch(it) and not self.goals(name, function) for name, it in said.items())

    def goals(self, name, function):
        """The goals that were not proved of the function, or of a closure in it, with this name."""
        folder = function.replace("::", "/")
        return [*GOAL.findall(self.of[name]), *self.notes[name], *(why for it, why in self.answers if is_end(folder, it, "/"))]

    def refuses(self, functions):
        """A goal of one of these functions that was not proved, or None."""
        for function in functions:
            for name, said in self.of.items():
                if is_within(name, function) and said != "proved":
                    goals = self.goals(name, function)
                    if goals:
                        return f"{name}: {goals[0]}"
        return None


def is_end(end, name, part):
    return name == end or name.endswith(part + end)


def is_within(name, function):
    """Whether this is the function, as the prover names it, or a closure in it."""
    *module, last = function.split("::")
    outer, _, inner = name.partition("fn::")
    is_inner = any(inner.startswith(f"{'::'.join([*module[at:], last])}::") for at in range(len(module) + 1))
    return is_end(function, name, "::") or is_inner and (outer or name.startswith("fn::"))


class Trial:
    """The trials of one crate's edits, over the libraries that were built below the crate."""

    def __init__(self, crate, kept, jobs=1, controls=None):
        """Controls: how many functions the control has, all that were changed where nothing is said."""
        self.crate, self.kept, self.jobs = crate, kept, jobs
        self.controls, self.as_they_are = controls, set()

    def run(self, edits):
        """Gives (whether it was refused, what is to be said) for each of these edits."""
        earlier = toolchain.Refused(self.kept, self.crate, edits)
        known = earlier.known()
        if known:
            self.say(f"{len(known)} of {len(edits)} mutants were refused by an earlier run on this machine")
        found = {it: (True, said) for it, said in known.items()} | self.tried([it for it in edits if it not in known])
        for it in edits:
            if found[it][0] and it not in known:
                earlier.keep(it, found[it][1])
        return [found[it] for it in edits]

    def tried(self, paths):
        self.code = Code(self.crate.folder)
        edits = [Edit(it, self.code) for it in paths]
        refused = self.in_batches([it for it in edits if it.functions])
        for edit in edits:
            if edit.functions and edit not in refused:
                refused |= self.judge(self.batch_of([edit]))
        if refused and not self.control(refused):
            self.say("the control, functions as they are, was not proved; each mutant is tried alone, at the whole crate")
            refused = {}
        said = {it.path: (True, text) for it, text in refused.items()}
        return said | toolchain.try_whole(self.crate, [it for it in paths if it not in said], self.jobs)

    def say(self, text):
        toolchain.say(f"{self.crate.name}: {text}")

    def check(self, texts, names, files=(), without=()):
        return Verdicts(*toolchain.check_functions(self.crate, texts, names, self.jobs, files, without), self.crate)

    def batch_of(self, edits):
        """As many of these edits as stand together, with the control of them that is wanted."""
        batch = Batch(self.code)
        for edit in edits:
            batch.add(edit)
        seen = self.as_they_are | batch.controls.keys()
        changed = [it.one for it in batch.edits if it.one and it.one.name not in seen]
        count = max(0, min(len(changed), self.controls - len(seen))) if self.controls else len(changed)
        for at in range(count):
            batch.control(changed[at * len(changed) // count])
        return batch

    def in_batches(self, edits):
        """Tries edits together, round by round, as long as a round refuses some."""
        refused, left, number = {}, edits, 0
        while len(left) > 1:
            batch = self.batch_of(left)
            number += 1
            found = self.judge(batch)
            again = [it for it in batch.edits if it not in found]
            left_over = f"; not yet: {', '.join(it.name for it in again)}" if again else ""
            self.say(f"{label(left[0].path)}, round {number}: {len(found)} of {len(batch.edits)} refused{left_over}")
            refused |= found
            rest = [it for it in left if it not in batch.edits]
            # those for which nothing was said come last, so that each round has new ones
            left = [*rest, *again] if found else rest
        return refused

    def judge(self, batch):
        """Those of a batch that the prover refused, each with the goal; none where a text of it couldn't be read."""
        said = self.said_of(batch, batch.hollow()) or self.said_of(batch, [])
        if not said:
            return self.in_halves(batch.edits)
        self.as_they_are |= {function for function, copy in batch.controls.items() if said.holds(copy)}
        return {it: self.line(it, why) for it in batch.edits if (why := self.refused(batch, it, said))}

    def said_of(self, batch, hollow):
        """What a check says of a batch with these functions hollow, or None where a text couldn't be read."""
        texts, files = batch.texts(hollow), {**batch.files, **dict(it.hollow_proof() for it in hollow)}
        said = self.check(texts, batch.names(), files, [it.proof for it in hollow])
        return said if said.reached() and not toolchain.is_unread(said.output, texts) else None

    def refused(self, batch, edit, said):
        """The goal for which an edit is refused; None of one in a copy where the copy without an edit doesn't hold."""
        is_copy = edit.one and edit.one.name not in batch.judged[edit.path]
        return None if is_copy and edit.one.name not in self.as_they_are else said.refuses(batch.judged[edit.path])

    def in_halves(self, edits):
        """A batch with an edit that can't be read is tried in two halves; alone, such an edit is left to the last trial."""
        if len(edits) < 2:
            return {}
        halves = edits[: len(edits) // 2], edits[len(edits) // 2 :]
        return {edit: why for half in halves for edit, why in self.judge(self.batch_of(half)).items()}

    def control(self, refused):
        """Whether the functions hold as they are that are still wanted for the control."""
        changed = sorted({name for it in refused for name in it.functions} - self.as_they_are)
        count = max(0, min(len(changed), self.controls - len(self.as_they_are))) if self.controls else len(changed)
        batch = Batch(self.code)
        batch.leave({changed[at * len(changed) // count] for at in range(count)})
        said = self.said_of(batch, batch.hollow()) if count else None
        lost = sorted(it for it in batch.controls if not (said and said.holds(it)))
        if lost:
            self.say(f"not proved as they are: {', '.join(lost)}")
        return not lost

    def line(self, edit, why):
        return f"{label(edit.path)} {self.crate.name}/{os.path.basename(edit.path)}: refused: {why[:160]}"
