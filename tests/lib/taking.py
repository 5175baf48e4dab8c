"""Writes the expected lines of scripts anew from a run, for a diff that somebody reads: what a program prints is not right for that."""

import collections
import difflib
import tempfile

import drivers
import scripts


class Edits:
    """What is taken out of a script's lines, and put behind which of them."""

    def __init__(self, path):
        self.path, self.dropped, self.added = path, set(), collections.defaultdict(list)
        self.lines = scripts.text_of(path).split("\n")

    def merge(self, sign, place, old, new):
        """Behind the line of this number the ones with a sign are to be these, of which `old` has the numbers and the texts now."""
        texts, new = [text for _, text in old], grouped(new, [text for _, text in old])
        for tag, first, end, start, stop in difflib.SequenceMatcher(None, texts, new, autojunk=False).get_opcodes():
            if tag != "equal":
                self.dropped |= {number for number, _ in old[first:end]}
                self.added[place] += [f"{sign} {line.decode()}" for text in new[start:stop] for line in text.split(b"\n")]
            place = max([place, *(number for number, _ in old[first:end])])

    def write(self):
        """Writes the script; how many lines were taken out and put in."""
        found = []
        for number, line in enumerate(self.lines, 1):
            found += [] if number in self.dropped else [line]
            found += self.added[number]
        if found != self.lines:
            scripts.write(self.path, "\n".join(found))
        return len(self.dropped), sum(map(len, self.added.values()))


def grouped(lines, texts):
    """The lines, where several that stand for one text of a script are one."""
    for text in {it for it in texts if b"\n" in it}:
        parts = text.split(b"\n")
        for at in range(len(lines) - len(parts) + 1):
            if lines[at : at + len(parts)] == parts:
                lines = [*lines[:at], text, *lines[at + len(parts) :]]
                break
    return lines


def take_run(edits, run, written, told):
    """Takes what a run of the program wrote, and wrote on standard error."""
    for sign, found in (("<", written), ("!", told)):
        if sign == "<" and run.to:
            continue
        if found and not found.endswith(b"\n"):
            raise scripts.Failure(f"line {run.line}: it wrote no newline at its end")
        old = [(number, text.removesuffix(b"\n")) for number, word, text in run.lines if word == sign]
        edits.merge(sign, run.lines[-1][0] if run.lines and not old else run.line, old, found.split(b"\n")[:-1])


def take_program(program, path):
    """Takes the lines of a script of the program."""
    edits = Edits(path)

    def do(run, folder):
        written, told, _ = run.outcome(program, folder, is_known=False)
        take_run(edits, run, written, told)

    with tempfile.TemporaryDirectory(prefix="script-") as folder:
        scripts.do_lines(path, folder, do)
    return edits


def take_driver(program, path):
    """Takes the lines of a script of the driver."""
    edits, script = Edits(path), drivers.Script(path)
    printed, _ = script.printed(program)
    steps = collections.defaultdict(list)
    for step, lines in zip(script.steps, printed):
        steps[step.number].append((step, lines))
    for number, several in steps.items():
        if all(step.wanted == lines for step, lines in several):
            continue
        if any(lines != several[0][1] for _, lines in several):
            raise scripts.Failure(f"line {number}: it prints other lines for other numbers, which are written by hand")
        step, lines = several[0]
        edits.merge("<", number, list(zip(step.told, step.wanted)), lines)
    return edits


def take(program, path):
    """Writes a script's expected lines anew, and says what changed."""
    try:
        dropped, added = (take_driver if path.endswith(".events") else take_program)(program, path).write()
    except (scripts.Failure, OSError, ValueError) as fault:
        return f"left as it is: {fault}"
    return f"{dropped} lines taken out, {added} put in" if dropped or added else "as it was"
