"""Rows of the files in tests/rows: what is asked, and what must be answered, each a line

    REQUEST => ANSWER

The answer is what stands before its `OK`, lines with | between them, and behind the last one where that ends with a blank; or behind `!`
the code and the text of a refusal. {NAME} in place of a line stands for the lines of that name, which a line `NAME := LINES` has given;
`%{TEXT*N}` for a text N times, and in a request `\\n` and `\\t` for a newline and a tab. A line that begins with blanks goes on with the one
before it; one with # in front is a remark.
"""

import os
import re

import scripts

FOLDER = os.path.join(os.path.dirname(os.path.dirname(os.path.abspath(__file__))), "rows")


def read(name, names):
    """The rows of a file: of each the request, and its lines, the text of a refusal, or None where no answer is said. `names` has the lines by
    the names that files before gave them, and takes those that this one gives."""
    lines = re.sub(r"\n +", "", scripts.text_of(f"{FOLDER}/{name}.txt")).splitlines()
    found = []
    for line in lines:
        request, is_answered, answer = line.partition(" =>")
        if line.startswith("#") or not line:
            continue
        if is_answered:
            found.append((request_of(request), answer_of(answer.removeprefix(" "), names)))
        elif " := " in line:
            word, _, answer = line.partition(" := ")
            names[f"{{{word}}}"] = answer_of(answer, names)
        else:
            found.append((request_of(line), None))
    return found


def request_of(text):
    return scripts.whole(text).decode().replace("\\n", "\n").replace("\\t", "\t")


def answer_of(text, names):
    if text.startswith(("! ", "ACK ")):
        return text.removeprefix("! ")
    *lines, last = scripts.whole(text).decode().split("|")
    return [line for it in [*lines, *[last] * (last != "")] for line in names.get(it, [it])]


def columns(name):
    """The lines of a file of columns, which stand two blanks or more apart; - is an empty column."""
    lines = [re.split(r" {2,}", it) for it in scripts.text_of(f"{FOLDER}/{name}.txt").splitlines() if it and it[0] != "#"]
    return [["" if it == "-" else scripts.whole(it).decode() for it in cells] for cells in lines]


def table(name, word):
    """Those that begin with this word."""
    return [tuple(cells) for first, *cells in columns(name) if first == word]
