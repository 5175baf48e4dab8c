"""Edits of a crate that stand together in one check, each at functions of its own."""

import os
import re

from scripts import read


def pairs_of(text):
    """The (file, old text, new text) of an edit, in order."""
    path = old = None
    for line in text.split("\n"):
        if line.startswith("file: "):
            path = line[6:].strip()
        elif line.startswith("old: "):
            old = line[5:]
        elif line.startswith("new:"):
            yield path, old, line[4:].removeprefix(" ")


class Edit:
    """An edit, and the functions that it changes by name: those around what it replaces, or those that name the constant that it replaces;
    none where it changes something else."""

    def __init__(self, path, code):
        self.path, self.name, self.code = path, os.path.basename(path).removesuffix(".edit"), code
        self.pairs = list(pairs_of(read(path).decode(errors="replace")))
        found = [self.changed_by(source, old) for source, old, _ in self.pairs]
        self.functions = {it.name: it for some in found for it in some} if all(found) else {}
        # the one function in whose body all of it stands
        whole = {self.around(source, old) for source, old, _ in self.pairs} if self.functions else set()
        self.one = whole.pop() if len(whole) == 1 else None

    def around(self, source, old):
        text = self.code.texts.get(source, "")
        return self.code.function_around(source, text.index(old)) if old in text else None

    def changed_by(self, source, old):
        around, constant = self.around(source, old), re.search(r"\bconst (\w+):", old)
        return [around] if around else list(self.code.users_of(constant[1])) if constant and source in self.code.texts else []


class Batch:
    """Some edits in one text of the crate, each in its place or in a copy of its function, and functions without an edit as a control; all
    others are hollow."""

    def __init__(self, code):
        self.code, self.edits, self.changes, self.files = code, [], {}, {}
        # the functions at which each edit is judged, those that are not hollow, those whose copies would have the edit too, and those of
        # the control, with what stands for each
        self.judged, self.whole, self.shared, self.controls = {}, set(), set(), {}

    def add(self, edit):
        """Whether there was a place for the edit."""
        if not (self.put_in_place(edit) or self.put_in_copy(edit)):
            return False
        self.edits.append(edit)
        return True

    def put_in_place(self, edit):
        places = []
        for source, old, new in edit.pairs:
            text = self.code.texts[source]
            if text.count(old) != 1:
                return False
            begin = text.index(old)
            places.append((source, (begin, begin + len(old), new)))
        if edit.functions.keys() & self.whole or any(overlaps(it, self.changes.get(source, [])) for source, it in places):
            return False
        for source, place in places:
            self.changes.setdefault(source, []).append(place)
        self.whole |= edit.functions.keys()
        self.shared |= set() if edit.one else edit.functions.keys()
        self.judged[edit.path] = set(edit.functions)
        return True

    def put_in_copy(self, edit):
        function = edit.one
        if not function or not self.control(function):
            return False
        ending = f"_copy{len(self.judged)}"
        if not self.copy(function, [(old, new) for _, old, new in edit.pairs], ending):
            return False
        self.judged[edit.path] = {function.name + ending}
        return True

    def control(self, function):
        """Has a copy of the function without an edit stand in the text, if that can be had."""
        if function.is_bound or function.name in self.shared:
            return False
        if function.name not in self.controls and self.copy(function, [], "_copy"):
            self.controls[function.name] = f"{function.name}_copy"
        return function.name in self.controls

    def leave(self, names):
        """Has these functions stand as they are, as a control."""
        self.whole |= names
        self.controls |= {it: it for it in names}

    def copy(self, function, pairs, ending):
        text = function.copy_of_text(self.code.texts[function.path], pairs, ending)
        if text is None:
            return False
        self.changes.setdefault(function.path, []).append((function.end, function.end, f"\n\n{text}"))
        self.files |= function.files_of_proof(self.code.folder, ending)
        return True

    def names(self):
        """The functions that the check is of."""
        return set(self.controls.values()).union(*self.judged.values())

    def texts(self, hollow):
        """The files of the code by path that are changed, with these functions hollow."""
        changes = {source: [*places] for source, places in self.changes.items()}
        for it in hollow:
            changes.setdefault(it.path, []).append((it.body, it.end, it.hollow_body(self.code.texts[it.path])))
        texts = {source: self.code.texts[source] for source in changes}
        for source, places in changes.items():
            for begin, end, text in sorted(places, key=lambda it: it[:2], reverse=True):
                texts[source] = texts[source][:begin] + text + texts[source][end:]
        return texts

    def hollow(self):
        """The functions that can be hollow and have nothing to show."""
        others = [it for some in self.code.functions.values() for it in some if it.name not in self.whole]
        return [it for it in others if it.hollow_body(self.code.texts[it.path])]


def overlaps(place, others):
    return any(place[0] < end and begin < place[1] for begin, end, _ in others)
