"""The functions of a crate's code: where they stand, what the prover calls them, and what can stand in a check in their place.

A copy stands right behind its function, under another name, with the files of the function's proof beside it: so a check holds several
bodies of one function. A hollow function has its contract, which is all that its callers know of it, an empty body, and an empty file for a
proof: so a check leaves it unproved at once.
"""

import os
import re
from typing import NamedTuple

import scripts

FUNCTION = re.compile(r"(?m)^( *)(?:pub(?:\([^)]*\))? )?(?:const )?(?:unsafe )?fn (\w+)")
TYPE = re.compile(r"(?m)^(?:pub(?:\([^)]*\))? )?(?:unsafe )?(impl|trait)\b([^{]*)\{")
DECLARED = re.compile(r"(?m)^(?:pub(?:\([^)]*\))? )?(?:struct|enum|trait|union) (\w+)")
ATTRIBUTES = re.compile(r"(?m)(?:^ *#\[.*\]\n)+\Z")


class Function(NamedTuple):
    """A function, named as the prover does by the end of its path: with its type, or a free one with its module."""

    name: str
    path: str
    # its text in the file, its attributes with it, and what stands inside of its body
    begin: int
    body: int
    end: int
    # whether a trait says what it is called, or it calls itself, so that its proof is that of a cycle
    is_bound: bool
    # the folder of its proof below that of the crate, or None where it is not known
    proof: str | None

    def copy_of_text(self, code, pairs, ending):
        """The text of a copy with these (old text, new text) in it, or None where an old one is not in it."""
        text = code[self.begin : self.end]
        for old, new in pairs:
            if text.count(old) != 1:
                return None
            text = text.replace(old, new)
        return re.sub(r"\bfn \w+", lambda found: found[0] + ending, text, count=1)

    def files_of_proof(self, folder, ending):
        """The files of a copy's proof by path: those of the function's with the copy's name."""
        named, files = re.compile(rf"\b{re.escape(self.proof.replace('/', '.'))}\b"), {}
        for name in sorted(os.listdir(f"{folder}/{self.proof}")) if os.path.isdir(f"{folder}/{self.proof}") else ():
            files[f"{self.proof}{ending}/{name}"] = named.sub(lambda it: it[0] + ending, text_of(folder, f"{self.proof}/{name}"))
        return files

    def hollow_body(self, code):
        """What stands inside of its body where it is hollow, or None where it can't be."""
        is_fixed = self.is_bound or re.search(r"\bconst (?:unsafe )?fn\b|->\s*impl\b", code[self.begin : self.body])
        return None if is_fixed else "\nloop {}\n}"

    def hollow_proof(self):
        """The file of its proof where it is hollow, by path: an empty one."""
        return f"{self.proof}/Proof.antt", "\n"


def type_name(head):
    """The name that the prover gives to the methods of an `impl` or `trait` with this head: type and trait put together."""
    head = re.split(r"\bwhere\b|\n\s*ghost\b", head)[0]
    while re.match(r"\s*<", head):
        depth = at = 0
        for at, sign in enumerate(head):
            depth += (sign == "<") - (sign == ">")
            if sign == ">" and not depth:
                break
        head = head[at + 1 :]
    words = lambda text: "".join(re.findall(r"[A-Za-z_]\w*", re.sub(r"'\w+|\b(mut|dyn)\b", "", text.replace("&", " Ref "))))
    first = lambda text: words(re.sub(r"<.*", "", text, flags=re.S))
    trait, _, target = head.partition(" for ")
    if not target:
        return first(trait.split(":")[0])
    return first(target) + words(re.sub(r"<(\w+)<.*", r"<\1", trait, flags=re.S)).replace("fmt", "")


def module_of(path):
    """The modules of a file, as in the name of a function in it."""
    found = re.sub(r"^src/|\.rt$", "", path).removesuffix("/mod")
    return [] if found in ("lib", "main") else found.split("/")


class Code:
    """A crate's code."""

    def __init__(self, folder):
        self.folder, self.texts = folder, {}
        for at, _, files in os.walk(f"{folder}/src"):
            for name in sorted(files):
                path = os.path.relpath(f"{at}/{name}", folder)
                self.texts[path] = text_of(folder, path)
        # the modules that declare a type of this name
        self.types = {}
        for path, text in self.texts.items():
            for name in DECLARED.findall(text):
                self.types.setdefault(name, []).append(module_of(path))
        self.functions = {path: list(self.functions_in(path)) for path in self.texts}

    def functions_in(self, path):
        """The functions of a file, but those inside of another one."""
        last = 0
        for head in FUNCTION.finditer(self.texts[path]):
            function = self.function_at(path, head) if last <= head.start() else None
            if function:
                last = function.end
                yield function

    def function_at(self, path, head):
        """The function with this head; None where it has no body, or one on the same line."""
        code, indent, name = self.texts[path], head[1], head[2]
        body = re.compile(rf"(?m)^{indent}(?! ).*\{{[^\S\n]*$").search(code, head.start())
        end = re.compile(rf"(?m)^{indent}\}}").search(code, body.end()) if body else None
        if not end or FUNCTION.search(code, head.end(), body.start()):
            return None
        attributes = ATTRIBUTES.search(code, 0, head.start())
        begin, is_bound = attributes.start() if attributes else head.start(), "#[cycle" in (attributes[0] if attributes else "")
        modules = [module_of(path)]
        parts = [*modules[0], name]
        if indent:
            # the prover puts a method under its type's module, wherever it is written
            owner = [it for it in TYPE.finditer(code) if it.start() < head.start()][-1]
            parts, is_bound = [type_name(owner[2]), name], is_bound or owner[1] == "trait" or " for " in owner[2]
            modules = self.types.get(parts[0], [])
        folder = "/".join(["proofs", *modules[0], *parts[-2 if indent else -1 :]]) if len(modules) == 1 else None
        is_bound = is_bound or not folder or os.path.isdir(f"{self.folder}/{os.path.dirname(folder)}/+{name}")
        return Function("::".join(parts), path, begin, body.end(), end.end(), is_bound, folder)

    def function_around(self, path, at):
        """The function in whose body a place of a file is; none outside of all bodies."""
        text = self.texts[path]
        return next((it for it in self.functions[path] if text.rfind("\n", 0, it.body) < at <= it.end), None)

    def users_of(self, constant):
        """The functions whose bodies name a constant."""
        for path, text in self.texts.items():
            for found in re.finditer(rf"\b{constant}\b", text):
                function = self.function_around(path, found.start())
                if function:
                    yield function


def text_of(folder, path):
    return scripts.text_of(f"{folder}/{path}")
