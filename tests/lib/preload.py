"""Small libraries in C that are loaded into a program in front of the C library, to look at its calls or to fail them; and the counts that
they keep in a file."""

import os
import shlex
import subprocess

import scripts

# Two counts, and the number of the allocation that is refused.
COUNTS = 24


def library(name, room):
    """Compiles lib/NAME.c into a folder; the path of what is loaded."""
    path, source = f"{room}/{name}.so", f"{os.path.dirname(os.path.abspath(__file__))}/{name}.c"
    subprocess.run([*shlex.split(os.environ.get("CC", "cc")), "-O2", "-shared", "-fPIC", "-o", path, source], check=True)
    return path


def settings(library, path, refused=0, **words):
    """The environment of a program into which the library is loaded, with fresh counts in this file, and these words for it."""
    scripts.write(path, bytes(COUNTS - 8) + refused.to_bytes(8, "little"))
    return {"LD_PRELOAD": library, "COUNTS": path, **{name: str(word) for name, word in words.items()}}


def counts(path):
    """How many calls there were, and how many of them were failed."""
    found = scripts.read(path)
    return tuple(int.from_bytes(found[at : at + 8], "little") for at in (0, 8))
