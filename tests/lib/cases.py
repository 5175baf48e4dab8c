"""The cases of a part, each in a folder of its own, some side by side.

A case is a function of a file whose arguments are a program and a folder, by these names: it does something there, and raises where
anything is wrong."""

import concurrent.futures
import inspect
import os
import subprocess
import sys
import tempfile
import types

from scripts import Failure

# What a case takes; one that runs no program takes the folder alone.
ARGUMENTS = ("program", "folder"), ("_", "folder")


def is_case(it):
    return isinstance(it, types.FunctionType) and tuple(inspect.signature(it).parameters) in ARGUMENTS


def cases_of(*modules):
    """The cases that these files define, in the order in which they stand there."""
    return [it for module in modules for it in vars(module).values() if is_case(it) and it.__module__ == module.__name__]


def chosen(cases, names):
    """Those of these names; all where none is named."""
    if unknown := sorted({*names} - {it.__name__ for it in cases}):
        sys.exit(f"no case is named {' '.join(unknown)}; the cases are: {' '.join(it.__name__ for it in cases)}")
    return [it for it in cases if not names or it.__name__ in names]


def fault_of(program, case, room):
    """What is wrong; None where nothing is."""
    try:
        case(program, os.path.join(room, case.__name__))
    except (Failure, OSError, subprocess.SubprocessError) as fault:
        return f"{type(fault).__name__}: {fault}"
    return None


def run(program, cases):
    """Runs them, and prints of each how it went, and the counts; the exit status."""
    failed = 0
    with tempfile.TemporaryDirectory(prefix="cases-") as room, concurrent.futures.ThreadPoolExecutor(4) as lanes:
        for it, fault in zip(cases, lanes.map(lambda it: fault_of(program, it, room), cases)):
            print(f"{it.__name__}: {fault or 'passed'}", flush=True)
            failed += fault is not None
    print(f"{len(cases) - failed} passed, {failed} failed")
    return 1 if failed or not cases else 0
