"""Programs for another processor, run on this machine by an emulator such as qemu-aarch64-static."""

import os
import shlex
import shutil
import subprocess
from typing import NamedTuple

LIB = os.path.dirname(os.path.abspath(__file__))
# The emulator by which the programs of this run are run, if there is one, and their machine, told to the parts by the environment.
WORD, MACHINE = "TESTS_UNDER", "TESTS_MACHINE"


class Machine(NamedTuple):
    """What programs are made for: its name, its number in ELF files, its C compiler, and where its C library lies here."""

    name: str
    number: int
    compiler: str
    place: str

    def is_here(self):
        return os.uname().machine == self.name


MACHINES = [Machine("x86_64", 62, "cc", "/"), Machine("aarch64", 183, "aarch64-linux-gnu-gcc", "/usr/aarch64-linux-gnu")]


def is_emulated():
    return WORD in os.environ


def seconds(count):
    """A limit of time for this run: by an emulator all takes longer."""
    return 10 * count if is_emulated() else count


def machine_of_run():
    """The machine for which the programs of this run were made."""
    name = os.environ.get(MACHINE, os.uname().machine)
    return next((it for it in MACHINES if it.name == name), None)


def machine_of(path):
    """What a program was made for, or None."""
    with open(path, "rb") as file:
        head = file.read(20)
    number = int.from_bytes(head[18:20], "little") if head[:5] == b"\x7fELF\2" else None
    return next((it for it in MACHINES if it.number == number), None)


def wrap(emulator, machine, program, to, linking=("-static",)):
    """Makes a program of this machine that runs that one by an emulator, a command with its options; its path. Linked statically it leaves
    a library that is to be loaded (LD_PRELOAD) to that one."""
    first, *rest = shlex.split(emulator)
    found = shutil.which(first)
    if found is None:
        raise FileNotFoundError(2, "not on the path", first)
    words = [found, *rest, "-L", machine.place, os.path.abspath(program)]
    listed = ",".join('"' + it.replace("\\", "\\\\").replace('"', '\\"') + '"' for it in words)
    subprocess.run(["cc", "-O2", *linking, f"-DWORDS={listed}", "-o", to, f"{LIB}/under.c"], check=True)
    os.symlink(os.path.abspath(program), f"{to}.runs")
    return to


def copied(program, to):
    """Copies a program of this run to this path, and that is the path that it finds for itself; what is to be run."""
    if not is_emulated():
        return shutil.copy(program, to)
    shutil.copy(f"{program}.runs", to)
    return wrap(os.environ[WORD], machine_of_run(), to, f"{to}.emulated")
