"""A daemon with little memory: what it wrote under a limit of its address space it opens under the same one, and a checkpoint takes none."""

import resource

import under
from clients import in_one_list
from daemons import check, knowing, limited
from scripts import read

# The limit, in bytes, and how many command lists are kept under it, which are longer together. For a thread's first allocation the C library
# tries 64 MiB at once, and lets go of them: beside that a list must find memory.
MEMORY, LISTS = 110_000_000, 60
# Of each list so many commands, each with a value of so many bytes.
COMMANDS, LENGTH = 500, 4096
# Room for what an event takes, and none for all values at once.
SPARE = 8_000_000
SONG = {"a.wav": [0] * 100}


def value_of(number, place):
    return f"{number}-{place}-{'x' * (LENGTH - 20)}"


def values_of(number):
    """Commands of one list, by the number of the list: each sets the sticker to another value."""
    return [f"sticker set song a.wav last {value_of(number, it)}" for it in range(COMMANDS)]


def stickers_of(number):
    """Commands of one list, each of which sets a sticker of its own."""
    return [f"sticker set song a.wav name-{number}-{it} {'x' * LENGTH}" for it in range(COMMANDS)]


def opens_what_it_wrote(program, folder):
    """Command lists of two million bytes change one value again and again. All that is kept of them is opened under the limit under which
    it was written."""
    limits = [(resource.RLIMIT_AS, MEMORY)]
    with knowing(program, folder, SONG, limits) as daemon:
        with daemon.client() as client:
            for number in range(LISTS):
                client.do(in_one_list(values_of(number)))
        daemon.kill()
        daemon.start(limits)
        with daemon.client() as client:
            found = client.value("sticker get song a.wav last", "sticker")
            check("the last value", found, f"last={value_of(LISTS - 1, COMMANDS - 1)}")
            client.do("setvol 41")


def used(process):
    """How many bytes of addresses a process uses."""
    return int(read(f"/proc/{process.pid}/statm").split()[0]) * resource.getpagesize()


def makes_a_checkpoint_without_memory(program, folder):
    """A checkpoint is due where there is no memory for all that it writes: it is made piece by piece, and what is asked meanwhile is kept."""
    with knowing(program, folder, SONG) as daemon:
        with daemon.client() as client:
            for number in range(20):
                client.do(in_one_list(stickers_of(number)))
        daemon.kill()
        journal = daemon.journal()
        journal.fill(5, 40)
        was = journal.in_use()
        with daemon.start(), daemon.client() as client:
            with limited(daemon.process, resource.RLIMIT_AS, used(daemon.process) + SPARE):
                for volume in range(50, 70):
                    client.do(f"setvol {volume}")
                check("the volume", client.value("status", "volume"), "69")
                check("the same file in use", journal.in_use() == was, False)
                check("records", journal.records() <= 20, True)
        daemon.kill()
        daemon.start().has(volume="69")


def left_out():
    """The cases that can't be run here: by an emulator more memory is taken than these limits leave."""
    found = [opens_what_it_wrote, makes_a_checkpoint_without_memory] if under.is_emulated() else []
    for it in found:
        print(f"{it.__name__}: not run: the emulator takes more memory than its limit leaves")
    return found
