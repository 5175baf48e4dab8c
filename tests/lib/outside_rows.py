"""Rows of tests/serve: what stands around the daemon, as the limits of its process, a terminal, another daemon at its pipe, or a drive that
hangs; and journal files that have lost bytes, or have more than they need."""

import contextlib
import fcntl
import os
import resource
import signal
import stat
import time

import preload
from daemons import Daemon, check, knowing, make_pipe, put_song, refused, update, wait_for
from log_rows import EMPTIED, change, is_served, told
from scripts import read, write, write_at
from stock_players import time_of

RAMP = list(range(-20_000, 20_000, 4))
# Lines of `debug` within a minute.
DEBUG = 1_000
# How many milliseconds more a sync takes: three of them are an opening.
SLOW = 2_200
# How many bytes a file may have.
FEW = 20_000
SHORT = "it has fewer bytes than a head: where it had more, that may be a later state"
IN_USE = "it was the file in use, and has lost what it had: put both files of a copy back"
SALVAGE = "; `look --salvage` writes what the other one has, an older state"


def mode_of(path):
    return oct(stat.S_IMODE(os.stat(path).st_mode))


def modes_of_its_files(program, folder):
    """Journal and sound are their owner's alone, whatever the umask leaves."""
    daemon = Daemon(program, folder)
    check("create", daemon.outcome("create", umask=0)[0], 0)
    with daemon.start():
        check("modes", [mode_of(f"{folder}/{it}") for it in ("a", "b", "sound")], ["0o600"] * 3)


def two_daemons_at_one_pipe(program, folder):
    """A pipe is one daemon's alone; that a reader has it locked is in nobody's way."""
    make_pipe(folder)
    reader = os.open(f"{folder}/sound", os.O_RDONLY | os.O_NONBLOCK)
    fcntl.flock(reader, fcntl.LOCK_EX)
    with Daemon(program, folder).create().start() as daemon:
        Daemon(program, f"{folder}/other", output="../sound").create()
        line = "../sound: in use already, as the output or a journal file of another daemon"
        refused(program, f"{folder}/other", {"output": "../sound"}, 1, [line, "bad configuration"])
        daemon.client().do("ping")
        daemon.kill()
    with daemon.start(), daemon.client() as client:
        client.do("ping")
    os.close(reader)


def terminal_that_nobody_reads(program, folder):
    """Standard error is a terminal that nobody reads: it holds neither clients nor the scan nor the end."""
    daemon = Daemon(program, folder, **{"debug:": "true"}).create()
    for number in range(900):
        write(f"{folder}/music/{number:03}{'n' * 190}.wav", "no song")
    master, terminal = os.openpty()
    with daemon.start(stderr=terminal):
        os.close(terminal)
        with daemon.client() as client:
            update(client)
            client.do("setvol 30", "update", "ping")
            daemon.end_by(client, 5)
    os.close(master)


def files_of_a_limited_length(program, folder):
    """A file can't grow past the limit of the process: that is a disk that is full, and an output that fails; no signal ends the daemon."""
    with knowing(program, folder, {"a.wav": RAMP * 10}) as daemon, daemon.client() as client:
        client.do("add a.wav")
        daemon.kill()
    limits = [(resource.RLIMIT_FSIZE, os.path.getsize(f"{folder}/a") + 300)]
    with daemon.start(limits, ended_by=[signal.SIGXFSZ]):
        with daemon.client() as client:
            client.do("play")
            wait_for("the failure", lambda: client.value("status", "error") == "output failed")
        answered = 0
        for _ in range(2):
            with daemon.client() as client:
                for volume in range(100):
                    client.send(f"setvol {volume}\n")
                    if client.line() is None:
                        break
                    answered = volume
        check("the status", daemon.end(), 3)
    said = [it for it in daemon.lines if it.startswith("a: ")]
    kept = "what was answered is kept; free space or check the device, then start again"
    check("what it says", said, [f"a: File too large (os error 27): {kept}"])
    daemon.lines = []
    with daemon.start(), daemon.client() as client:
        check("the volume", int(client.value("status", "volume")) - answered in (0, 1), True)


def streams_of_a_limited_length(program, folder):
    """Nor where standard error or standard output is such a file: lines are left out there, and the output fails."""
    daemon = Daemon(program, folder, output="-", **{"debug:": "true"}).create()
    put_song(daemon, "a.wav", RAMP * 10)
    open(f"{folder}/music/b.wav", "wb").close()
    with open(f"{folder}/said", "wb") as said, open(f"{folder}/heard", "wb") as heard:
        said.write(b"." * FEW)
        said.flush()
        with daemon.start([(resource.RLIMIT_FSIZE, FEW)], heard, said, ended_by=[signal.SIGXFSZ]):
            with daemon.client() as client:
                update(client)
                client.do("add a.wav", "play")
                wait_for("the failure", lambda: client.value("status", "error") == "output failed")
            check("how it ends", daemon.kill(signal.SIGTERM), -signal.SIGTERM)
    check("lengths", [os.path.getsize(f"{folder}/{it}") for it in ("said", "heard")], [FEW, FEW])


def few_descriptors(program, folder):
    """Where the system gives fewer descriptors than a hundred clients want, a line says so."""
    daemon = Daemon(program, folder).create()
    for most, lines, is_wide in ((64, 1, False), (115, 0, False), (134, 1, True), (135, 0, True)):
        daemon.lines, daemon.settings["stock_clients:"] = [], "true" if is_wide else ""
        daemon.write()
        with daemon.start([(resource.RLIMIT_NOFILE, most)]):
            daemon.kill(signal.SIGTERM)
        check("lines", len(told(daemon, f"{most} descriptors at most")), lines)


def debug_within_a_minute(program, folder):
    """Of the lines of `debug` a minute has so many; one says that others were left out."""
    daemon = Daemon(program, folder, **{"debug:": "true"}).create()
    for number in range(DEBUG + 200):
        open(f"{folder}/music/{number}.wav", "wb").close()
    with daemon.start(), daemon.client() as client:
        update(client)
        wait_for("the line of the job", lambda: told(daemon, "update 1: "))
        daemon.kill(signal.SIGTERM)
    check("lines", len([it for it in daemon.lines if it.startswith("[DEBUG ")]), DEBUG + 1)
    check("the last one", len(told(daemon, "what else there is of these lines")), 1)


def scan_that_stands_in_a_call(program, folder):
    """A call of the system for the music doesn't come back: behind ten seconds a line says which thread waits."""
    daemon = Daemon(program, folder).create()
    os.makedirs(f"{folder}/music/hangs")
    with daemon.start(settings={"LD_PRELOAD": preload.library("hang_calls", folder)}), daemon.client() as client:
        client.do("update")
        wait_for("a line", lambda: told(daemon, "the scan has waited for ten seconds for one call of the system for the music"))
        time.sleep(1)
        daemon.kill(signal.SIGTERM)
    check("lines", len(told(daemon, "the scan has waited", "the player has waited")), 1)


def player_that_stands_in_a_call(program, folder):
    """So it is told of the player."""
    with knowing(program, folder, {"hangs.wav": [0] * 100}) as daemon:
        daemon.kill(signal.SIGTERM)
        daemon.start(settings={"LD_PRELOAD": preload.library("hang_calls", folder)})
        with daemon.client() as client:
            client.do("add hangs.wav", "play")
            wait_for("a line", lambda: told(daemon, "the player has waited for ten seconds for one call of the system for the music"))
            daemon.kill(signal.SIGTERM)
        check("lines", len(told(daemon, "the scan has waited", "the player has waited")), 1)


def output_without_a_reader(program, folder):
    """With `stock_clients` it is told behind ten seconds that nobody reads the pipe, as long as it is so: once in the log, and in `status`."""
    make_pipe(folder)
    with knowing(program, folder, {"a.wav": [0] * 441_000}, **{"stock_clients:": "true"}) as daemon, daemon.client() as client:
        client.do("add a.wav", "play")
        wait_for("the error", lambda: client.value("status", "error") is not None)
        check("the error", client.value("status", "error"), "nobody reads the output")
        check("the state", client.value("status", "state"), "play")
        reader = os.open(f"{folder}/sound", os.O_RDONLY | os.O_NONBLOCK)
        try:
            def error():
                with contextlib.suppress(BlockingIOError):
                    os.read(reader, 1 << 16)
                return client.value("status", "error")

            wait_for("the end of it", lambda: error() is None)
        finally:
            os.close(reader)
        check("lines", len(told(daemon, "nobody has read the output for ten seconds")), 1)


def picture_that_stands_in_a_call(program, folder):
    """So it is told of the reader of pictures, while others are served. Behind twenty seconds whoever asked is told that it couldn't be
    read, so that those who have left keep no place; and it is told what the end waits for."""
    daemon = Daemon(program, folder, **{"stock_clients:": "true"}).create()
    os.makedirs(f"{folder}/music/hangs")
    with daemon.start(settings={"LD_PRELOAD": preload.library("hang_calls", folder)}), daemon.client() as client, daemon.client() as other:
        for asking in [client, *(daemon.client() for _ in range(98))]:
            asking.send("albumart hangs/a.wav 0\n")
            if asking is not client:
                asking.socket.close()
        # Neither a line behind the one that waits nor those who left keep the daemon busy.
        client.send("ping\n")
        before = time_of(daemon)
        time.sleep(2)
        check("hundredths of a second of the processor", time_of(daemon) - before < 20, True)
        wait_for("a line", lambda: told(daemon, "the reader of pictures has waited for ten seconds for one call of the system for the music"))
        other.do("setvol 41", "stop")
        check("a client", [client.answer() for _ in range(2)], [["ACK [5@0] {albumart} the picture could not be read"], ["OK"]])
        wait_for("places", lambda: daemon.client(greeted=False).line())
        other.send("kill\n")
        wait_for("a line about the end", lambda: told(daemon, "the end waits for the reader of pictures"))
        check("the client", client.line(), None)
        check("the end", daemon.kill(signal.SIGTERM), -signal.SIGTERM)


# The daemon makes its threads in the order in which they begin; that of the reader of pictures is the last one.
PICTURES = 4


def no_thread_for_pictures(program, folder):
    """Where the reader of pictures finds no thread, a line says so, each request for a picture is refused, and all else is served."""
    daemon = Daemon(program, folder, **{"stock_clients:": "true"}).create()
    put_song(daemon, "a.wav", [0] * 100)
    settings = {"LD_PRELOAD": preload.library("fail_threads", folder), "FAILS": str(PICTURES)}
    with daemon.start(settings=settings), daemon.client() as client:
        update(client)
        for name in "albumart", "readpicture":
            check(name, client.ask(f"{name} a.wav 0"), [f"ACK [2@0] {{{name}}} one picture a command list"])
        client.do("add a.wav", "play", "stop")
        check("lines", len(told(daemon, "no thread for the reader of pictures: none is told")), 1)
        daemon.end_by(client)


def slow_disk(program, folder):
    """While a journal is opened a line says so after a second, and each five seconds."""
    daemon = Daemon(program, folder).create()
    with daemon.start(settings={"LD_PRELOAD": preload.library("slow_calls", folder), "SLOW": str(SLOW)}):
        daemon.kill(signal.SIGTERM)
    meanwhile = [it for it in told(daemon, "the journal ") if "being" in it]
    check("meanwhile", meanwhile, [f"the journal is being opened, for {it} seconds so far" for it in (1, 6)])
    check("behind it", len(told(daemon, "the journal was opened in ")), 1)


def slow_start_brings_a_checkpoint(program, folder):
    """With `stock_clients` a start that took five seconds brings a checkpoint, so that the next one needn't take so long."""
    with knowing(program, folder, {"a.wav": [0] * 100}, **{"stock_clients:": "true"}) as daemon:
        journal = daemon.journal()
        first = journal.generation(journal.in_use())
        daemon.kill(signal.SIGTERM)
        daemon.start(settings={"LD_PRELOAD": preload.library("slow_calls", folder), "SLOW": str(SLOW)})
        with daemon.client() as client:
            client.do("ping")
        check("generations", journal.generation(journal.in_use()) - first, 1)


def empty(path):
    """What a file has; it has nothing then."""
    content = read(path)
    os.truncate(path, 0)
    return content


def journal_file_emptied(program, folder):
    """A journal file has lost its bytes, as a copy on a full disk. What a crash may have left is served; where it was the file in use, a
    start is refused, and where it wasn't, it is served with a line."""
    daemon = Daemon(program, folder, output="-").create()
    journal = daemon.journal()
    is_served(daemon, 100)
    older = f"bytes: {EMPTIED}"
    journal.fill(1, 40)
    change(daemon, 41, 42, 43)
    content = empty(f"{folder}/b")
    is_served(daemon, 41, f"b: it has 0 {older}")
    write(f"{folder}/b", content)
    journal.fill(1, 50)
    change(daemon, 51, 52, 53)
    check("the file in use", os.path.basename(journal.in_use()), "a")
    # The one not in use.
    content = empty(f"{folder}/b")
    status, out, said = daemon.outcome("look")
    check("look", (status, out[:4], said), (0, ["whole: yes", "layout: 2", "file: a", "generation: 3"], [f"b: {SHORT}"]))
    is_served(daemon, 53, f"b: it has 0 {older}")
    write(f"{folder}/b", content[:31])
    is_served(daemon, 53, f"b: it has 31 {older}")
    write(f"{folder}/b", content)
    # The one in use.
    kept = empty(f"{folder}/a")
    check("look", daemon.outcome("look"), (4, [], [f"a: {IN_USE}{SALVAGE}", "journal not whole"]))
    refused(program, folder, {"output": "-"}, 2, [f"a: {IN_USE}{SALVAGE}", "journal refused: 5"])
    os.rename(f"{folder}/a", f"{folder}/away")
    refused(program, folder, {"output": "-"}, 2, [f"a: {IN_USE}{SALVAGE}", "journal refused: 5"])
    check("that none was made", os.path.exists(f"{folder}/a"), False)
    os.rename(f"{folder}/away", f"{folder}/a")
    # What the other one has.
    printed = ["new: all 4096 records of b", "put it in the place of b, and remove the other file"]
    check("salvage", daemon.outcome("look", "--salvage", "new"), (0, printed, []))
    there = "new: File exists (os error 17)"
    check("salvage again", daemon.outcome("look", "--salvage", "new"), (3, [], [there, "disk fault"]))
    # The other one shut, as by a checkpoint that was cut short.
    write_at(f"{folder}/b", 0, b"\0")
    refused(program, folder, {"output": "-"}, 2, [f"a: {IN_USE}", "journal refused: 4"])
    write(f"{folder}/a", kept)
    is_served(daemon, 53)
    os.remove(f"{folder}/a")
    os.rename(f"{folder}/new", f"{folder}/b")
    away = "a: missing, and made empty: the other file may have an older state; if it stands elsewhere, end this at once and put it back"
    is_served(daemon, 51, away)


def damaged_record(program, folder):
    """What stands before a record that is none is salvaged, and takes the place of the file."""
    daemon = Daemon(program, folder, output="-").create()
    end = os.path.getsize(f"{folder}/a") - 1
    change(daemon, 40, 41, 42)
    # The third record has seven bytes, as each before it: its op is another.
    third = end + 2 * 7
    write_at(f"{folder}/a", third + 5, b"\xff")
    damaged = f"a, b: damaged at byte {third} of the file in use"
    check("look", daemon.outcome("look"), (4, [], [damaged, "journal not whole"]))
    printed = [f"new: 2 records of a, which is damaged at byte {third}", "put it in the place of a"]
    check("salvage", daemon.outcome("look", "--salvage", "new"), (0, printed, []))
    check("its mode", mode_of(f"{folder}/new"), "0o600")
    os.rename(f"{folder}/new", f"{folder}/a")
    is_served(daemon, 41)


def file_with_a_hole(program, folder):
    """A journal file has far more bytes than memory behind its closing gate: a look reads as far as that."""
    daemon = Daemon(program, folder).create()
    wanted = daemon.outcome("look")
    os.truncate(f"{folder}/a", 1 << 38)

    def limit():
        resource.setrlimit(resource.RLIMIT_AS, (1 << 30, 1 << 30))

    check("look", daemon.outcome("look", preexec_fn=limit), wanted)
