"""The rows of tests/refused_memory of a stage that threads share: events of clients and workers, looks, an order of the player and a scan.

A row prints what it prints with memory enough, or that memory was refused, which leaves passes, outbox, output and stage as they were; or a
request is answered so by its command, which was not done. A scan that finds no memory to read is left off, says so, and its end is told.
"""

import subprocess

import preload
import refused_rows
import waves

SONG = f"file a.wav {waves.wave_file(8_000, 1, 5_000, 1).hex()}"
# Client 2 waits for every subsystem, a song plays, a job runs, and a scan has left something.
BEGINNING = [
    *(SONG, "make_workers", "drop a.wav", "pass clients", "pass player", "pass scan", "serve 0 connect 1", "serve 0 connect 2"),
    *("serve 0 line 1 update", "scan_once 2", "serve 0 line 1 addid a.wav", "serve 0 line 1 play", "serve 0 line 1 update"),
    *("serve 0 line 2 idle", "serve 0 line 2 idle", "report 1 fed 1 100"),
]
LOOKS = ["passes", "order", "scan_order", "job", "player written", "collect", "serve 0 line 1 status", "serve 0 connect 4", "settle"]
REFUSED = ["refused 43 out of memory"]
COMMANDS = ["ping", "status", "setvol 40", "addid a.wav", "play 0", "stop", "rescan", "save new", "listallinfo"]
COMMANDS += ["sticker set song a.wav n v"]
EVENTS = ["serve 0 connect 3", "serve 0 gone 2", "serve 0 gone 1"]
REPORTS = ["1 fed 1 1000", "1 fed 9 1", "1 ended 1", "1 broken 1 source", "2 batch 2", "2 scanned 2", "2 scanned 9"]
OTHERS = ["collect", "order", "scan_order", "job", "play_once 1 1 0 50 a.wav", "play_once 1 7 4096 100 a.wav", "play_once 1 1 0 50 b.wav"]
# Orders of the player whose pieces are WAVE files of their own, and the line before them.
WAVE, PIECES = "player form wave", OTHERS[-3:]
# By this line is seen what a scan leaves that reads nothing.
SCAN, NOTHING_READ, LEFT_OFF = "scan_once 2", "report 2 scanned 2", "left off"


class Entered(refused_rows.Line):
    """A line for such a stage. What is there is what the passes, the looks, the output and some events behind it tell."""

    def __init__(self, program, line, *last):
        self.program, self.front, self.line, self.name = program, [*BEGINNING, *last], line, " ".join(["workers:", line, *last])

    def begin(self, place):
        """Runs it with memory enough; the numbers of its allocations. They are looked at while the driver waits for its next line."""
        self.prepare(place)
        counts = f"{place.folder}/counts"
        how = {"stdin": subprocess.PIPE, "stdout": subprocess.PIPE, "cwd": place.folder, "env": preload.settings(place.library, counts)}
        with subprocess.Popen([self.program], **how) as process:
            found = []
            for lines in self.front, [self.line]:
                process.stdin.write("".join(f"{it}\n" for it in lines).encode())
                process.stdin.flush()
                for _ in lines:
                    while process.stdout.readline() != b".\n":
                        pass
                found.append(preload.counts(counts)[0])
            process.kill()
        return range(found[0] + 1, found[1] + 1)

    def seen(self, place, line):
        run = self.run(place, [*self.front, *([line] if line else []), *LOOKS])
        return run.groups[-len(LOOKS) :]

    def prepare(self, place):
        self.wanted = self.run(place, [*self.front, self.line, *LOOKS]).groups[len(self.front)]
        self.states = {"before": self.seen(place, None), "after": self.seen(place, self.line)}
        if self.is_request():
            self.states["not done"] = self.seen(place, "serve 0 line 1 ping")
        if self.line == SCAN:
            self.states["left off"] = self.seen(place, NOTHING_READ)

    def is_request(self):
        return self.line.startswith("serve 0 line ")

    def looked(self, place, number):
        run = self.run(place, [*self.front, self.line, *LOOKS], number)
        # The driver itself looked for the order of a scan.
        if not run.is_well and self.line == SCAN and "none here" in run.told:
            run.is_well = run.has_ended = True
        return run, run.groups[-len(LOOKS) :]

    def refused(self):
        """What it may print where memory is refused, and what is there behind it then."""
        yield REFUSED, "before"
        if self.is_request():
            command = self.line.split(" ")[4]
            front = self.wanted[: next(at for at, line in enumerate(self.wanted) if line.startswith("event ")) + 1]
            yield [*front, "no memory at 0", f"1< ACK [52@0] {{{command}}} out of memory"], "not done"
        if self.line == SCAN:
            yield [LEFT_OFF], "left off"


def rows(program):
    """Each row, by its name."""
    lines = [*(f"serve 0 line 1 {it}" for it in COMMANDS), *EVENTS, *(f"report {it}" for it in REPORTS), *OTHERS, SCAN]
    entered = [*(Entered(program, it) for it in lines), *(Entered(program, it, WAVE) for it in PIECES)]
    return {row.name: row for row in entered}
