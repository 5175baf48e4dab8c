"""Rows of tests/serve: who asks for much at once keeps neither others nor a later start waiting. They count, and nothing depends on time."""

import contextlib

from clients import in_one_list
from daemons import check, knowing, standing_still
from scripts import Failure

# So many clients ask at once for so many passes over a queue of so many entries; a folder has so many songs.
CROWD, PASSES, ENTRIES, SONGS = 20, 48, 16_000, 16
PASS = "playlistsearch any z\n"
# So many passes may end between a `ping` and its answer: those of a group that has begun, one of each client, and those that end before the
# daemon stands still. Without turns nearly all of them would.
MOST = 200


def passes_of(client, seen):
    """How many passes of the client have ended; what was read of it so far is in a list of one."""
    client.socket.setblocking(False)
    with contextlib.suppress(BlockingIOError):
        while piece := client.socket.recv(1 << 16):
            seen[0] += piece
    return seen[0].count(b"OK\n")


def crowd_keeps_nobody_waiting(program, folder):
    """A `ping` beside clients that ask for a minute's work at once is answered before most of that is done."""
    daemon = knowing(program, folder, {f"a/{it}.wav": [0] * 100 for it in range(SONGS)}, **{"stock_clients:": "true"})
    with daemon, daemon.client() as client, contextlib.ExitStack() as stack:
        for _ in range(ENTRIES // SONGS):
            client.do("add a")
        crowd = [(stack.enter_context(daemon.client()), [b""]) for _ in range(CROWD)]
        for it, _ in crowd:
            it.send(PASS * PASSES)
        with standing_still(daemon.process):
            client.send("ping\n")
            before = sum(passes_of(*it) for it in crowd)
        check("the answer to ping", client.answer(), ["OK"])
        with standing_still(daemon.process):
            after = sum(passes_of(*it) for it in crowd)
        if after - before > MOST or before > CROWD * PASSES // 2:
            raise Failure(f"{after - before} passes ended before a ping, {before} before it was asked")


def much_work_brings_a_checkpoint(program, folder):
    """Few records whose requests are much work bring a checkpoint: 990 times a `status` that draws for 1,000 entries is nearly as much as one
    request may do, and twenty of these are within the bound."""
    with knowing(program, folder, {"a.wav": [0] * 100}, **{"stock_clients:": "true"}) as daemon:
        journal = daemon.journal()
        generation = lambda: journal.generation(journal.in_use())
        with daemon.client() as client:
            client.ask(in_one_list(["add a.wav"] * 1_000))
            client.do("random 1")
            first = generation()
            for many, later in (20, 0), (5, 1):
                for _ in range(many):
                    volume = int(client.value("status", "volume")) % 100 + 1
                    check("a list", client.ask(in_one_list([f"setvol {volume}", *["status"] * 990]))[-1], "OK")
                check(f"generations behind {many} lists", generation() - first, later)


def large_snapshot_takes_more_records(program, folder):
    """Behind a snapshot of more than eight MiB 4,200 records bring no checkpoint, as many as it has KiB would."""
    with knowing(program, folder, {"a.wav": [0] * 100}, **{"stock_clients:": "true"}) as daemon, daemon.client() as client:
        for number in range(0, 2_300, 100):
            lines = [f"sticker set song a.wav {number + it} {'x' * 4_000}" for it in range(100)]
            check("a list", client.ask(in_one_list(lines)), ["OK"])
        client.do("setvol 1")
        journal = daemon.journal()
        first = journal.generation(journal.in_use())
        client.send("".join(f"setvol {it % 100}\n" for it in range(4_200)))
        for _ in range(4_200):
            check("an answer", client.answer(), ["OK"])
        check("generations", journal.generation(journal.in_use()) - first, 0)
