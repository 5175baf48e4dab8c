"""The rows of tests/serve about a full disk, with `stock_clients`: what would change is refused, and nothing else happens."""

import errno
import os
import resource
import time

import crashes
import preload
from clients import in_one_list, wait_for
from daemons import check, knowing, limited, put_song
from scripts import Failure

SONGS = {"a.wav": [0] * 44_100, "b.wav": [0] * 44_100}
REFUSED = "ACK [52@0] {sticker} disk full"
# A record of so many bytes, of which so many are refused room at last: the journal keeps some 64 KiB more than it asks for.
LENGTH, MOST = 4_000, 64


def set_sticker(number):
    return f"sticker set song a.wav name {number}-{'x' * LENGTH}"


def longest(folder):
    return max(os.path.getsize(f"{folder}/{name}") for name in "ab")


def fill(client):
    """Sets a sticker again and again until that is refused; how many were answered OK."""
    for number in range(MOST):
        answer = client.ask(set_sticker(number))
        if answer[-1] != "OK":
            check("the refusal", answer, [REFUSED])
            return number
    raise Failure("nothing was refused on a full disk")


def refuses_and_goes_on(program, folder):
    """On a full disk each change is refused, reads and playing go on, no client is closed; once there is room, changes are kept again, and a
    restart finds what was answered."""
    os.makedirs(folder)
    with crashes.full_pipe(f"{folder}/sound"), knowing(program, folder, SONGS, **{"stock_clients:": "true"}) as daemon:
        with daemon.client() as client, daemon.client() as waiting:
            client.do("setvol 40", "add a.wav", "add b.wav")
            waiting.do("idle mixer")
            waiting.send("idle mixer\n")
            with limited(daemon.process, resource.RLIMIT_FSIZE, longest(folder)):
                kept = fill(client)
                for request in ("setvol 41", "clear", "save list", "repeat 1", "rename x y"):
                    check(request, client.ask(request)[-1].startswith("ACK [52@0]"), request != "rename x y")
                check("a list", client.ask(in_one_list(["ping", "setvol 41"])), ["ACK [52@1] {setvol} disk full"])
                client.do("play 0", "pause 1", "status", "playlistinfo", "currentsong", "next", "stop", "setvol 40")
                check("the volume", client.value("status", "volume"), "40")
                check("the queue", client.value("status", "playlistlength"), "2")
            wait_for("room", lambda: client.ask("setvol 43") == ["OK"])
            check("a client that waited", waiting.line(), b"changed: mixer")
        daemon.kill()
        daemon.start()
        with daemon.client() as client:
            check("the volume", client.value("status", "volume"), "43")
            found = client.value("sticker get song a.wav name", "sticker")
            check("the sticker", found, f"name={kept - 1}-{'x' * LENGTH}")


def refuses_at_each_length(program, folder):
    """The disk is full at each of some lengths of the file, also in the middle of what is put behind it: nothing that was answered is lost."""
    for more in (0, 1, 4_095, 65_535, 65_537):
        with knowing(program, f"{folder}/{more}", SONGS, **{"stock_clients:": "true"}) as daemon:
            with daemon.client() as client, limited(daemon.process, resource.RLIMIT_FSIZE, longest(daemon.folder) + more):
                kept = fill(client)
                check("a read", client.value("status", "state"), "stop")
            daemon.kill()
            daemon.start()
            with daemon.client() as client:
                found = client.value("sticker get song a.wav name", "sticker")
                check(f"the sticker, {more} bytes more", found, f"name={kept - 1}-{'x' * LENGTH}")


def tells_it_once(program, folder):
    """The log names the file, the call and the system's words, once, and once that there is room again."""
    said = "] journal_a: write: File too large (os error 27): until there is room, what would change is refused, and nothing is kept"
    with knowing(program, folder, SONGS, **{"stock_clients:": "true"}) as daemon:
        with daemon.client() as client:
            with limited(daemon.process, resource.RLIMIT_FSIZE, longest(folder)):
                fill(client)
                fill(client)
            wait_for("room", lambda: client.ask("setvol 43") == ["OK"])
            wait_for("its line", lambda: "has room again" in daemon.lines[-1])
        lines = [it for it in daemon.lines if "room" in it]
        check("the lines", [said in lines[0], len(lines)], [True, 2])


def checkpoint_without_room(program, folder):
    """A checkpoint comes due, and the other file has no room for it: it is put off, whoever is next, a clock, the player or a scan."""
    os.makedirs(folder)
    library, counts = preload.library("fail_calls", folder), f"{folder}/counts"
    for number, request in enumerate(("setvol 1", "play 0", "update")):
        with knowing(program, f"{folder}/{number}", SONGS, output="/dev/null", **{"stock_clients:": "true"}) as daemon:
            with daemon.client() as client:
                client.do("add a.wav", "add b.wav", "repeat 1", "setvol 0")
            daemon.kill()
            daemon.journal().fill(1, 0)
            # How many calls make the room of a life.
            with daemon.start(settings=preload.settings(library, counts, FIRST=0, LAST=0, FULL=1)).client() as client:
                client.do("status")
            daemon.kill()
            put_song(daemon, "c.wav", [0])
            words = {"FIRST": preload.counts(counts)[0] + 1, "LAST": 1_000_000, "ERRNO": errno.ENOSPC, "FULL": 1}
            with daemon.start(settings=preload.settings(library, counts, **words)).client() as client:
                client.do(request)
                time.sleep(2)
                check("a change", client.ask("setvol 2")[-1].partition("}")[2], " disk full")
                check("the volume", client.value("status", "volume"), "0" if number else "1")
            check("the log", [it for it in daemon.lines if "fault" in it], [])


def begins_without_room(program, folder):
    """A journal whose checkpoint is due is opened on a full disk, and the other file has nothing: the life begins as any does, what would change
    is refused, and what was answered is found."""
    os.makedirs(folder)
    library, counts = preload.library("fail_calls", folder), f"{folder}/counts"
    words = {"FIRST": 1, "LAST": 1_000_000, "ERRNO": errno.ENOSPC, "FULL": 1}
    with knowing(program, f"{folder}/0", SONGS, output="/dev/null", resume="paused", **{"stock_clients:": "true"}) as daemon:
        with daemon.client() as client:
            client.do("add a.wav", "setvol 0")
        daemon.kill()
        daemon.journal().fill(0, 7)
        with daemon.start(settings=preload.settings(library, counts, **words)).client() as client:
            check("a change", client.ask("setvol 2")[-1].partition("}")[2], " disk full")
            check("what was answered", [client.value("status", it) for it in ("volume", "playlistlength", "state")], ["7", "1", "stop"])
        check("the log", [it for it in daemon.lines if "fault" in it], [])
        daemon.kill()
        with daemon.start().client() as client:
            check("behind it", client.ask("setvol 2")[-1], "OK")


def room_is_given_back(program, folder):
    """Before a checkpoint the file in use gives its room back: the older one has what it says, and no more."""
    with knowing(program, folder, SONGS, **{"stock_clients:": "true"}) as daemon:
        with daemon.client() as client:
            client.do("setvol 1")
        daemon.kill()
        daemon.journal().fill(1, 0)
        daemon.start()
        with daemon.client() as client:
            client.do("setvol 2", "setvol 3", "setvol 4")
            sizes = [os.path.getsize(f"{folder}/{name}") for name in "ab"]
            check("the lengths", [min(sizes) < 200_000, longest(folder) > 8_388_628], [True, True])


def console_without_room(program, folder):
    """So it is for a console's client: its change is refused, and it is served on."""
    with knowing(program, folder, SONGS, **{"stock_clients:": "true"}) as daemon:
        daemon.kill()
        with daemon.console(restore_signals=False) as client:
            client.do("setvol 1")
            with limited(client.process, resource.RLIMIT_FSIZE, longest(folder)):
                fill(client)
                check("a change", client.ask("setvol 2"), ["ACK [52@0] {setvol} disk full"])
            client.do("setvol 3")
            check("its end", client.end(), 0)
