"""The rows of tests/serve about where the player goes on behind a restart, as it is heard; lib/images.py has power cuts, the simulation lives
one behind the other."""

import os
import signal

import crashes
import player
from daemons import Daemon, check, wait_for
from sounds import LONG, MOST_FRAMES, SONGS, Recorded, is_full, pieces_of, play_to_the_end, playing, random_song, runs_of, sound_of

# Where LONG is sought to, and what is heard from there to the end of the queue.
TIME, QUEUE = "1.500", [SONGS[2], LONG, *SONGS[:2]]
REST = runs_of([sound_of(LONG, first=66_150), *map(sound_of, SONGS[:2])])


def going_on(program, folder, songs, resume, **settings):
    """A daemon that plays into a pipe, with these songs in its queue, whose player goes on so in the next life."""
    return playing(program, folder, songs, **{"stock_clients:": "true", "resume": resume, **settings})


def set_resume(daemon, resume):
    daemon.settings["resume"] = resume
    daemon.write()


def kill_in_a_song(daemon, *requests, position=1):
    """Begins an entry at a place, while the pipe takes nothing, and kills the daemon behind these requests."""
    with crashes.full_pipe(f"{daemon.folder}/sound"), daemon.client() as client:
        client.do(f"play {position}", f"seekcur {TIME}", *requests)
        daemon.kill()


def shown(client):
    return [client.value("status", it) for it in ("state", "song", "elapsed")]


def has(daemon, what, *wanted):
    """A life in which the player is so at its beginning."""
    with daemon.start(), daemon.client() as client:
        check(f"the player {what}", shown(client), list(wanted))
        daemon.kill()


def sound_of_life(daemon, *requests):
    """What is heard of a life, from these requests on, until the queue is at its end."""
    recorded = Recorded(f"{daemon.folder}/sound")
    with daemon.start(), daemon.client() as client:
        play_to_the_end(client, *requests)
        daemon.kill()
    return runs_of(pieces_of(recorded.end()))


def paused_where_it_played(program, folder):
    """Killed while a song plays, the next life is paused in it, so is the one behind that, and goes on with the frame that was sought."""
    with going_on(program, folder, QUEUE, "paused") as daemon:
        kill_in_a_song(daemon)
        for life in (1, 2):
            has(daemon, f"in life {life}", "pause", "1", TIME)
        check("the sound", sound_of_life(daemon, "pause 0"), REST)
        has(daemon, "behind the end of the queue", "stop", None, None)


def plays_on_where_it_played(program, folder):
    """With `resume = "playing"` it plays on by itself. What was paused stays so, and what was stopped keeps its song."""
    with going_on(program, folder, QUEUE, "playing") as daemon:
        kill_in_a_song(daemon)
        check("the sound", sound_of_life(daemon), REST)
        for request, wanted in (("pause 1", ["pause", "1", TIME]), ("stop", ["stop", "1", None])):
            with daemon.start():
                kill_in_a_song(daemon, request)
            has(daemon, f"behind {request}", *wanted)


def stopped_without_the_key(program, folder):
    """Without `resume` the next life is stopped without a song. The place stays kept, until something plays."""
    with going_on(program, folder, QUEUE, "") as daemon:
        kill_in_a_song(daemon)
        for resume, wanted in (("", ["stop", None, None]), ("paused", ["pause", "1", TIME]), ("", ["stop", None, None])):
            set_resume(daemon, resume)
            has(daemon, resume or "without the key", *wanted)
        with daemon.start():
            kill_in_a_song(daemon, "seek 3 0.050", "pause 1")
        set_resume(daemon, "playing")
        has(daemon, "behind what played then", "pause", "3", "0.050")


def keys_without_stock_clients(program, folder):
    """Without `stock_clients` a line says that these keys do nothing, and nothing else is another one."""
    daemon = Daemon(program, folder, resume="paused", **{"place_every:": "5"}).create()
    for is_wide in False, True:
        daemon.lines, daemon.settings["stock_clients:"] = [], "true" if is_wide else ""
        daemon.write()
        with daemon.start():
            daemon.kill(signal.SIGTERM)
        found = [it.rpartition(": ")[2] for it in daemon.lines if " without stock_clients" in it]
        keys = [] if is_wide else ["resume", "place_every"]
        check("lines", found, [f"{it} does nothing without stock_clients = true" for it in keys])


def song_is_gone(program, folder):
    """An entry that leaves the queue in a life without `resume` isn't gone on with, nor is another one of its song; a song whose file is
    gone is a fault as in any life."""
    with going_on(program, folder, [LONG, SONGS[2]], "") as daemon:
        kill_in_a_song(daemon, position=0)
        with daemon.start(), daemon.client() as client:
            client.do("delete 0", f"add {LONG.name}")
            daemon.kill()
        set_resume(daemon, "playing")
        has(daemon, "without its entry", "stop", None, None)
        with daemon.start():
            kill_in_a_song(daemon)
        os.remove(f"{folder}/music/{LONG.name}")
        with daemon.start(), daemon.client() as client:
            wait_for("the fault", lambda: client.value("status", "error") == f"cannot play {LONG.name}")
            check("the state", client.value("status", "state"), "stop")


def place_of_each_second(program, folder):
    """With `place_every` the place is kept each so many seconds of play, by a record of the journal behind the piece that completes them.
    With 0, or where less was played, a song's beginning is what was kept."""
    rate, seconds = 44_100, 4
    song, second = random_song("song.wav", rate, 2, seconds * rate), (rate // MOST_FRAMES + 1) * MOST_FRAMES
    for every, times in (("0", 0), ("", 0), ("1", 3)):
        home, settings = f"{folder}/{every}", {"place_every:": every} if every else {}
        with going_on(program, home, [song], "paused", form="", **settings) as daemon:
            before = daemon.journal().records()
            made = lambda daemon=daemon, before=before: daemon.journal().records() - before
            with open(f"{home}/sound", "r+b", buffering=0) as pipe, daemon.client() as client:
                client.do("play")
                # What the pipe holds then is more than is missing to the third second, and less than to the end.
                left = 4 * (3 * rate)
                while left:
                    left -= len(pipe.read(min(left, 1 << 16)))
                wait_for("the records", lambda: made() == 1 + times)
                wait_for("a full pipe", lambda home=home: is_full(f"{home}/sound"))
                daemon.kill()
            check(f"records, {every}", made(), 1 + times)
            has(daemon, f"behind a life with {every}", "pause", "0", player.shown(times * second * 1000 // rate))
