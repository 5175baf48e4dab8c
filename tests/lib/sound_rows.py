"""The rows of tests/serve about sound in the form "wave": the daemon's own stream, and contrib/sound over it."""

import contextlib
import ctypes
import fcntl
import os
import random
import runpy
import select
import signal
import struct
import time

from daemons import check, knowing, standing_still, update, wait_for
from scripts import Failure, read, write
from sounds import HEAD, LONG, MOST_FRAMES, SONGS, SOUND, Recorded, Song, Sound, changes_of_player, check_front, files_in, fill_the_pipe
from sounds import pending, pieces_of, play_to_the_end, playing, random_song, runs_of, sound_of, stream_of
from waves import samples

# A player of the tests: it writes what it is given into a file named by its process, rate and channels.
PLAYER = "sh -c 'exec cat >player-$$-{rate}-{channels}'"

# A song in the form for rooms.
ROOM = random_song("room.wav", 48_000, 2, 192_000)


def queue_in_waves(program, folder):
    """A queue of four rates, at two volumes, straight from the pipe."""
    with playing(program, folder, SONGS) as daemon:
        recorded = Recorded(f"{folder}/sound")
        with daemon.client() as client:
            play_to_the_end(client, "play 0")
            play_to_the_end(client, "setvol 37", "play 0")
        daemon.kill()
    wanted = [sound_of(it, percent) for percent in (100, 37) for it in SONGS]
    check("the sound", runs_of(pieces_of(recorded.end())), wanted)


def removed_song_is_heard(program, folder):
    """With `stock_clients` a song whose file is removed while it plays stays, though a job misses it, and is heard to its end. A job behind
    that drops it."""
    with playing(program, folder, [LONG, SONGS[1]], **{"stock_clients:": "true"}) as daemon, daemon.client() as client:
        both = [f"{at}:file: {it.name}" for at, it in enumerate([LONG, SONGS[1]])]
        fill_the_pipe(folder, client, 0)
        os.remove(f"{folder}/music/{LONG.name}")
        update(client)
        check("while it plays", (client.ask("playlist"), client.value("status", "state")), ([*both, "OK"], "play"))
        recorded = Recorded(f"{folder}/sound")
        wait_for("the end of the queue", lambda: client.value("status", "state") == "stop")
        update(client)
        check("behind it", client.ask("playlist"), [f"0:file: {SONGS[1].name}", "OK"])
        daemon.kill()
    check("the sound", runs_of(pieces_of(recorded.end())), [sound_of(it) for it in (LONG, SONGS[1])])


def pause_in_waves(program, folder):
    """Behind a pause the stream goes on where it was, and behind a seek from there on; neither leaves a part of a file."""
    with playing(program, folder, [LONG]) as daemon, daemon.client() as client:
        with open(f"{folder}/sound", "rb", buffering=0) as pipe:
            client.do("play")
            stream = pipe.read(30_000)
            client.do("pause 1")
            while select.select([pipe], [], [], 0.3)[0]:
                stream += pipe.read(1 << 16)
            frames = sum(len(data) // 4 for _, data in pieces_of(stream))
            # What is read last is told a moment later.
            wait_for("the place", lambda: client.value("status", "elapsed") == f"{frames * 1000 // 44_100 / 1000:.3f}")
            client.do("pause 0")
            stream += pipe.read(30_000)
            client.do("seekcur 1.5")
            while client.value("status", "state") != "stop" or select.select([pipe], [], [], 0)[0]:
                stream += pipe.read(1 << 16) if select.select([pipe], [], [], 0.1)[0] else b""
    check_front("the sound", runs_of(pieces_of(stream)), LONG, first=66_150)


def sound_into_files(program, folder):
    """The same queue through contrib/sound, which makes a file of each run of one form; in the last one is a pause and a seek."""
    with playing(program, folder, [*SONGS, LONG]) as daemon, Sound(folder, "--to", "files", "sound") as sound:
        with daemon.client() as client:
            play_to_the_end(client, "delete 4", "play 0")
            play_to_the_end(client, "setvol 37", "play 0")
            client.do("clear", "setvol 100", f"add {LONG.name}")
            with standing_still(sound.process):
                fill_the_pipe(folder, client, 0)
                client.do("pause 1")
            client.do("pause 0")
            with standing_still(sound.process):
                client.do("play 0")
                client.do("seekcur 1.5")
            wait_for("the end of the queue", lambda: client.value("status", "state") == "stop")
        daemon.kill()
        check("how it ends", sound.end(), (0, []))
    files = list(files_in(f"{folder}/files"))
    check("the files", files[:8], [sound_of(it, percent) for percent in (100, 37) for it in SONGS])
    (form, whole), (_, rest) = sound_of(LONG), sound_of(LONG, first=66_150)
    check("the last file", (len(files), files[8][0], files[8][1].endswith(rest)), (9, form, True))


def killed_in_a_piece(program, folder):
    """A daemon that is killed in a write leaves a part of a file in the pipe, which is heard to its last whole frame, and nothing of it is
    taken for what the next one writes: the rest of it is as long as the next one's first file, as a head, and of other lengths."""
    rooms, (stereo, mono) = [1 << size for size in range(12, 17)], (LONG, SONGS[1])
    daemon = playing(program, folder, [stereo, mono])
    keeper = os.open(f"{folder}/sound", os.O_RDWR)
    with daemon, Sound(folder, "--to", "files", "sound") as sound:
        wait_for("a reader", lambda: sound.is_reading("sound"))
        for room in rooms:
            with standing_still(sound.process):
                fcntl.fcntl(keeper, fcntl.F_SETPIPE_SZ, room)
                with daemon.client() as client:
                    fill_the_pipe(folder, client, 0)
                check("how it ends", daemon.kill(), -signal.SIGKILL)
                daemon.start()
            with daemon.client() as client:
                play_to_the_end(client, "play 1")
                wait_for("an empty pipe", lambda: not pending(f"{folder}/sound"))
        daemon.kill()
        os.close(keeper)
        check("how it ends", sound.end(), (0, []))
    files = list(files_in(f"{folder}/files"))
    check("the files", [it for it, _ in files], [(44_100, 2), (48_000, 1)] * len(rooms))
    for room, (_, front), whole in zip(rooms, files[::2], files[1::2]):
        check(f"the next song, {room}", whole, sound_of(mono))
        check(f"a front of the song before, {room}", (sound_of(stereo)[1].startswith(front), len(front) > room // 2), (True, True))


def sound_that_follows(program, folder):
    """With --follow the pipe is opened again, as often as the daemon begins anew; what was in it is heard."""
    lives = 3
    with playing(program, folder, [LONG]) as daemon, Sound(folder, "--follow", "--to", "files", "sound") as sound:
        for life in range(lives):
            wait_for("a reader", lambda: sound.is_reading("sound"))
            with standing_still(sound.process):
                with daemon.client() as client:
                    fill_the_pipe(folder, client, 0)
                daemon.kill()
            wait_for("the end of what was written", lambda life=life: is_whole(f"{folder}/files/{life + 1:04}.wav"))
            wait_for("a reader that has left", lambda: not sound.is_reading("sound"))
            daemon.start()
        with daemon.client() as client:
            play_to_the_end(client, "play 0")
        daemon.kill()
        wait_for("the end of what was written", lambda: is_whole(f"{folder}/files/{lives + 1:04}.wav"))
        check("how it ends", sound.end(signal.SIGTERM), (0, []))
    *fronts, last = files_in(f"{folder}/files")
    check("the last life", last, sound_of(LONG))
    for form, data in fronts:
        check("a life", (form, sound_of(LONG)[1].startswith(data), len(data) > 1 << 12), (last[0], True, True))


def is_whole(path):
    """Whether contrib/sound has finished this file."""
    with contextlib.suppress(FileNotFoundError):
        data = read(path)
        return len(data) > HEAD and int.from_bytes(data[HEAD - 4 : HEAD], "little") == len(data) - HEAD
    return False


def begun_anywhere(_, folder):
    """A stream that begins and ends anywhere, or breaks off anywhere with another behind it: all is heard but what stands before the first
    head. A song whose samples are such files is heard as they stand."""
    os.makedirs(folder)
    reader = runpy.run_path(SOUND)
    chosen = random.Random(1)
    first, second, third = (b"".join(stream_of(it) for it in songs) for songs in (SONGS[:1], SONGS[1:3], SONGS[3:]))
    # Around heads, where the rest of a piece is as long as the next one, and some more.
    cuts = [*range(1, 60), *range(16_380, 16_480), 8_192, 16_428 + 8_192, *(chosen.randrange(1, len(first)) for _ in range(40))]
    for cut in cuts:
        front = pieces_before(first, cut)
        check(f"broken off at {cut}", heard(reader, folder, first[:cut] + second), runs_of([*front, *pieces_of(second)]))
        check(f"ended at {cut}", heard(reader, folder, third + first[:cut]), runs_of([*pieces_of(third), *front]))
        check(f"begun at {cut}", heard(reader, folder, first[cut:] + third), runs_of([*pieces_behind(first, cut), *pieces_of(third)]))
    for cut in (0, 4, 44, 1_000):
        data = first[cut:-100]
        stream = stream_of(Song("files", 44_100, 2, list(struct.unpack(f"<{len(data) // 2}h", data))))
        check(f"a song of files from {cut}", heard(reader, folder, stream + third), runs_of(pieces_of(stream + third)))


def heard(reader, folder, stream):
    """What contrib/sound hears of these bytes."""
    write(f"{folder}/stream", stream)
    with open(f"{folder}/stream", "rb", buffering=0) as file:
        pieces = iter(reader["Stream"](file.fileno()).piece, None)
        try:
            return runs_of(it for it in pieces if it[1])
        except reader["NoHead"]:
            return "no head"


def pieces_before(stream, place):
    """The pieces up to this place, the last one to its last whole frame."""
    at, found = 0, []
    for form, data in pieces_of(stream):
        room = max(0, min(len(data), place - at - HEAD))
        found += [(form, data[: room - room % (2 * form[1])])] if room >= 2 * form[1] else []
        at += HEAD + len(data)
    return found


def pieces_behind(stream, place):
    """The pieces that begin at this place or behind it."""
    at, found = 0, []
    for form, data in pieces_of(stream):
        found += [(form, data)] if at >= place else []
        at += HEAD + len(data)
    return found


def bare_stream(program, folder):
    """Bare samples are none of it; a second contrib/sound over one pipe takes nothing from the first."""
    line = 'sound: no head of a WAVE file in sound: does the daemon\'s configuration say `form = "wave"`?'
    with playing(program, folder, [LONG], form="") as daemon, Sound(folder, "--to", "files", "sound") as sound:
        with daemon.client() as client:
            client.do("play 0")
        check("how it ends", sound.end(), (1, [line]))
    with Sound(folder, "--to", "files", "music/long.wav") as sound:
        check("a song's file", sound.end(), (1, [line.replace("in sound", "in music/long.wav")]))
    keeper = os.open(f"{folder}/sound", os.O_RDWR)
    with Sound(folder, "--to", "other", "sound") as sound:
        wait_for("a reader", lambda: sound.is_reading("sound"))
        wait_for("the second", lambda: Sound(folder, "--to", "other", "sound").end() == (1, ["sound: sound is read already"]))
        check("how it ends", sound.end(signal.SIGINT), (0, []))
    os.close(keeper)


def players_of_a_queue(program, folder):
    """Each run of one form has a player of its own, which is told rate and channels, gets all of it and is gone at the end: that of the
    stream, or by a signal."""
    for how in (None, signal.SIGTERM):
        home = f"{folder}/{how}"
        with playing(program, home, SONGS) as daemon, Sound(home, "--player", PLAYER, "sound") as sound:
            with daemon.client() as client:
                play_to_the_end(client, "play 0")
            wait_for("all sound", lambda home=home: {it: given for it, (_, given) in players(home).items()} == dict(map(sound_of, SONGS)))
            if how is None:
                daemon.kill()
            check("how it ends", sound.end(how), (0, []))
        check("players that run", [it for it, _ in players(home).values() if os.path.exists(f"/proc/{it}")], [])


def players(folder):
    """The process of each player and what it was given, by what it was told."""
    found = {}
    for name in os.listdir(folder):
        if name.startswith("player-"):
            number, rate, channels = map(int, name.split("-")[1:])
            found[rate, channels] = number, read(f"{folder}/{name}")
    return found


def last_frames_before_a_pause(program, folder):
    """aplay plays only whole periods: where nothing follows, silence fills the one that a song's last frames have begun."""
    (rate, channels), whole = sound_of(LONG)
    period = rate // 40 * 2 * channels
    check("a last period that isn't whole", len(whole) % period > 0, True)
    with playing(program, folder, [LONG], output="sound") as daemon:
        reads = f"while len(part := sys.stdin.buffer.read({period})) == {period}:\n    file.write(part)\n"
        write(f"{folder}/aplay", f"#!/usr/bin/env python3\nimport sys\nfile = open('heard', 'wb', 0)\n{reads}")
        os.chmod(f"{folder}/aplay", 0o755)
        with Sound(folder, "--player", "./aplay", "sound"), daemon.client() as client:
            play_to_the_end(client, "play 0")
            wait_for("the last frames", lambda: os.path.getsize(f"{folder}/heard") >= len(whole))
        with open(f"{folder}/heard", "rb") as file:
            check("what was heard", file.read().rstrip(b"\0"), whole.rstrip(b"\0"))


def player_that_ends(program, folder):
    """Without a card a player ends at once: its last line is passed on once, and the daemon plays on at the pace of the sound."""
    player = "sh -c 'echo tried >>tries; echo no card >&2; exit 1'"
    with playing(program, folder, [LONG], output="sound") as daemon, Sound(folder, "--player", player, "sound") as sound:
        with daemon.client() as client:
            begun = time.monotonic()
            play_to_the_end(client, "play 0")
            seconds = time.monotonic() - begun
            daemon.kill()
        line = "sound: sh ended: no card; it is begun again once a second, and the daemon plays on meanwhile"
        check("how it ends", sound.end(), (0, [line]))
    whole = len(LONG.values) / LONG.channels / LONG.rate
    tries = read(f"{folder}/tries").count(b"\n")
    # What the pipe holds is given before it is heard.
    if seconds < whole - 0.6 or not 1 <= tries <= 1 + time.monotonic() - begun:
        raise Failure(f"{whole:.1f} seconds of sound were played in {seconds:.1f}; {tries} tries")


def song_that_no_player_takes(program, folder):
    """A song of so few frames a second that the player refuses it, and that sounds for hours, passes; the next one is heard whole."""
    slow = Song("slow.wav", 1, 1, range(2 * MOST_FRAMES))
    player = "sh -c 'test {rate} -ge 2000 && exec cat >player-$$-{rate}-{channels}'"
    with playing(program, folder, [slow, LONG], output="sound") as daemon, Sound(folder, "--player", player, "sound") as sound:
        with daemon.client() as client:
            play_to_the_end(client, "play 0")
            daemon.kill()
        check("how it ends", sound.end()[0], 0)
    (form, whole), found = sound_of(LONG), players(folder)
    check("the player's form", list(found), [form])
    check("a rest of the song", (whole.endswith(found[form][1]), len(found[form][1]) > len(whole) // 4), (True, True))


def sound_for_rooms(program, folder):
    """A snapserver is given 48,000 frames a second in two channels: the same level, as many as sound as long, and no others."""
    level = Song("level.wav", 44_100, 2, [12_000, -8_000] * 8_820)
    os.makedirs(folder)
    os.mkfifo(f"{folder}/rooms")
    recorded = Recorded(f"{folder}/rooms")
    with playing(program, folder, [*SONGS, level, ROOM]) as daemon, Sound(folder, "--snapcast", "rooms", "sound") as sound:
        with daemon.client() as client:
            play_to_the_end(client, "play 0")
            daemon.kill()
        check("how it ends", sound.end(), (0, []))
    data = recorded.end()
    lengths = [round(len(it.values) / it.channels * ROOM.rate / it.rate) for it in [*SONGS, level, ROOM]]
    check("its length", len(data), 4 * sum(lengths))
    mono, at = samples([it for value in SONGS[1].values for it in (value, value)]), 4 * lengths[0]
    check("a song of one channel", data[at : at + len(mono)], mono)
    check("a song of this form", data[-len(sound_of(ROOM)[1]) :], sound_of(ROOM)[1])
    heard_level = struct.unpack(f"<{2 * lengths[4]}h", data[4 * sum(lengths[:4]) : 4 * sum(lengths[:5])])[2_000:-2_000]
    for value, found in zip((12_000, -8_000), (heard_level[::2], heard_level[1::2])):
        check(f"the level {value}", max(abs(it - value) for it in found) <= 2, True)


def rooms_that_come_and_go(program, folder):
    """Where nobody reads the pipe for rooms the daemon plays on, and one who comes late hears the rest."""
    os.makedirs(folder)
    (_, whole), meanwhile = sound_of(ROOM), "it is opened again once a second, and the daemon plays on meanwhile"
    with playing(program, folder, [ROOM], output="sound") as daemon, Sound(folder, "--snapcast", "rooms", "sound") as sound:
        with daemon.client() as client:
            play_to_the_end(client, "play 0")
            daemon.kill()
        check("how it ends", sound.end(), (0, [f"sound: rooms: No such file or directory; {meanwhile}"]))
        os.mkfifo(f"{folder}/rooms")
        daemon.start()
        with Sound(folder, "--snapcast", "rooms", "sound") as sound, daemon.client() as client:
            client.do("play 0")
            wait_for("a line", lambda: select.select([sound.process.stderr], [], [], 0)[0])
            check("what is said", sound.process.stderr.readline().decode(), f"sound: nobody reads rooms; {meanwhile}\n")
            recorded = Recorded(f"{folder}/rooms")
            play_to_the_end(client)
            daemon.kill()
            check("how it ends", sound.end(), (0, ["sound: rooms is read again"]))
        rest = recorded.end()
        check("the rest", (whole.endswith(rest), len(rest) % 4, len(rest) > 4), (True, 0, True))


def rooms_that_begin_again(program, folder):
    """A reader of the pipe for rooms that goes and comes back misses nothing, over a pause either."""
    os.makedirs(folder)
    os.mkfifo(f"{folder}/rooms")
    found = b""
    with playing(program, folder, [ROOM]) as daemon, Sound(folder, "--snapcast", "rooms", "sound") as sound:
        with daemon.client() as client:
            for before, count, behind in (("play 0", 100_000, "pause 1"), ("status", 50_000, "pause 0"), ("status", 150_000, "status")):
                pipe = os.open(f"{folder}/rooms", os.O_RDONLY | os.O_NONBLOCK)
                client.do(before)
                found += read_of(pipe, count)
                if behind == "pause 1":
                    wait_for("what is read in the pause", lambda: pending(f"{folder}/rooms") >= 50_000)
                client.do(behind)
                os.close(pipe)
                time.sleep(0.5)
            recorded = Recorded(f"{folder}/rooms")
            play_to_the_end(client)
            daemon.kill()
        check("how it ends", sound.end(), (0, []))
    check("all of it", found + recorded.end() == sound_of(ROOM)[1], True)


def read_of(pipe, count):
    """So many bytes of a pipe into which somebody writes, or will."""
    found = bytearray()

    def is_enough():
        with contextlib.suppress(BlockingIOError):
            found.extend(os.read(pipe, count - len(found)))
        return len(found) == count

    wait_for("what is written", is_enough)
    return bytes(found)


def songs_without_frames(program, folder):
    """A queue in which nothing is heard makes at most ten changes a second, and `kill` ends it at once."""
    with knowing(program, folder, {"empty.wav": []}) as daemon, daemon.client() as client, daemon.client() as waiting:
        client.do("add empty.wav", "repeat 1", "play")
        for settings in ([], ["random 1"]):
            client.do(*settings)
            count = changes_of_player(waiting, 3)
            # The pause comes behind two songs.
            if not 1 <= count <= 32:
                raise Failure(f"{settings}: {count} changes in three seconds")
        daemon.end_by(client, 5)


def left_out():
    """The cases that can't be run here."""
    try:
        ctypes.CDLL("libsoxr.so.0")
    except OSError:
        print("rows of sound for rooms: not run: libsoxr0 isn't installed")
        return [sound_for_rooms, rooms_that_come_and_go, rooms_that_begin_again]
    return []
