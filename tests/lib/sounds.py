"""The stream of the form "wave": songs for it, what must come of them, and contrib/sound over it."""

import array
import collections
import fcntl
import os
import random
import select
import struct
import subprocess
import sys
import termios
import threading
import time

from clients import LIMIT, wait_for
from daemons import check, make_pipe, open_files, put_song, serving, update
from scripts import Failure, read
from waves import samples, wave_of

SOUND = os.path.join(os.path.dirname(os.path.abspath(__file__)), "../../contrib/sound")
FORM = struct.Struct("<22xHI12xI")
HEAD, MOST_FRAMES = 44, 4096

Song = collections.namedtuple("Song", "name rate channels values")


def random_song(name, rate, channels, frames):
    """A song whose samples are chosen at random, with the greatest and the least of them at its front."""
    chosen = random.Random(name).choices(range(-32_768, 32_768), k=max(0, frames * channels - 2))
    return Song(name, rate, channels, [*[-32_768, 32_767][: frames * channels], *chosen])


# Pieces that are full to the end of the song and some that are not; the last of one frame.
SONGS = [
    random_song("a.wav", 44_100, 2, 9_000),
    random_song("b.wav", 48_000, 1, 5_000),
    random_song("c.wav", 96_000, 2, 12_288),
    random_song("d.wav", 8_000, 1, 4_097),
]
# Longer than what is on its way between the daemon and who reads it.
LONG = random_song("long.wav", 44_100, 2, 90_000)


def sound_of(song, percent=100, first=0):
    """Its rate and channels, and the bytes of its samples at this volume, from a frame on."""
    values = [int(it * percent / 100) for it in song.values[first * song.channels :]]
    return (song.rate, song.channels), samples(values)


def playing(program, folder, songs, **settings):
    """A daemon that plays into a pipe, with these songs in its queue."""
    make_pipe(folder)
    daemon = serving(program, folder, **{"form": "wave", **settings})
    for it in songs:
        put_song(daemon, it.name, it.values, rate=it.rate, channels=it.channels)
    with daemon.client() as client:
        update(client)
        client.do(*(f"add {it.name}" for it in songs))
    return daemon


def play_to_the_end(client, *requests):
    client.do(*requests)
    wait_for("the end of the queue", lambda: client.value("status", "state") == "stop")


def fill_the_pipe(folder, client, position):
    """Plays, and waits until the pipe is full."""
    client.do(f"play {position}")
    wait_for("a full pipe", lambda: is_full(f"{folder}/sound"))


def is_full(path):
    """Whether nothing comes into a pipe that holds something."""
    before = pending(path)
    time.sleep(0.05)
    return pending(path) == before >= 1 << 12


def pending(path):
    """How many bytes are in a pipe."""
    with open(path, "rb", opener=lambda *_: os.open(path, os.O_RDONLY | os.O_NONBLOCK)) as file:
        return unread(file)


def unread(file):
    count = array.array("i", [0])
    fcntl.ioctl(file, termios.FIONREAD, count)
    return count[0]


def pieces_of(stream):
    """The form and the samples of each file that a stream is made of."""
    at = 0
    while at < len(stream):
        channels, rate, length = FORM.unpack(stream[at : at + HEAD])
        data = stream[at + HEAD : at + HEAD + length]
        frames, rest = divmod(len(data), 2 * channels)
        if rest or not 0 < frames <= MOST_FRAMES:
            raise Failure(f"a piece of {len(data)} bytes, {channels} channels")
        check("a piece", stream[at : at + HEAD + length], wave_of(data, rate, channels))
        yield (rate, channels), data
        at += HEAD + length


def runs_of(pieces):
    """What follows each other in one form, put together."""
    runs = []
    for form, data in pieces:
        if runs and runs[-1][0] == form:
            runs[-1] = form, runs[-1][1] + data
        else:
            runs.append((form, data))
    return runs


def stream_of(song):
    """The files that the daemon makes of a song."""
    step = MOST_FRAMES * song.channels
    parts = (song.values[at : at + step] for at in range(0, len(song.values), step))
    return b"".join(wave_of(it, song.rate, song.channels) for it in parts)


def check_front(what, found, song, first=0):
    """What was found is a front of the song, and then all of it from this frame on."""
    (form, whole), (_, rest) = sound_of(song), sound_of(song, first=first)
    check(f"{what}: rate and channels", [it for it, _ in found], [form])
    data = found[0][1]
    front = data[: len(data) - len(rest)]
    if not data.endswith(rest) or not whole.startswith(front) or len(front) % (2 * song.channels):
        raise Failure(f"{what}: {len(data)} bytes are no front of the {len(whole)} and then the last {len(rest)} of them")


class Recorded:
    """Takes what comes from a pipe until its writers have gone."""

    def __init__(self, path):
        self.path, self.data = path, bytearray()
        self.thread = threading.Thread(target=self.take, daemon=True)
        self.thread.start()

    def take(self):
        with open(self.path, "rb", buffering=0) as pipe:
            while part := pipe.read(1 << 16):
                self.data += part

    def end(self):
        self.thread.join(LIMIT)
        return bytes(self.data)


class Sound:
    """A running contrib/sound."""

    def __init__(self, folder, *words):
        self.folder, how = folder, {"cwd": folder, "stdin": subprocess.DEVNULL, "stderr": subprocess.PIPE}
        self.process = subprocess.Popen([sys.executable, SOUND, *words], **how)

    def end(self, how=None):
        """Waits for its end, behind a signal if one is given: the exit status, and the lines that it wrote."""
        if how:
            self.process.send_signal(how)
        try:
            said = self.process.communicate(timeout=LIMIT)[1]
        except subprocess.TimeoutExpired as fault:
            raise Failure("contrib/sound does not end") from fault
        return self.process.returncode, said.decode().splitlines()

    def is_reading(self, name):
        """Whether it has this file of its folder open."""
        return os.path.realpath(f"{self.folder}/{name}") in open_files(self.process)

    def __enter__(self):
        return self

    def __exit__(self, *_):
        if self.process.poll() is None:
            self.process.kill()
            self.process.communicate()


def files_in(folder):
    """The form and the samples of the WAVE files in a folder, by their names; each must be one from its first byte to its last."""
    for name in sorted(os.listdir(folder)):
        data = read(f"{folder}/{name}")
        channels, rate, _ = FORM.unpack(data[:HEAD])
        check(name, data, wave_of(data[HEAD:], rate, channels))
        yield (rate, channels), data[HEAD:]


def changes_of_player(client, seconds):
    """How often one who waits for changes of the player is told of one within so many seconds."""
    end, count = time.monotonic() + seconds, 0
    client.send("idle player\n")
    while select.select([client.socket], [], [], max(0, end - time.monotonic()))[0]:
        check("what is told", client.answer(), ["changed: player", "OK"])
        client.send("idle player\n")
        count += 1
    client.send("noidle\n")
    client.answer()
    return count
