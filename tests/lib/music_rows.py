"""The rows of tests/serve about files of other forms than WAVE of 16-bit PCM, with `formats`: what is found of them, and what is heard.

The FLAC files of tests/data were made by `flac` 1.4.2 (-8 and -5) of samples that stand here: STEREO, and the 24 bits of MONO."""

import os
import shutil

from daemons import check, make_pipe, put_song, serving, update
from scripts import read, write
from sounds import Recorded, Song, check_front, pieces_of, play_to_the_end, runs_of, sound_of
from waves import chunk, info, wave_of

DATA = os.path.join(os.path.dirname(os.path.abspath(__file__)), "../data")
ALL = {"formats:": '["wave","wave-pcm","flac"]', "form": "wave", "debug:": "true"}


def saw(count, step, bits):
    """Samples of so many bits that rise by a step, and wrap."""
    return [it * step % (1 << bits) - (1 << bits - 1) for it in range(count)]


def rounded(values, bits):
    """At 16 bits: to the nearest, a half up, cut at the end; fewer bits are moved up."""
    over = bits - 16
    return [min(32_767, (it + (1 << over - 1)) >> over) if over > 0 else it << -over for it in values]


def safe(number):
    """A number of ID3v2: four bytes of seven bits."""
    return bytes(number >> shift & 0x7F for shift in (21, 14, 7, 0))


def id3(**texts):
    """An ID3v2.4 tag of these text frames."""
    frames = b"".join(name.encode() + safe(len(text.encode()) + 1) + b"\0\0\3" + text.encode() for name, text in texts.items())
    return b"ID3\4\0\0" + safe(len(frames)) + frames


WORDS = saw(6_000, 91, 16)
STEREO = [it for pair in zip(saw(9_000, 37, 16), saw(9_000, 1_009, 16)) for it in pair]
MONO = rounded(saw(5_000, 70_001, 24), 24)
NOON = ["Title: Noon", "Artist: Anna Bell", "Album: First Light", "Date: 2019", "Genre: Folk", "Comment: Live"]
# Each file's song and its tags, in the order of their names.
SONGS = [
    (Song("a.wav", 8_000, 1, WORDS), []),
    (Song("b.wav", 44_100, 1, rounded(saw(6_000, 50_021, 24), 24)), ["Title: Plain"]),
    (Song("c.wav", 48_000, 1, rounded(saw(5_000, 3, 8), 8)), []),
    (Song("d.wave", 96_000, 1, rounded(saw(7_000, 17_000_003, 32), 32)), ["Title: Tag", "Artist: Éric"]),
    (Song("e.flac", 44_100, 2, STEREO), NOON),
    (Song("f.FLAC", 48_000, 1, MONO), ["Title: Dawn", "Artist: Éric"]),
    (Song("g.flac", 44_100, 2, STEREO), NOON),
]


def put_files(daemon):
    """The files, and two that are no songs."""
    music = f"{daemon.folder}/music"
    stereo, plain = read(f"{DATA}/stereo_16.flac"), info(("INAM", "Plain"))
    put_song(daemon, "a.wav", WORDS)
    shutil.copy(f"{DATA}/mono_24.flac", f"{music}/f.FLAC")
    made = {
        "b.wav": wave_of(saw(6_000, 50_021, 24), 44_100, bits=24, more=plain + chunk("id3 ", id3(TIT2="Other"))),
        "c.wav": wave_of(saw(5_000, 3, 8), 48_000, bits=8),
        "d.wave": wave_of(saw(7_000, 17_000_003, 32), 96_000, bits=32, mask=4, more=chunk("id3 ", id3(TIT2="Tag", TPE1="Éric"))),
        "e.flac": stereo,
        "g.flac": id3(TIT2="In front") + stereo,
        "cut.flac": stereo[:30],
        "h.wav": b"OggS" + bytes(60),
    }
    for name, content in made.items():
        write(f"{music}/{name}", content)


def lines_of(song, tags):
    """What `listallinfo` says of it."""
    milliseconds = len(song.values) // song.channels * 1000 // song.rate
    seconds = [f"Time: {milliseconds // 1000}", f"duration: {milliseconds // 1000}.{milliseconds % 1000:03}"]
    return [f"file: {song.name}", f"Format: {song.rate}:16:{song.channels}", *tags, *seconds]


def check_library(client, songs):
    check("the library", client.ask("listallinfo"), [it for song, tags in songs for it in lines_of(song, tags)] + ["OK"])


def other_forms(program, folder):
    """WAVE files of other widths and FLAC files are found with their tags, heard at 16 bits, from any place, and known after a kill."""
    make_pipe(folder)
    with serving(program, folder, **ALL) as daemon:
        put_files(daemon)
        recorded = Recorded(f"{folder}/sound")
        with daemon.client() as client:
            update(client)
            check_library(client, SONGS)
            client.do(*(f"add {song.name}" for song, _ in SONGS))
            play_to_the_end(client, "play 0")
            play_to_the_end(client, "setvol 37", "play 4")
        daemon.kill()
        wanted = [sound_of(song) for song, _ in SONGS] + [sound_of(song, 37) for song, _ in SONGS[4:]]
        check("the sound", runs_of(pieces_of(recorded.end())), runs_of(wanted))
        said = [it for it in daemon.lines if "left out" in it and "update" not in it]
        check("what is left out", [it[it.index("left out") :] for it in said], LEFT_OUT)
        daemon.start()
        recorded = Recorded(f"{folder}/sound")
        with daemon.client() as client:
            check_library(client, SONGS)
            play_to_the_end(client, "setvol 100", "clear", "add e.flac", "seek 0 0.15")
        daemon.kill()
    check_front("the sound of a seek", runs_of(pieces_of(recorded.end())), SONGS[4][0], first=6_615)


LEFT_OUT = [
    "left out: cut.flac: FLAC that is broken, has no length or more than two channels",
    "left out: h.wav: not a WAVE file (Ogg, not WAVE)",
]


def formats_taken_back(program, folder):
    """Without `formats` there are WAVE files of 16-bit PCM alone, as before; songs that were others go with the next update."""
    with serving(program, folder, **{**ALL, "form": ""}) as daemon:
        put_files(daemon)
        with daemon.client() as client:
            update(client)
            check_library(client, SONGS)
        daemon.kill()
        del daemon.settings["formats:"]
        daemon.write()
        with daemon.start(), daemon.client() as client:
            check_library(client, SONGS)
            update(client)
            check_library(client, SONGS[:1])
            daemon.kill()
