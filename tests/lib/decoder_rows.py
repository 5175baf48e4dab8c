"""Rows of tests/serve about songs that a decoder beside the daemon reads, with `decoder`: one of the tests' own, which keeps the protocol of
contrib/decoder or breaks it."""

import contextlib
import os
import select
import shutil
import signal
import socket
import struct
import threading
import time

import decoders
import under
from daemons import Daemon, check, make_pipe, put_song, update, wait_for
from decoders import NOT_A_SONG, OK
from homes import script_of
from music_rows import WORDS, id3, lines_of
from scripts import write
from sounds import LONG, MOST_FRAMES, Recorded, Song, check_front, pieces_of, play_to_the_end, runs_of, sound_of
from waves import chunk, wave_of, with_picture

OPEN, READ = 1, 2
SONG, TITLE = Song("d/a.mp3", 44_100, 1, WORDS), ["Title: Dawn"]
WAVE = wave_of(WORDS, 44_100, more=chunk("id3 ", id3(TIT2="Dawn")))
END_OF_DATA = len(wave_of(WORDS, 44_100))
PLAIN = Song("z.wav", 8_000, 1, WORDS[:900])
# A song in which a decoder fails behind so many bytes of its WAVE file.
HEARD, BEHIND = LONG._replace(name="long.mp3"), 100_000
# Within how many seconds a decoder that doesn't answer has cost what it costs: two, and not twice as many.
MOST_SECONDS = under.seconds(3.9)
# What is done in place of the answer, to the request of which kind, and what the log says of the file then: nothing where it was open.
FAULTS = {
    "silent at the opening": (OPEN, (b"",), "the decoder gave no answer in time"),
    "ended at the opening": (OPEN, b"", "the decoder ended the connection"),
    "silent within an answer": (OPEN, (b"\x09\0\0\0\0\x58",), "the decoder gave no answer in time"),
    "ended within an answer": (OPEN, b"\x09\0\0\0\0\x58", "the decoder ended the connection"),
    "another status": (OPEN, b"\1\0\0\0\7", "the decoder gave a wrong answer"),
    "a longer frame": (OPEN, b"\xff\xff\xff\xff\0", "the decoder gave a wrong answer"),
    "a length that is none": (OPEN, b"\x09\0\0\0\0" + b"\xff" * 8, "the decoder gave a wrong answer"),
    "a file that fails": (OPEN, b"\4\0\0\0\2why", "the decoder can't read it: why"),
    "silent in the file": (READ, (b"",), None),
    "ended in the file": (READ, b"", None),
    "silent within bytes": (READ, (b"\x11\0\0\0\0RIFF",), None),
    "ended within bytes": (READ, b"\x11\0\0\0\0RIFF", None),
    "another status in the file": (READ, b"\2\0\0\0\3R", None),
    "a failure in the file": (READ, b"\1\0\0\0\2", None),
    "no bytes before the end": (READ, b"\1\0\0\0\0", None),
    "more bytes than asked": (READ, struct.pack("<IB", 65_538, OK) + bytes(65_537), None),
}


class Decoder:
    """A decoder at a socket, which tells the WAVE files of some paths. Where it is to fail, it answers requests of a kind otherwise, reads from
    a place on: by bytes, behind which it ends the connection, or by such in a tuple, behind which nothing comes."""

    def __init__(self, path, songs):
        self.songs, self.fault, self.behind, self.asked = songs, (None, None), 0, []
        self.listening = socket.socket(socket.AF_UNIX)
        self.listening.bind(path)
        self.listening.listen()
        threading.Thread(target=self.serve, daemon=True).start()

    def serve(self):
        while True:
            try:
                connection, _ = self.listening.accept()
            except OSError:
                return
            threading.Thread(target=self.answer_all, args=(connection,), daemon=True).start()

    def answer_all(self, connection):
        wave = None
        with connection, connection.makefile("rb") as requests, contextlib.suppress(OSError):
            while len(head := requests.read(5)) == 5:
                length, kind = struct.unpack("<IB", head)
                body = requests.read(length - 1)
                if kind == OPEN:
                    self.asked.append(body.decode())
                    wave = self.songs.get(body.decode())
                if kind == self.fault[0] and (kind == OPEN or struct.unpack("<QI", body)[0] >= self.behind):
                    is_silent = isinstance(self.fault[1], tuple)
                    connection.sendall(self.fault[1][0] if is_silent else self.fault[1])
                    if is_silent:
                        requests.read(1)
                    return
                connection.sendall(answer(kind, body, wave))

    def end(self):
        """Nobody listens any more."""
        self.listening.shutdown(socket.SHUT_RDWR)
        self.listening.close()


def answer(kind, body, wave):
    """The right answer to a request of an open file, or of one that is opened."""
    if wave is None:
        told = bytes([NOT_A_SONG]) + b"no sound"
    elif kind == OPEN:
        told = bytes([OK]) + struct.pack("<Q", len(wave))
    else:
        offset, count = struct.unpack("<QI", body)
        told = bytes([OK]) + wave[offset : offset + count]
    return struct.pack("<I", len(told)) + told


@contextlib.contextmanager
def decoded(program, folder, told=None, **settings):
    """A running daemon over a decoder, which has read its music, and a client: a song that the decoder tells, a file that it knows as none,
    a WAVE file, and other files, of which it tells these WAVE files."""
    make_pipe(folder)
    settings = {"formats:": '["wave","flac"]', "debug:": "true", **settings}
    daemon = Daemon(program, folder, decoder="decoder", form="wave", **settings).create()
    songs = {SONG.name: WAVE, **(told or {})}
    for it in ("d/b.opus", "note.txt", *songs):
        write(f"{folder}/music/{it}", "ID3, and nothing that is a WAVE file")
    put_song(daemon, PLAIN.name, PLAIN.values)
    decoder = Decoder(f"{folder}/decoder", songs)
    with daemon.start(), daemon.client() as client:
        update(client)
        yield daemon, decoder, client


def check_songs(client, songs):
    found = [it for it in client.ask("listallinfo") if not it.startswith("directory: ")]
    check("the songs", found, [it for song, tags in songs for it in lines_of(song, tags)] + ["OK"])


def tally(daemon, number):
    """What a job left out and didn't read."""
    line = next(it for it in daemon.lines if f"update {number}: " in it)
    return line[line.index("update ") :]


def songs_of_a_decoder(program, folder):
    """They are found by their endings, with their tags, and heard, from any place; what the decoder knows as no song has a line. Without the
    key they are none."""
    with decoded(program, folder) as (daemon, decoder, client):
        recorded = Recorded(f"{folder}/sound")
        check_songs(client, [(SONG, TITLE), (PLAIN, [])])
        client.do(f"add {SONG.name}", f"add {PLAIN.name}")
        play_to_the_end(client, "play 0")
        wait_for("its line", lambda: any("update 1: " in it for it in daemon.lines))
        daemon.kill()
        check("the sound", runs_of(pieces_of(recorded.end())), runs_of([sound_of(SONG), sound_of(PLAIN)]))
        check("the line", [it for it in daemon.lines if it.startswith("music: ")], ["music: d/b.opus: the decoder knows it as no song: no sound"])
        check("the tally", tally(daemon, 1).split("; ")[1], "left out: 1 not WAVE, 0 of another format, 0 broken")
        check("what was asked for", sorted({*decoder.asked}), [SONG.name, "d/b.opus"])
        daemon.start()
        recorded = Recorded(f"{folder}/sound")
        with daemon.client() as client:
            play_to_the_end(client, "clear", f"add {SONG.name}", "seek 0 0.05")
        daemon.kill()
    check_front("the sound of a seek", runs_of(pieces_of(recorded.end())), SONG, first=2_205)
    daemon.settings["decoder"] = ""
    daemon.write()
    with daemon.start(), daemon.client() as client:
        update(client)
        check_songs(client, [(PLAIN, [])])


def failing(program, folder, kind):
    """However a decoder fails at requests of this kind, its songs keep rows and stickers, others go on, and clients are answered meanwhile.
    (Of more than ten jobs within ten seconds not each has a line.)"""
    faults = {what: it for what, it in FAULTS.items() if it[0] == kind}
    with decoded(program, folder) as (daemon, decoder, client), daemon.client() as other:
        client.do(f"sticker set song {SONG.name} k v")
        for number, (what, (_, done, said)) in enumerate(faults.items(), 2):
            decoder.fault, told = (kind, done), len(daemon.lines)
            client.do("update")
            begun = time.monotonic()
            other.do("ping", "status")
            check(f"{what}: at once", time.monotonic() - begun < 1, True)
            client.settle()
            check_songs(client, [(SONG, TITLE), (PLAIN, [])])
            check(f"{what}: the sticker", client.ask(f"sticker get song {SONG.name} k"), ["sticker: k=v", "OK"])
            wait_for("its line", lambda number=number: any(f"update {number}: " in it for it in daemon.lines))
            check(f"{what}: the tally", tally(daemon, number).split("; ")[2], f"not read: 0 folders, {1 + (kind == OPEN)} files")
            lines = [it for it in daemon.lines[told:] if it.startswith(f"music: {SONG.name}: ")]
            wanted = [f"music: {SONG.name}: {said} (decoder); the song known there is kept"] if said else []
            check(f"{what}: the line", lines, wanted)
        decoder.end()
        told, number = len(daemon.lines), len(faults) + 2
        update(client)
        wait_for("its line", lambda: any(f"update {number}: " in it for it in daemon.lines))
        check_songs(client, [(SONG, TITLE), (PLAIN, [])])
        lines = [it for it in daemon.lines[told:] if it.startswith(f"music: {SONG.name}: ")]
        check("nobody listens", lines, [f"music: {SONG.name}: the decoder can't be reached (decoder); the song known there is kept"])
        client.do(f"add {SONG.name}", f"add {PLAIN.name}", "play 0")
        wait_for("an error", lambda: client.value("status", "error") is not None)
        recorded = Recorded(f"{folder}/sound")
        play_to_the_end(client, "play 1")
        daemon.kill()
    check("the sound", runs_of(pieces_of(recorded.end())), [sound_of(PLAIN)])


def decoder_that_opens_nothing(program, folder):
    failing(program, folder, OPEN)


def decoder_that_reads_nothing(program, folder):
    failing(program, folder, READ)


def decoder_that_fails_in_a_song(program, folder):
    """However it fails behind some of a song's samples, those before it are heard, the song stops with an error, others play, and so does
    the song once the decoder is well."""
    faults = {what: done for what, (kind, done, _) in FAULTS.items() if kind == READ}
    with decoded(program, folder, {HEARD.name: wave_of(HEARD.values, HEARD.rate, HEARD.channels)}) as (daemon, decoder, client):
        recorded = Recorded(f"{folder}/sound")
        client.do(f"add {HEARD.name}", f"add {PLAIN.name}")
        decoder.behind = BEHIND
        for what, done in faults.items():
            decoder.fault = READ, done
            client.do("play 0")
            wait_for("an error", lambda: client.value("status", "error") is not None)
            state = [client.value("status", it) for it in ("state", "song", "error")]
            check(what, state, ["stop", "0", f"cannot play {HEARD.name}"])
            decoder.fault = None, None
            play_to_the_end(client, "play 1")
            check("no error", client.value("status", "error"), None)
        play_to_the_end(client, "play 0")
        daemon.kill()
    heard = runs_of(pieces_of(recorded.end()))
    form, whole = sound_of(HEARD)
    check("at last", heard[-2:], [sound_of(HEARD), sound_of(PLAIN)])
    check("behind each", heard[1:-2:2], [sound_of(PLAIN)] * len(faults))
    check("rates", {it for it, _ in heard[:-2:2]}, {form})
    fronts = [data for _, data in heard[:-2:2]]
    check("before each", [(whole.startswith(it), 0 < len(it) < BEHIND + (1 << 17)) for it in fronts], [(True, True)] * len(faults))


def decoder_that_fails_at_the_player(program, folder):
    """However it fails as a song is begun, or at the place that is sought in it, the song stops with an error within four seconds, others
    play, and so does the song once the decoder is well."""
    told = {HEARD.name: wave_of(HEARD.values, HEARD.rate, HEARD.channels)}
    with decoded(program, folder, told) as (daemon, decoder, client), daemon.client() as other:
        recorded = Recorded(f"{folder}/sound")
        client.do(f"add {HEARD.name}", f"add {PLAIN.name}")
        for what, (kind, done, _) in FAULTS.items():
            for begin, behind in (("play 0", 0), ("seek 0 1.9", 2 * BEHIND)) if kind == READ else (("play 0", 0),):
                decoder.fault, decoder.behind, begun = (kind, done), behind, time.monotonic()
                other.send(f"{begin}\n")
                client.do("ping")
                check(f"{what}: at once", time.monotonic() - begun < 1, True)
                wait_for("an error", lambda: client.value("status", "error") is not None)
                check(f"{what}, {begin}: soon", time.monotonic() - begun < MOST_SECONDS, True)
                state = [client.value("status", it) for it in ("state", "song", "error")]
                check(f"{what}, {begin}", state, ["stop", "0", f"cannot play {HEARD.name}"])
                check("what is answered", other.answer(), ["OK"])
                decoder.fault = None, None
                play_to_the_end(client, "play 1")
        play_to_the_end(client, "play 0")
        daemon.kill()
    check("at last", runs_of(pieces_of(recorded.end()))[-2:], [sound_of(HEARD), sound_of(PLAIN)])


def decoder_that_fails_at_a_picture(program, folder):
    """However it fails as a picture is read, that is refused within four seconds, nobody else waits, and it is told once the decoder is
    well."""
    picture = bytes(range(256)) * 400
    wanted = picture[:8192], {"size": str(len(picture)), "type": "image/png", "binary": "8192"}
    with decoded(program, folder, {"cover.mp3": with_picture(WORDS, picture)}, **{"stock_clients:": "true"}) as (daemon, decoder, client):
        with daemon.client() as asking:
            for what, (kind, done, _) in FAULTS.items():
                decoder.fault, begun = (kind, done), time.monotonic()
                asking.send("readpicture cover.mp3 0\n")
                client.do("ping")
                check(f"{what}: at once", time.monotonic() - begun < 1, True)
                check(what, asking.answer(), ["ACK [5@0] {readpicture} the picture could not be read"])
                check(f"{what}: soon", time.monotonic() - begun < MOST_SECONDS, True)
                decoder.fault = None, None
                check("a chunk", asking.chunk("readpicture cover.mp3 0"), wanted)


def decoder_that_accepts_nobody(program, folder):
    """One whose queue of connections is full costs a file as much as one that doesn't answer, and nothing else."""
    with decoded(program, folder) as (daemon, decoder, client):
        decoder.end()
        os.remove(f"{folder}/decoder")
        with socket.socket(socket.AF_UNIX) as deaf:
            deaf.bind(f"{folder}/decoder")
            deaf.listen(0)
            waiting = []
            with contextlib.suppress(BlockingIOError):
                while True:
                    waiting.append(socket.socket(socket.AF_UNIX))
                    waiting[-1].setblocking(False)
                    waiting[-1].connect(f"{folder}/decoder")
            begun = time.monotonic()
            client.do("update", "ping")
            check("at once", time.monotonic() - begun < 1, True)
            client.settle()
            check("two files: soon", time.monotonic() - begun < 2 * MOST_SECONDS, True)
            check_songs(client, [(SONG, TITLE), (PLAIN, [])])
            client.do(f"add {SONG.name}", "play")
            wait_for("an error", lambda: client.value("status", "error") is not None)
            check("the error", client.value("status", "error"), f"cannot play {SONG.name}")
            for it in waiting:
                it.close()
        os.remove(f"{folder}/decoder")
        decoder = Decoder(f"{folder}/decoder", decoder.songs)
        recorded = Recorded(f"{folder}/sound")
        play_to_the_end(client, "play")
        daemon.kill()
    check("the sound", runs_of(pieces_of(recorded.end())), [sound_of(SONG)])


def decoder_that_lies_to_the_player(program, folder):
    """A file that it tells otherwise than to the scan is played as it is told then, or costs itself alone."""
    lies = {
        "no WAVE file": (bytes(len(WAVE)), None),
        "a cut head": (b"RIFF", None),
        "no rate": (WAVE[:24] + bytes(4) + WAVE[28:], None),
        "no channels": (WAVE[:22] + bytes(2) + WAVE[24:], None),
        "other bits": (WAVE[:34] + b"\7\0" + WAVE[36:], None),
        "another rate": (wave_of(WORDS, 48_000), SONG._replace(rate=48_000)),
        "fewer samples": (wave_of(WORDS[:500], 44_100), SONG._replace(values=WORDS[:500])),
        # Up to the end of the piece in which the length ends that the scan was told.
        "more samples": (wave_of(WORDS * 3, 44_100), SONG._replace(values=(WORDS * 3)[: 2 * MOST_FRAMES])),
        "more samples than there are": (WAVE[:40] + b"\xfe\xff\xff\x7f" + WAVE[44:END_OF_DATA], SONG),
        "the truth": (WAVE, SONG),
    }
    with decoded(program, folder) as (daemon, decoder, client):
        recorded = Recorded(f"{folder}/sound")
        client.do(f"add {SONG.name}", f"add {PLAIN.name}")
        for what, (wave, song) in lies.items():
            decoder.songs[SONG.name] = wave
            client.do("play 0")
            wait_for("its end", lambda: client.value("status", "state") == "stop")
            check(what, client.value("status", "error"), None if song else f"cannot play {SONG.name}")
            play_to_the_end(client, "play 1")
        daemon.kill()
    # Of a song that is played the next one is played too.
    wanted = [sound_of(it) for _, song in lies.values() for it in ([song, PLAIN, PLAIN] if song else [PLAIN])]
    check("the sound", runs_of(pieces_of(recorded.end())), runs_of(wanted))


def decoder_that_lies(program, folder):
    """Bytes that are no WAVE file cost that file alone, which is a song again once they are others."""
    with decoded(program, folder) as (_, decoder, client):
        check_songs(client, [(SONG, TITLE), (PLAIN, [])])
        for wave in (bytes(len(WAVE)), WAVE[:22] + b"\xff\xff" + WAVE[24:], WAVE[:24] + bytes(4) + WAVE[28:], b"RIFF"):
            decoder.songs[SONG.name] = wave
            client.do("rescan")
            client.settle()
            check_songs(client, [(PLAIN, [])])
        decoder.songs[SONG.name] = WAVE
        client.do("rescan")
        client.settle()
        check_songs(client, [(SONG, TITLE), (PLAIN, [])])


# contrib/decoder itself beside the daemon.

REAL = {"1.mp3": "-c:a libmp3lame -q:a 4", "2.opus": "-c:a libopus", "3.m4a": "-c:a aac"}


def decoder_whose_processes_end_or_hang(program, folder):
    """Where all processes of contrib/decoder that serve are killed in a song, that song alone is lost; where they hang, in a song or a scan,
    it is as long as they do; where all of it is killed, until it is begun again. Rows stay."""
    made, music = script_of("tests/decoder"), f"{folder}/music"
    make_pipe(folder)
    daemon = Daemon(program, folder, decoder="decoder", form="wave", **{"formats:": '["wave","flac"]', "stock_clients:": "true"}).create()
    for name, words in REAL.items():
        made.make(f"{music}/{name}", 48_000, 6, *words.split())
    whole = {name: made.samples_of(f"{music}/{name}", 48_000, 2) for name in REAL}
    with daemon.start(), daemon.client() as client, open(f"{folder}/sound", "rb", buffering=0) as pipe:

        def begin():
            """Plays the first song; what its pipe gave."""
            client.do("play 0")
            return pipe.read(1 << 12)

        def rest(front=b""):
            """What is heard up to the end of the queue."""
            while client.value("status", "state") != "stop" or select.select([pipe], [], [], 0)[0]:
                front += pipe.read(1 << 16) if select.select([pipe], [], [], 0.1)[0] else b""
            return b"".join(data for _, data in pieces_of(front))

        with decoders.Decoder(music, f"{folder}/decoder") as decoder:
            update(client)
            client.do(*(f"add {it}" for it in REAL))
            client.do(*(f"sticker set song {it} k v" for it in REAL))
            check("undisturbed", rest(begin()) == b"".join(whole.values()), True)
            front = begin()
            for it in decoder.processes():
                os.kill(it, signal.SIGKILL)
            found = rest(front)
            behind = whole["2.opus"] + whole["3.m4a"]
            check("killed in a song", (found.endswith(behind), whole["1.mp3"].startswith(found[: -len(behind)])), (True, True))
            front = begin()
            for it in decoder.processes():
                os.kill(it, signal.SIGSTOP)
            check("while they hang", whole["1.mp3"].startswith(rest(front)), True)
            client.do("rescan")
            client.do("ping")
            client.settle()
            for it in decoder.processes():
                os.kill(it, signal.SIGCONT)
            check("well again", rest(begin()) == b"".join(whole.values()), True)
            front = begin()
            decoder.process.kill()
            decoder.process.wait()
            check("killed as a whole", whole["1.mp3"].startswith(rest(front)), True)
            client.do("rescan")
            client.settle()
        check("the rows", client.values("listall", "file"), [*REAL])
        check("the stickers", [client.value(f"sticker get song {it} k", "sticker") for it in REAL], ["k=v"] * 3)
        with decoders.Decoder(music, f"{folder}/decoder"):
            check("begun again", rest(begin()) == b"".join(whole.values()), True)


def left_out():
    """The cases that can't be run here."""
    if lack := decoders.lacking() or " and ".join(it for it in ("ffmpeg", "sox") if not shutil.which(it)):
        print(f"rows of contrib/decoder: not run: {lack}")
        return [decoder_whose_processes_end_or_hang]
    return []
