"""The rows of tests/install about what isn't as it was laid: the drive of a journal is away, its files are empty, a file stands where the
pipe is to be, a player takes nothing; of `./start`, the units, contrib/install and contrib/sound."""

import array
import base64
import errno
import fcntl
import os
import shutil
import stat
import statistics
import subprocess
import sys
import threading
import types
from unittest import mock

from clients import LIMIT, Client, listens, wait_for
from daemons import check, update
from decoders import PYTHON, lacking, tag_files
from homes import NAME, ROOT, Home, Service, content, put, run_before, script_of
from scripts import write
from sounds import Recorded, Sound, pieces_of, play_to_the_end, runs_of
from waves import wave_of

FILES = ("journal_a", "journal_b")
# What is said of a journal whose drive may be away.
AWAY = "is missing: is its drive there? `"
# A start of a script by a Python that has no tomllib, as one older than 3.11.
OLDER = "import runpy, sys; sys.modules['tomllib'] = None; runpy.run_path(sys.argv[1], run_name='__main__')"


def size_of(path):
    return os.path.getsize(path) if os.path.exists(path) else None


def moved(config, folder):
    """Has a configuration name the journal in this folder, which is made, as an empty mount point is there."""
    os.makedirs(folder)
    text = content(config).decode()
    for it in FILES:
        text = text.replace(f'{it} = "{it}"', f'{it} = "{folder}/{it}"')
    put(config, text)


def empty(folder):
    """Makes the files of the journal empty."""
    for it in FILES:
        put(f"{folder}/{it}", "")


class Start:
    """The script `start` over a player in this folder."""

    def __init__(self, program, folder):
        self.script, self.folder, self.program = script_of("start"), f"{folder}/player", f"{folder}/{NAME}"
        self.script.PLAYER, self.script.CONFIG, self.script.say = self.folder, f"{self.folder}/{NAME}.toml", lambda _: None
        self.config, self.pipe = self.script.CONFIG, f"{self.folder}/sound.pipe"
        put(self.program, f'#!/bin/sh\nexec {program} "$@" 2>/dev/null >&2\n', 0o755)

    def make_player(self):
        """What it says where it ends; nothing where it goes on."""
        try:
            self.script.make_player(self.program)
        except SystemExit as end:
            return str(end.code)
        except OSError as fault:
            return f"{fault.filename}: {fault.strerror}"
        return ""

    def sizes(self):
        return [size_of(f"{self.folder}/{it}") for it in FILES]


def start_makes_what_is_missing(program, folder):
    """A journal of empty files, and the pipe, are made again."""
    start = Start(program, folder)
    check("the first start", start.make_player(), "")
    made = start.sizes()
    empty(start.folder)
    os.remove(start.pipe)
    check("the next one", start.make_player(), "")
    check("what is there", (start.sizes(), made[0] > 0, stat.S_ISFIFO(os.stat(start.pipe).st_mode)), (made, True, True))


def byte_order_mark(program, folder):
    """A configuration may begin with one, as for the daemon."""
    start, home = Start(program, folder), Home(folder, program)
    start.make_player()
    home.install()
    for it in (start.config, home.config):
        put(it, "\ufeff" + content(it).decode())
    empty(home.folder)
    check("./start", start.make_player(), "")
    check("contrib/install", f"laid      {home.folder}/journal_a" in home.install(), True)


def start_without_the_drive(program, folder):
    """No journal is made where the configuration names one elsewhere, be it by a link; the command that is told makes it."""
    start = Start(program, folder)
    start.make_player()
    moved(start.config, f"{folder}/drive")
    told = start.make_player()
    check("what is told", told.startswith(f"{folder}/drive/journal_a {AWAY}"), True)
    check("the drive", os.listdir(f"{folder}/drive"), [])
    subprocess.run(["sh", "-c", told.split("`")[1]], check=True, timeout=LIMIT)
    check("the drive", sorted(os.listdir(f"{folder}/drive")), [*FILES])
    check("then", start.make_player(), "")
    start = Start(program, f"{folder}/linked")
    start.make_player()
    os.makedirs(f"{folder}/other")
    for it in FILES:
        os.remove(f"{start.folder}/{it}")
        os.symlink(f"{folder}/other/{it}", f"{start.folder}/{it}")
    check("links", (AWAY in start.make_player(), os.listdir(f"{folder}/other")), (True, []))


def start_without_a_pipe(program, folder):
    """A file in the place of the pipe is named, with what mends it."""
    start = Start(program, folder)
    start.make_player()
    os.remove(start.pipe)
    put(start.pipe, "")
    told = start.make_player()
    check("what is told", f"{os.path.relpath(start.pipe)} is a file and no pipe: end the daemon, remove it" in told, True)


def pipe_that_cannot_be_made(program, folder):
    """It is named."""
    start = Start(program, folder)
    os.makedirs(start.folder)
    os.symlink("nothing/there", start.pipe)
    check("what is told", start.make_player(), f"{start.pipe}: File exists")


def older_python(program, folder):
    del program, folder
    for script in ("start", "contrib/install"):
        done = subprocess.run([sys.executable, "-c", OLDER, f"{ROOT}/{script}"], capture_output=True, text=True, timeout=LIMIT, check=False)
        check(script, (done.returncode, done.stderr), (1, "Python 3.11 or later is wanted\n"))


# The units and contrib/install.


def machines_unit_without_the_drive(program, folder):
    """The machine's unit makes a journal where its configuration has it as it came, and elsewhere none, of which it tells nothing."""
    home, root, state = Home(folder, program), f"{folder}/root", f"{folder}/state"
    home.install("--system", "--root", root)
    unit, config = f"{root}/etc/systemd/system/{NAME}.service", f"{root}/etc/{NAME}.toml"
    os.makedirs(state)
    put(config, '# journal_a = "remarked"\n' + content(config).decode())
    empty(state)
    run_before(unit, state, root)
    made = [size_of(f"{state}/{it}") for it in FILES]
    check("what is made in place of empty files", made, [size_of(f"{root}/var/lib/{NAME}/{it}") for it in FILES])
    moved(config, f"{folder}/drive")
    for it in FILES:
        os.rename(f"{state}/{it}", f"{folder}/{it}")
    check("what is told", run_before(unit, state, root), "")
    check("the drive", os.listdir(f"{folder}/drive"), [])
    for it in FILES:
        os.rename(f"{folder}/{it}", f"{folder}/drive/{it}")
    check("what is told with the journal there", run_before(unit, state, root), "")
    check("the journal", [size_of(f"{folder}/drive/{it}") for it in FILES], made)


def users_unit_without_a_pipe(program, folder):
    home = Home(folder, program)
    home.install()
    os.remove(f"{home.folder}/sound.pipe")
    run_before(home.unit, home.folder, "")
    check("the pipe", oct(os.lstat(f"{home.folder}/sound.pipe").st_mode), "0o10600")


def installed_without_the_drive(program, folder):
    """A second installation makes no journal on a drive that is away; one of empty files in the service's own folder it makes."""
    home = Home(folder, program)
    home.install()
    empty(home.folder)
    check("empty files", f"laid      {home.folder}/journal_a" in home.install(), True)
    with Service(home) as client:
        client.do("setvol 41")
    moved(home.config, f"{folder}/drive")
    told = home.install()
    check("what is told", f"missing   {folder}/drive/journal_a {AWAY}" in told, True)
    check("the drive", os.listdir(f"{folder}/drive"), [])
    subprocess.run(["sh", "-c", told.split("`")[1]], check=True, capture_output=True, timeout=LIMIT)
    check("what is told then", f"there     {folder}/drive/journal_a" in home.install(), True)


def words_that_are_not_taken(program, folder):
    """A configuration that is there says where to listen and which music there is; words that say the same are not named."""
    home = Home(folder, program)
    home.install("--music", f"{folder}/songs")
    check("the same words", "not taken" in home.install("--music", f"{folder}/songs"), False)
    told = home.run(program, "--music", "other", "--tcp", "127.0.0.1:1")
    check("others", f"{home.config} stays as it is: --music and --tcp are not taken\n" in told, True)
    check("one", f"{home.config} stays as it is: --music is not taken\n" in home.install("--music", "other"), True)


def daemon_that_runs_on(program, folder):
    """Where no systemd ends it, a daemon runs on behind the end of its installation, and that is told."""
    home = Home(folder, program)
    home.install()
    with Service(home):
        check("what is told", f"runs      the daemon of {home.folder}/journal_a" in home.uninstall(), True)
    home.install()
    check("without one", "runs  " in home.uninstall(), False)


def memory_of_answers(program, folder):
    """As ./start and both units run the daemon, the C library gives back what long answers took: without that it keeps most of it."""
    layout = script_of("contrib/lib/layout.py")
    said = [layout.VARIABLE.findall(layout.text(it)) for it in (f"{NAME}.service", f"system/{NAME}.service")]
    check("both units", (said[0], len(said[0])), (said[1], 1))
    start, handed = Start(program, folder), {}
    start.script.program_to_run = lambda _: start.program
    runs = {"execve": lambda _path, _words, settings: handed.update(settings), "chdir": lambda _: None}
    with mock.patch.multiple(os, **runs), mock.patch.object(sys, "argv", ["start", "console"]):
        start.script.main()
    check("./start", {*said[0]} <= {*handed.items()}, True)


# The sound.


def lock_of_a_journal(_, folder):
    """Whether a journal is in use is asked of a file that may write, as a network wants it (NFS). A fault is none of it; where the file
    system knows no locks, nobody can tell."""
    put(f"{folder}/a", "x")
    script = script_of("contrib/lib/journals.py")
    journal = script.Journal(folder, [f"{folder}/a", f"{folder}/b"])
    check("one that nobody has", journal.is_in_use(), False)
    with open(f"{folder}/a", "r+b") as file:
        fcntl.flock(file, fcntl.LOCK_EX)
        check("one that another has", journal.is_in_use(), True)
    for number, wanted in ((errno.EAGAIN, True), (errno.EOPNOTSUPP, False), (errno.ENOSYS, False), (errno.ENOLCK, None), (errno.EBADF, None)):

        def flock(file, _, number=number):
            check("how it is open", fcntl.fcntl(file, fcntl.F_GETFL) & os.O_ACCMODE, os.O_RDWR)
            raise OSError(number, os.strerror(number))

        script.fcntl = types.SimpleNamespace(flock=flock, LOCK_EX=fcntl.LOCK_EX, LOCK_NB=fcntl.LOCK_NB)
        try:
            found = journal.is_in_use()
        except OSError as fault:
            check("what is told", (fault.errno, fault.filename), (number, f"{folder}/a"))
            found = None
        check(os.strerror(number), found, wanted)


def sound_without_a_pipe(program, folder):
    """A file that the daemon has locked is no pipe, nor is one that is to be followed."""
    del program
    put(f"{folder}/sound.pipe", "")
    line = "sound: no pipe: sound.pipe is a file; end the daemon, remove it, and make the pipe: mkfifo sound.pipe"
    with Sound(folder, "--to", "files", "--follow", "sound.pipe") as sound:
        followed = sound.end()
    with open(f"{folder}/sound.pipe", "rb") as file, Sound(folder, "--to", "files", "sound.pipe") as sound:
        fcntl.flock(file, fcntl.LOCK_EX)
        check("how they end", (followed, sound.end()), ((1, [line]), (1, [line])))


def player_that_takes_nothing(program, folder):
    """It is ended and begun again, which one line tells, and the sound passes meanwhile."""
    del program
    os.makedirs(folder)
    sound, lines = script_of("contrib/sound"), []
    sound.STUCK, sound.PLAYER_HOLDS, sound.say = 0.2, 0, lines.append
    speaker = sound.Speaker(f"sh -c 'echo $$ >>{folder}/tries; exec sleep 100'")
    speaker.begin(sound.Form(44_100, 2))

    def play():
        while tries(folder) < 3:
            speaker.take(bytes(1 << 14))

    thread = threading.Thread(target=play, daemon=True)
    thread.start()
    try:
        wait_for("a player that is begun again", lambda: not thread.is_alive(), 20)
        check("what is told", lines, ["sh took nothing for 0.2 seconds, and was ended; it is begun again"])
    finally:
        speaker.stop()


def tries(folder):
    """How many players were begun."""
    return content(f"{folder}/tries").count(b"\n") if os.path.exists(f"{folder}/tries") else 0


# Music of other formats, by `./start` and the decoder.

# Each song's rate and channels, how ffmpeg makes it of a continuous sound, and the names of its title and artist.
MADE = {
    "a/constant.mp3": (44_100, 2, "-c:a libmp3lame -b:a 128k", ("TIT2", "TPE1")),
    "a/variable.mp3": (44_100, 2, "-c:a libmp3lame -q:a 4", ("TIT2", "TPE1")),
    "b/music.opus": (48_000, 2, "-c:a libopus -b:a 96k", ("TITLE", "ARTIST")),
    "b/voice.m4a": (32_000, 1, "-c:a aac -b:a 64k", ("©nam", "©ART")),
    "c/first.m4a": (44_100, 2, "-c:a aac -b:a 128k", ("©nam", "©ART")),
    "c/second.m4a": (44_100, 2, "-c:a aac -b:a 128k", ("©nam", "©ART")),
    "d/vorbis.ogg": (22_050, 1, "-c:a libvorbis -q:a 4", ("TITLE", "ARTIST")),
    "d/wide.ogg": (48_000, 2, "-c:a libvorbis -q:a 6", ("TITLE", "ARTIST")),
}
SECONDS = 3
# What is cut of one sound, from which frame to which.
CUT_AT = 60_007
CUT = {"first part.mp3": (0, CUT_AT), "second part.mp3": (CUT_AT, SECONDS * 44_100)}
LACK = "python3-av and python3-mutagen (Debian's packages), by which other files than WAVE and FLAC are played"
# Runs `start` over a player in the folder that is named behind this, by the program named first, with a Python of the decoder.
STARTING = """\
import sys
program, folder, python, lib = sys.argv[1:5]
sys.path.insert(0, lib)
from daemons import free_port
from homes import script_of
start = script_of("start")
start.PLAYER, start.CONFIG, start.LOG = folder, f"{folder}/mpd_daemon.toml", f"{folder}/start.log"
# Its own looks from one port on, and others look beside it.
start.program_to_run, start.layout.PYTHON, start.layout.free_port = lambda _: program, python, free_port
sys.argv = ["start", "--silent"]
start.main()
"""


class Started:
    """What `./start --silent` runs, over a player in this folder."""

    def __init__(self, program, folder, python):
        self.folder, words = f"{folder}/player", [sys.executable, "-c", STARTING, program, f"{folder}/player", python]
        os.makedirs(self.folder, exist_ok=True)
        with open(f"{folder}/said", "wb") as said:
            self.process = subprocess.Popen([*words, os.path.dirname(__file__)], stdin=subprocess.DEVNULL, stderr=said)

    def __enter__(self):
        path = f"{self.folder}/mpd_daemon.socket"
        wait_for("a daemon that listens", lambda: listens(path))
        return Client(path)

    def __exit__(self, *_):
        self.process.terminate()
        self.process.wait(LIMIT)


def decoder_is_lacking():
    """Whether other formats can't be tried here; why is told."""
    lack = lacking() or " and ".join(it for it in ("ffmpeg", "sox") if not shutil.which(it))
    if lack:
        print(f"songs of other formats: not run: {lack}", flush=True)
    return bool(lack)


def put_made(made, music):
    """Makes the songs, with a title, an artist and a cover, and the parts of one sound, which are MP3 files of their own."""
    for name, (rate, channels, words, _) in MADE.items():
        os.makedirs(os.path.dirname(f"{music}/{name}"), exist_ok=True)
        made.make(f"{music}/{name}", rate, SECONDS, *["-ac", str(channels)], *words.split())
    made.make(f"{music}/../source.wav", 44_100, SECONDS, "-c:a", "pcm_s16le")
    for name, (first, end) in CUT.items():
        cut = f"atrim=start_sample={first}:end_sample={end},asetpts=N/SR/TB"
        made.ffmpeg("-i", f"{music}/../source.wav", "-af", cut, *"-c:a libmp3lame -b:a 256k".split(), f"{music}/{name}")
    pictures = [base64.b64encode(it).decode() for it in (made.FRONT, made.BACK)]
    tag_files([[f"{music}/{name}", {title: [f"Dawn {name}"], artist: ["Björn Ö"]}, *pictures] for name, (*_, (title, artist)) in MADE.items()])


def songs_of_other_formats_started(program, folder):
    """By `./start` MP3, AAC, Ogg and Opus are found with tags and covers, and heard as ffmpeg decodes them, bit for bit, also from a place
    that is sought. The parts of one sound have as many frames as were cut, and are as near to it at their seam as elsewhere. The decoder
    ends with the daemon."""
    if decoder_is_lacking():
        return
    made, music = script_of("tests/decoder"), f"{folder}/player/music"
    os.makedirs(music)
    put_made(made, music)
    forms = {name: (rate, channels) for name, (rate, channels, *_) in MADE.items()} | {it: (44_100, 2) for it in CUT}
    whole = {name: made.samples_of(f"{music}/{name}", *form) for name, form in forms.items()}
    with Started(program, folder, PYTHON) as client:
        update(client)
        check("the songs", client.values("listall", "file"), sorted(forms, key=lambda it: ("/" in it, it)))
        for name in MADE:
            told = {key: client.value(f"find \"(file == '{name}')\"", key) for key in ("Title", "Artist")}
            check(f"the tags of {name}", told, {"Title": f"Dawn {name}", "Artist": "Björn Ö"})
            check(f"the cover of {name}", client.picture("readpicture", name), (made.FRONT, len(made.FRONT), "image/png"))
        recorded = Recorded(f"{folder}/player/sound.pipe")
        play_to_the_end(client, *(f'add "{it}"' for it in forms), "play 0")
        for name in MADE:
            play_to_the_end(client, "clear", f"add {name}", "seek 0 1.5")
    found = runs_of(pieces_of(recorded.end()))
    sought = [(form, whole[it][3 * form[0] * form[1] :]) for it, form in forms.items() if it in MADE]
    wanted = runs_of([*((forms[it], whole[it]) for it in forms), *sought])
    check("the forms", [it for it, _ in found], [it for it, _ in wanted])
    check("which runs are as ffmpeg has them", [one == other for one, other in zip(found, wanted)], [True] * len(found))
    check("as many frames as were cut", [len(whole[it]) // 4 for it in CUT], [end - first for first, end in CUT.values()])
    seam, all_of_it = errors_of(b"".join(whole[it] for it in CUT), content(f"{folder}/player/source.wav")[-4 * 3 * 44_100 :])
    check("at the seam", seam < 2 * all_of_it, True)
    wait_for("the decoder's end", lambda: not os.path.exists(f"{folder}/player/decoder.socket"))


def errors_of(data, source):
    """How far these samples are from their source, about the first part's end and on the whole."""
    apart = [abs(one - other) for one, other in zip(array.array("h", data), array.array("h", source), strict=True)]
    seam = apart[2 * (CUT_AT - 1_000) : 2 * (CUT_AT + 1_000)]
    return statistics.mean(seam), statistics.mean(apart)


def song_that_plays_on_by_a_decoder(program, folder):
    """With `resume = "playing"` one that the decoder reads plays on where `./start` is begun again, also where the decoder takes its time."""
    if decoder_is_lacking():
        return
    os.makedirs(f"{folder}/player/music")
    script_of("tests/decoder").make(f"{folder}/player/music/a.mp3", 44_100, 10, "-c:a", "libmp3lame")
    config = f"{folder}/player/{NAME}.toml"
    with Started(program, folder, PYTHON) as client:
        update(client)
        client.do("add a.mp3", "play", "seekcur 3")
    put(config, content(config).decode().replace('resume = "paused"', 'resume = "playing"'))
    put(f"{folder}/slow", f'#!/bin/sh\ncase "$1" in */decoder) sleep 2 ;; esac\nexec {PYTHON} "$@"\n', 0o755)
    with Started(program, folder, f"{folder}/slow") as client:
        check("what it does", [client.value("status", it) for it in ("state", "song", "error")], ["play", "0", None])
        check("where", float(client.value("status", "elapsed")) >= 3, True)


def start_without_a_decoder(program, folder):
    """Where the packages of the decoder are missing, that is told, and everything else is served."""
    write(f"{folder}/player/music/a.wav", wave_of(range(1_000)))
    with Started(program, folder, "/bin/false") as client:
        update(client)
        check("the songs", client.values("listall", "file"), ["a.wav"])
    told = content(f"{folder}/said").decode()
    check("what is told", [it for it in told.splitlines() if it.startswith("MISSING:")], [f"MISSING:  {LACK}"])
    check("which music", "WAVE and FLAC files go into" in told, True)
