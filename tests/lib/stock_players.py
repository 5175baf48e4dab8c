"""Clients of the distribution over a daemon with stock clients, where they are installed: what mpc prints, what ncmpcpp and ncmpc show,
what calls of python-mpd2 give, what mpDris2 tells and changes."""

import hashlib
import json
import os
import shutil
import subprocess
import tempfile

import rows
from daemons import LIMIT, check, python_with, update, wait_for
from scripts import Failure, text_of, write
from stock_rows import MODIFIED_LINE, is_of_this_hour
from waves import with_picture

A = {"file": "b.wav", "title": "Alpha", "artist": "One", "album": "First", "date": "2001", "genre": "Folk"}
SOUND = {"last-modified": MODIFIED_LINE.split(": ")[1], "format": "8000:16:1", "time": "2", "duration": "2.000"}
A |= {"comment": "a note", **SOUND}
NAKED = {"file": "b.wav", "pos": "1", "id": "2", **SOUND}
ALBUMS = [{"artist": "", "album": ""}, {"artist": "One", "album": ["First", "Second"]}, {"artist": "Two", "album": "First"}]
OLD = {"playlist": "old", "last-modified": "1970-01-01T00:00:00Z"}
# Calls of python-mpd2 with their words, and what they give; of others tests/rows has the lines that it reads.
PYTHON_MPD = [
    ("tagtypes clear", []),
    ("currentsong", NAKED),
    ("tagtypes all", []),
    ("currentsong", {**A, "pos": "1", "id": "2"}),
    ("lsinfo", [{"file": "a.wav", **SOUND}, A, {"directory": "d"}, OLD]),
    ("list album group artist", ALBUMS),
    ("count artist One group genre", {"genre": ["", "Folk"], "songs": ["1", "1"], "playtime": ["2", "2"]}),
    ("find any One sort Track window 0:1", [A]),
    ("outputs", [{"outputid": "0", "outputname": "output", "plugin": "raw", "outputenabled": "1"}]),
    ("disableoutput 0", "![2@0] {disableoutput} the only output is always on"),
    ("decoders", [{"plugin": "wave", "suffix": ["wav", "wave"], "mime_type": ["audio/wav", "audio/x-wav", "audio/wave"]},
                  {"plugin": "flac", "suffix": "flac", "mime_type": ["audio/flac", "audio/x-flac"]}]),
    ("subscribe x", None),
    ("sendmessage x a_b", None),
    ("channels", ["x"]),
    ("readmessages", [{"channel": "x", "message": "a_b"}]),
    ("unsubscribe x", None),
    ("searchaddpl made composer ", None),
    ("listplaylist made", ["a.wav", "b.wav", "d/c.wav", "d/e.wav", "d/é é.wav"]),
    ("rm made", None),
]
# Each prints a line of its own, of what mpDris2 tells on the bus of the session.
MPDRIS2 = """\
mpDris2 --host="$1" >"$2/log" 2>&1 &
at=$!
at_bus="--dest=org.mpris.MediaPlayer2.mpd /org/mpris/MediaPlayer2"
ask() {
    dbus-send --print-reply=literal $at_bus "org.freedesktop.DBus.Properties.$@" | tr -s ' \n' ' '
}
player=string:org.mpris.MediaPlayer2.Player
until ask Get $player string:Metadata 2>&1 | grep -q Alpha; do sleep 0.1; done
ask Get $player string:Metadata
echo
ask Set $player string:Volume variant:double:0.4
ask Set $player string:Shuffle variant:boolean:true
ask Set $player string:LoopStatus variant:string:Playlist
kill $at
"""
# The keys of a player, and what its screen shows then.
NCMPCPP = [
    ("1", ["Playlist (5 items", "Alpha", 'say "x"', "Zoë"]),
    ("2", ["Browse: /", "[d]", "One - Alpha", "playlist old"]),
    ("3", ["Search engine", "Album Artist", "Composer"]),
    ("4", ["Media library", "<empty>", "One", "Two", "<no album>"]),
    ("5", ["Playlist editor", "Content (5 items)", "One - Alpha", "old"]),
    ("1", ["Playlist (5 items", "Alpha"]),
]
NCMPC = [
    ("F2", ["Queue", "One - Alpha", "Zoë"]),
    ("F3", ["Browse", "[d]", "a.wav", "old"]),
    ("F4", ["Artists", "[]", "[One]", "[Two]"]),
    ("F8", ["[X] output", "Partition: default"]),
]
SETTINGS = {**os.environ, "LC_ALL": "C.UTF-8", "TERM": "xterm"}


def mpc(daemon):
    for words, told in rows.read("mpc", {}):
        how = {"capture_output": True, "text": True, "timeout": LIMIT, "check": False, "env": SETTINGS}
        ran = subprocess.run(["mpc", "-h", daemon.path, *words.split()], **how)
        said = (ran.stdout + ran.stderr).splitlines()
        wanted = (1, [told]) if isinstance(told, str) else (0, said if told is None else told)
        check(f"mpc {words}", (ran.returncode, said), wanted)
    words = ["mpc", "-h", daemon.path]
    waiting = subprocess.Popen([*words, "waitmessage", "here"], stdout=subprocess.PIPE, text=True, env=SETTINGS)
    with waiting, daemon.client() as client:
        wait_for("mpc's channel", lambda: client.values("channels", "channel") == ["here"])
        subprocess.run([*words, "sendmessage", "here", "a b"], check=True, timeout=LIMIT, env=SETTINGS)
        check("mpc waitmessage", waiting.communicate(timeout=LIMIT)[0], "a b\n")


class Terminal:
    """A program in a terminal of tmux, which ends with it."""

    def __init__(self, folder, *words):
        self.path = os.path.join(folder, "tmux")
        self.tmux("-f", "/dev/null", "new-session", "-d", "-x", "100", "-y", "30", "env", f"HOME={folder}", *words)

    def __enter__(self):
        return self

    def __exit__(self, *_):
        self.tmux("kill-server")

    def tmux(self, *words):
        how = {"capture_output": True, "text": True, "timeout": LIMIT, "check": False, "env": SETTINGS}
        return subprocess.run(["tmux", "-S", self.path, *words], **how)

    def screen(self):
        return self.tmux("capture-pane", "-p").stdout

    def wait(self, key, shown):
        """Waits until it shows all of these."""
        try:
            wait_for(key, lambda: all(it in self.screen() for it in shown))
        except Failure as fault:
            raise Failure(f"key {key}: not all of {shown} in {self.screen()}") from fault

    def walk(self, keys):
        """Its first screen, and what it shows behind each key."""
        self.wait("none", keys[0][1])
        for key, shown in keys:
            self.tmux("send-keys", key)
            self.wait(key, shown)
        self.tmux("send-keys", "q")
        wait_for("its end", lambda: self.tmux("has-session").returncode)


def time_of(daemon):
    """The processor time that the daemon has taken, in hundredths of a second."""
    return sum(map(int, text_of(f"/proc/{daemon.process.pid}/stat").rpartition(")")[2].split()[11:13]))


def ncmpcpp(daemon):
    with tempfile.TemporaryDirectory(prefix="player-") as folder:
        path = f"{folder}/config"
        write(path, f'mpd_host = "{daemon.path}"\nncmpcpp_directory = "{folder}"\nlyrics_directory = "{folder}"\n')
        before = time_of(daemon)
        with Terminal(folder, "ncmpcpp", "-c", path) as terminal:
            terminal.walk(NCMPCPP)
        # One that asks again and again, as where a request is refused that it needs, keeps the daemon busy all the while.
        if time_of(daemon) - before > 50:
            raise Failure(f"ncmpcpp took {time_of(daemon) - before} hundredths of a second of the daemon's time")


def ncmpc(daemon):
    with tempfile.TemporaryDirectory(prefix="player-") as folder, Terminal(folder, "ncmpc", f"--host={daemon.path}") as terminal:
        terminal.walk(NCMPC)


def untimed(found):
    """What a call gives, with a playlist's time of the last hour as one that isn't known."""
    if isinstance(found, list):
        return [untimed(it) for it in found]
    if isinstance(found, dict) and "playlist" in found and is_of_this_hour(found.get("last-modified", OLD["last-modified"])):
        return {**found, "last-modified": OLD["last-modified"]}
    return found


def python_mpd(daemon, calls=PYTHON_MPD):
    """By the first interpreter that has python-mpd2."""
    how = {"capture_output": True, "text": True, "timeout": LIMIT, "check": False, "env": SETTINGS}
    if not (python := python_with("mpd")):
        print("python_mpd: left out, without the module mpd", flush=True)
        return
    words = [call.split(" ") for call, _ in calls]
    script = os.path.join(os.path.dirname(os.path.abspath(__file__)), "python_mpd.py")
    ran = subprocess.run([python, script, daemon.path], input=json.dumps(words), **how)
    lines = [untimed(json.loads(it)) for it in ran.stdout.splitlines()]
    for (call, wanted), found in zip(calls, lines):
        check(f"python-mpd2 {call}", found, wanted)
    check("python-mpd2", (len(lines), ran.stderr), (len(calls), ""))


def pictures(daemon):
    """mpc and python-mpd2 take the pictures of an album and of a song, in many chunks; the folder is gone afterwards."""
    found = {"albumart": bytes(range(256)) * 500, "readpicture": bytes(range(255, -1, -1)) * 400}
    folder, uri = f"{daemon.folder}/music/p", "p/one.wav"
    write(f"{folder}/cover.jpg", found["albumart"])
    write(f"{folder}/one.wav", with_picture(bytes(16_000), found["readpicture"]))
    with daemon.client() as client:
        update(client)
        told = {it: {"binary": hashlib.sha256(text).hexdigest()} for it, text in found.items()}
        told["readpicture"]["type"] = "image/png"
        python_mpd(daemon, [(f"{it} {uri}", told[it]) for it in found])
        for it, text in found.items() if shutil.which("mpc") else []:
            ran = subprocess.run(["mpc", "-h", daemon.path, it, uri], capture_output=True, timeout=LIMIT, check=True, env=SETTINGS)
            check(f"mpc {it}", ran.stdout == text, True)
        shutil.rmtree(folder)
        update(client)


def mpdris2(daemon):
    """What it tells of the song on the bus, and what it changes."""
    with tempfile.TemporaryDirectory(prefix="player-") as folder:
        words = ["dbus-run-session", "--", "sh", "-c", MPDRIS2, "sh", daemon.path, folder]
        settings = {**SETTINGS, "HOME": folder, "XDG_CONFIG_HOME": folder}
        ran = subprocess.run(words, capture_output=True, text=True, timeout=LIMIT, check=False, env=settings)
        for it in ("xesam:title variant Alpha", "xesam:album variant First", "array [ One ]", "xesam:url variant b.wav", "int64 2000000"):
            if it not in ran.stdout:
                raise Failure(f"mpDris2: no {it} in {ran.stdout}{ran.stderr}")
        with daemon.client() as client:
            changed = [("volume", "40"), ("random", "1"), ("repeat", "1")]
            wait_for("mpDris2's changes", lambda: all(client.value("status", key) == value for key, value in changed))
            client.do("setvol 100", "random 0", "repeat 0")


def look(daemon):
    """Runs each that is installed; the others are named. Those that only look come first."""
    bus = ("mpDris2", "dbus-run-session", "dbus-send")
    for player, wants in (
        (ncmpcpp, ("ncmpcpp", "tmux")),
        (ncmpc, ("ncmpc", "tmux")),
        (python_mpd, ()),
        (pictures, ()),
        (mpdris2, bus),
        (mpc, ("mpc",)),
    ):
        lacking = [it for it in wants if not shutil.which(it)]
        if lacking:
            print(f"{player.__name__}: left out, without {' and '.join(lacking)} on the path", flush=True)
        else:
            player(daemon)
