"""The lines of README.md and docs/RUNNING.md that stand there to be typed: each is run as it stands, or is named here with the reason.

A line may have a remark behind two spaces. In the block of a conversation answers are indented once more. Everything is done in a folder of
its own, in which `checkout` is this checkout by links, without its players, and in which CONFIG is a configuration with a journal."""

import os
import re
import shlex
import shutil
import subprocess

import builds
from clients import GREETING, LIMIT, Client, wait_for, wait_to_listen
from daemons import update
from scripts import Failure, configuration, write
from scripts import read as content
from waves import wave_of

SONGS = ("Anna Bell/First Light/01 Dawn.wav", "Anna Bell/First Light/02 Noon.wav")
LINKED, COPIED = ("crates", "contrib", "tests", "start", "mpd_daemon.example.toml"), ("crates.txt", "HANDLES")
# What isn't run, by its first words, and why.
LEFT_OUT = {
    "tests/crash": "the part `kill` has it",
    "tests/run": "it would run this test too",
    "tests/gate": "it proves every crate",
    "apt": "it changes the machine",
    "contrib/import_mpd": "it wants an MPD in the network; the part `import` has one here",
}
# What is run only where these commands are on the path.
WANTED = {"mpc": ("mpc",), "while": ("ffmpeg",)}


def blocks(text):
    """The blocks of indented lines, without what they are indented by."""
    block, is_fenced = [], False
    for line in [*text.splitlines(), ""]:
        is_fenced ^= line.startswith("```")
        if line.startswith("    ") and not is_fenced and (block or not line.startswith("      ")):
            block.append(line[4:])
        elif block:
            yield block
            block = []


def commands(block):
    """The commands of a block: a line each, without its remark, or a loop of several lines."""
    if block[0].startswith("while "):
        return ["\n".join(block)]
    return [re.split(r" {2,}", line)[0] for line in block]


def lacking(command):
    """What keeps a command from being run here, or None."""
    if reason := next((LEFT_OUT[it] for it in LEFT_OUT if command.split()[0] == it), None):
        return reason
    missing = [it for it in WANTED.get(command.split()[0], ()) if not shutil.which(it)]
    return f"{' and '.join(missing)} isn't installed" if missing else None


class Room:
    """The folder in which the lines are run."""

    def __init__(self, program, folder):
        self.folder, self.checkout = folder, f"{folder}/checkout"
        for it in ("bin", "backup", "own/music", "from", "to", "checkout/out/proved", "checkout/player/music"):
            os.makedirs(f"{folder}/{it}")
        for it in LINKED:
            os.symlink(f"{builds.ROOT}/{it}", f"{self.checkout}/{it}")
        for it in COPIED:
            shutil.copy(f"{builds.ROOT}/{it}", self.checkout)
        os.symlink(os.path.abspath(program), f"{folder}/bin/mpd_daemon")
        os.symlink(os.path.abspath(program), f"{self.checkout}/out/proved/mpd_daemon")
        builds.Built(f"{self.checkout}/out/proved/mpd_daemon", builds.sum_of_sources("mpd_daemon")).note()
        # A player of sound that takes what it is given, in place of a card.
        self.write("bin/aplay", b"#!/bin/sh\nexec cat >/dev/null\n")
        os.chmod(f"{folder}/bin/aplay", 0o755)
        for it in SONGS:
            self.write(f"checkout/player/music/{it}", wave_of([0] * 8000 * 60))
            self.write(f"from/{it}", wave_of([0] * 100))
        self.write("missing.txt", "".join(f"{it}\n" for it in SONGS).encode())
        settings = ["journal_a=journal_a", "journal_b=journal_b", "music=own/music", "unix=socket", "output=sound", "stock_clients:=true"]
        self.write("CONFIG", configuration(settings).encode())
        path = f"{folder}/bin:{os.environ['PATH']}"
        self.how = {"env": {**os.environ, "PATH": path, "FROM": f"{folder}/from", "TO": f"{folder}/to"}}

    def write(self, name, content):
        write(f"{self.folder}/{name}", content)

    def start(self, command, folder, address):
        """Starts what serves, and waits until it does: the process."""
        with open(f"{self.folder}/log", "wb") as log:
            process = subprocess.Popen(shlex.split(command), cwd=folder, stdin=subprocess.DEVNULL, stdout=log, stderr=log, **self.how)
        wait_to_listen(process, address, lambda: f"{command}: {content(f'{self.folder}/log')[-500:]}")
        return process

    def run(self, command, said=None):
        """Runs a line to its end; it must end with 0, and print what the page says in backticks behind it."""
        folder = self.checkout if command.startswith(("./", "mpc ")) else self.folder
        ran = subprocess.run(["sh", "-c", command], cwd=folder, capture_output=True, input=b"", timeout=LIMIT, check=False, **self.how)
        if ran.returncode:
            raise Failure(f"{command}: status {ran.returncode}: {(ran.stdout + ran.stderr)[-500:]}")
        if said and said not in ran.stdout.decode():
            raise Failure(f"{command}: printed {ran.stdout.decode()[:200]}, and the page says {said}")


def serve(room, command):
    """`mpd_daemon serve CONFIG`: a client is greeted, and ends it."""
    process = room.start(command, room.folder, f"{room.folder}/socket")
    with Client(f"{room.folder}/socket") as client:
        client.send("kill\n")
    if process.wait(LIMIT):
        raise Failure(f"{command}: ended with {process.returncode}")


def begin(room, block):
    """The first session of README.md: `./start`, its songs by the lines for mpc, or by what these ask for, and sound; then it is killed."""
    socket = f"{room.checkout}/player/mpd_daemon.socket"
    process = room.start("./start", room.checkout, socket)
    try:
        with Client(socket) as client:
            room.how["env"]["MPD_HOST"] = socket
            if all(lacking(it) for it in block):
                update(client)
                client.do(*(it.removeprefix("mpc ") for it in block if "update" not in it))
            for it in block:
                if not lacking(it):
                    room.run(it)
            wait_for("sound", lambda: float(client.value("status", "elapsed") or 0) > 0)
    finally:
        process.kill()
        process.wait(LIMIT)


def talk(room, block):
    """A conversation with `./start console`, which is killed behind it."""
    pipes = {"stdin": subprocess.PIPE, "stdout": subprocess.PIPE, "stderr": subprocess.DEVNULL}
    process = subprocess.Popen(["./start", "console"], cwd=room.checkout, **pipes, **room.how)
    try:
        if process.stdout.readline() != GREETING:
            raise Failure("./start console: no greeting")
        for line in block:
            if line.startswith("    "):
                told = process.stdout.readline().decode().rstrip("\n")
                if told != line[4:]:
                    raise Failure(f"./start console: answered {told!r}, and the page says {line[4:]!r}")
            else:
                process.stdin.write(f"{line}\n".encode())
                process.stdin.flush()
    finally:
        process.kill()
        process.communicate(timeout=LIMIT)


def make_songs(room, loop):
    """The loop that makes songs of another folder's: what is there already stays, where the folder is that of the originals too."""
    originals, made = ([f"{it}/{song}" for song in SONGS] for it in (f"{room.folder}/from", f"{room.folder}/to"))
    room.write(f"to/{SONGS[0]}", b"there already")
    before = [content(it) for it in originals]
    room.run(loop)
    if content(made[0]) != b"there already" or not content(made[1]).startswith(b"RIFF"):
        raise Failure(f"{loop}: it made {content(made[0])[:20]} and {content(made[1])[:20]}")
    room.how["env"]["TO"] += "/link"
    os.symlink("../from", f"{room.folder}/to/link")
    room.run(loop)
    if [content(it) for it in originals] != before:
        raise Failure(f"{loop}: it wrote into the originals")


def run_readme(room, text):
    """The lines of README.md; which are left out, each with why."""
    for block in blocks(text):
        if any(it.startswith("    ") for it in block):
            talk(room, block)
            yield f"./start console: {len(block)} lines", None
        elif block[0].startswith("mpc "):
            begin(room, block)
            yield from ((it, lacking(it)) for it in block)
        else:
            for it in commands(block):
                if it not in ("./start", "./start console") and not lacking(it):
                    room.run(it)
                yield it, lacking(it)


def run_running(room, text):
    """The lines of docs/RUNNING.md; which are left out, each with why."""
    for block in blocks(text):
        if block[0].startswith("PATH: "):
            yield block[0], "it is a line that the program writes"
            continue
        for it, line in zip(commands(block), block):
            if lacking(it):
                pass
            elif it == "mpd_daemon serve CONFIG":
                serve(room, it)
            elif it.startswith("while "):
                make_songs(room, it)
            else:
                said = re.search(r"prints `([^`]*)`", line)
                room.run(it, said and said[1])
            yield it, lacking(it)
