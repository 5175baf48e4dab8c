"""What music is taken over from: an MPD that is installed, and a small one of this file that ends or refuses where it is told so. And a way
to a daemon that is cut."""

import contextlib
import os
import shlex
import shutil
import socket
import subprocess
import threading

from clients import LIMIT, Client, wait_to_listen
from daemons import free_port, update
from scripts import Failure, write

CONFIGURATION = """\
music_directory "{2}"
playlist_directory "{0}/playlists"
db_file "{0}/database"
sticker_file "{0}/stickers"
bind_to_address "127.0.0.1"
bind_to_address "{0}/socket"
port "{1}"
zeroconf_enabled "no"
connection_timeout "600"
max_playlist_length "65536"
audio_output {{
  type "null"
  name "nothing"
  mixer_type "{3}"
}}
"""


class RealMpd:
    """A running MPD of version 0.23 in a folder of its own with music/, playlists/ and stickers, at a port and at `socket`, with further lines
    in its configuration."""

    def __init__(self, path, folder, more="", music=None, mixer="null"):
        self.words, self.folder = [path, "--no-daemon", "--stderr", f"{folder}/mpd.conf"], folder
        self.port, self.process, self.settings = free_port(), None, (music or f"{folder}/music", mixer)
        for it in (self.settings[0], f"{folder}/playlists"):
            os.makedirs(it, exist_ok=True)
        self.configure(more)

    def configure(self, more):
        write(f"{self.folder}/mpd.conf", CONFIGURATION.format(self.folder, self.port, *self.settings) + more)

    def __enter__(self):
        with open(f"{self.folder}/mpd.log", "wb") as log:
            self.process = subprocess.Popen(self.words, stdin=subprocess.DEVNULL, stdout=log, stderr=log)
        wait_to_listen(self.process, ("127.0.0.1", self.port))
        return self

    def __exit__(self, *_):
        self.process.terminate()
        try:
            self.process.wait(LIMIT)
        except subprocess.TimeoutExpired:
            self.process.kill()

    @property
    def place(self):
        return f"127.0.0.1:{self.port}"

    def client(self):
        client = Client(("127.0.0.1", self.port), greeted=False)
        if not client.line().startswith(b"OK MPD 0."):
            raise Failure("no greeting of MPD")
        return client


@contextlib.contextmanager
def installed(folder, music):
    """An MPD that runs over a copy of this music, once it has read it; None where none is installed, which is told."""
    path = shutil.which("mpd")
    if not path:
        print("not beside MPD, without mpd on the path", flush=True)
        yield None
        return
    mpd = RealMpd(path, folder)
    shutil.copytree(music, f"{folder}/music", dirs_exist_ok=True)
    with mpd, mpd.client() as client:
        update(client)
        yield mpd


def hang_up(connection):
    with contextlib.suppress(OSError):  # The other side did so before.
        connection.shutdown(socket.SHUT_RDWR)
    connection.close()


class Listening:
    """Serves each connection in a thread of its own, until it is left."""

    def __init__(self):
        self.listener = socket.create_server(("127.0.0.1", 0))
        self.place = "127.0.0.1:%d" % self.listener.getsockname()[1]
        self.threads, self.sockets, self.fault = [], [], None

    def __enter__(self):
        self.begin(self.accept)
        return self

    def begin(self, task, *words):
        self.threads.append(threading.Thread(target=self.guarded, args=(task, *words)))
        self.threads[-1].start()

    def guarded(self, task, *words):
        try:
            task(*words)
        except OSError:
            pass  # A side has closed.
        except Exception as fault:  # Told where it is left.
            self.fault = fault
            self.close()

    def accept(self):
        while True:
            found = self.listener.accept()[0]
            self.sockets.append(found)
            self.begin(self.serve_one, found)

    def serve_one(self, client):
        try:
            self.serve(client)
        finally:
            hang_up(client)

    def close(self):
        """Ends all of it, as a process that is gone."""
        for it in [self.listener, *self.sockets]:
            hang_up(it)

    def __exit__(self, kind, *_):
        self.close()
        for it in self.threads:
            it.join(LIMIT)
        if self.fault and not kind:
            raise Failure(f"the small MPD: {self.fault!r}")


class SmallMpd(Listening):
    """A few commands of MPD over plain lists.

    `queue` has pairs of URI and priority, `playlists` lists by name, `stickers` values by URI and name. `refuses` has code and text by
    request, or None where it closes the connection. It is gone at the command of number `ends_at`, and doesn't list those of `lacks`."""

    def __init__(self, songs, queue, playlists, stickers, status=None, refuses=None, ends_at=None, lacks=()):
        super().__init__()
        self.songs, self.queue, self.playlists, self.stickers = songs, queue, playlists, stickers
        self.status = {"volume": "50", "repeat": "0", "random": "0", "single": "0", "consume": "0"} | (status or {})
        self.refuses, self.ends_at, self.lacks, self.asked = refuses or {}, ends_at, lacks, []
        # Whether the queue loses its first entries in the midst of being read.
        self.version, self.shortens = 7, False

    def serve(self, client):
        client.sendall(b"OK MPD 0.23.5\n")
        gathered = None
        for line in client.makefile("r", encoding="utf-8", errors="surrogateescape"):
            line = line.rstrip("\n")
            if line == "command_list_ok_begin":
                gathered = []
            elif line == "command_list_end":
                client.sendall(self.answered(gathered, "list_OK\n"))
                gathered = None
            elif gathered is not None:
                gathered.append(line)
            else:
                client.sendall(self.answered([line], ""))

    def answered(self, lines, end):
        text = ""
        for number, line in enumerate(lines):
            words = shlex.split(line)
            self.asked.append(words)
            if len(self.asked) == self.ends_at:
                self.close()
            refused = self.refuses.get(" ".join(words), "")
            if refused is None:
                raise ConnectionAbortedError
            if refused:
                return (text + f"ACK [{refused[0]}@{number}] {{{words[0]}}} {refused[1]}\n").encode()
            text += "".join(f"{it}\n" for it in self.lines(*words)) + end
        return (text + "OK\n").encode("utf-8", "surrogateescape")

    def lines(self, name, *words):
        if name == "commands":
            return [f"command: {it}" for it in ("status", "listplaylists", "sticker", "addtagid") if it not in self.lacks]
        if name == "status":
            counts = [("playlist", self.version), ("playlistlength", len(self.queue))]
            return [f"{it}: {value}" for it, value in [*self.status.items(), *counts]]
        if name == "playlistinfo":
            begin, end = map(int, words[0].split(":"))
            if self.shortens and begin:
                self.shortens, self.version = False, self.version + 1
                del self.queue[:101]
            return [it for at in range(begin, min(end, len(self.queue))) for it in self.entry(at)]
        if name == "listall":
            return [f"file: {it}" for it in self.songs if not words[0] or it.startswith(words[0] + "/")]
        if name == "lsinfo":
            tops = sorted({it.partition("/")[0] for it in self.songs if "/" in it})
            return [f"file: {it}" for it in self.songs if "/" not in it] + [f"directory: {it}" for it in tops]
        if name == "listplaylists":
            return [it for name in self.playlists for it in (f"playlist: {name}", "Last-Modified: 2026-01-01T00:00:00Z")]
        if name == "listplaylist":
            return [f"file: {it}" for it in self.playlists[words[0]]]
        if name == "sticker":
            return [f"sticker: {name}={value}" for (uri, name), value in self.stickers.items() if uri == words[2]]
        return []

    def entry(self, at):
        uri, priority = self.queue[at]
        return [f"file: {uri}", f"Pos: {at}", f"Id: {at + 9}", *[f"Prio: {priority}"] * (priority > 0)]


class Way(Listening):
    """A way to a daemon's socket. It ends for good behind so many bytes of the client's, or does a task before bytes that hold a mark."""

    def __init__(self, path, length=None, mark=None, task=None):
        super().__init__()
        self.path, self.left, self.mark, self.task = path, length, mark, task

    def serve(self, client):
        daemon = socket.socket(socket.AF_UNIX)
        self.sockets.append(daemon)
        daemon.connect(self.path)
        self.begin(self.hand_on, daemon, client)
        while piece := client.recv(1 << 16):
            if self.mark and self.mark in piece:
                self.task()
                self.mark = None
            daemon.sendall(piece[: self.left])
            if self.left is not None:
                self.left -= min(self.left, len(piece))
                if not self.left:
                    break
        self.close()

    @staticmethod
    def hand_on(daemon, client):
        while piece := daemon.recv(1 << 16):
            client.sendall(piece)
