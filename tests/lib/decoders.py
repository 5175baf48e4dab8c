"""A running contrib/decoder, clients of it, and what Debian's mutagen writes into files and reads of tags."""

import base64
import contextlib
import json
import os
import socket
import struct
import subprocess
import threading

from clients import LIMIT, wait_to_listen
from daemons import ran_well
from scripts import Failure

ROOT = os.path.dirname(os.path.dirname(os.path.dirname(os.path.abspath(__file__))))
PROGRAM = f"{ROOT}/contrib/decoder/decoder"
# The Python of Debian's packages.
PYTHON = "/usr/bin/python3"
OK, NOT_A_SONG, FAILED = 0, 1, 2
PIECE = 65_536

# Tags files, by a line of JSON for each: its path, pairs of a name of its format and texts, a PNG of the front and one of the back, or none,
# and of ID3v2 the encoding and the version.
TAGGING = """\
import base64, json, sys
import mutagen
from mutagen import apev2, flac, id3, mp4
for path, tags, images, encoding, version in map(json.loads, sys.stdin):
    images = [base64.b64decode(it) for it in images]
    file = mutagen.File(path)
    if file.tags is None:
        file.add_tags()
    kind = type(file.tags).__name__
    for name, texts in tags:
        if "ID3" in kind:
            name, _, more = name.partition(":")
            how = {"TXXX": {"desc": more}, "COMM": {"desc": "", "lang": "eng"}}.get(name, {})
            identifier = id3.UFID(owner="http://musicbrainz.org", data=b"f27ec8db-af05-4f36-916e-3d57f91ecf5e")
            file.tags.add(identifier if name == "UFID" else getattr(id3, name)(encoding=encoding, text=texts, **how))
        elif kind == "MP4Tags":
            file.tags[name] = [tuple(it) if isinstance(it, list) else it.encode() if name[0] == "-" else it for it in texts]
        else:
            file.tags[name] = texts
    pictures = []
    for number, data in [*zip((3, 4), images)][::-1]:
        picture = flac.Picture()
        picture.type, picture.mime, picture.data = number, "image/png", data
        pictures.append(picture)
        if "ID3" in kind:
            file.tags.add(id3.APIC(encoding=3, mime="image/png", type=number, desc=str(number), data=data))
    if images and kind == "MP4Tags":
        file.tags["covr"] = [mp4.MP4Cover(it, mp4.MP4Cover.FORMAT_PNG) for it in images]
    elif images and kind == "APEv2":
        file.tags["Cover Art (Front)"] = apev2.APEValue(b"front.png\\0" + images[0], apev2.BINARY)
    elif images and ("Comment" in kind or kind.startswith("Ogg")):
        file.tags["metadata_block_picture"] = [base64.b64encode(it.write()).decode() for it in pictures]
    if version == 3:
        file.tags.update_to_v23()
    file.save(**({"v2_version": version} if "ID3" in kind else {}))
"""
# Reads a tag, and tells its texts by the names of its frames, and its pictures, in JSON.
READING = """\
import base64, io, json, sys
from mutagen import id3
tag = id3.ID3(io.BytesIO(sys.stdin.buffer.read()))
name = lambda it: f"TXXX:{it.desc}" if it.FrameID == "TXXX" else it.FrameID
texts = {name(it): [str(text) for text in it.text] for it in tag.values() if hasattr(it, "text")}
print(json.dumps([tag.version, texts, [[it.type, it.mime, base64.b64encode(it.data).decode()] for it in tag.getall("APIC")]]))
"""


def lacking():
    """What is missing for a decoder, in words; none where nothing is."""
    if not os.path.exists(PYTHON):
        return f"there is no {PYTHON}"
    done = subprocess.run([PYTHON, "-c", "import av, mutagen"], capture_output=True, text=True, check=False)
    return done.stderr.strip().split("\n")[-1] if done.returncode else ""


def by_python(script, given=b""):
    return ran_well(PYTHON, "-c", script, given=given)


def tag_by(python, lines):
    """Has this Python tag files."""
    ran_well(python, "-c", TAGGING, given="".join(json.dumps(it) + "\n" for it in lines).encode())


def tag_files(lines):
    tag_by(PYTHON, ([path, [*texts.items()], pictures, 3, 4] for path, texts, *pictures in lines))


def read_tag(data):
    """The version, the texts by frames, and the pictures of an ID3v2 tag."""
    version, texts, pictures = json.loads(by_python(READING, data))
    return tuple(version), texts, [(kind, mime, base64.b64decode(it)) for kind, mime, it in pictures]


class Client:
    """A connection to a decoder."""

    def __init__(self, path):
        self.socket = socket.socket(socket.AF_UNIX)
        self.socket.settimeout(LIMIT)
        self.socket.connect(path)

    def __enter__(self):
        return self

    def __exit__(self, *_):
        self.socket.close()

    def ask(self, body):
        """The status and what follows it."""
        self.socket.sendall(struct.pack("<I", len(body)) + body)
        return self.answer()

    def answer(self):
        body = self.received(int.from_bytes(self.received(4), "little"))
        return body[0], body[1:]

    def received(self, count):
        data = b""
        while len(data) < count:
            part = self.socket.recv(count - len(data))
            if not part:
                raise EOFError
            data += part
        return data

    def open(self, path):
        """The status, and the length where it is OK."""
        status, body = self.ask(b"\1" + os.fsencode(path))
        return status, int.from_bytes(body, "little") if status == OK else body

    def read(self, offset, count):
        return self.ask(b"\2" + struct.pack("<QI", offset, count))

    def opened(self, path):
        """The length of a file that is a song."""
        status, length = self.open(path)
        if status != OK:
            raise Failure(f"{path}: {length}")
        return length

    def bytes(self, offset, count):
        """So many bytes, in as many answers as they come."""
        data = b""
        while len(data) < count:
            status, part = self.read(offset + len(data), min(count - len(data), PIECE))
            if status != OK or not 0 < len(part) <= count - len(data):
                raise Failure(f"status {status} and {len(part)} bytes at {offset + len(data)}: {part[:100]}")
            data += part
        return data

    def is_ended(self):
        """Whether the other end closes the connection, and says nothing more."""
        with contextlib.suppress(ConnectionResetError):
            return self.socket.recv(1) == b""
        return True


class Decoder:
    """A decoder over a folder of music."""

    PROGRAM = PROGRAM

    def __init__(self, music, path, *words, **how):
        self.music, self.path, self.said = music, path, []
        words = [PROGRAM, "--music", music, "--socket", path, *words]
        self.process = subprocess.Popen(words, **{"stdin": subprocess.DEVNULL, **how}, stderr=subprocess.PIPE, text=True, errors="replace")
        self.reading = threading.Thread(target=lambda: self.said.extend(self.process.stderr), daemon=True)
        self.reading.start()

    def __enter__(self):
        wait_to_listen(self.process, self.path, lambda: "".join(self.said)[-300:])
        return self

    def __exit__(self, *_):
        self.process.terminate()
        self.process.wait(LIMIT)

    def client(self):
        return Client(self.path)

    def processes(self):
        """The numbers of those that serve."""
        with open(f"/proc/{self.process.pid}/task/{self.process.pid}/children", encoding="ascii") as file:
            return sorted(map(int, file.read().split()))
