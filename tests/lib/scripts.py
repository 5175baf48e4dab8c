"""Tests as data: what the built program does over real files, as scripts with the exact bytes that are expected.

Each file `tests/scripts/TOPIC/NAME.txt` is a script, run in a folder of its own. Its lines:

    # TEXT                      a remark
    config NAME [KEY=TEXT ..]   writes a configuration: music = "music", journal_a = "a", journal_b = "b", a key of 5a's, and what
                                is given; KEY= alone leaves a key out, KEY:=TEXT gives it as it stands, without quotes
    file NAME [HEX ..]          writes a file of these bytes
    wave NAME FRAMES [ID=TEXT ..]   writes a WAVE file of so many silent frames, 8,000 a second, one channel, 16 bits; with a LIST
                                INFO of these sub-chunks behind them, as INAM=Hi; _ stands for a space
    waves NAME COUNT FRAMES     writes so many such files into a folder, 00001.wav and so on
    texts NAME COUNT            writes so many files that are no songs into a folder, 00001.txt and so on
    pipe NAME                   makes a named pipe
    modified NAME SECONDS       a file was last changed so long after the beginning of 1970
    odd NAME HEX                writes an empty file into a folder, whose name is these bytes
    remove NAME                 removes a file, a link, or a folder with what stands in it
    link NAME TARGET            makes a symbolic link
    patch NAME OFFSET HEX       overwrites bytes of a file
    folder NAME                 makes a folder
    holds NAME LENGTH HEX ..    a file has this length and ends with these bytes
    run [WORD ..]               begins a run of the program; what follows, up to the next line of another kind, belongs to it:
    > LINE                      a line of its input; `>-` one without its newline at the end
    < LINE                      a line of what it must write
    ! LINE                      a line of what it must write on standard error
    kill                        it is killed once it has written that, in place of the end of its input
    status N                    the exit status, 0 if not said
    to NAME                     what it writes goes to this file, such as /dev/full

In all of them `%{TEXT*N}` stands for a text N times, the inner one first where one stands in another; in it `\\n` is a newline. And
`%{head GENERATION BASE LENGTH}` stands for the hex digits of the head of a journal's file, as far as it is said: with an open gate, in the
layout that is written.
"""

import concurrent.futures
import os
import re
import select
import shutil
import signal
import subprocess
import tempfile
import threading

import under
import waves

DEFAULTS = {"music": '"music"', "journal_a": '"a"', "journal_b": '"b"', "key": '"' + "5a" * 32 + '"'}
SECONDS = under.seconds(60)
LAYOUT = 2
HEAD = re.compile(r"%\{head((?: \d+){0,3})\}")
# So many seconds without a byte, and a program that is to be killed has written all.
QUIET = 1


class Failure(Exception):
    """What a script found wrong."""


class Run:
    """A run of the program, as its lines have it."""

    def __init__(self, words, line):
        # Of each of its lines the number, the sign and the bytes.
        self.words, self.line, self.lines = words, line, []
        self.given, self.wanted, self.told = b"", b"", b""
        self.status, self.is_killed, self.to = 0, False, None

    def take(self, number, line):
        """Whether the line belongs to the run."""
        word, _, rest = line.partition(" ")
        self.lines.append((number, word, whole(rest)))
        if word in (">", ">-"):
            self.given += whole(rest) + b"\n" * (word == ">")
        elif word == "<":
            self.wanted += whole(rest) + b"\n"
        elif word == "!":
            self.told += whole(rest) + b"\n"
        elif word == "status":
            self.status = int(rest)
        elif word == "to":
            self.to = rest
        elif line == "kill":
            self.is_killed = True
        else:
            self.lines.pop()
            return False
        return True

    def do(self, program, folder):
        written, told, ended = self.outcome(program, folder)
        self.compare("standard output", written, self.wanted)
        self.compare("standard error", told, self.told)
        status = -signal.SIGKILL if self.is_killed else self.status
        if ended != status:
            raise Failure(f"line {self.line}: it ended with status {ended}, and not {status}")

    def outcome(self, program, folder, is_known=True):
        """What it writes, what on standard error, and its status. Where it is not known what it writes, it is killed once it is quiet."""
        out = open(self.to, "wb") if self.to else subprocess.PIPE
        how = {"cwd": folder, "stdin": subprocess.PIPE, "stdout": out, "stderr": subprocess.PIPE, "start_new_session": True}
        with subprocess.Popen([program, *self.words], **how) as process:
            ender = threading.Timer(SECONDS, os.killpg, (process.pid, signal.SIGKILL))
            ender.start()
            try:
                written, told = self.killed(process, is_known) if self.is_killed else process.communicate(self.given)
            finally:
                ender.cancel()
        return written or b"", told, process.returncode

    def killed(self, process, is_known):
        process.stdin.write(self.given)
        process.stdin.flush()
        written = b""
        while len(written) < len(self.wanted) if is_known else select.select([process.stdout], [], [], QUIET)[0]:
            piece = os.read(process.stdout.fileno(), 65536)
            if not piece:
                break
            written += piece
        os.killpg(process.pid, signal.SIGKILL)
        rest, told = process.stdout.read(), process.stderr.read()
        process.wait()
        return written + rest, told

    def compare(self, what, found, wanted):
        if found != wanted:
            at = next((it for it, (one, other) in enumerate(zip(found, wanted)) if one != other), min(len(found), len(wanted)))
            raise Failure(f"line {self.line}: {what} differs at byte {at}: found {found[at : at + 80]!r}, wanted {wanted[at : at + 80]!r}")


def head(*numbers, layout=LAYOUT):
    """The front of a journal's file: its generation, its base and its snapshot's length, as far as they are given."""
    return b"\xa5MPDJRNL" + b"".join(number.to_bytes(size, "little") for number, size in zip((layout, *numbers), (4, 8, 8, 4)))


def with_heads(text):
    return HEAD.sub(lambda it: head(*map(int, it[1].split())).hex(), text)


def whole(text):
    text, count = with_heads(text), 1
    while count:
        text, count = re.subn(r"%\{((?:(?!%\{).)+?)\*(\d+)\}", lambda it: it[1].replace("\\n", "\n") * int(it[2]), text)
    return text.encode()


def wave(frames, infos):
    """The bytes of a WAVE file."""
    texts = [it.replace("_", " ").split("=", 1) for it in infos]
    return waves.wave_of(bytes(2 * frames), more=waves.info(*texts) if texts else b"")


def configuration(settings):
    keys = dict(DEFAULTS)
    for setting in settings:
        key, _, value = setting.partition("=")
        if key.endswith(":"):
            keys[key[:-1]] = value
        elif value:
            keys[key] = f'"{value}"'
        else:
            keys.pop(key)
    return "".join(f"{key} = {value}\n" for key, value in keys.items())


def read(path):
    with open(path, "rb") as file:
        return file.read()


def text_of(path):
    return read(path).decode()


def write(path, content):
    """Writes a file of bytes or of text, and makes the folders above it."""
    os.makedirs(os.path.dirname(os.path.abspath(path)), exist_ok=True)
    with open(path, "wb") as file:
        file.write(content.encode() if isinstance(content, str) else content)


def write_at(path, place, content):
    """Overwrites bytes of a file."""
    with open(path, "r+b") as file:
        file.seek(place)
        file.write(content)


def prepare(line, folder):
    """Does what a line says of files."""
    word, *words = whole(line).decode().split()
    path = os.path.join(folder, words[0]) if words else folder
    if word == "config":
        write(path, configuration(words[1:]))
    elif word == "folder":
        os.makedirs(path)
    elif word == "file":
        write(path, bytes.fromhex("".join(words[1:])))
    elif word == "wave":
        write(path, wave(int(words[1]), words[2:]))
    elif word == "waves":
        for number in range(1, int(words[1]) + 1):
            write(f"{path}/{number:05}.wav", wave(int(words[2]), []))
    elif word == "texts":
        for number in range(1, int(words[1]) + 1):
            write(f"{path}/{number:05}.txt", b"")
    elif word == "pipe":
        os.makedirs(os.path.dirname(path), exist_ok=True)
        os.mkfifo(path)
    elif word == "modified":
        os.utime(path, (int(words[1]), int(words[1])))
    elif word == "odd":
        write(os.path.join(os.fsencode(path), bytes.fromhex(words[1])), b"")
    elif word == "remove":
        if os.path.isdir(path) and not os.path.islink(path):
            shutil.rmtree(path)
        else:
            os.remove(path)
    elif word == "link":
        os.symlink(words[1], path)
    elif word == "patch":
        write_at(path, int(words[1]), bytes.fromhex("".join(words[2:])))
    elif word == "holds":
        content = read(path)
        if len(content) != int(words[1]) or not content.endswith(bytes.fromhex("".join(words[2:]))):
            raise Failure(f"{words[0]} has {len(content)} bytes: {content[-200:].hex()} at its end")
    else:
        raise Failure(f"no such line: {line}")


def run_script(program, path):
    """What a script found wrong, or None."""
    with tempfile.TemporaryDirectory(prefix="script-") as folder:
        try:
            do_lines(path, folder, lambda run, place: run.do(program, place))
        except (Failure, OSError, ValueError) as fault:
            return str(fault)
    return None


def do_lines(path, folder, do):
    """Does the lines of a script in a folder, each run by `do`."""
    run = None
    for number, line in enumerate([*text_of(path).split("\n"), "end"], 1):
        if not line or line.startswith("#") or run and run.take(number, line):
            continue
        if run:
            do(run, folder)
            run = None
        if line.split()[0] == "run":
            run = Run(line.split()[1:], number)
        elif line != "end":
            prepare(line, folder)


def scripts_in(folder):
    return sorted(f"{at}/{name}" for at, _, files in os.walk(folder) for name in files if name.endswith(".txt"))


def run_all(program, paths):
    """Each of these scripts with what it found wrong, or None."""
    with concurrent.futures.ThreadPoolExecutor(4) as pool:
        return [*zip(paths, pool.map(lambda path: run_script(program, path), paths))]
