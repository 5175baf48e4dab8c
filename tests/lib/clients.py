"""Clients of a program, by the bytes that they send and get. Each wait has a limit, at which a test fails; nothing else depends on time."""

import contextlib
import os
import select
import socket
import subprocess
import time

import under
from scripts import Failure

GREETING = b"OK MPD 0.23.0\n"
# How many seconds a wait lasts at most, however slow the machine is.
LIMIT = under.seconds(60)


def wait_for(what, is_there, seconds=LIMIT):
    """Looks again and again; fails at the limit."""
    end = time.monotonic() + seconds
    while not is_there():
        if time.monotonic() > end:
            raise Failure(f"waited in vain: {what}")
        time.sleep(0.002)


def family_of(address):
    if isinstance(address, str):
        return socket.AF_UNIX
    return socket.AF_INET6 if ":" in address[0] else socket.AF_INET


def in_one_list(commands):
    return "\n".join(["command_list_begin", *commands, "command_list_end"])


def is_whole(answer):
    """Whether these bytes end as an answer does."""
    last = answer[:-1].rpartition(b"\n")[2]
    return answer.endswith(b"\n") and (last == b"OK" or last.startswith(b"ACK "))


class Client:
    """A connection. It reads the greeting first, unless told otherwise."""

    # What ends an answer, beside a refusal.
    ENDS = (b"OK",)

    def __init__(self, address, greeted=True):
        self.socket, self.unread = socket.socket(family_of(address)), b""
        self.socket.settimeout(LIMIT)
        self.socket.connect(address)
        if greeted:
            self.greet()

    def greet(self):
        if self.line() != GREETING[:-1]:
            raise Failure("no greeting")
        return self

    def __enter__(self):
        return self

    def __exit__(self, *_):
        self.socket.close()

    def send(self, text):
        self.socket.sendall(text if isinstance(text, bytes) else text.encode())

    def piece(self):
        """What comes next; nothing where the connection has ended."""
        try:
            return self.socket.recv(1 << 16)
        except ConnectionResetError:
            return b""
        except TimeoutError as fault:
            raise Failure(f"no line within {LIMIT} seconds behind {self.unread[:80]}") from fault

    def line(self):
        """The next line, without its newline; None where the connection has ended."""
        while b"\n" not in self.unread:
            if not (piece := self.piece()):
                return None
            self.unread += piece
        line, _, self.unread = self.unread.partition(b"\n")
        return line

    def answered(self):
        """The bytes of an answer up to its end; less where no more came."""
        lines = []
        while (line := self.line()) is not None:
            lines.append(line + b"\n")
            if line in self.ENDS or line.startswith(b"ACK "):
                return b"".join(lines)
        rest, self.unread = self.unread, b""
        return b"".join([*lines, rest])

    def answer(self):
        """The lines of an answer, the last one too."""
        answer = self.answered()
        if not is_whole(answer):
            raise Failure(f"the connection ended behind {answer[-300:]}")
        return answer.decode().split("\n")[:-1]

    def ask(self, request):
        self.send(request + "\n")
        return self.answer()

    def do(self, *requests):
        """Sends requests that must be answered by OK alone, or by lines before it."""
        for request in requests:
            lines = self.ask(request)
            if lines[-1] != "OK":
                raise Failure(f"{request}: {lines[-1]}")

    def values(self, request, key):
        """The values of the lines of this key in the answer."""
        return [it[len(key) + 2 :] for it in self.ask(request) if it.startswith(f"{key}: ")]

    def value(self, request, key):
        """The first of them; None where there is none."""
        return next(iter(self.values(request, key)), None)

    def bytes(self, count):
        """The next bytes, so many."""
        while len(self.unread) < count:
            if not (piece := self.piece()):
                raise Failure(f"the connection ended behind {self.unread[-80:]}")
            self.unread += piece
        found, self.unread = self.unread[:count], self.unread[count:]
        return found

    def chunk(self, request=None):
        """The bytes of an answer with a chunk of a picture, to a request if it is sent now, and the values of its lines by their keys."""
        self.send(f"{request}\n" if request else "")
        told = {}
        while "binary" not in told:
            key, _, value = (self.line() or b"").decode().partition(": ")
            if key in ("OK", "") or key.startswith("ACK"):
                raise Failure(f"no chunk: {key} {value}")
            told[key] = value
        found, end = self.bytes(int(told["binary"])), self.bytes(4)
        if end != b"\nOK\n":
            raise Failure(f"a chunk ends with {end}")
        return found, told

    def picture(self, command, uri):
        """A picture, the length of its longest chunk, and its type."""
        whole, longest, told = bytearray(), 0, {"size": 1}
        while len(whole) < int(told["size"]):
            piece, told = self.chunk(f'{command} "{uri}" {len(whole)}')
            whole += piece
            longest = max(longest, len(piece))
        return bytes(whole), longest, told.get("type")

    def settle(self):
        """Waits for the end of a scan."""
        wait_for("the end of the scan", lambda: self.value("status", "updating_db") is None)

    def is_ended(self):
        """Whether nothing more comes; what was on its way is lost."""
        while self.line() is not None:
            pass
        return not self.unread


def listens(address):
    """Whether somebody takes clients there."""
    try:
        Client(address, greeted=False).socket.close()
    except OSError:
        return False
    return True


def wait_to_listen(process, address, said=lambda: ""):
    """Waits until a program that has begun takes clients there; a finding where it ends before, with what it said."""

    def is_there():
        if process.poll() is not None:
            raise Failure(f"it ended with {process.returncode}: {said()}")
        return listens(address)

    wait_for("a program that listens", is_there)


class Console(Client):
    """A client of a console of its own, which answers one request after the other."""

    def __init__(self, program, config, greeted=True, **how):
        pipes = {"stdin": subprocess.PIPE, "stdout": subprocess.PIPE, "bufsize": 0}
        self.process, self.unread = subprocess.Popen([program, "console", config], **{**pipes, **how}), b""
        if greeted:
            self.greet()

    def __exit__(self, *_):
        self.process.kill()
        with self.process:
            self.unread = b""

    def send(self, text):
        self.process.stdin.write(text if isinstance(text, bytes) else text.encode())

    def piece(self):
        if not select.select([self.process.stdout], [], [], LIMIT)[0]:
            raise Failure(f"no line within {LIMIT} seconds behind {self.unread[:80]}")
        return os.read(self.process.stdout.fileno(), 1 << 16)

    def end(self):
        """Its input ends: the exit status."""
        with contextlib.suppress(BrokenPipeError):
            self.process.stdin.close()
        return self.process.wait(LIMIT)
