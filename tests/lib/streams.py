"""The streams of the clients of tests/simulation, and what a turn of the loop prints of them."""

import collections
import copy
import re

# So many bytes of answers are held for a client at most.
MOST_HELD = 8_388_608

TURN_WORDS = re.compile(r"(event|before|collected|refused|no memory at) (\d+)|nothing done, refused (43)")
READ, GOT, CLOSED = re.compile(r"(\d+) read (\d+) (\d+)"), re.compile(r"(\d+)< (.*)", re.DOTALL), re.compile(r"(\d+) closed")


class Finding(Exception):
    """Something that the model doesn't allow; the lines that it would have had printed in place of the last ones, or None."""

    def __init__(self, text, wanted=None):
        super().__init__(text)
        self.wanted = wanted


class Over(Exception):
    """The episode can't go on, and nothing is wrong."""


def shown(text):
    """The bytes of a send as its line has them."""
    for byte, sign in ((b"\n", b"%n"), (b"\r", b"%r"), (b"\xff", b"%b")):
        text = text.replace(byte, sign)
    return text.decode()


def lines_of(client, text):
    """What the driver prints for a client that gets these bytes."""
    whole = text.decode(errors="replace").split("\n")
    return [f"{client}< {it}" for it in whole[:-1]] + ([f"{client}< {whole[-1]}%"] if whole[-1] else [])


class Stream:
    """A client's connection, as its client sees it."""

    KIND = "requests"

    def __init__(self, number):
        self.number = number
        # What it wants to send and has not, and the requests that were sent, each with the place behind its last byte.
        self.unsent, self.made, self.requests = b"", 0, collections.deque()
        self.sent = self.read = 0
        # What it was given and has not got, and how many bytes of it came by requests of others behind its own last one.
        self.due, self.unasked = b"", 0
        self.is_blocked, self.has_ended, self.budget = False, False, None
        # A call of it fails, or blocks, so that it may be let go of, or get things late.
        self.may_fail, self.may_lag = False, 0
        # It has asked for a channel.
        self.has_subscribed = False
        # It is read from the turn on behind the one in which it is accepted.
        self.is_new = True
        # It waits for the answer to a list that is read in several turns; or its answers were too long, so that it gets nothing more.
        self.is_busy, self.is_lost = False, False

    def is_free(self):
        """Whether nothing holds it up: all that it is owed comes in this turn, and all that it sent is read."""
        return not (self.is_blocked or self.may_fail or self.may_lag)

    def is_idle(self):
        """Whether nothing is on its way, and nothing holds it up."""
        return self.is_free() and not (self.is_new or self.unsent or self.due or self.budget) and self.read == self.sent

    def must_go(self, closed):
        """Whether it is let go of in this turn, if the daemon has closed these."""
        is_over = self.number in closed or self.is_lost or self.has_ended and not self.budget
        return self.is_free() and not self.is_new and is_over

    def ask(self, request):
        self.unsent += request.text
        self.made += len(request.text)
        self.has_subscribed = self.has_subscribed or b"subscribe" in request.text
        self.requests.append((self.made, request))

    def next_piece(self, draw):
        """A front of what it wants to send, cut where a character ends."""
        count = draw.choice([len(self.unsent), draw.randint(1, len(self.unsent))])
        while count < len(self.unsent) and self.unsent[count] & 0xC0 == 0x80:
            count += 1
        piece, self.unsent = self.unsent[:count], self.unsent[count:]
        self.sent += count
        return piece

    def taken(self, count):
        """The requests that are whole once so many bytes more were read."""
        self.read += count
        found = []
        while self.requests and self.requests[0][0] <= self.read:
            found.append(self.requests.popleft()[1])
        return found

    def give(self, text, has_asked):
        """It is to get these bytes, for a request of its own or of another."""
        self.due, self.unasked = self.due + text, 0 if has_asked else self.unasked + len(text)
        self.is_busy = self.is_busy and not has_asked
        if self.is_lost or len(self.due) > MOST_HELD:
            self.is_lost, self.due, self.may_lag = True, b"", 0

    def copied(self):
        return copy.copy(self)

    def get(self, text):
        """It gets these bytes."""
        if not self.due.startswith(text):
            raise Finding(f"client {self.number} got {text[:300]!r}, and is owed {self.due[:300]!r}")
        self.due = self.due[len(text) :]


class Turn:
    """What a turn of the loop printed, read."""

    def __init__(self, printed):
        self.events, self.left, self.refused, self.stops, self.has_ended = [], 0, None, {}, False
        self.reads, self.closed, self.is_nothing, self.parts = [], set(), False, []
        pieces = collections.defaultdict(list)
        for line in printed:
            self.take(line, pieces)
        # What each client got.
        self.got = {number: b"".join(it) for number, it in pieces.items()}

    def take(self, line, pieces):
        if found := TURN_WORDS.fullmatch(line):
            self.parts.append(line)
            self.take_part(found[1], int(found[2] or found[3]))
        elif line == "ended":
            self.parts.append(line)
            self.has_ended = True
        elif found := READ.fullmatch(line):
            self.reads.append((int(found[3]), int(found[1]), int(found[2])))
        elif found := GOT.fullmatch(line):
            text = found[2].encode(errors="surrogateescape")
            pieces[int(found[1])].append(text[:-1] if text.endswith(b"%") else text + b"\n")
        elif found := CLOSED.fullmatch(line):
            self.closed.add(int(found[1]))
        else:
            raise Finding(f"a turn printed {line!r}")

    def wanted(self, got, closed):
        """What it would have printed, if clients had got this and were let go of so."""
        clients = ((lines_of(it, got.get(it, b"")), [f"{it} closed"] * (it in closed)) for it in sorted({*got, *closed}))
        return [*self.parts, *(line for lines in clients for some in lines for line in some)]

    def take_part(self, word, number):
        if word == "event":
            self.events.append(number)
        elif word == "no memory at":
            self.stops[len(self.events) - 1] = number
        elif word == "refused":
            self.refused = number
        elif word is None:
            self.is_nothing = True
        else:
            self.left += number
