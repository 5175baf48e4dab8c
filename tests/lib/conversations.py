"""What stock clients ask for at random, the songs that it is about, and what a connection is told."""

import contextlib
import os
import socket

from daemons import Client, update
from scripts import wave, write
from stock_rows import COUNTS, MODIFIED, NAMES, TAGS

# In each folder they come by their albums as by their names.
SONGS = {
    "a.wav": [],
    "b.wav": ["INAM=Alpha", "IART=One", "IPRD=First", "ICRD=2001", "IGNR=Folk", "ICMT=a_note"],
    "d/c.wav": ["INAM=Zoë", "IGNR=Folk"],
    "d/e.wav": ["INAM=say_\"x\"", "IART=Two", "IPRD=First", "ICMT=Title:_no"],
    "d/é é.wav": ["IART=One", "IPRD=Second"],
}
FIRST = ['add ""', "save old", "sticker set song a.wav n v", "command_list_begin\nplay 1\nstop\ncommand_list_end"]
OPERATORS = ["==", "==", "!=", "=~", "!~"]
PATTERNS = ["^[A-O]", "e$", "^.*o.+$", "(?i)x|o", "[[:digit:]]{2,4}", "\\bT\\w*?\\b", "(n|w)e", "a++", "*", "[z-a]", "\\d$", "Zo."]
FORMATS = ["8000:16:1", "8000:*:*", "*:16:2", "44100:f:2", "dsd64:2", "*:*:*", "0:16:1", "8000:16", "x"]
VALUES = ["", "One", "First", "x", "Zoë", 'say "x"', "2001", "a'b", "back\\slash"]


def prepare(daemon):
    """Gives a daemon its songs, a queue and a playlist; a song is current, and nothing plays."""
    for name, tags in SONGS.items():
        path = f"{daemon.folder}/music/{name}"
        write(path, wave(16_000, tags))
        os.utime(path, (MODIFIED, MODIFIED))
    with daemon.client() as client:
        update(client)
        client.do(*FIRST)
    return daemon


def spelled(draw, word):
    """A word of a line, in one of its spellings."""
    if word and draw.random() < 0.6 and not set(word) & set(' "\t'):
        return word
    return '"' + word.replace("\\", "\\\\").replace('"', '\\"') + '"'


def cased(draw, word):
    return draw.choice([word, word, word.lower(), word.upper()])


def any_tag(draw):
    return cased(draw, draw.choice([draw.choice(TAGS), draw.choice(TAGS[:6])]))


class Lines:
    """Draws the words of commands."""

    def __init__(self, draw):
        self.draw = draw

    def tag(self):
        return any_tag(self.draw)

    def foreign(self):
        draw = self.draw
        words = ["0", "0", "1", "00", "nan", "off", "default", "x", "", "a.wav", "-1"]
        name = draw.choice([*NAMES, "volume", "volume"])
        if name == "volume" and draw.random() < 0.8:
            return [name, draw.choice(["5", "+7", "-9", "-100", "100", "+0", "007", "101", "-101", "+-1", "-", "1.0"])]
        count = COUNTS[name]
        if draw.random() < 0.15:
            count = max(0, count + draw.choice([-1, 1]))
        return [name, *(draw.choice(words) for _ in range(count))]

    def value(self):
        return self.draw.choice(VALUES)

    def quoted(self):
        sign, value = self.draw.choice("'\""), self.draw.choice(PATTERNS) if self.draw.random() < 0.2 else self.value()
        return sign + value.replace("\\", "\\\\").replace(sign, "\\" + sign) + sign

    def expression(self, depth=0):
        draw, kind = self.draw, self.draw.random()
        if kind < 0.15 and depth < 4:
            return f"(!{self.expression(depth + 1)})"
        if kind < 0.35 and depth < 4:
            return "(" + " AND ".join(self.expression(depth + 1) for _ in range(draw.randint(1, 3))) + ")"
        if kind < 0.45:
            sign = draw.choice(["==", "!="])
            given = [f"(file {sign} {self.quoted()})", f"(filename {sign} {self.quoted()})", "(base 'd')", f"(FileName{sign}'a.wav')"]
            return draw.choice(given)
        tag, blank = draw.choice([self.tag(), self.tag(), cased(draw, "any"), "file"]), draw.choice(["", " ", "  "])
        if draw.random() < 0.06:
            return f"({cased(draw, 'AudioFormat')} {draw.choice(OPERATORS)} '{draw.choice(FORMATS)}')"
        if draw.random() < 0.3:
            return f"({blank}{tag} {draw.choice(['', '!'])}{cased(draw, 'contains')} {blank}{self.quoted()}{blank})"
        return f"({blank}{tag}{blank or ' '}{draw.choice(OPERATORS)}{blank}{self.quoted()}{blank})"

    def damaged(self, text):
        """The text with a piece more or less at some places."""
        draw = self.draw
        for _ in range(draw.randint(1, 3)):
            place = draw.randrange(len(text) + 1)
            added = draw.choice(["", "", " ", "(", ")", "'", '"', "!", "=", "\\", "x", "AND", " contains ", "(" * 33])
            text = text[:place] + added + text[place + draw.choice([0, 0, 1, 1, 5]) :]
        return text

    def filter(self):
        draw = self.draw
        pairs = [[draw.choice([self.tag(), self.tag(), "any", "file", "filename"]), self.value()] for _ in range(draw.randint(1, 3))]
        for number in range(len(pairs)):
            if draw.random() < 0.5:
                pairs[number] = [self.expression() if draw.random() < 0.8 else self.damaged(self.expression())]
        if draw.random() < 0.05:
            pairs.append([draw.choice(["foo", "group", "albumartists"]), "x"])
        return [*(it for pair in pairs for it in pair), *(["odd"] if draw.random() < 0.05 else [])]

    def finding(self):
        draw = self.draw
        name = draw.choice(["find", "search", "findadd", "searchadd", "searchaddpl", "playlistfind", "playlistsearch", "count"])
        words = [name, *(["found"] if name == "searchaddpl" else []), *self.filter()]
        if name in ("find", "search", "findadd", "searchadd"):
            if draw.random() < 0.5:
                words += ["sort", draw.choice(["", "-"]) + draw.choice([self.tag(), "file", "filename"])]
            if draw.random() < 0.2:
                words += ["window", draw.choice(["0:2", "1:", "7"])]
        if name in ("findadd", "searchadd") and draw.random() < 0.2:
            words += ["position", draw.choice(["0", "+0", "99"])]
        return words

    def listing(self):
        tag = self.tag() if self.draw.random() < 0.85 else cased(self.draw, self.draw.choice(["file", "filename"]))
        more = self.draw.choice([[], [], self.filter(), self.filter(), ["One"]])
        if self.draw.random() < 0.4:
            return self.grouped(tag, more)
        return ["list", tag, *more, *(["sort", "Title"] if more and self.draw.random() < 0.1 else [])]

    def grouped(self, tag, front):
        draw = self.draw
        ends = [["group", "foo" if draw.random() < 0.03 else self.tag()] for _ in range(draw.choice([1, 1, 1, 2, 2, 3]))]
        return [*draw.choice([["list", tag], ["list", tag], ["count"]]), *front, *(it for end in ends for it in end)]

    def masking(self):
        draw = self.draw
        if draw.random() < 0.3:
            return ["tagtypes"]
        if draw.random() < 0.4:
            return ["tagtypes", draw.choice(["all", "clear", "clear", "all", "Clear", "foo", "enable", "disable"])]
        tags = [self.tag() for _ in range(draw.randint(1, 4))] + (["foo"] if draw.random() < 0.05 else [])
        return ["tagtypes", draw.choice(["enable", "disable"]), *tags]


def pieces(draw, given, most=5):
    """The bytes, cut at random places."""
    places = sorted(draw.randrange(len(given) + 1) for _ in range(draw.randint(0, most)))
    return [given[one:other] for one, other in zip([0, *places], [*places, len(given)]) if one < other]


def rest_of(connection):
    """All that comes until the connection's end."""
    found = b""
    with contextlib.suppress(ConnectionResetError):
        while piece := connection.recv(1 << 16):
            found += piece
    return found


def send_all(client, given):
    with contextlib.suppress(BrokenPipeError):
        for piece in given:
            client.send(piece)
    with contextlib.suppress(OSError):
        client.socket.shutdown(socket.SHUT_WR)


def told(address, given):
    """All that a client is told that sends these pieces and then hangs up."""
    with Client(address, greeted=False) as client:
        send_all(client, given)
        return rest_of(client.socket)
