"""What the daemon keeps, as plain lists: the state after each change by docs/PROTOCOL.md. lib/readings.py has what a client reads of it,
lib/player.py what plays.

No place is relative.
"""

import copy
import functools
import re
import typing
import unicodedata

MASK = 2**32 - 1
# An expression of one test.
EXPRESSION = re.compile(r"\((\w+) (\S+) '(.*)'\)")

# The settings and their values, in the order of the lines of `status`.
SETTINGS = {
    "volume": [str(it) for it in range(101)],
    "repeat": ["0", "1"],
    "random": ["0", "1"],
    "single": ["0", "1", "oneshot"],
    "consume": ["0", "1", "oneshot"],
}


class Refused(Exception):
    """A command is refused: its code and its text."""

    def __init__(self, code, text):
        super().__init__(text)
        self.code, self.text = code, text


NO_FILE, NO_SONG = (50, "No such file or directory"), (50, "No such song")
NO_LIST, LIST_EXISTS = (50, "No such playlist"), (56, "Playlist already exists")
NO_STICKER, BAD_INDEX = (50, "no such sticker"), (2, "Bad song index")


class Song(typing.NamedTuple):
    """A song of one channel and 8,000 frames a second."""

    frames: int
    title: str
    # When its file was last changed, as it is told.
    modified: str = ""

    def lines(self):
        milliseconds = self.frames * 1000 // 8000
        modified = f"Last-Modified: {self.modified}\n" if self.modified else ""
        title = f"Title: {self.title}\n" if self.title else ""
        seconds = f"{milliseconds // 1000}.{milliseconds % 1000:03}"
        return f"{modified}Format: 8000:16:1\n{title}Time: {milliseconds // 1000}\nduration: {seconds}\n"


class Entry(typing.NamedTuple):
    id: int
    uri: str
    prio: int = 0

    def lines(self, song, position):
        prio = f"Prio: {self.prio}\n" if self.prio else ""
        return f"file: {self.uri}\n{song.lines()}Pos: {position}\nId: {self.id}\n{prio}"


def quoted(word):
    return word if word and not set(word) & set(' \t"\\') else '"' + word.replace("\\", "\\\\").replace('"', '\\"') + '"'


def request(words):
    """The line of these words."""
    return " ".join(map(quoted, words)).encode() + b"\n"


def list_request(commands, is_list_ok):
    """The lines of a command list."""
    begin = ["command_list_ok_begin" if is_list_ok else "command_list_begin"]
    return b"".join(map(request, [begin, *commands, ["command_list_end"]]))


def by_bytes(texts):
    return sorted(texts, key=str.encode)


# In the order in which a daemon with `stock_clients` has them, before all letters.
SIGNS = " _-,;:!?.'\"()[]{}@*/\\&#%`^+<=>|~$0123456789"


def letter(character):
    """A sign or a digit by its place among them; a letter without its marks, whatever its case."""
    if character in SIGNS:
        return SIGNS.index(character)
    base = unicodedata.normalize("NFD", character)[0]
    return len(SIGNS) + ord(base.casefold() if len(base.casefold()) == 1 else base)


def name_key(name):
    return [letter(it) for it in name], name.encode()


def folder_key(path):
    return [(1, name_key(it)) for it in path.split("/")]


def told_key(uri):
    """A song in its folder, before the folders there; it has no album, disc or track."""
    folder, slash, name = uri.rpartition("/")
    return [*(folder_key(folder) if slash else []), (0, name_key(name))]


def span(text, length):
    """The first and the end position of a range."""
    first, colon, end = text.partition(":")
    if int(first) > length - (not colon):
        raise Refused(*BAD_INDEX)
    return int(first), (max(int(first), min(int(end), length)) if end else length) if colon else int(first) + 1


def place_in(text, length):
    """A position among so many."""
    if int(text) >= length:
        raise Refused(*BAD_INDEX)
    return int(text)


def moved(items, first, end, to):
    """The block is taken out, and its first item put at a place of the rest."""
    place_in(to, len(items) - (end - first) + 1)
    rest = items[:first] + items[end:]
    return rest[:to] + items[first:end] + rest[to:]


def swapped(items, one, other):
    items = list(items)
    items[one], items[other] = items[other], items[one]
    return tuple(items)


def quarter_round(now, a, b, c, d):
    for to, by, other, turn in ((a, b, d, 16), (c, d, b, 12), (a, b, d, 8), (c, d, b, 7)):
        now[to] = (now[to] + now[by]) & MASK
        mixed = now[other] ^ now[to]
        now[other] = (mixed << turn | mixed >> 32 - turn) & MASK


@functools.lru_cache(1 << 16)
def random_word(key, stream, place):
    """The word at a place of a stream of ChaCha with 8 rounds, whose counter and stream have 64 bits each."""
    text = b"expand 32-byte k" + key + (place // 16).to_bytes(8, "little") + stream.to_bytes(8, "little")
    begin = [int.from_bytes(text[it : it + 4], "little") for it in range(0, 64, 4)]
    now = list(begin)
    for it in range(32):
        turn, column = it // 4 % 2, it % 4
        quarter_round(now, column, *(4 * row + (column + row * turn) % 4 for row in (1, 2, 3)))
    return (now[place % 16] + begin[place % 16]) & MASK


class State:
    """What is kept. A method named as a command makes its change, and gives its lines where it has some."""

    # Whether it is that of a daemon with `stock_clients`: the lines of `readings` tell it, and the player goes on as MPD does.
    is_wide = False
    # What a clock told: for how many seconds the daemon has run, and when its database was last read.
    uptime, updated = 0, 0

    def __init__(self, songs, key):
        self.songs, self.key = songs, key
        self.settings = {name: values[-1 if name == "volume" else 0] for name, values in SETTINGS.items()}
        self.queue, self.stamps = (), ()
        self.version, self.next_id, self.order_number = 1, 1, 0
        self.playlists, self.stickers = {}, {}

    def perform(self, words):
        """Does a command, and gives its lines."""
        name = words[0] + ("_" + words[1] if words[0] == "sticker" else "")
        return getattr(self, name)(*words[3 if words[0] == "sticker" else 1 :]) or ""

    def done(self, words):
        """The state after a command, and the lines that it gives."""
        state = self.copied()
        return state, state.perform(words)

    def copied(self):
        state = copy.copy(self)
        state.settings, state.playlists, state.stickers = dict(self.settings), dict(self.playlists), dict(self.stickers)
        return state

    def each(self, commands):
        """The state after each of these commands, and its lines; of the first one that is refused the refusal, and none behind it."""
        state = self
        for words in commands:
            try:
                state, lines = state.done(words)
            except Refused as refusal:
                yield state, refusal
                return
            yield state, lines

    def after(self, commands, is_list_ok=False):
        """The state after commands, alone or as a list, and their answer."""
        state, given = self, ""
        for index, (state, lines) in enumerate(self.each(commands)):
            if isinstance(lines, Refused):
                return state, f"{given}ACK [{lines.code}@{index}] {{{commands[index][0]}}} {lines.text}\n".encode()
            given += lines + "list_OK\n" * is_list_ok
        return state, f"{given}OK\n".encode()

    def seen(self):
        """All that a client can read of what is kept but the stamps, to be told from other states."""
        parts = [frozenset(it.items()) for it in (self.settings, self.playlists, self.stickers, self.songs)]
        return self.version, self.queue, *parts

    def told(self, uris):
        """Songs in the order in which they are told."""
        return sorted(uris, key=told_key) if self.is_wide else by_bytes(uris)

    def songs_of(self, uri):
        """The song, or the songs below the folder, if one is there."""
        folder = "" if uri in ("", "/") else uri + "/"
        return [uri] if uri in self.songs else self.told(it for it in self.songs if it.startswith(folder))

    def songs_at(self, uri):
        """The same; a place that isn't there is refused."""
        if not (found := self.songs_of(uri)) and uri not in ("", "/"):
            raise Refused(*NO_FILE)
        return found

    def must_know(self, uri):
        if uri not in self.songs:
            raise Refused(*NO_FILE)

    def listed(self, name):
        if name not in self.playlists:
            raise Refused(*NO_LIST)
        return self.playlists[name]

    def position(self, number):
        found = next((at for at, entry in enumerate(self.queue) if entry.id == int(number)), None)
        if found is None:
            raise Refused(*NO_SONG)
        return found

    # The settings.

    def set(self, name, value):
        self.settings[name] = value

    def setvol(self, value):
        self.set("volume", value)

    def repeat(self, value):
        self.set("repeat", value)

    def random(self, value):
        self.order_number += (self.settings["random"], value) == ("0", "1")
        self.set("random", value)

    def single(self, value):
        self.set("single", value)

    def consume(self, value):
        self.set("consume", value)

    # The queue.

    def edit(self, queue, songs=None):
        """Where the queue differs, with its songs, the version grows by one and is the stamp of just the positions that differ."""
        was = [(it, self.songs[it.uri]) for it in self.queue]
        self.queue, self.songs = queue, self.songs if songs is None else songs
        now = [(it, self.songs[it.uri]) for it in queue]
        if now != was:
            self.version += 1
            same = [one == other for one, other in zip(was, now)] + [False] * len(now)
            self.stamps = tuple(self.stamps[at] if same[at] else self.version for at in range(len(now)))

    def insert(self, uris, to):
        place = len(self.queue) if to is None else place_in(to, len(self.queue) + 1)
        entries = tuple(Entry(number, uri) for number, uri in enumerate(uris, self.next_id))
        self.next_id += len(entries)
        self.edit(self.queue[:place] + entries + self.queue[place:])

    def add(self, uri, to=None):
        self.insert(self.songs_at(uri), to)

    def addid(self, uri, to=None):
        self.must_know(uri)
        self.insert([uri], to)
        return f"Id: {self.next_id - 1}\n"

    def delete(self, text):
        first, end = span(text, len(self.queue))
        self.edit(self.queue[:first] + self.queue[end:])

    def deleteid(self, number):
        self.delete(str(self.position(number)))

    def clear(self):
        self.edit(())

    def move(self, text, to):
        self.edit(moved(self.queue, *span(text, len(self.queue)), int(to)))

    def moveid(self, number, to):
        self.move(str(self.position(number)), to)

    def swap(self, one, other):
        self.edit(swapped(self.queue, *(place_in(it, len(self.queue)) for it in (one, other))))

    def swapid(self, one, other):
        self.swap(self.position(one), self.position(other))

    def shuffle(self, text="0:"):
        first, end = span(text, len(self.queue))
        if end - first > 1:
            self.order_number += 1
            word = lambda entry: (random_word(self.key, self.order_number, entry.id), entry.id)
            self.edit(self.queue[:first] + tuple(sorted(self.queue[first:end], key=word)) + self.queue[end:])

    def prio(self, prio, *ranges):
        raised = {at for it in ranges for at in range(*span(it, len(self.queue)))}
        self.edit(tuple(it._replace(prio=int(prio)) if at in raised else it for at, it in enumerate(self.queue)))

    def prioid(self, prio, *numbers):
        self.prio(prio, *(str(self.position(it)) for it in numbers))

    def load(self, name, text="0:", to=None):
        first, end = span(text, len(self.listed(name)))
        self.insert([it for it in self.playlists[name][first:end] if it in self.songs], to)

    # What is found, by pairs of a tag and a value, and by expressions of one test.

    def texts(self, uri, tag):
        """What the song has of the tag; the songs have no tag but a title."""
        song = self.songs[uri]
        return [uri] if tag == "file" else [song.title] if song.title and tag in ("title", "any") else []

    def holds(self, uri, is_folded, tag, sign, value):
        if tag == "base":
            return uri in self.songs_of(value)
        if sign[0] == "!":
            return not self.holds(uri, is_folded, tag, {"!=": "==", "!~": "=~"}.get(sign, sign[1:]), value)
        texts = self.texts(uri, tag)
        if sign == "=~":
            return any(re.search(value.encode(), it.encode(), re.DOTALL | re.IGNORECASE * is_folded) for it in texts)
        if not value:
            return not texts
        fold = str.casefold if is_folded else str
        is_within = sign == "contains" or sign == "pair" and is_folded
        return any(fold(value) in fold(it) if is_within else fold(value) == fold(it) for it in texts)

    def matching(self, uris, words, is_folded):
        tests, words = [], list(words)
        while words:
            if words[0][0] == "(":
                tag, sign, value = EXPRESSION.fullmatch(words.pop(0)).groups()
                tests.append((tag, sign, re.sub(r"\\(.)", r"\1", value)))
            else:
                tests.append((words.pop(0), "pair", words.pop(0)))
        return [uri for uri in uris if all(self.holds(uri, is_folded, *it) for it in tests)]

    def arranged(self, words, find):
        """What is found, as pairs of a song and something of it, sorted by the song and cut, and the place that is named."""
        words, parts = list(words), {}
        while words[-2:-1] and words[-2] in ("sort", "window", "position"):
            *words, name, parts[name] = words
        found = find(words)
        if order := parts.get("sort"):
            key = lambda it: [text.encode() for text in self.texts(it[0], order.removeprefix("-"))]
            found.sort(key=key, reverse=order.startswith("-"))
        # Past the end a window has nothing.
        first, end = span(parts.get("window", "0:"), max(len(found), int(parts.get("window", "0:").split(":")[0])))
        return [it for _, it in found[first:end]], parts.get("position")

    def found(self, words, is_folded):
        """The songs that match, sorted and cut, and the place that is named."""
        return self.arranged(words, lambda it: [(uri, uri) for uri in self.matching(self.told(self.songs), it, is_folded)])

    def places_found(self, words, is_folded):
        """The same of the queue: positions."""
        matches = lambda uri, it: self.matching([uri], it, is_folded)
        return self.arranged(words, lambda it: [(entry.uri, at) for at, entry in enumerate(self.queue) if matches(entry.uri, it)])[0]

    def findadd(self, *words):
        self.insert(*self.found(words, False))

    def searchadd(self, *words):
        self.insert(*self.found(words, True))

    def searchaddpl(self, name, *words):
        self.put_in(name, *self.found(words, True))

    # Playlists.

    def save(self, name, mode="create"):
        if mode == "create" and name in self.playlists:
            raise Refused(*LIST_EXISTS)
        kept = () if mode == "create" else self.listed(name) if mode == "append" else self.listed(name)[:0]
        self.playlists[name] = kept + tuple(it.uri for it in self.queue)

    def rm(self, name):
        self.listed(name)
        del self.playlists[name]

    def rename(self, name, other):
        self.listed(name)
        if other in self.playlists:
            raise Refused(*LIST_EXISTS)
        self.playlists[other] = self.playlists.pop(name)

    def playlistadd(self, name, uri, to=None):
        self.put_in(name, self.songs_at(uri), to)

    def put_in(self, name, songs, to):
        """Songs come into a playlist, at its end or at a place."""
        kept = self.playlists.get(name, ())
        place = len(kept) if to is None else place_in(to, len(kept) + 1)
        self.playlists[name] = kept[:place] + tuple(songs) + kept[place:]

    def playlistclear(self, name):
        self.listed(name)
        self.playlists[name] = ()

    def playlistdelete(self, name, text):
        first, end = span(text, len(self.listed(name)))
        self.playlists[name] = self.playlists[name][:first] + self.playlists[name][end:]

    def playlistmove(self, name, text, to):
        songs = self.listed(name)
        self.playlists[name] = moved(songs, *span(text, len(songs)), int(to))

    # Stickers.

    def sticker_set(self, uri, name, value):
        self.must_know(uri)
        self.stickers[uri, name] = value

    def sticker_delete(self, uri, name=None):
        self.must_know(uri)
        gone = {it for it in self.stickers if it[0] == uri and name in (None, it[1])}
        if not gone:
            raise Refused(*NO_STICKER)
        self.stickers = {it: value for it, value in self.stickers.items() if it not in gone}
