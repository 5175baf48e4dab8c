"""What crashes of all kinds have in common: the journal and the music before them, the requests that are drawn for the state that those
before leave, and which of these states a client may find. The states are told by plain lists (model.py, readings.py, player.py)."""

import collections
import contextlib
import copy
import fcntl
import os
import re

import changes
import model
import player
from clients import is_whole, wait_for
from daemons import Daemon
from scripts import Failure, wave, write
from stock_rows import is_of_this_hour

# The key of random order, and the songs of the music's folder, each with its frames and its title.
KEY = bytes([0x5A]) * 32
SONGS = {"a.wav": (800, "One"), "b.wav": (8001, ""), "d/c.wav": (16000, "Zwei und drei"), "d/e/f.wav": (1, ""), "ö 1.wav": (80, "4")}
FILES = "ab"
# When the files were changed, in seconds, and as `stock_clients` tells it.
CHANGED, MODIFIED = 86_400, "1970-01-02T00:00:00Z"
# At most so many changes are sent and not yet answered.
MOST_UNANSWERED = 64
# This part of the requests are command lists of several; this part of the others change nothing that is kept.
LISTS, OTHERS = 0.2, 0.3
# What the clock of a life tells, which no state has.
CLOCK = re.compile(rb"^(uptime|db_update): [0-9]+", re.MULTILINE)
LIST_TIME, UNKNOWN = re.compile(rb"^(playlist: .*\nLast-Modified: )([0-9TZ:-]*)", re.MULTILINE), b"1970-01-01T00:00:00Z"


def prepared(program, folder, left=None, is_old=False, is_wide=False, **settings):
    """A daemon on its socket alone, over a new journal: with so many records left before a checkpoint, of layout 1, or by `stock_clients`
    of layout 3."""
    wide = {"stock_clients:": "true"} if is_wide else {}
    daemon = Daemon(program, folder, tcp="", key=KEY.hex(), **settings, **({} if is_old else wide)).create()
    if left is not None:
        daemon.journal().fill(left, 100)
    if is_old:
        daemon.journal().make_old()
    daemon.settings |= wide
    daemon.write()
    return daemon


@contextlib.contextmanager
def full_pipe(path):
    """A pipe that takes nothing meanwhile: a player that writes into it comes no further."""
    if not os.path.exists(path):
        os.mkfifo(path)
    keeper = os.open(path, os.O_RDWR | os.O_NONBLOCK)
    os.write(keeper, bytes(fcntl.fcntl(keeper, fcntl.F_GETPIPE_SZ)))
    try:
        yield
    finally:
        os.close(keeper)


def playing(state, draw):
    """A command of the player behind which no song plays at its end, which would come even where the pipe takes nothing."""
    while True:
        words = changes.playing(state, draw)
        after, _ = state.after([words])
        if after.state != player.PLAY or after.frame < after.frames():
            return words


def fresh(songs=None, is_wide=False):
    """The state of a new journal."""
    state = player.Player(songs or {}, KEY)
    state.is_wide = is_wide
    return state


def ask_all(client, requests):
    """The bytes of the answers to these requests, each given as its words."""
    client.send(b"".join(map(model.request, requests)))
    found = [client.answered() for _ in requests]
    if not all(map(is_whole, found)):
        raise ConnectionResetError("an answer was cut off")
    return found


def untold(answer):
    """An answer, or the front of one, without what the clock tells: a playlist's time of the last hour stands as the plain model has it, as
    one that isn't known. It is known of each that was changed: otherwise it was lost."""
    told = lambda time: UNKNOWN if is_of_this_hour(time.decode()) else b"lost: " + time
    plain = lambda time: UNKNOWN[: len(time)] if len(time) < len(UNKNOWN) else told(time)
    return LIST_TIME.sub(lambda it: it[1] + plain(it[2]), CLOCK.sub(rb"\1: 0", answer))


def ended(console):
    if console.end() != 0:
        raise Failure("the console ended with a fault")


class Music:
    """The folder of the music, and the songs that stand in it; with `stock_clients` each was changed at the same time."""

    def __init__(self, folder, is_wide=False):
        self.folder, self.is_wide, self.songs = folder, is_wide, {}
        for uri, song in SONGS.items():
            self.put(uri, *song)

    def put(self, uri, frames, title):
        """The file is there at once, and whole."""
        path = f"{self.folder}/music/{uri}"
        write(f"{path}.part", wave(frames, [f"INAM={title}"] if title else []))
        if self.is_wide:
            os.utime(f"{path}.part", (0, CHANGED))
        os.rename(f"{path}.part", path)
        self.songs = {**self.songs, uri: model.Song(frames, title, MODIFIED if self.is_wide else "")}

    def remove(self, uri):
        os.remove(f"{self.folder}/music/{uri}")
        self.songs = {it: song for it, song in self.songs.items() if it != uri}

    def change(self, draw, kept):
        """A file goes, or comes with other sound and another title; not the one that is kept."""
        uri = draw.choice([it for it in SONGS if it != kept])
        if uri in self.songs and len(self.songs) > 2 and draw.random() < 0.5:
            self.remove(uri)
        else:
            self.put(uri, draw.choice([80, 8001, 16000]), draw.choice(["", "One", f"Take {draw.randrange(1000)}"]))


def kept(state):
    """All of it that is kept, to be told from other states."""
    return state.seen(), state.stamps, state.next_id, state.order_number, state.kept


class Front:
    """What is sent to a program that may end at any moment: the states from the one before the first request on, and the answers; a batch
    of a scan has none. Where they are told apart, each change is to a state that wasn't there before."""

    def __init__(self, state, draw, are_told_apart=True):
        self.states, self.answers, self.commands, self.seen = [state], [], [], {state.seen()}
        self.answered, self.draw, self.are_told_apart, self.sent = 0, draw, are_told_apart, collections.Counter()

    def add(self, state, answer, commands=()):
        self.seen.add(state.seen())
        self.states.append(state)
        self.answers.append(answer)
        self.commands.append(commands)

    def next_request(self, others=()):
        """One of the others, which change nothing that is kept, or a change."""
        if others and self.draw.random() < OTHERS:
            return self.request([self.draw.choice(others)(self.states[-1], self.draw)])
        while True:
            is_list, is_list_ok = self.draw.random() < LISTS, self.draw.random() < 0.5
            commands = changes.listed(self.states[-1], self.draw) if is_list else [changes.change(self.states[-1], self.draw)]
            state, answer = self.states[-1].after(commands, is_list and is_list_ok)
            if not self.are_told_apart or state.seen() not in self.seen:
                return self.request(commands, (state, answer), is_list_ok if is_list else None)

    def request(self, commands, leaves=None, is_list_ok=None):
        """The bytes of a request of these commands, which leaves this state and has this answer."""
        self.add(*(leaves or self.states[-1].after(commands)), commands)
        self.sent.update(" ".join(it[:2] if it[0] == "sticker" else it[:1]) for it in commands)
        self.sent["lists"] += is_list_ok is not None
        return model.request(*commands) if is_list_ok is None else model.list_request(commands, is_list_ok)

    def update(self, music):
        """A scan, which finds what stands there: a batch, which is over when a later request is answered."""
        request, state = self.request([[self.draw.choice(["update", "rescan"])]]), copy.copy(self.states[-1])
        state.scanned(music.songs)
        self.add(state, None)
        return request

    def scan(self, client, music):
        """Has the music read, and waits until it is."""
        self.exchange(client, self.update(music))
        wait_for("the end of the scan", lambda: b"updating_db" not in ask_all(client, [["status"]])[0])
        self.answered = len(self.answers)

    def waiting(self):
        """How many answers are still to come."""
        return sum(it is not None for it in self.answers[self.answered :])

    def send(self, client, unanswered, others, music=None, scans=0):
        """Sends until so many are not answered, or the program is gone; this often, where all is answered, the music changes first."""
        with contextlib.suppress(ConnectionError):
            if self.answered == len(self.answers) and self.draw.random() < scans:
                for _ in range(self.draw.randint(0, 3)):
                    music.change(self.draw, self.states[-1].current_uri())
                client.send(self.update(music))
            client.send(b"".join(self.next_request(others) for _ in range(unanswered - self.waiting())))

    def take(self, answer):
        """Takes an answer, or the front of one that was cut by a kill: that was given out too."""
        while self.answered < len(self.answers) and self.answers[self.answered] is None:
            self.answered += 1
        expected = self.answers[self.answered] if self.answered < len(self.answers) else b""
        if not expected.startswith(untold(answer)):
            raise Failure(f"answer {answer!r} in place of {expected!r}")
        self.answered += 1

    def take_all(self, client, *sent):
        """Sends, and takes the answers, until the program is gone."""
        while True:
            self.send(client, *sent)
            if not (answer := client.answered()):
                return
            self.take(answer)

    def exchange(self, client, *requests):
        """Sends these requests at once, and takes their answers, each whole."""
        client.send(b"".join(requests))
        while self.waiting():
            if not is_whole(answer := client.answered()):
                raise ConnectionResetError("an answer was cut off")
            self.take(answer)

    def is_record(self, place):
        """Whether the state at this place is that behind a record: some command of the request, or the batch, changed something."""
        before, after, commands = self.states[place - 1], self.states[place], self.commands[place - 1]
        states = [before, *(state for state, _ in before.each(commands)), after]
        return any(kept(one) != kept(other) for one, other in zip(states, states[1:]))

    def changes(self, first, end):
        """How many of the requests from the one to before the other changed what is kept."""
        return sum(self.states[it].seen() != self.states[it + 1].seen() for it in range(first, end))

    def found(self, client, places=(), plays=None):
        """The place of the state that a client reads, by all that it can, and whether nothing else that is kept, as the order number, may
        be another one. It must be one of these places, or if not said of those from what was answered last on: what wasn't answered may be
        kept, with all before it. Where it is told whether a song plays on, the player has gone on."""
        places = places or range(self.answered, len(self.states))
        told = lambda it: self.states[it].restarted(plays).readings(changes.PLAYLISTS, SONGS)
        answers = [*map(untold, ask_all(client, [words for words, _ in told(0)]))]
        is_read = lambda it: all(answer == wanted for answer, (_, wanted) in zip(answers, told(it)))
        if not (left := list(filter(is_read, places))):
            if (lost := next(filter(is_read, range(min(places))), None)) is not None:
                raise Failure(f"{self.changes(lost, min(places))} answered changes are lost")
            pairs = [(words, answer, wanted) for answer, (words, wanted) in zip(answers, told(min(places))) if answer != wanted]
            parts = [f"{' '.join(words)} answers {answer[:150]!r} and not {wanted[:150]!r}" for words, answer, wanted in pairs]
            raise Failure(f"the state found is not one along the changes sent; beside that after those answered, {', '.join(parts)}")
        stamps = [*self.states[left[0]].stamp_readings()]
        if ask_all(client, [words for words, _ in stamps]) != [answer for _, answer in stamps]:
            raise Failure("the entries of the queue have other stamps")
        return left[0], len({(self.states[it].order_number, self.states[it].kept) for it in left}) == 1
