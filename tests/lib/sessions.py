"""The clients of the daemon over a plain player (lib/player.py): what each is given by docs/PROTOCOL.md, who waits in an `idle`, who is told
of what, and what they say to one another."""

import re
import typing

import model

GREETING = b"OK MPD 0.23.0\n"
# In the order in which they are told.
SUBSYSTEMS = ["database", "update", "stored_playlist", "playlist", "player", "mixer", "options", "sticker", "subscription", "message"]
CHANNEL = re.compile(r"[A-Za-z0-9_.:-]{1,256}")
MOST_CHANNELS, MOST_UNREAD, MOST_UNREAD_BYTES = 16, 64, 65_536
# What one request may do with the wide profile.
MOST_WORK = 10_000_000

# Lines that are answered so, whatever the state is.
FIXED = {
    b"foo": b'ACK [5@0] {} unknown command "foo"\n',
    b"": b"ACK [5@0] {} No command given\n",
    b"setvol 101": b"ACK [2@0] {setvol} bad argument 1\n",
    b'"ping': b"ACK [2@0] {} bad quoting\n",
    b"ping x": b'ACK [2@0] {ping} wrong number of arguments for "ping"\n',
    b"command_list_end": b"ACK [1@0] {command_list_end} not in a command list\n",
    b"playid 999999": b"ACK [50@0] {playid} No such song\n",
    b"\xff": b"ACK [2@0] {} invalid UTF-8\n",
    b"ping\r": b"OK\n",
}


def changed(was, now):
    """The subsystems in which two states differ; of the database only a scan's end tells."""
    parts = {
        "update": lambda it: it.job,
        "stored_playlist": lambda it: it.playlists,
        "playlist": lambda it: it.version,
        "player": lambda it: (it.state, it.current, it.ticket),
        "mixer": lambda it: it.settings["volume"],
        "options": lambda it: [it.settings[name] for name in ("repeat", "random", "single", "consume")],
        "sticker": lambda it: it.stickers,
    }
    return {name for name, part in parts.items() if part(was) != part(now)}


class Request(typing.NamedTuple):
    """What a client sends at once."""

    text: bytes
    # Of a line or a list: the commands, each as its words.
    commands: list = ()
    is_list: bool = False
    is_list_ok: bool = False
    # A line that is answered so, whatever the state is, and its command's name, if it has one.
    fixed: bytes = None
    name: bytes = b""


def fixed(text):
    """The request of a line that is answered so, whatever the state is; None of any other line."""
    name = text[:4] if text == b"ping\r" else FIXED.get(text, b"").partition(b"{")[2].partition(b"}")[0]
    return Request(text + b"\n", fixed=FIXED[text], name=name) if text in FIXED else None


def line(words):
    return Request(model.request(words), [words])


def listing(commands, is_list_ok):
    return Request(model.list_request(commands, is_list_ok), commands, True, is_list_ok)


class Clients:
    """Who is connected, and the state. Each method is an event: it gives what clients are sent by it, as pairs of a client and bytes."""

    def __init__(self, state):
        self.state, self.pending, self.waiting, self.closed = state, {}, {}, set()
        # The channels of each client, and the channel and text of each message that it hasn't read.
        self.channels, self.unread = {}, {}
        # Whether the job that runs has changed a row, and whether the daemon is to end.
        self.has_found, self.has_ended = False, False

    def copy(self):
        other = Clients(self.state)
        other.pending = {client: set(it) for client, it in self.pending.items()}
        other.waiting, other.closed = dict(self.waiting), set(self.closed)
        other.channels, other.unread = dict(self.channels), dict(self.unread)
        other.has_found, other.has_ended = self.has_found, self.has_ended
        return other

    def key(self):
        """What tells it from others."""
        sets = [(client, *sorted(it), self.waiting[client] and (*sorted(self.waiting[client]),)) for client, it in self.pending.items()]
        state = self.state
        kept = state.seen(), state.stamps, state.next_id, state.order_number, state.jobs, state.job, state.waiting
        plays = state.state, state.current, state.ticket, state.frame, *state.played, state.error, *state.kept
        return self.has_ended, *sorted(self.closed), *kept, *plays, *sets, *self.channels.items(), *self.unread.items()

    def connect(self, client):
        self.pending[client], self.waiting[client] = set(), None
        self.channels[client] = self.unread[client] = ()
        return [(client, GREETING)]

    def gone(self, client):
        for of_clients in (self.pending, self.waiting, self.channels, self.unread):
            of_clients.pop(client, None)

    def close(self, client):
        """The daemon closes it, once it was sent what it is owed."""
        self.gone(client)
        self.closed.add(client)

    def request(self, client, request, stop=None):
        """Does a request; where `stop` is a number, memory is refused at this command of it."""
        if client not in self.pending:
            return []
        is_noidle = request.commands == [["noidle"]] and not request.is_list
        if self.waiting[client] is not None:
            if not is_noidle:
                self.close(client)
                return []
            self.waiting[client] = None
            return [(client, b"OK\n")]
        if is_noidle:
            return []
        return self.told(self.answer(client, request, stop))

    def answer(self, client, request, stop):
        if request.fixed is not None and stop is not None:
            return [(client, b"ACK [52@0] {%s} out of memory\n" % request.name)]
        if request.fixed is not None:
            return [(client, request.fixed)]
        word, *names = request.commands[0] if request.commands else [""]
        if word == "idle" and not request.is_list and stop is None:
            self.waiting[client] = set(names or SUBSYSTEMS)
            return []
        if word in ("close", "kill") and not request.is_list and stop is None:
            self.has_ended |= word == "kill"
            for it in [*self.pending] if word == "kill" else [client]:
                self.close(it)
            return []
        return [(client, self.performed(client, request, stop))]

    def performed(self, client, request, stop):
        """Does commands, and gives their answer."""
        given, before, lines, work = [], None, "", 0
        for index, words in enumerate(request.commands[:stop]):
            work += self.work_of(words)
            try:
                if self.state.is_wide and work > MOST_WORK:
                    raise model.Refused(52, "request too large")
                # The very same words once more are those of a command that reads.
                lines, before = lines if words is before else self.done(client, words), words
            except model.Refused as refusal:
                given.append(f"ACK [{refusal.code}@{index}] {{{words[0]}}} {refusal.text}\n")
                return "".join(given).encode()
            given.append(lines + "list_OK\n" * request.is_list_ok)
        end = "OK\n" if stop is None else f"ACK [52@{stop}] {{{request.commands[stop][0]}}} out of memory\n"
        return "".join([*given, end]).encode()

    def work_of(self, words):
        """What a count is of the work of a request; of no other command there is much."""
        return len(self.state.songs) * 10 * (1 + (len(words) - 1) // 2) if words[0] == "count" else 0

    def done(self, client, words):
        """Does a command, and gives its lines."""
        if talk := self.TALKS.get(words[0]):
            return talk(self, client, *words[1:]) or ""
        state, lines = self.state.done(words)
        self.mark(changed(self.state, state))
        self.state = state
        return lines

    def mark(self, names):
        for pending in self.pending.values():
            pending |= names

    # What clients say to one another.

    def subscribe(self, client, name):
        own = self.channels[client]
        if not CHANNEL.fullmatch(name):
            raise model.Refused(2, "invalid channel name")
        if len(own) == MOST_CHANNELS:
            raise model.Refused(56, "subscription list is full")
        if name in own:
            raise model.Refused(56, "already subscribed to this channel")
        self.channels[client] = (*own, name)
        self.mark({"subscription"})

    def unsubscribe(self, client, name):
        if name not in self.channels[client]:
            raise model.Refused(50, "not subscribed to this channel")
        self.channels[client] = tuple(it for it in self.channels[client] if it != name)
        self.mark({"subscription"})

    def list_channels(self, _):
        return "".join(f"channel: {it}\n" for it in sorted({name for own in self.channels.values() for name in own}))

    def has_room(self, client, *message):
        unread = [*self.unread[client], message]
        return len(unread) <= MOST_UNREAD and sum(len(it.encode()) for said in unread for it in said) <= MOST_UNREAD_BYTES

    def sendmessage(self, _, name, text):
        if not CHANNEL.fullmatch(name):
            raise model.Refused(2, "invalid channel name")
        takers = [it for it, own in self.channels.items() if name in own and self.has_room(it, name, text)]
        if not takers:
            raise model.Refused(50, "nobody is subscribed to this channel")
        for it in takers:
            self.pending[it] |= set() if self.unread[it] else {"message"}
            self.unread[it] += ((name, text),)

    def readmessages(self, client):
        unread, self.unread[client] = self.unread[client], ()
        return "".join(f"channel: {name}\nmessage: {text}\n" for name, text in unread)

    TALKS = {it.__name__: it for it in (subscribe, unsubscribe, sendmessage, readmessages)} | {"channels": list_channels}

    def told(self, given):
        """What an event gave, and behind it the lines of those who wait for what is pending."""
        for client in self.pending:
            names = self.pending[client] & (self.waiting[client] or set())
            if names:
                lines = "".join(f"changed: {it}\n" for it in SUBSYSTEMS if it in names)
                given.append((client, f"{lines}OK\n".encode()))
                self.pending[client] -= names
                self.waiting[client] = None
        return given

    def happened(self, event):
        """An event of the player or of a scan changes the state."""
        was, self.state = self.state, self.state.copied()
        event(self.state)
        self.state.follow(was)
        self.mark(changed(was, self.state))
        return self.told([])

    def report(self, name, *given):
        """The output reports."""
        return self.happened(lambda state: getattr(state, name)(*given))

    def room(self, is_there):
        """It is told whether the disk has room; nobody is told of that."""
        self.state = self.state.copied()
        self.state.room(is_there)
        return self.told([])

    def batch(self, job, songs):
        """The scan of a job has found these songs."""
        if job != self.state.job:
            return self.told([])
        self.has_found |= self.state.spared(songs) != self.state.songs
        return self.happened(lambda state: state.batch(songs))

    def missing(self, job, count):
        """It misses so many songs: where they are too many, it is over, and those that wait for the player are told of the error."""
        if job != self.state.job:
            return self.told([])
        after = self.state.copied()
        after.missing(count)
        if after.job != job:
            self.mark({"update", "player"} | ({"database"} if self.has_found else set()))
            self.has_found = False
        elif after.error != self.state.error:
            self.mark({"player"})
        return self.happened(lambda state: state.missing(count))

    def scan_done(self, job):
        """It is over: those that wait for the database are told where a song came, went or changed."""
        if job != self.state.job:
            return self.told([])
        if self.has_found:
            self.mark({"database"})
        self.has_found = False

        return self.happened(lambda state: state.job_over())
