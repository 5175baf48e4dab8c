"""An episode of tests/simulation: a loop of the driver with clients, workers and disks, to which steps happen that a seed draws, and
beside it the plain model (lib/sessions.py, player.py), which says what each client may see and what a restart may find.

A step is drawn by a number of its own for what there is then: so any of them can be left out, and the others still make sense.
"""

import collections
import os
import random
import re
import time

import changes
import drives
import player
import sessions
import speaker
from sessions import FIXED
from streams import Finding, Over, Stream, Turn, shown

KEY = bytes(32)
# The songs that there may be, each with its frames and its title. What is found again is told by what clients read, which is milliseconds:
# 8 frames.
SONGS = {"a.wav": (800, "One"), "b.wav": (80, ""), "d/c.wav": (5000, "Zwei und drei"), "d/e/f.wav": (8, ""), "ö.wav": (0, "4")}
MOST_CLIENTS, MOST_WAITING, MOST_RECORDS_LEFT = 6, 4_000, 12
# Turns in which what is left behind want of memory must have been done.
PATIENCE = 3
NO_MEMORY = "no memory for the line itself"
# How many requests are served together, at most.
GROUP = 64
BROKEN, OUT_OF_MEMORY = "refused 42 broken by a disk fault", "refused 43 out of memory"
# What the driver prints of a scan that found no memory.
LEFT_OFF = "left off"
# In a request whose answer tells who has a channel.
SEES_CHANNELS = re.compile(rb"channels|sendmessage")


def unlike(found, greeting, asked):
    """The first answer that is another one."""
    found = found.removeprefix(greeting)
    for words, answer in asked:
        if not found.startswith(answer):
            return f"{' '.join(words)} answers {found[: len(answer) + 40]!r} and not {answer!r}"
        found = found[len(answer) :]
    return f"behind the answers stands {found[:200]!r}"


def grouped(asked):
    """The first of these requests that are one group: at most so many, up to a list."""
    found = []
    for number, request in asked[:GROUP]:
        if request is None:
            break
        found.append((number, request))
        if request.is_list:
            break
    return found


def with_ends(clients, due, closing):
    """Copies of these, and of them where some of those who are let go of, and have channels, have ended."""
    yield clients.copy(), {**due}
    for at, number in enumerate(closing):
        if clients.channels.get(number):
            other = clients.copy()
            other.gone(number)
            yield from with_ends(other, due, closing[at + 1 :])


class Episode:
    """A run of the driver from a fresh stage on; with the wide profile clients also say something to one another."""

    def __init__(self, program, seed, library=None, is_wide=False):
        self.drive, self.seed, self.is_wide = drives.Drive(program, library), seed, is_wide
        # How many songs were written, each in another second.
        self.written = 0
        self.files, self.songs = {}, {}
        self.speaker, self.streams, self.waiting = speaker.Speaker(), {}, []
        # The event that was last, how many of the workers' left outputs, and how few and how many ends of clients are still to be served.
        self.event, self.left, self.gones = 0, 0, (0, 0)
        # What there may be behind a fault or a restart, and whether the life is over.
        self.possible, self.is_over, self.counts = [], False, collections.Counter()
        # Whether a checkpoint may become due: a group ends before it.
        self.is_near = False
        self.last_client, self.contents = 0, (b"", b"")

    def do(self, *lines):
        try:
            return self.drive.do(*lines)
        except drives.Ended as ended:
            if NO_MEMORY in str(ended):
                raise Over from ended
            raise Finding(str(ended)) from ended

    def is_silent(self, *lines):
        """Does lines that print nothing."""
        for line, printed in zip(lines, self.do(*lines)):
            if printed:
                raise Finding(f"{line[:80]!r} printed {printed[:3]}")

    # The beginning.

    def begin(self):
        draw = random.Random(f"{self.seed}")
        self.clients = sessions.Clients(player.Player({}, KEY))
        self.clients.state.is_wide = self.is_wide
        self.is_silent(f"profile {'wide' if self.is_wide else 'named'}", "folder d/e")
        for uri in SONGS:
            self.put_song(uri, *SONGS[uri], draw)
        self.is_silent("make_loop", "reads")
        self.connect(None)
        self.turn(draw)
        self.ask_alone(sessions.line(["update"]))
        self.turn(draw)
        self.scan(draw)
        self.turn(draw)

    def put_song(self, uri, frames, title, draw):
        self.files[uri] = speaker.song_file(frames, title, draw)
        self.is_silent(f"file {uri} {self.files[uri].hex()}")
        self.written += 1
        os.utime(f"{self.drive.folder.name}/{uri}", (self.written, self.written))
        modified = time.strftime("%Y-%m-%dT%H:%M:%SZ", time.gmtime(self.written)) if self.is_wide else ""
        self.songs[uri] = player.model.Song(frames, title, modified)

    # Steps of clients.

    def open_streams(self):
        """Those that may send something."""
        is_open = lambda it: not (it.has_ended or it.is_busy or it.is_lost) and it.number not in self.clients.closed
        return [it for it in self.streams.values() if is_open(it)]

    def connect(self, draw):
        if len(self.streams) < MOST_CLIENTS:
            self.last_client += 1
            self.is_silent(f"connect {self.last_client}")
            self.streams[self.last_client] = Stream(self.last_client)
            self.waiting.append(self.last_client)

    def ask_alone(self, *requests):
        """The one client sends these."""
        stream = next(iter(self.streams.values()))
        for request in requests:
            stream.ask(request)
        self.is_silent(f"{stream.number}>- {shown(stream.unsent)}")
        stream.sent, stream.unsent = stream.made, b""
        return stream

    def request(self, draw):
        state, chance = self.clients.state, draw.random()
        if self.is_wide and draw.random() < 0.4:
            return sessions.line(changes.saying(draw))
        if chance < 0.12:
            names = draw.sample(sessions.SUBSYSTEMS, draw.choice([0, 0, 1, 2]))
            return sessions.line(["idle", *names])
        if chance < 0.18:
            return sessions.line(["noidle"])
        if chance < 0.19:
            return sessions.line(["close" if chance < 0.188 else "kill"])
        if chance < 0.23:
            return sessions.fixed(draw.choice([*FIXED]))
        if not state.songs or chance < 0.25:
            return sessions.line(["update"])
        if chance < 0.33:
            return sessions.line(changes.reading(state, draw))
        if chance < 0.53:
            return sessions.line(changes.playing(state, draw))
        if chance < 0.63:
            return sessions.listing(changes.listed(state, draw), draw.random() < 0.5)
        return sessions.line(changes.change(state, draw))

    def send(self, draw):
        streams = self.open_streams()
        # One that waits mostly goes on to wait.
        others = [it for it in streams if not self.clients.waiting.get(it.number)]
        if draw.random() < 0.9:
            streams = others
        if not streams:
            return self.connect(draw)
        stream = draw.choice(streams)
        if len(stream.unsent) < MOST_WAITING and (not stream.unsent or draw.random() < 0.5):
            for _ in range(draw.choice([1, 1, 1, 2, 3])):
                request = self.request(draw)
                while stream.may_fail and b"subscribe" in request.text:
                    request = self.request(draw)
                stream.ask(request)
        return self.is_silent(f"{stream.number}>- {shown(stream.next_piece(draw))}")

    def send_much(self, draw):
        """A client to which nothing is on its way sends a list that answers or looks at too much, which is read in several turns."""
        streams = [it for it in self.open_streams() if it.is_idle() and self.clients.waiting.get(it.number, ()) is None]
        if streams and self.clients.state.songs:
            stream = draw.choice(streams)
            stream.ask(sessions.listing(changes.much(self.clients.state, draw), draw.random() < 0.5))
            stream.sent, text, stream.unsent, stream.may_lag, stream.is_busy = stream.made, stream.unsent, b"", 100, True
            self.counts["long lists"] += 1
            self.is_silent(f"{stream.number}>- {shown(text)}")

    def slow(self, draw):
        """A client's stream gives or takes otherwise from now on."""
        if not (streams := [it for it in self.streams.values() if not (it.may_fail or it.is_busy or it.is_lost)]):
            return
        stream = draw.choice(streams)
        word = draw.choice(["takes", "takes", "takes", "gives", "budget", "calls"])
        if word == "takes":
            self.is_silent(f"{stream.number} takes {draw.choice(['none', 'none', 'all', 'all', '1', '3', '64'])}")
            stream.is_blocked = self.drive.log[-1][0].endswith("none")
        elif word == "calls":
            way, how = draw.choice(["read", "write"]), draw.choice(["blocks", "interrupted", "fails"])
            number = draw.randint(1, 3)
            # The end of one whose reading fails comes where it was to be read, before or behind a message of that turn: it has no channel.
            if (way, how) == ("read", "fails") and stream.has_subscribed:
                how = "blocks"
            self.is_silent(f"{stream.number} {way} {number} {how}")
            stream.may_fail, stream.may_lag = how == "fails", 0 if how == "fails" else 100
        else:
            count = draw.choice(["1", "2", "3", "7", "50", "all", "all"])
            self.is_silent(f"{stream.number} {word} {count}")
            if word == "budget":
                stream.budget = None if count == "all" else int(count)

    def end_stream(self, draw):
        if streams := self.open_streams():
            stream = draw.choice(streams)
            stream.has_ended = True
            self.is_silent(f"{stream.number} ends")

    # A turn of the loop.

    def turn(self, draw):
        return self.take_turn(Turn(self.do("turn")[0]))

    def take_turn(self, turn):
        asked = self.asked(turn)
        if turn.refused == 42:
            return self.broken_turn(turn, asked)
        if turn.refused is not None or turn.is_nothing or turn.stops:
            raise Finding("a turn is refused though no disk failed and memory is enough")
        self.take_events(turn, len(asked))
        self.take_left(turn)
        self.serve(asked)
        self.take_streams(turn)
        if turn.has_ended != self.clients.has_ended:
            raise Finding(f"the daemon {'ends' if turn.has_ended else 'goes on'}")
        self.end_life([self.clients.state], self.clients.has_ended)
        return None

    def end_life(self, states, is_over):
        """Where it is over, a restart may find one of these."""
        if is_over:
            self.possible, self.is_over = states, True

    def asked(self, turn):
        """What was read of clients, in the order in which it was, as pairs of a client and a request; then those who connect, with none."""
        found = []
        for _, number, count in sorted(turn.reads):
            found += [(number, it) for it in self.streams[number].taken(count)]
        for stream in self.streams.values():
            is_read = stream.is_free() and not stream.budget and stream.number not in [*self.clients.closed, *self.waiting]
            if is_read and stream.read < stream.sent:
                raise Finding(f"client {stream.number} sent {stream.sent} bytes, and {stream.read} were read")
        found += [(number, None) for number in self.waiting]
        self.waiting = []
        return found

    def take_events(self, turn, count):
        """The numbers of events go on, and there is one for each request, connect and end."""
        ends = len(turn.events) - count
        if turn.events != [*range(self.event + 1, self.event + 1 + len(turn.events))]:
            raise Finding(f"events {turn.events[:1]}..{turn.events[-1:]} come behind event {self.event}")
        low, high = self.gones
        if not low <= ends <= high + len(turn.closed):
            raise Finding(f"{len(turn.events)} events for {count} requests and connects, and {low} to {high} ends of clients")
        self.event += len(turn.events)
        # Those from before the turn are served in it.
        self.gones = low - ends, min(high - ends, 0)

    def take_left(self, turn):
        if turn.left != self.left:
            raise Finding(f"the outputs of {turn.left} events were left, and not of {self.left}")
        self.left = 0

    def give(self, given, asking=None):
        """Clients are given this, for a request of one of them or for none."""
        for client, text in given:
            if client in self.streams:
                self.streams[client].give(text, client == asking)

    def serve(self, asked):
        for number, request in asked:
            self.counts["connects" if request is None else self.streams[number].KIND] += 1
            self.give(self.clients.connect(number) if request is None else self.clients.request(number, request), number)

    def take_streams(self, turn):
        """What clients got, and who was let go of."""
        wanted = turn.wanted(*self.owed(turn))
        try:
            for number, text in turn.got.items():
                self.streams[number].get(text)
            for number in turn.closed:
                self.let_go(number)
            for stream in self.streams.values():
                self.look_at(stream)
        except Finding as fault:
            fault.wanted = wanted
            raise
        self.gones = max(0, self.gones[0]), self.gones[1]

    def owed(self, turn):
        """What each client is to get in a turn, and who is let go of in it."""
        got = {it.number: it.due if it.is_free() else turn.got.get(it.number, b"") for it in self.streams.values()}
        goes = lambda it: it.must_go(self.clients.closed) or it.may_fail and it.number in turn.closed
        return got, {it.number for it in self.streams.values() if goes(it)}

    def let_go(self, number):
        stream = self.streams.pop(number)
        is_closed = number in self.clients.closed
        if not (is_closed or stream.is_lost or stream.has_ended or stream.may_fail):
            raise Finding(f"client {number} is let go of")
        self.counts["answers too long"] += stream.is_lost
        # One that sends nothing more is let go of behind the group of its last request, and what others change behind it is not told.
        if len(stream.due) > stream.has_ended * stream.unasked and not stream.may_fail:
            raise Finding(f"client {number} is let go of, and is owed {stream.due[:300]!r}")
        self.clients.gone(number)
        self.clients.closed.discard(number)
        low, high = self.gones
        self.gones = low + (not is_closed), high + (not is_closed or stream.may_fail)

    def look_at(self, stream):
        """What it is owed has come, where nothing holds it up; and it is let go of then."""
        if stream.due and stream.is_free():
            raise Finding(f"client {stream.number} is owed {stream.due[:300]!r}")
        if stream.must_go(self.clients.closed):
            raise Finding(f"client {stream.number} is not let go of")
        stream.may_lag, stream.is_new = max(0, stream.may_lag - 1), False

    def broken_turn(self, turn, asked):
        """A disk has failed in it: the events before were answered, and the group that was refused is kept whole, or not at all."""
        if not self.may_break:
            raise Finding("a disk failed that was not to")
        served, ends, last = len(turn.events), self.gones[1] + len(turn.closed), None
        for count in range(max(0, served - ends), min(len(asked), served) + 1):
            try:
                self.possible += self.after_fault(turn, asked, count, ends > 0)
            except Finding as fault:
                last = fault
        if not self.possible:
            raise last or Finding(f"{served} events for {len(asked)} requests and connects, and at most {ends} ends of clients")
        self.is_over = True

    def after_fault(self, turn, asked, count, may_part):
        """The states that there may be, if so many of these requests were answered; a finding where clients got something else. The ends of
        clients, if there are some, may part a group where the requests of one client end."""
        clients, streams = self.clients.copy(), {number: it.copied() for number, it in self.streams.items()}
        for number, request in asked[:count]:
            for client, text in clients.connect(number) if request is None else clients.request(number, request):
                if client in streams:
                    streams[client].give(text, client == number)
        for number, text in turn.got.items():
            if not streams[number].due.startswith(text):
                raise Finding(f"client {number} got {text[:300]!r} before a fault, and is owed {streams[number].due[:300]!r}")
        states, group = [clients.state], grouped(asked[count:])
        for (number, request), (following, _) in zip(group, [*group[1:], (None, None)]):
            clients.request(number, request)
            if following is None or self.is_near or may_part and following != number:
                states.append(clients.state)
        return states

    # Steps of the workers and of the music.

    def is_reported(self, printed, events):
        """Takes what a worker printed of its reports, each a function that does it; whether all were made."""
        woken = [int(it.removeprefix("woken ")) for it in printed if it.startswith("woken ")]
        if BROKEN in printed and self.may_break:
            states = [self.clients.state]
            for event in events:
                event()
                states.append(self.clients.state)
            self.possible, self.is_over = states, True
            return False
        if woken not in ([len(events) + more] for more in range(self.more_wakes + 1)):
            wanted = [f"woken {len(events)}" if it.startswith("woken ") else it for it in printed]
            raise Finding(f"for {len(events)} reports the loop was woken so often: {woken}", wanted)
        for event in events:
            self.give(event())
        self.event, self.left = self.event + len(events), self.left + len(events)
        return True

    def play(self, draw):
        return self.take_play(self.do("play_once")[0])

    def take_play(self, printed):
        state = self.clients.state
        if state.state != player.PLAY:
            return self.is_printed("play_once", printed, ["wait"])
        order = state.ticket, state.frame, int(state.settings["volume"]), state.current_uri()
        reports, sound = self.speaker.play(order, self.files)
        self.counts["plays"] += 1
        wanted = state.order() + [f"sound {sound.hex()}"] * bool(sound)
        rest = [it for it in printed if it != BROKEN and not it.startswith("woken")]
        # With the wide profile the driver makes room first: where a disk fails in that, nothing is heard.
        if not (self.is_wide and self.may_break and BROKEN in printed and rest == state.order()):
            self.is_printed("play_once", rest, wanted)
        return self.is_reported(printed, [lambda it=it: self.clients.report(*it) for it in reports])

    def is_printed(self, what, printed, wanted):
        if printed != wanted:
            found, missed = ([it[:80] for it in some] for some in (printed, wanted))
            raise Finding(f"{what} printed {found} and not {missed}", wanted)

    def scan(self, draw):
        return self.take_scan(self.do("scan_once")[0]) if self.may_scan() else None

    def may_scan(self):
        """On a full disk a scan would wait for room, and where a checkpoint comes due within it for that, which a turn makes."""
        return self.clients.state.has_room and not (self.is_wide and self.is_near)

    def take_scan(self, printed):
        state = self.clients.state
        if state.job is None:
            return self.is_printed("scan_once", printed, ["no scan"])
        self.counts["scans"] += 1
        told = [it for it in printed if it == LEFT_OFF or it.startswith("scan ")]
        self.is_printed("scan_once", told, [f"scan {state.job} {len(state.songs)} /"])
        job, songs = state.job, dict(self.songs)
        if self.is_wide:
            return self.is_reported(printed, self.wide_scan(state, job, songs))
        # A batch has what was read and what is gone. Without the wide profile all is read, changed or not.
        events = [lambda: self.clients.batch(job, songs)] * bool(songs or state.songs) + [lambda: self.clients.scan_done(job)]
        return self.is_reported(printed, events)

    def wide_scan(self, state, job, songs):
        """With the wide profile what is gone is dropped last, and not where too many are."""
        gone = {uri: it for uri, it in state.songs.items() if uri not in songs}
        found, after = {**gone, **songs}, state.copied()
        after.songs = found
        after.missing(len(gone))
        events = [lambda: self.clients.batch(job, found)] * (found != state.songs) + [lambda: self.clients.missing(job, len(gone))]
        if after.job != job:
            return events
        return [*events, *[lambda: self.clients.batch(job, songs)] * bool(gone), lambda: self.clients.scan_done(job)]

    def scan_in_parts(self, draw):
        """The scan's thread reports some of what it finds, or the end; or something of a job that doesn't run."""
        state = self.clients.state
        job = state.job if state.job is not None and draw.random() < 0.9 else draw.choice([state.jobs, state.jobs + 1, 0])
        if draw.random() < 0.3:
            return self.reported(f"scanned {job}", lambda: self.clients.scan_done(job))
        uris = [it for it in SONGS if self.songs.get(it) != state.songs.get(it)]
        chosen = draw.sample(uris, min(len(uris), draw.choice([1, 2]))) or [draw.choice([*SONGS])]
        songs = {**state.songs}
        lines = []
        for uri in sorted(chosen, key=str.encode):
            songs.pop(uri, None)
            if uri in self.songs:
                songs[uri] = self.songs[uri]._replace(modified="")
                title = f" Title {songs[uri].title.replace(' ', '_')}" if songs[uri].title else ""
                lines.append(f"put {uri} {songs[uri].frames}{title}")
            elif uri in state.songs:
                lines.append(f"drop {uri}")
        if not lines or not state.has_room:
            return None
        self.is_silent(*lines)
        return self.reported(f"batch {job}", lambda: self.clients.batch(job, songs))

    def reported(self, line, event):
        """A thread reports something by a line of the script."""
        printed = self.do(line)[0]
        self.counts["reports"] += 1
        if printed and printed != [BROKEN]:
            raise Finding(f"{line!r} printed {printed[:3]}")
        return self.is_reported([*printed, "woken 1"], [event])

    # Memory that is refused.

    def scarce(self, draw):
        """One allocation of a turn, the player or a scan is refused, in a life in which no disk fails."""
        if self.may_break:
            return self.turn(draw)
        line, take, take_scarce = draw.choice([("turn", lambda it: self.take_turn(Turn(it)), self.scarce_turn)] * 3 + [
            ("play_once", self.take_play, self.scarce_play), ("scan_once", self.take_scan, self.scarce_scan)])
        if line == "scan_once" and not self.may_scan():
            return None
        before = self.drive.refused()
        self.drive.refuse(int(2 ** draw.uniform(0, 6)))
        printed = self.do(line)[0]
        self.drive.refuse(0)
        if self.drive.refused() == before:
            return take(printed)
        self.counts["refused memory"] += 1
        # A disk in memory that finds none has a fault.
        # A worker that finds none wakes the loop, with the wide profile, since it may be room on the disk that it waits for.
        self.may_break, self.more_wakes = True, int(self.is_wide)
        taken = take_scarce(printed)
        self.may_break, self.more_wakes = False, 0
        return taken

    def scarce_play(self, printed):
        if OUT_OF_MEMORY in printed:
            if len(printed) > 1:
                self.speaker.song = None
            return None
        if any(it.startswith("sound") for it in printed) or self.clients.state.state != player.PLAY or BROKEN in printed:
            return self.take_play(printed)
        was, ticket = self.speaker.song, self.clients.state.ticket
        try:
            return self.take_play(printed)
        except Finding:
            # The output itself found no room for what it is written.
            self.speaker.song = None
            return self.is_reported(printed, [lambda: self.clients.report("broken", ticket, "output")])

    def scarce_scan(self, printed):
        """Where the reading finds no memory, the scan is left off, and says so."""
        if printed[:1] == [OUT_OF_MEMORY]:
            return None
        job = self.clients.state.job
        if job is not None and printed[1:] == [LEFT_OFF, "woken 1"]:
            return self.is_reported(printed, [lambda: self.clients.scan_done(job)])
        return self.take_scan(printed)

    def scarce_turn(self, printed):
        """A turn in which an allocation was refused: nothing was done, it ended early, one request was answered so, or one client was let
        go of. What it left is served by the next ones."""
        first = Turn(printed)
        if first.refused == 42:
            return self.broken_turn(first, self.asked_of(first))
        asked, turns = [self.asked_of(first)], [first]
        for _ in range(PATIENCE):
            turns.append(Turn(self.do("turn")[0]))
            if turns[-1].refused is not None:
                raise Finding("a turn is refused though no disk failed and memory is enough")
            asked.append(self.asked_of(turns[-1]))
        events = [it for turn in turns for it in turn.events]
        if events != [*range(self.event + 1, self.event + 1 + len(events))]:
            raise Finding(f"events {events} come behind event {self.event}")
        if sum(it.left for it in turns) != self.left:
            raise Finding(f"outputs of {self.left} events were left, and others were given out")
        got, closed = collections.defaultdict(bytes), {it for turn in turns for it in turn.closed}
        for turn in turns:
            for number, text in turn.got.items():
                got[number] += text
        worlds, faults = {}, []
        for world in self.worlds(self.orders(asked), first.stops, closed):
            try:
                worlds.update((it[0].key(), it) for it in self.in_world(world, got, closed))
            except Finding as fault:
                faults.append(fault)
        if not worlds:
            raise faults[0]
        self.event, self.left, self.gones = self.event + len(events), 0, (0, len(closed))
        if len(worlds) > 1 or any(it in self.streams and not self.is_explained(it) for it in closed):
            return self.look_again([clients.state for clients, _ in worlds.values()])
        self.clients, due = next(iter(worlds.values()))
        for number in closed:
            self.streams.pop(number)
        for number, stream in self.streams.items():
            stream.due, stream.unasked, stream.is_busy = due[number], 0, stream.is_busy and not due[number]
        return self.end_life([self.clients.state], self.clients.has_ended)

    def asked_of(self, turn):
        """What was read of clients in a turn."""
        return [(number, it) for _, number, count in sorted(turn.reads) for it in self.streams[number].taken(count)]

    def orders(self, asked):
        """In which order all was served: those who wait to connect came in the first turn, or in the second one."""
        coming, self.waiting = [(number, None) for number in self.waiting], []
        first, second, *rest = asked
        rest = [it for requests in rest for it in requests]
        return [[*first, *coming, *second, *rest]] + [[*first, *second, *coming, *rest]] * bool(coming)

    def is_explained(self, number):
        """Whether a client may be let go of with memory enough."""
        stream = self.streams[number]
        return number in self.clients.closed or stream.is_lost or stream.has_ended or stream.may_fail

    def worlds(self, orders, stops, closed):
        """What may have been done: lists of a client, its request, and the command at which memory was refused, or None."""
        for asked in orders:
            plain = [(*it, None) for it in asked]
            for place in stops.values():
                for at, (number, request, _) in enumerate(plain):
                    if request is not None and place < max(1, len(request.commands)):
                        yield [*plain[:at], (number, request, place), *plain[at + 1 :]]
            if not stops:
                yield plain
                for at, (number, _, _) in enumerate(plain):
                    if number in closed:
                        yield plain[:at] + plain[at + 1 :]
                        yield [it for place, it in enumerate(plain) if place < at or it[0] != number]

    def in_world(self, world, got, closed):
        """Pairs of the clients that stay and what each is still owed, if this was done; a finding where they got something else. The end of
        one that is let go of may come before any request of another."""
        found = [(self.clients.copy(), {number: it.due for number, it in self.streams.items()})]
        for number, request, stop in world:
            if request is not None and SEES_CHANNELS.search(request.text):
                found = [it for pair in found for it in with_ends(*pair, sorted(closed - {number}))]
            for clients, due in found:
                for client, text in clients.connect(number) if request is None else clients.request(number, request, stop):
                    if client in due:
                        due[client] += text
            found = self.told_apart(found, got, closed) if len(found) > 1 else found
        faults = [self.unlike_owed(due, got, closed) for _, due in found]
        if all(faults):
            raise Finding(faults[0])
        for clients, due in found:
            due.update({number: text[len(got[number]) :] for number, text in due.items()})
            for number in closed:
                clients.gone(number)
                clients.closed.discard(number)
        return [it for it, fault in zip(found, faults) if not fault]

    def told_apart(self, found, got, closed):
        """Of these pairs those in which clients may have got this as yet, the first if there are none; without those that are as another."""
        is_front = lambda due: all(text.startswith(got[number]) or got[number].startswith(text) for number, text in due.items())
        # What those who are let go of haven't got is all the same.
        seen = lambda due: [text[: len(got[number])] if number in closed else text for number, text in due.items()]
        kept = [it for it in found if is_front(it[1])] or found[:1]
        return [*{(clients.key(), *seen(due)): (clients, due) for clients, due in kept}.values()]

    def unlike_owed(self, due, got, closed):
        """Where a client got something else than it is owed, or not all that it is to get; or None."""
        for number, stream in self.streams.items():
            if not due[number].startswith(got[number]):
                return f"client {number} got {got[number][:300]!r}, and is owed {due[number][:300]!r}"
            if due[number] != got[number] and stream.is_free() and number not in closed:
                return f"client {number} is owed {due[number][len(got[number]) :][:300]!r}"
        return None

    def look_again(self, states):
        """All clients are let go of, and the state is looked at. A job goes on, and what it has found is told of at its end. Behind this the
        core isn't told that clients have gone, whose channels it then keeps."""
        if self.is_wide:
            raise Over
        self.do("close_all")
        self.streams, self.waiting, has_found = {}, [], self.clients.has_found
        self.look(states)
        self.clients.has_found = has_found

    def stray(self, draw):
        """The output reports something, mostly of a song that it plays no more."""
        ticket = max(0, self.clients.state.ticket - draw.choice([0, 1, 1, 2]))
        name, *given = draw.choice(
            [("fed", draw.choice([0, 1, 100])), ("ended",), ("broken", draw.choice(["source", "output"]))] + [("keep",)] * 2 * self.is_wide
        )
        line = " ".join(map(str, [name, ticket, *given]))
        return self.reported(line, lambda: self.clients.report(name, ticket, *given))

    def room(self, draw):
        """With the wide profile the disk is full, or has room again."""
        if self.is_wide:
            is_there = draw.random() < (0.5 if self.clients.state.has_room else 0.8)
            self.counts["full"] += not is_there
            self.reported(f"room {int(is_there)}", lambda: self.clients.room(is_there))

    def change_music(self, draw):
        uri = draw.choice([*SONGS])
        was_there = uri in self.songs
        if was_there:
            self.is_silent(f"remove {uri}")
            del self.songs[uri], self.files[uri]
        if not was_there or draw.random() < 0.6:
            self.put_song(uri, draw.choice([0, 8, 80, 800]), draw.choice(["", "One", f"Take {draw.randrange(9)}"]), draw)

    # Lives.

    def life(self, draw):
        """The life ends, and the next one begins over what is left of the files."""
        possible = self.possible if self.is_over else [self.clients.state]
        printed = self.do("settle")[0]
        if not self.is_over and printed[:2] != ["settled", f"event {self.event}"]:
            raise Finding(f"behind event {self.event} settling printed {printed}")
        self.counts["lives"] += 1
        self.counts["faults"] += self.is_over
        contents = [bytes.fromhex(it[0].removeprefix("bytes ").replace("-", "")) for it in self.do("a bytes", "b bytes")]
        self.counts["checkpoints"] += drives.generation(contents) > drives.generation(self.contents)
        if draw.random() < 0.7:
            self.counts["crashes"] += 1
            contents = [self.crashed(*it, draw) for it in zip("ab", self.contents, contents)]
        volume = {it.settings["volume"] for it in possible}
        if is_near := draw.random() < 0.5 and len(volume) == 1:
            contents = drives.filled(contents, draw.randrange(MOST_RECORDS_LEFT), int(*volume), self.drive.folder.name)
            self.is_silent(*(f"{name} has {it.hex()}" for name, it in zip("ab", contents)))
        self.contents, self.is_near = contents, self.is_near or is_near
        self.open(draw, is_near)
        self.find(possible, draw)

    def crashed(self, name, old, new, draw):
        """Puts an image in a file's place that a crash may leave."""
        images = [*dict.fromkeys([*(drives.torn(old, new, draw) for _ in range(5)), new])]
        answers = self.do(*(f"{name} left {it.hex()}" for it in images))
        image = next((it for it, answer in zip(images, answers) if answer == ["yes"]), None)
        if image is None:
            raise Finding(f"a crash can't leave what file {name} has")
        self.counts["torn"] += image != new
        self.is_silent(f"{name} has {image.hex()}")
        return image

    def open(self, draw, is_near):
        """Opens the stage, over disks of which one may fail; where a checkpoint is near, often in it. It writes the file not in use."""
        fuses, way = [], draw.choice(["stop", "fail"])
        if is_near and draw.random() < 0.5:
            ages = [drives.generation([it]) for it in self.contents]
            fuses = [f"{'ab'[ages.index(min(ages))]} {way} {draw.randint(1, 14)}"]
        elif draw.random() < 0.4:
            fuses = [f"{'ab'[draw.random() < 0.4]} {way} {int(2 ** draw.uniform(0, 8))}"]
        self.may_break = bool(fuses)
        self.is_silent(*fuses)
        printed = self.do("open_loop")[0]
        if printed and self.may_break:
            self.counts["openings that failed"] += 1
            self.may_break = False
            printed = self.do("open_loop")[0]
        if printed:
            raise Finding(f"the journal is not opened: {printed}")

    def find(self, possible, draw):
        """Looks which of the states that there may be is there; with the wide profile the player mostly goes on first."""
        self.streams, self.waiting = {}, []
        self.event, self.left, self.gones = 0, 0, (0, 0)
        self.speaker = speaker.Speaker()
        self.is_silent("reads")
        plays = draw.choice([None, True, False]) if self.is_wide else None
        states = [it.restarted(plays) for it in possible]
        if plays is not None:
            self.event, printed = 1, self.do(f"resume {int(plays)}")[0]
            if printed == [BROKEN] and self.may_break:
                self.possible, self.is_over = [it.restarted() for it in possible], True
                return
            if printed:
                raise Finding(f"the player goes on, and {printed} is printed")
            self.counts["lives that go on"] += 1
        self.look(states)

    def look(self, states):
        """A client comes and reads which of these states there is; nobody else is connected."""
        self.possible, self.is_over = [], False
        self.clients = sessions.Clients(states[0])
        self.connect(None)
        states = self.looked(states, lambda it: [*it.readings(changes.PLAYLISTS, SONGS)], "the state found")
        if states:
            states = self.looked(states, lambda it: [*it.stamp_readings()], "the stamps found")
        # A disk may have failed while it was looked at.
        if len({(it.order_number, it.next_id, it.stamps, it.ticket, it.frame, it.kept, *it.played) for it in states}) > 1:
            raise Over
        if states:
            self.clients.state = states[0]

    def looked(self, states, readings, what):
        """Those of the states that answer so; none where a disk failed at the look."""
        asked = readings(states[0])
        stream = self.ask_alone(*(sessions.line(words) for words, _ in asked))
        stream.read = stream.sent
        stream.requests.clear()
        found = b""
        for _ in range(1 + len(self.waiting)):
            turn = Turn(self.do("turn")[0])
            if turn.refused == 42 and self.may_break:
                self.possible, self.is_over = states, True
                return []
            self.event += len(turn.events)
            found += turn.got.get(stream.number, b"")
        greeting = b"".join(text for number in self.waiting for _, text in self.clients.connect(number))
        self.waiting = []
        kept = [it for it in states if greeting + b"".join(answer for _, answer in readings(it)) == found]
        if not kept:
            wanted = turn.wanted({stream.number: b"".join(answer for _, answer in asked)}, ())
            raise Finding(f"{what} is none of {len(states)}: {unlike(found, greeting, asked)}", wanted)
        return kept

    may_break, more_wakes = False, 0

    # All of them.

    KINDS = {
        turn: 40,
        send: 36,
        send_much: 0.3,
        connect: 5,
        slow: 5,
        end_stream: 1,
        play: 10,
        scan: 3,
        scan_in_parts: 3,
        stray: 2,
        change_music: 3,
        room: 2,
        scarce: 0.5,
        life: 2,
    }

    def step(self, number):
        """The step of a number."""
        draw = random.Random(number)
        kind = Episode.life if self.is_over else draw.choices([*self.KINDS], [*self.KINDS.values()])[0]
        kind(self, draw)

    def end(self):
        self.drive.end()
