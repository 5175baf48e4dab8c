"""The player and the queue as plain values: what commands and the output's reports do by docs/PROTOCOL.md, found anew each time."""

import copy
import typing

import model
import readings

STOP, PLAY, PAUSE = "stop", "play", "pause"
NOT_PLAYING, UPDATING, FULL = (55, "Not playing"), (54, "already updating"), (54, "Update queue is full")
DISK_FULL = 52, "disk full"
# So many jobs wait with stock clients.
MOST_WAITING = 32
# The error of an update that dropped nothing begins so.
WITHHELD = "update would drop "


class Place(typing.NamedTuple):
    """What is kept of the player: its state, its song, the frame, and what the random round has played."""

    state: str = STOP
    current: int | None = None
    frame: int = 0
    played: tuple = ()


class Player(readings.Readable):
    """What is kept, and what plays. A method named as a command does it and gives its lines; songs have 8,000 frames a second."""

    def __init__(self, songs, key):
        super().__init__(songs, key)
        self.kept = Place()
        self.begin()

    def begin(self):
        """What plays behind a start."""
        self.state, self.current, self.ticket, self.frame = STOP, None, 0, 0
        self.played, self.error, self.jobs, self.job, self.waiting, self.failures = [], None, 0, None, (), 0
        # The place of each job and whether it opens all, and the place and count of the last one that dropped nothing.
        self.kinds, self.withheld = {}, None
        # Whether the journal's disk has room; without it nothing that is kept changes.
        self.has_room = True

    def restarted(self, plays=None):
        """What is found behind a restart; where it is told whether a song plays on, the player goes on."""
        state = copy.copy(self)
        state.begin()
        if plays is not None:
            state.resume(plays)
        return state

    # What is kept of what plays, with the wide profile alone.

    def done(self, words):
        state, lines = super().done(words)
        if not self.has_room and state.saved() != self.saved():
            raise model.Refused(*DISK_FULL)
        state.follow(self)
        return state, lines

    def saved(self):
        """What is kept beside the place."""
        return self.seen(), self.stamps, self.next_id, self.order_number

    def follow(self, was):
        """Behind a command or an event the place is that of the player, if what plays is another; what has left the queue leaves it too."""
        if not self.has_room:
            return
        ids, kept = {it.id for it in self.queue}, self.kept
        kept = kept if kept.current in ids else Place(played=kept.played)
        self.kept = kept._replace(played=tuple(it for it in kept.played if it in ids))
        plays = lambda it: (it.state, it.current, it.ticket, it.settings["random"])
        if plays(self) != plays(was):
            self.put_place()

    def put_place(self):
        self.kept = Place(self.state, self.current, self.frame, tuple(self.played)) if self.is_wide else Place()

    def keep(self, ticket):
        """The song of this ticket has played for a while."""
        if ticket == self.ticket and self.state != STOP and self.has_room:
            self.put_place()

    def room(self, is_there):
        """Whether the disk has room; once there is some again, a random round begins with the current song, and the place is kept."""
        was, self.has_room = self.has_room, is_there
        if is_there and not was and (self.ticket or self.state != STOP or self.current is not None or self.played):
            self.played = [self.current] if self.is_on("random") and self.current is not None else []
            self.put_place()

    def without_room(self, step):
        """A step on a full disk: as if no entry left the queue, and what it changes of what is kept stays."""
        kept = self.settings, self.order_number
        self.settings = {**self.settings, "consume": "0"}
        step()
        self.settings, self.order_number = kept

    def resume(self, plays):
        """The player goes on from its place, where nothing was started in this life."""
        if self.ticket or not self.is_wide:
            return
        kept, self.ticket = self.kept, 1
        self.played = [*kept.played] if self.is_on("random") else []
        if kept.current is not None:
            self.state, self.current = PAUSE if kept.state == PLAY and not plays else kept.state, kept.current
            self.frame = min(kept.frame, self.frames())

    # What comes next.

    def is_on(self, name):
        return self.settings[name] != "0"

    def place(self, number):
        return next((at for at, it in enumerate(self.queue) if it.id == number), None)

    def least(self, order, without):
        """The entry that comes first in random order, of those that aren't left out."""
        open_to_it = [it for it in self.queue if it.id not in without]
        return min(open_to_it, key=lambda it: (-it.prio, model.random_word(self.key, order, it.id), it.id), default=None)

    def next_song(self, gone=()):
        """The id of the song behind the current one, and whether a round begins with it; those that are gone don't count."""
        if self.is_on("random"):
            found = self.least(self.order_number, {self.current, *self.played, *gone})
            if found is None and self.is_on("repeat"):
                found = self.least(self.order_number + 1, set(gone))
                return (found and found.id), found is not None
            return (found and found.id), False
        behind = [it.id for it in self.queue[self.place(self.current) + 1 :] if it.id not in gone]
        if not behind and self.is_on("repeat"):
            behind = [it.id for it in self.queue if it.id not in gone]
        return (behind[0] if behind else None), False

    def after_the_end(self):
        """What the end of the current song would start, and whether a random round begins with it; none where it would stop."""
        stays = self.is_on("single") and self.is_on("repeat") and not self.is_on("consume")
        if stays or self.is_on("single") and not self.is_wide:
            return (self.current if stays else None), False
        return self.next_song({self.current} if self.is_on("consume") else ())

    def next_shown(self):
        """What `status` tells as the next song, and whether a random round begins with it."""
        if not self.is_wide:
            return self.after_the_end()
        return (self.current, False) if self.is_on("single") and self.is_on("repeat") else self.next_song()

    def repeats_one(self):
        return self.is_wide and self.is_on("single") and self.is_on("repeat") and not self.is_on("consume")

    # Steps.

    def start(self, number, frame=0, is_round=False):
        if is_round or (self.is_on("random") and self.current is None):
            self.order_number, self.played = self.order_number + 1, []
        if self.is_on("random"):
            self.played = [it for it in self.played if it != number] + [number]
        self.state, self.current, self.frame, self.error, self.failures = PLAY, number, frame, None, 0
        self.ticket += 1

    def halt(self, current=None):
        self.state, self.current, self.frame = STOP, current, 0

    def go_on(self):
        """The next song is found before the one that is left goes, under consume."""
        left, (number, is_round) = self.current, self.next_song({self.current} if self.is_on("consume") else ())
        if self.is_on("consume"):
            self.consume_one(left)
        if number is None:
            self.halt()
        else:
            self.current = left
            self.start(number, 0, is_round)

    def consume_one(self, number):
        self.take_out({number})
        if self.settings["consume"] == "oneshot":
            self.settings["consume"] = "0"

    def take_out(self, gone, songs=None):
        """Entries leave the queue, and the songs become these."""
        self.edit(tuple(it for it in self.queue if it.id not in gone), songs)
        self.played = [it for it in self.played if it not in gone]

    def leave(self, gone, songs=None):
        """Entries leave the queue by a command or a batch; the player follows."""
        if self.current not in gone:
            self.take_out(gone, songs)
            return
        follows = self.state == PLAY or self.state == PAUSE and self.is_wide
        is_paused = self.state == PAUSE
        number, is_round = self.next_song(gone) if follows and not self.repeats_one() else (None, False)
        self.take_out(gone, songs)
        if number is None:
            self.halt()
            return
        self.start(number, 0, is_round)
        if is_paused:
            self.halt(number)

    def shuffle(self, text="0:"):
        first, end = model.span(text, len(self.queue))
        if not self.is_wide or end - first < 2:
            super().shuffle(text)
        elif self.state == STOP:
            super().shuffle(text)
            self.halt()
        else:
            is_held = self.current is not None and first <= self.place(self.current) < end
            super().shuffle(text)
            if is_held:
                at = self.place(self.current)
                self.edit(model.moved(self.queue, at, at + 1, first))

    # The output's reports.

    def fed(self, ticket, frames):
        if ticket == self.ticket and self.state != STOP:
            self.frame = min(self.frame + frames, self.frames())

    def ended(self, ticket):
        if ticket == self.ticket and self.state == PLAY:
            self.end_song() if self.has_room else self.without_room(self.end_song)

    def end_song(self):
        single = self.settings["single"]
        number, is_round = self.after_the_end()
        if self.is_wide and single != "0" and not self.repeats_one():
            self.go_on()
            if self.state == PLAY and not self.is_on("repeat"):
                self.state = PAUSE
                self.settings["single"] = "0" if single == "oneshot" else single
            return
        if single == "0":
            self.go_on()
        elif number is not None:
            self.start(number)
        elif self.is_on("consume"):
            self.consume_one(self.current)
            self.halt()
        else:
            self.halt(self.current)
        if single == "oneshot" and not self.is_wide:
            self.settings["single"] = "0"

    def broken(self, ticket, cause):
        if ticket == self.ticket and self.state != STOP:
            self.break_song(cause) if self.has_room else self.without_room(lambda: self.break_song(cause))

    def break_song(self, cause):
        is_through = self.repeats_one() or len(self.queue) - 1 <= self.failures
        if self.is_wide and cause == "source" and self.state == PLAY and not is_through:
            error, failures, order = f"cannot play {self.current_uri()}", self.failures, self.order_number
            leaves = self.is_on("consume")
            self.go_on()
            self.error = error
            self.failures = 0 if self.order_number != order else failures + (not leaves)
        else:
            self.error = f"cannot play {self.current_uri()}" if cause == "source" else "output failed"
            self.state = STOP

    # Commands.

    def current_uri(self):
        return None if self.current is None else self.queue[self.place(self.current)].uri

    def frames(self):
        return self.songs[self.current_uri()].frames

    def cut(self, milliseconds):
        return min(milliseconds * 8000 // 1000, self.frames())

    def id_at(self, position):
        if int(position) >= len(self.queue):
            raise model.Refused(*model.BAD_INDEX)
        return self.queue[int(position)].id

    def known(self, number):
        if self.place(int(number)) is None:
            raise model.Refused(*model.NO_SONG)
        return int(number)

    def play(self, position=None):
        if position is None:
            self.play_on()
        else:
            self.start(self.id_at(position))

    def playid(self, number):
        self.start(self.known(number))

    def play_on(self):
        if self.state == PAUSE:
            self.state = PLAY
        elif self.state == STOP and self.current is not None:
            self.start(self.current)
        elif self.state == STOP and self.queue:
            self.start(self.least(self.order_number + 1, ()).id if self.is_on("random") else self.queue[0].id)

    def pause(self, switch=None):
        if self.state != STOP:
            self.state = {"1": PAUSE, "0": PLAY, None: PAUSE if self.state == PLAY else PLAY}[switch]

    def stop(self):
        if self.state != STOP:
            self.halt(self.current)
            self.ticket += 1

    def must_play(self):
        if self.state == STOP:
            raise model.Refused(*NOT_PLAYING)

    def next(self):
        self.must_play()
        self.go_on()

    def previous(self):
        self.must_play()
        number = self.current
        if self.is_on("random"):
            self.played = [it for it in self.played if it != number]
            number = self.played[-1] if self.played else number
        else:
            at = self.place(number)
            if at or self.is_on("repeat"):
                number = self.queue[at - 1].id
        self.start(number)

    def seek_to(self, number, milliseconds):
        state = self.state
        self.start(number)
        self.frame = self.cut(milliseconds)
        if state == PAUSE:
            self.state = PAUSE

    def seek(self, position, time):
        self.seek_to(self.id_at(position), thousandths(time))

    def seekid(self, number, time):
        self.seek_to(self.known(number), thousandths(time))

    def seekcur(self, time):
        self.must_play()
        frame, sign, offset = self.frame, time[0], thousandths(time.lstrip("+-")) * 8000 // 1000
        self.seek_to(self.current, 0)
        self.frame = min(max({"+": frame + offset, "-": frame - offset}.get(sign, offset), 0), self.frames())

    def clearerror(self):
        self.error = None

    def delete(self, text):
        first, end = model.span(text, len(self.queue))
        self.leave({it.id for it in self.queue[first:end]})

    def clear(self):
        self.leave({it.id for it in self.queue})

    def random(self, value):
        was = self.settings["random"]
        super().random(value)
        if (was, value) == ("0", "1"):
            self.played = [self.current] if self.current is not None else []
        elif value == "0":
            self.played = []

    # Scans.

    def update(self, uri="", opens_all=False):
        if self.job is not None and not self.is_wide:
            raise model.Refused(*UPDATING)
        if len(self.waiting) == MOST_WAITING:
            raise model.Refused(*FULL)
        self.jobs += 1
        self.kinds = {**self.kinds, self.jobs: (uri, opens_all)}
        if self.job is None:
            self.job = self.jobs
        else:
            self.waiting += (self.jobs,)
        return f"updating_db: {self.jobs}\n"

    def rescan(self, uri=""):
        return self.update(uri, True)

    def spared(self, songs):
        """These songs, and with the wide profile the one that plays or is in pause, which a scan doesn't drop."""
        if not self.is_wide or self.state == STOP:
            return songs
        uri = self.queue[self.place(self.current)].uri
        return songs if uri in songs else {**songs, uri: self.songs[uri]}

    def batch(self, songs):
        """A batch of a scan finds these songs: those that are gone leave the queue and take their stickers along."""
        songs = self.spared(songs)
        self.stickers = {it: value for it, value in self.stickers.items() if it[0] in songs}
        self.leave({it.id for it in self.queue if it.uri not in songs}, songs)
        if self.current is not None:
            self.frame = min(self.frame, self.frames())

    def missing(self, count):
        """The job that runs misses so many songs: where they are too many it is over, unless it is asked for again. Less than ten minutes
        have passed since any other."""
        place, opens_all = self.kinds[self.job]
        songs, asked = len(self.songs), (place, count)
        is_too_many = 0 < count and (songs <= count or (100 < count and songs < 2 * count))
        if self.is_wide and not opens_all and is_too_many and self.withheld != asked:
            self.withheld, self.error = asked, f"{WITHHELD}{count} of {songs} songs: is the music there?"
            self.job_over()
            return
        self.withheld = None
        if (self.error or "").startswith(WITHHELD):
            self.error = None

    def scanned(self, songs):
        """A whole scan finds these songs."""
        self.batch(songs)
        self.job_over()

    def job_over(self):
        """The job is over, and the one that waited longest begins."""
        self.job, *waiting = self.waiting or (None,)
        self.waiting = tuple(waiting)

    # What a client and the output read.

    def currentsong(self):
        return "" if self.current is None else self.entry_lines([self.place(self.current)])

    def status(self):
        lines = [f"{name}: {value}" for name, value in self.settings.items()]
        lines += [f"playlist: {self.version}", f"playlistlength: {len(self.queue)}", f"state: {self.state}"]
        if self.current is not None:
            lines += [f"song: {self.place(self.current)}", f"songid: {self.current}"]
            number, is_round = self.next_shown()
            if number is not None and not is_round:
                lines += [f"nextsong: {self.place(number)}", f"nextsongid: {number}"]
            if self.state != STOP:
                elapsed, whole = self.frame * 1000 // 8000, self.frames() * 1000 // 8000
                lines += [f"time: {elapsed // 1000}:{whole // 1000}", f"elapsed: {shown(elapsed)}", f"duration: {shown(whole)}"]
                lines += ["audio: 8000:16:1"]
        lines += [f"updating_db: {self.job}"] if self.job is not None else []
        lines += [f"error: {self.error}"] if self.error else []
        lines += ["partition: default", "mixrampdb: 0"] if self.is_wide else []
        return "".join(f"{it}\n" for it in lines)

    def order(self):
        if self.state != PLAY:
            return ["wait"]
        return [f"play {self.ticket} {self.frame} {self.settings['volume']} {self.current_uri()}"]


def shown(milliseconds):
    return f"{milliseconds // 1000}.{milliseconds % 1000:03}"


def thousandths(time):
    whole, _, part = time.partition(".")
    return int(whole) * 1000 + int((part + "000")[:3])
