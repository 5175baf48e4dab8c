"""What the player's thread does for an order, and the songs of tests/simulation."""

import scripts
import waves

# A piece has at most so many frames, and a song's sound comes again behind so many, so that its file stands shortly in a script.
PIECE, PERIOD = 4096, 7


class Speaker:
    """What the player's thread does for an order, by the files that there are."""

    def __init__(self):
        self.song = None

    def play(self, order, files):
        """The reports of it, and the bytes of sound."""
        ticket, frame, percent, uri = order
        if self.song and self.song[:2] == (ticket, uri) and frame < self.song[3]:
            return [("ended", ticket)], b""
        if not (self.song and self.song[:2] == (ticket, uri) and frame == self.song[3]):
            if uri not in files:
                self.song = None
                return [("broken", ticket, "source")], b""
            self.song = ticket, uri, files[uri], frame
        _, _, data, _ = self.song
        left = max(0, (len(sound_in(data)) // 2) - frame)
        count = min(PIECE, left)
        self.song = ticket, uri, data, frame + count
        reports = [("fed", ticket, count)] if count or count != left else []
        return reports + [("ended", ticket)] * (count == left), waves.sound_of(data, frame, count, percent) if count else b""


def sound_in(data):
    return data[44 : 44 + int.from_bytes(data[40:44], "little")]


def song_file(frames, title, draw):
    data = scripts.wave(frames, [f"INAM={title.replace(' ', '_')}"] if title else [])
    sound = draw.randbytes(2 * PERIOD) * (frames // PERIOD + 1)
    return data[:44] + sound[: 2 * frames] + data[44 + 2 * frames :]
