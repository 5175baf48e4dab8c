"""The two files of a journal, as one who looks at them sees them."""

from layouts import LAYOUT_AT, body
from scripts import read, write_at

# A checkpoint is made before the next event where so many records stand in the journal's file.
RECORDS = 4096
# So many bytes of room are made behind the last commit byte of a file of layout 3 that has none.
ROOM = 8_388_628 + 65_536
# What a program says on standard error that brought a journal of layout 1 to layout 2.
MIGRATED = b"the journal was brought to layout 2: an older program can't read it any more\n"


def records_of(content):
    """How many bytes each record of a journal file's content takes, its gate and its length counted, and where its closing gate is."""
    place, lengths = 32 + int.from_bytes(content[28:32], "little"), []
    while content[place] == 0xA5:
        lengths.append(5 + int.from_bytes(content[place + 1 : place + 5], "little"))
        place += lengths[-1]
    return lengths, place


def appended(path):
    """How many bytes each record of a journal file took."""
    return records_of(read(path))[0]


class Journal:
    """The two files of a journal, as one who looks at them sees them."""

    def __init__(self, *paths):
        self.paths = paths

    def generation(self, path):
        """The generation of an open file, 0 of one that isn't open."""
        with open(path, "rb") as file:
            head = file.read(20)
        return int.from_bytes(head[12:20], "little") if len(head) == 20 and head[0] == 0xA5 else 0

    def in_use(self):
        return max(self.paths, key=self.generation)

    def other(self):
        return min(self.paths, key=self.generation)

    def layout(self):
        with open(self.in_use(), "rb") as file:
            return file.read(LAYOUT_AT + 1)[LAYOUT_AT]

    def is_old(self):
        """Whether it has layout 1."""
        return self.layout() == 1

    def make_old(self):
        """Gives the file in use layout 1, as an older build would have written it, where it has no value that layout 1 hasn't."""
        write_at(self.in_use(), LAYOUT_AT, b"\x01")

    def records(self):
        """How many records stand since the last checkpoint."""
        return len(appended(self.in_use()))

    def fill(self, left, volume):
        """Puts records behind those that stand, as a program would, until so many are left before a checkpoint: the volume goes up and down, and
        at last to this one. Nothing may have the files open."""
        layout = self.layout()
        with open(self.in_use(), "r+b") as file:
            lengths, place = records_of(file.read())
            missing = RECORDS - left - len(lengths)
            volumes = [volume if (missing - it) % 2 else (volume + 1) % 101 for it in range(missing)]
            file.seek(place)
            bodies = [body(layout, bytes([2, it])) for it in volumes]
            file.write(b"".join(b"\xa5" + len(it).to_bytes(4, "little") + it for it in bodies) + b"\x00")
            file.truncate()
