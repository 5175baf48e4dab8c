"""The bytes of a journal, as docs/JOURNAL.md has them: the sums of layout 3, and a state of it as layout 2 has it."""

from scripts import Failure

# Where a file has its layout.
LAYOUT_AT = 8
# Key, order number, version, next id and five settings stand before the rows of a snapshot.
ROWS_AT = 32 + 8 + 4 + 4 + 5
RATE_TO_FRAMES = 4 + 1 + 8 + 8
SUM = 4


def table():
    found = []
    for number in range(256):
        for _ in range(8):
            number = number >> 1 ^ 0x82F63B78 * (number & 1)
        found.append(number)
    return found


TABLE = table()


def sum_of(data):
    """CRC-32C, as iSCSI has it."""
    now = 0xFFFFFFFF
    for byte in data:
        now = TABLE[(now ^ byte) & 255] ^ now >> 8
    return (now ^ 0xFFFFFFFF).to_bytes(SUM, "little")


def body(layout, ops):
    """The body of a record with these ops."""
    return ops + sum_of(ops) if layout == 3 else ops


def text_end(data, at):
    return at + 2 + int.from_bytes(data[at : at + 2], "little")


def narrowed(snapshot):
    """A snapshot of layout 3 as layout 2 spells the same state: no row has a time, or more than one text of each of six tags."""
    data, count = snapshot[:-SUM], int.from_bytes(snapshot[ROWS_AT : ROWS_AT + 4], "little")
    if sum_of(data) != snapshot[-SUM:] or data[-1]:
        raise Failure("a wrong sum, or fields that nobody knows")
    rows, at = data[: ROWS_AT + 4], ROWS_AT + 4
    for _ in range(count):
        stamp_at = text_end(data, at) + RATE_TO_FRAMES
        rows, at, texts, left = rows + data[at:stamp_at], stamp_at + 2, {}, data[stamp_at + 1]
        for _ in range(left):
            end = text_end(data, at + 1)
            texts[data[at]] = data[at + 1 : end]
            at = end
        if data[stamp_at] or len(texts) != left or set(texts) - set(range(6)):
            raise Failure("a row that layout 2 can't hold")
        rows += b"".join(b"\1" + texts[it] if it in texts else b"\0" for it in range(6))
    return rows + data[at:-1]
