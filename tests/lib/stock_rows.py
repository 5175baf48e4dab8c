"""What stock clients ask for beyond the daemon's own commands, and the lines that they must be told: the rows of tests/rows, of the table in
docs/PROTOCOL.md, over the songs of lib/conversations.py. A text in place of lines is a refusal's code and text."""

import calendar
import time

import rows

# The names of commands, each with how many arguments it has.
COUNTS = {it: 0 for it in """channels decoders getvol listmounts listneighbors listpartitions outputs playlist readmessages
replay_gain_status urlhandlers""".split()}
COUNTS |= {it: 1 for it in """binarylimit crossfade disableoutput enableoutput listfiles mixrampdb mixrampdelay partition password
readcomments replay_gain_mode subscribe toggleoutput unsubscribe volume""".split()}
COUNTS |= {"albumart": 2, "readpicture": 2, "sendmessage": 2, "outputset": 3}
# Those whose last argument may be left out.
OPTIONAL = {"listfiles"}
NAMES = sorted(COUNTS)


def miscounted():
    """Rows of too many arguments of each of them, and of too few."""
    for name, count in COUNTS.items():
        for it in (count + 1, *[count - 1] * (count > 0 and name not in OPTIONAL)):
            yield f"{name}{' 0' * it}", f'2 wrong number of arguments for "{name}"'


NAMED = {}
ROWS = rows.read("stock", NAMED) + [*miscounted()]
IN_TURN = rows.read("in_turn", NAMED)
# What an MPD answers too.
LISTED = rows.read("listed", NAMED)
# Who asks, what, and the answer.
TALKS, LIMITED_TALK = ([(int(it[0]), it[3:], answer) for it, answer in rows.read(name, NAMED)] for name in ("talks", "limited_talk"))
TAGS = [it.removeprefix("tagtype: ") for it in NAMED["{tags}"]]
ROOT, OUTPUTS, QUEUE = NAMED["{root}"], NAMED["{outputs}"], [NAMED[f"{{entry {it}}}"] for it in range(5)]
# When each song's file was last changed, in seconds, and what is told of it; and what is told of a playlist whose time isn't known.
MODIFIED, (MODIFIED_LINE,), (NO_TIME,) = 1_600_000_000, NAMED["{changed}"], NAMED["{no time}"]


def is_of_this_hour(stamp):
    """Whether a time, as a line has it, is one of the last hour."""
    age = time.time() - calendar.timegm(time.strptime(stamp, "%Y-%m-%dT%H:%M:%SZ"))
    return -5 < age < 3600


def refusal(request, text, index=0):
    code, _, said = text.partition(" ")
    # These are told without a command.
    is_named = text != "2 bad quoting" and not text.startswith("5 unknown command")
    return f"ACK [{code}@{index}] {{{request.split()[0].strip(chr(34)) if is_named else ''}}} {said}"
