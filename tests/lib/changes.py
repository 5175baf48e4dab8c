"""Commands at random, each one that the daemon carries out in the state it is drawn for."""

import model

PLAYLISTS = ["a", "Zoë", "late night", 'the "best"', "back\\slash"]
STICKERS = ["rating", "played at", "ü"]
MOST_ENTRIES = 12
MOST_LISTED = 5
CHANNELS, TEXTS = [*"aaaaaaaaab", "B", "c:1", "no/name", ""], ["", "x", 'say "x" \\', "é" * 400, "y" * 4000]


def setting(state, draw):
    name = draw.choice([*model.SETTINGS])
    value = draw.choice([it for it in model.SETTINGS[name] if it != state.settings[name]])
    return ["setvol" if name == "volume" else name, value]


def place_for(count, draw):
    """A place among so many, or none."""
    return draw.choice([[], [str(draw.randint(0, count))]])


def a_range(count, draw):
    """A range of at least one of so many."""
    first = draw.randrange(count)
    return draw.choice([f"{first}", f"{first}:", f"{first}:{draw.randint(first + 1, count + 1)}"])


def adding(state, draw):
    command = draw.choice(["add", "addid"])
    uri = draw.choice([*state.songs, *(["d", "d/e", "", "/"] if command == "add" else [])])
    return [command, uri, *place_for(len(state.queue), draw)]


def loading(state, draw):
    names = [it for it, songs in state.playlists.items() if songs]
    if names:
        name = draw.choice(names)
        text = a_range(len(state.playlists[name]), draw)
        return ["load", name, *draw.choice([[], [text], [text, str(draw.randint(0, len(state.queue)))]])]


def ordering(state, draw):
    """An edit of a queue with two entries or more that leaves all of them there."""
    count = len(state.queue)
    if count > 1:
        at, other = draw.sample(range(count), 2)
        number, second = state.queue[at].id, state.queue[other].id
        text = a_range(count, draw)
        first, end = model.span(text, count)
        to = draw.randint(0, count - (end - first))
        prio, more = str(draw.randrange(256)), a_range(count, draw)
        return draw.choice(
            [
                ["move", text, str(to)],
                ["moveid", str(number), str(other)],
                ["swap", str(at), str(other)],
                ["swapid", str(number), str(second)],
                ["prio", prio, text, more],
                ["prioid", prio, str(number), str(second)],
                ["shuffle", *draw.choice([[], [text]])],
            ]
        )


def deleting(state, draw):
    if state.queue:
        text, number = a_range(len(state.queue), draw), str(draw.choice(state.queue).id)
        return draw.choice([["delete", text], ["deleteid", number], ["deleteid", number], ["clear"]])


def listing(state, draw):
    """A change of which playlists there are."""
    names, free = [*state.playlists], [it for it in PLAYLISTS if it not in state.playlists]
    ways = [["save", draw.choice(free), *draw.choice([[], ["create"]])], ["playlistadd", draw.choice(free), draw.choice([*state.songs, ""])]] if free else []
    ways += [["rm", draw.choice(names)], ["save", draw.choice(names), "replace"]] if names else []
    grown = [it for it in names if len(state.playlists[it]) < MOST_ENTRIES]
    ways += [["save", draw.choice(grown), "append"]] if grown else []
    ways += [["rename", draw.choice(names), draw.choice(free)]] if names and free else []
    return draw.choice(ways)


def list_editing(state, draw):
    if state.playlists:
        name = draw.choice([*state.playlists])
        count = len(state.playlists[name])
        at_place = [str(draw.randint(0, count))] if state.is_wide and draw.random() < 0.6 else []
        ways = [["playlistadd", name, draw.choice([*state.songs, "d"]), *at_place]] * 2 if count < MOST_ENTRIES else []
        if count:
            text, (at, to) = a_range(count, draw), (str(draw.randrange(count)) for _ in range(2))
            first, end = model.span(text, count)
            ways += [["playlistdelete", name, text], ["playlistclear", name], *[["playlistmove", name, at, to]] * 2]
            ways += [["playlistmove", name, text, str(draw.randint(0, count - (end - first)))]] * 2 if state.is_wide else []
        return draw.choice(ways)


def sticking(state, draw):
    uri, name = draw.choice([*state.songs]), draw.choice(STICKERS)
    value = draw.choice(["", str(draw.randrange(10)), 'with "quotes" and \\', "ö" * draw.randint(1, 2048)])
    return ["sticker", "set", "song", uri, name, value]


def unsticking(state, draw):
    if state.stickers:
        uri, name = draw.choice([*state.stickers])
        return ["sticker", "delete", "song", uri, *draw.choice([[name], []])]


PATTERNS = ["^[A-Z]", "o", "[a-z]{3}", "(?i)ONE$", "d/.*f", "^T\\w+ \\d$", "wav|e", "\\bund\\b"]


def filters(state, draw):
    """Pairs of a tag and a value, which some song has more often than not; with the wide profile also expressions of one test."""
    song = draw.choice([*state.songs])
    values = {"title": state.songs[song].title or "none", "file": song, "any": "One", "base": draw.choice(["", "d", song])}
    tags = draw.sample([*values], draw.choice([1, 1, 2]))
    words = []
    for tag in tags:
        sign = draw.choice(["==", "!=", "contains", "!contains", "=~", "!~"])
        value = draw.choice(PATTERNS) if "~" in sign else values[tag]
        value = value.replace("\\", "\\\\")
        words += [f"({tag} {sign} '{value}')"] if state.is_wide and tag != "base" and draw.random() < 0.6 else [tag, values[tag]]
    return words


def sort_and_window(draw):
    """What may stand behind a filter."""
    order = draw.choice([[], ["sort", draw.choice(["title", "-title", "file", "-file"])]])
    return [*order, *draw.choice([[], ["window", "0:2"], ["window", "1:"]])]


def finding(state, draw):
    """An addition of what is found."""
    parts = sort_and_window(draw)
    place = [it for place in place_for(len(state.queue), draw) for it in ("position", place)]
    ways = [[draw.choice(["findadd", "searchadd"]), *filters(state, draw), *parts, *place]]
    name = draw.choice(PLAYLISTS)
    count = len(state.playlists.get(name, ()))
    if count < MOST_ENTRIES:
        at_place = ["position", str(draw.randint(0, count))] if state.is_wide and draw.random() < 0.6 else []
        ways.append(["searchaddpl", name, *filters(state, draw), *(parts if state.is_wide else []), *at_place])
    return draw.choice(ways)


# How often each kind is drawn, beside the others.
KINDS = {
    setting: 4,
    adding: 4,
    finding: 2,
    loading: 1,
    ordering: 7,
    deleting: 3,
    listing: 3,
    list_editing: 4,
    sticking: 2,
    unsticking: 1,
}


def listed(state, draw):
    """The commands of a list, each drawn for the state that those before it leave."""
    commands = []
    for _ in range(draw.randint(1, MOST_LISTED)):
        commands.append(change(state, draw))
        state, _ = state.after(commands[-1:])
    return commands


# How long an answer may be, and how long a line is of as many tests as one has.
MOST_ANSWERED, LINE = 8_388_608, 8_000


def much(state, draw):
    """The commands of a list whose answer is mostly too long, or whose tests are mostly more work than the wide profile lets one do, between
    changes, of which one may be refused."""
    volumes = [["setvol", str(it)] for it in draw.sample(range(101), 2)]
    if draw.random() < 0.2:
        words = ["count", *["base", "d"] * (LINE // len("base d "))]
        return [volumes[0], *[words] * draw.randint(200, 230), volumes[1]]
    words = ["commands"]
    many = MOST_ANSWERED // len(state.perform(words)) + draw.choice([0, *[1] * 8, 50])
    return [volumes[0], change(state, draw), *[words] * many, draw.choice([["playid", "999999"], ["ping"]]), volumes[1]]


def change(state, draw):
    """The words of a change, which may leave the state as it is."""
    kinds = {it: often for it, often in KINDS.items() if len(state.queue) < MOST_ENTRIES or it not in (adding, finding, loading)}
    while True:
        kind = draw.choices([*kinds], [*kinds.values()])[0]
        if words := kind(state, draw):
            return words


# What plays is lost with the daemon, and what is read changes nothing.

# Within most songs, behind the end of all but long ones, with digits that don't count, and the greatest.
TIMES = ["0", "0.05", "0.05", "0.25", "0.2345", "0.5", "90", "4294967"]


def playing(state, draw):
    """A command of the player."""
    ways = [["play"], ["pause"], ["pause", draw.choice("01")], ["stop"], ["clearerror"], ["currentsong"]]
    if state.state != "stop":
        ways += [["next"], ["previous"], ["seekcur", draw.choice(["", "+", "-"]) + draw.choice(TIMES)]] * 2
    if state.queue:
        place, number = str(draw.randrange(len(state.queue))), str(draw.choice(state.queue).id)
        ways += [["play", place], ["playid", number], ["seek", place, draw.choice(TIMES)], ["seekid", number, draw.choice(TIMES)]]
    return draw.choice(ways)


def saying(draw):
    """The words of what a client says to others, or does that they are told of."""
    name, text = draw.choice([*CHANNELS, f"d{draw.randrange(20)}"]), draw.choice(TEXTS)
    kinds = [["subscribe", name]] * 5 + [["sendmessage", name, text]] * 6 + [["unsubscribe", name], ["readmessages"], ["readmessages"]]
    return draw.choice([*kinds, ["channels"], ["setvol", draw.choice("1234")], ["repeat", draw.choice("01")]])


def reading(state, draw):
    """A command that reads."""
    ways = [[it] for it in ("ping", "commands", "notcommands", "tagtypes", "status", "stats", "listplaylists", "playlistinfo", "playlistid")]
    ways += [[it, *draw.choice([[], ["/"], [draw.choice([*state.songs])]])] for it in ("listall", "listallinfo", "lsinfo")]
    parts = sort_and_window(draw) if state.is_wide else []
    ways += [[it, *filters(state, draw), *parts] for it in ("find", "search", "playlistfind", "playlistsearch")]
    ways += [["count", *filters(state, draw)]]
    ways += [["list", draw.choice(["title", "Artist"]), *draw.choice([[], filters(state, draw)])]]
    ways += [[it, str(draw.randrange(state.version + 2))] for it in ("plchanges", "plchangesposid")]
    ways += [[it, draw.choice([*state.playlists])] for it in ("listplaylist", "listplaylistinfo") if state.playlists]
    uri, name = draw.choice([*state.songs]), draw.choice(STICKERS)
    ways += [["sticker", "get", "song", uri, name], ["sticker", "list", "song", uri]]
    ways += [["sticker", "find", "song", draw.choice(["", uri]), name, *draw.choice([[], [draw.choice("=<>"), "5"]])]]
    if state.queue:
        ways += [["playlistinfo", a_range(len(state.queue), draw)], ["playlistid", str(draw.choice(state.queue).id)]]
    return draw.choice(ways)
