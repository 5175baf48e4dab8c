"""Rows of tests/serve: jobs of the database, also over folders that have no end, and what the log says of jobs, of an opening that takes
its time and of an end that does."""

import os
import signal
import time

import preload
import under
from daemons import Daemon, check, knowing, put_song, ran, refused, serving, update, wait_for
from journal_files import RECORDS
from scripts import Failure, write, write_at

RAMP = list(range(0, 4_000, 4))
# A web of folders, each with so many links to the next: there are more ways through it than any job could go.
FOLDERS, LINKS = 8, 16
# So many folders a job reads at most, and so many songs there may be.
MOST = 65_536
# So many lines about what can't be read there are within a minute.
MOST_LINES = 100
# So many changes a batch has, and so many of the last allocations of a job are refused.
BATCH, LAST = 64, 32
# What a job says that left out no file.
NONE = "0 not WAVE, 0 of another format, 0 broken"
# What is to be known where one file of a journal is missing.
OLDER = "the other file may have an older state; if it stands elsewhere, end this at once and put it back"
# What is, where one has fewer bytes than a head, beside one of a later generation, or a full one.
EMPTIED = "where it had more, the other file may have an older state; if a copy has them, end this at once and put both back"
# Records of seven bytes, of which a journal has more bytes than one that is opened without a line.
MANY = 2_400_000


def put_web(folder):
    """Makes the web, and a song at its end, beside the music, which has a link to its beginning."""
    for number in range(FOLDERS):
        os.makedirs(f"{folder}/web/{number}")
        for link in range(LINKS):
            if number + 1 < FOLDERS:
                os.symlink(f"../{number + 1}", f"{folder}/web/{number}/{link:02}")
    os.symlink("../web/0", f"{folder}/music/m")


def told(daemon, *firsts):
    """What the log has said so far that begins so, without what stands before the text."""
    texts = [it.partition("] ")[2] for it in daemon.lines]
    return [it for it in texts if it.startswith(firsts)]


def tally(job, songs, new=0, changed=0, gone=0, left=NONE, folders=0, files=0):
    """What is told of a job that has ended."""
    found = f"{songs} songs, {new} of them new, {changed} changed, {gone} gone"
    return f"update {job}: {found}; left out: {left}; not read: {folders} folders, {files} files"


def tally_wide(job, songs, unchanged=0, others=0, **counts):
    """The same with `stock_clients`."""
    return f"{tally(job, songs, **counts)}; {unchanged} unchanged, {others} other files"


def put_no_songs(folder):
    for name, content in (("text.wav", b"no song"), ("cut.wav", b"RIFF\0\0\0\0WAVE"), ("note.txt", b"")):
        write(f"{folder}/music/{name}", content)


def web_of_links(program, folder):
    """Links without a circle, through which there are 16^7 ways: a job ends, behind as many folders as it may read. What stands before and
    behind the web is found. Clients are served meanwhile, and `kill` ends it at once."""
    daemon = Daemon(program, folder).create()
    put_song(daemon, "a.wav", RAMP)
    put_song(daemon, "z.wav", RAMP)
    put_web(folder)
    with daemon.start(), daemon.client() as client:
        client.do("update")
        for volume in range(20):
            client.do(f"setvol {volume}", "stop")
            check("the job", client.value("status", "updating_db"), "1")
        daemon.end_by(client)
    with daemon.start(), daemon.client() as client:
        update(client)
        check("songs", [it for it in client.ask("listall") if it.startswith("file: ")], ["file: a.wav", "file: z.wav"])
        wait_for("both lines", lambda: len(told(daemon, "update ")) > 1)
        daemon.kill(signal.SIGTERM)
        first, second = told(daemon, "update ")
        found = first.split()
        # The first start may have come to one of them.
        check("songs and gone", (found[:4], found[8:12]), ("update 1: 2 songs,".split(), ["0", "changed,", "0", "gone;"]))
        check("folders that were not read", int(found[found.index("folders,") - 1]) > 0, True)
        check("why", second.startswith(f"update 1: one update reads {MOST} folders"), True)


def job_in_the_log(program, folder):
    """What a job found, and what it left out, in one line."""
    with serving(program, folder) as daemon, daemon.client() as client:
        for name, channels in {"a.wav": 1, "d/b.wav": 1, "d/e/c.wav": 1, "stereo.wav": 2, "four.wav": 4}.items():
            put_song(daemon, name, RAMP, channels=channels)
        put_no_songs(folder)
        update(client)
        os.remove(f"{folder}/music/a.wav")
        os.symlink("nowhere", f"{folder}/music/x.wav")
        os.rename(f"{folder}/music/d/e", f"{folder}/music/e")
        os.symlink("..", f"{folder}/music/d/e")
        put_song(daemon, "new.wav", RAMP)
        put_song(daemon, "stereo.wav", RAMP[:100], channels=2)
        update(client)
        client.do("update d/b.wav")
        client.settle()
        os.remove(f"{folder}/music/d/b.wav")
        client.do("update d")
        wait_for("the line of the last job", lambda: len(told(daemon, "update ")) > 3)
        daemon.kill(signal.SIGTERM)
        left = "1 not WAVE, 1 of another format, 1 broken (debug = true names them)"
        wanted = [
            tally(1, 4, new=4, left=left),
            # The link that leads nowhere may be a folder or a file, and is counted once; the one upwards isn't read, and what was known
            # below it is kept.
            tally(2, 4, new=2, changed=1, gone=1, left=left, folders=2),
            tally(3, 1),
            tally(4, 0, gone=1, folders=1),
        ]
        check("the log", told(daemon, "update ", "left out"), wanted)


def job_that_opens_what_changed(program, folder):
    """With `stock_clients` a job opens only files whose stamp changed: the others count as songs that are there, and a `rescan` opens all."""
    with serving(program, folder, **{"stock_clients:": "true"}) as daemon, daemon.client() as client:
        for name in ("a.wav", "d/b.wav", "d/c.wav"):
            put_song(daemon, name, RAMP)
        write(f"{folder}/music/text.wav", b"no song")
        update(client)
        update(client)
        client.do("rescan")
        client.settle()
        os.remove(f"{folder}/music/d/b.wav")
        put_song(daemon, "a.wav", RAMP[:100])
        put_song(daemon, "new.wav", RAMP)
        os.symlink("nowhere", f"{folder}/music/x.wav")
        update(client)
        wait_for("its line", lambda: told(daemon, "update 4: "))
        daemon.kill(signal.SIGTERM)
        left = "1 not WAVE, 0 of another format, 0 broken (debug = true names them)"
        counts = [{"new": 3}, {"unchanged": 3}, {}, {"unchanged": 1, "new": 1, "changed": 1, "gone": 1, "folders": 1}]
        check("the log", told(daemon, "update "), [tally_wide(job, 3, left=left, **it) for job, it in enumerate(counts, 1)])


def empty_mount_point(program, folder):
    """With `stock_clients` an update that misses all songs, as of a drive that isn't mounted, drops none and says so: entries and stickers
    stay. The same once more drops them, and so does a `rescan`."""
    names = ("a.wav", "d/b.wav")
    error = "update would drop 2 of 2 songs: is the music there?"

    def songs(client):
        return [it.removeprefix("file: ") for it in client.ask("listall") if it.startswith("file: ")]

    def seen(client):
        entries = client.value("status", "playlistlength")
        return songs(client), entries, client.value("status", "error"), client.ask("sticker find song \"\" rating")

    def take_out():
        for name in names:
            os.remove(f"{folder}/music/{name}")

    with serving(program, folder, **{"stock_clients:": "true"}) as daemon, daemon.client() as client:
        for name in names:
            put_song(daemon, name, RAMP)
        update(client)
        client.do('add ""', "sticker set song a.wav rating 5")
        there = seen(client)
        take_out()
        update(client)
        check("what is there", seen(client), (*there[:2], error, there[3]))
        wait_for("its line", lambda: told(daemon, "update 2 would drop 2 of 2 songs: is the music there?"))
        for name in names:
            put_song(daemon, name, RAMP)
        update(client)
        check("with the music", seen(client), there)
        take_out()
        update(client)
        client.do("update d")
        client.settle()
        check("a folder alone is half of them", (songs(client), client.value("status", "error")), (["a.wav"], None))
        update(client)
        check("one of one", (songs(client), client.value("status", "error")), (["a.wav"], error.replace("2", "1")))
        client.do("clearerror")
        check("cleared", client.value("status", "error"), None)
        update(client)
        check("once more", seen(client)[:3], ([], "0", None))
        put_song(daemon, "a.wav", RAMP)
        update(client)
        os.remove(f"{folder}/music/a.wav")
        client.do("rescan")
        client.settle()
        check("a rescan", (songs(client), client.value("status", "error")), ([], None))


def files_left_out(program, folder):
    """With `debug` each file that is left out has a line, with why."""
    with serving(program, folder, **{"debug:": "true"}) as daemon, daemon.client() as client:
        put_song(daemon, "a.wav", RAMP)
        put_song(daemon, "d/four.wav", RAMP, channels=4)
        put_song(daemon, "fast.wav", RAMP, rate=192_001)
        put_no_songs(folder)
        update(client)
        wait_for("its line", lambda: told(daemon, "update 1: "))
        daemon.kill(signal.SIGTERM)
        wanted = [
            "left out: cut.wav: no readable format before the samples",
            "left out: d/four.wav: format tag 1 with 16 bits and 4 channels is not supported",
            "left out: fast.wav: format tag 1 with 16 bits and 1 channels is not supported at its rate, or with its length of frames",
            "left out: text.wav: not a WAVE file",
        ]
        check("the log", told(daemon, "left out"), wanted)
        check("the tally", told(daemon, "update "), [tally(1, 1, new=1, left="1 not WAVE, 2 of another format, 1 broken")])


def names_left_out(program, folder):
    """With `stock_clients` a name that is no UTF-8, or has a control character, costs that file alone: it is counted, and named escaped, and so
    is a path that is too long or too deep. Of what is left out for other reasons the first ten are named too, and other files are counted."""
    with serving(program, folder, **{"stock_clients:": "true"}) as daemon, daemon.client() as client:
        put_song(daemon, "d/a.wav", RAMP)
        for name in b"caf\xe9.wav", b"tab\tx.wav", b"cover.jpg", b"wav":
            write(os.fsencode(f"{folder}/music/d/") + name, b"")
        deep, long = "/".join("e" * 33), "/".join(["f" * 200] * 5 + ["g" * 18 + ".wav"])
        for path in deep, os.path.dirname(long):
            os.makedirs(f"{folder}/music/{path}")
        # A folder too deep and a path too long by three bytes; one as long as it may be is read, and of what is no song none is told.
        for path in f"{deep}/a.wav", long, long.replace("ggg", "", 1), long.replace(".wav", ".jpg"):
            write(f"{folder}/music/{path}", b"no song")
        for number in range(12):
            write(f"{folder}/music/{number:02}.wav", b"no song")
        update(client)
        wait_for("its line", lambda: told(daemon, "update 1: "))
        daemon.kill(signal.SIGTERM)
        names = ["d/caf\\xe9.wav: its name is no UTF-8", "d/tab\\x09x.wav: its name has a control character"]
        names += [f"{deep}: 32 folders stand over it", f"{long}: its path has more than 1,024 bytes"]
        wanted = sorted(f"left out: {it}" for it in [*(f"{number:02}.wav: not a WAVE file" for number in range(10)), *names])
        check("the log", sorted(told(daemon, "left out")), wanted)
        left = "13 not WAVE, 0 of another format, 0 broken, 4 by their names (debug = true names them)"
        check("the tally", told(daemon, "update "), [tally_wide(1, 1, others=3, new=1, left=left)])


def refuse_later(counts, later):
    """So many allocations from now on one is refused."""
    write_at(counts, 16, (preload.counts(counts)[0] + later).to_bytes(8, "little"))


def refuse_none(counts):
    """No allocation is refused from now on."""
    write_at(counts, 16, bytes(8))


def line_of(daemon, job):
    """The line of a job that has ended; None if it has none within a second."""
    try:
        wait_for("its line", lambda: told(daemon, f"update {job}: "), under.seconds(1))
    except Failure:
        return None
    return told(daemon, f"update {job}: ")[0]


def job_without_memory(program, folder):
    """In each of these jobs one allocation is refused. What its line tells is what is known then, or it tells that memory ended it; one
    without memory for what is noted has no line. The next job of a folder finds all."""
    counts, jobs, songs = f"{folder}/counts", 8, 400
    daemon = Daemon(program, folder).create()
    put_song(daemon, "first.wav", RAMP)
    for job in range(jobs):
        os.makedirs(f"{folder}/music/{job}")
        for number in range(songs):
            os.link(f"{folder}/music/first.wav", f"{folder}/music/{job}/{number}.wav")
    settings = preload.settings(preload.library("refuse_memory", folder), counts)
    with daemon.start(settings=settings), daemon.client() as client:

        def known(job):
            return sum(it.startswith("file: ") for it in client.ask(f"listall {job}"))

        ended = []
        for job in range(jobs):
            # Far behind what the request itself takes, and before the end of the job.
            refuse_later(counts, 300 + 601 * job)
            client.do(f"update {job}")
            wait_for("a refusal", lambda job=job: preload.counts(counts)[1] > job)
            client.settle()
            line = line_of(daemon, job + 1)
            if line and "memory ran out" in line:
                ended.append(job)
                check("that songs of the job are missing", known(job) < songs, True)
            else:
                check("songs that are known", (known(job), line and line.split()[2]), (songs, line and str(songs)))
        check("that some were the scan's", bool(ended), True)
        client.do(f"update {ended[0]}")
        client.settle()
        check("songs of the next job", known(ended[0]), songs)
        daemon.kill(signal.SIGTERM)


def full_batch(program, folder, library, refused):
    """A job that finds just as many songs as a batch has, in a daemon of its own, while this allocation is refused, counted from the
    request on, or none where that is 0: how many there were, how many songs are known then, and the job's line."""
    daemon, counts = Daemon(program, folder).create(), f"{folder}/counts"
    put_song(daemon, "0.wav", RAMP)
    for number in range(1, BATCH):
        os.link(f"{folder}/music/0.wav", f"{folder}/music/{number}.wav")
    with daemon.start(settings=preload.settings(library, counts)), daemon.client() as client:
        client.do("status")
        before = preload.counts(counts)[0]
        if refused:
            refuse_later(counts, refused)
        client.do("update")
        line, count = line_of(daemon, 1), preload.counts(counts)[0] - before
        refuse_none(counts)
        with daemon.client() as other:
            known = sum(it.startswith("file: ") for it in other.ask("listall"))
        daemon.kill(signal.SIGTERM)
    return count, known, line or ""


def full_batch_without_memory(program, folder):
    """Of the last allocations of such a job each is refused in turn: where all songs are known, no line says that memory ended it."""
    os.makedirs(folder)
    library = preload.library("refuse_memory", folder)
    count, known, _ = full_batch(program, f"{folder}/0", library, 0)
    check("the songs", known, BATCH)
    ended = set()
    for refused in range(count - LAST, count + 1):
        _, known, line = full_batch(program, f"{folder}/{refused}", library, refused)
        ended.add((known, "memory ran out" in line))
    check("where memory ended it, and where it didn't", ended, {(0, True), (BATCH, False)})


def many_unreadable(program, folder):
    """Of many links that lead nowhere some hundred have a line, each once, and one more line says that there are others. Jobs that come one
    right behind the other have ten lines within ten seconds; the next one says how many were left out."""
    daemon = Daemon(program, folder).create()
    for number in range(150):
        os.symlink("nowhere", f"{folder}/music/{number:03}.wav")
    begun = time.monotonic()
    with daemon.start(), daemon.client() as client:
        for _ in range(40):
            update(client)
        last = time.monotonic()
        wait_for("ten seconds", lambda: time.monotonic() - last > 10.5)
        update(client)
        wait_for("the last line", lambda: told(daemon, "update 41: 0 songs"))
        daemon.kill(signal.SIGTERM)
    seconds = int(time.monotonic() - begun)
    error = "can't be read: No such file or directory (os error 2); the songs known there are kept"
    wanted = [f"music: music/{it:03}.wav: {error}" for it in range(MOST_LINES)]
    wanted.append("music: what else can't be read within this minute is not told; an update counts it")
    found = [it for it in daemon.lines if it.startswith("music: ")]
    check("the links", found if seconds < 60 else found[: len(wanted)], wanted)
    left = [int(it.split()[2]) for it in told(daemon, "update ") if "have no line" in it]
    jobs = [it for it in told(daemon, "update ") if "have no line" not in it]
    check("jobs that were told, and others", len(jobs) + sum(left), 41)
    check("few of them", len(jobs) <= 10 * (seconds // 10 + 1), True)
    check("each of them", {it.partition(": ")[2] for it in jobs}, {tally(1, 0, folders=150).partition(": ")[2]})


def more_songs_than_fit(program, folder):
    """Songs for which there is no room are no new ones."""
    with knowing(program, folder, {"z/known.wav": [1]}) as daemon, daemon.client() as client:
        # A file has no more than some 65,000 names.
        put_song(daemon, "a/0.wav", [1])
        for number in range(1, MOST + 3):
            os.link(f"{folder}/music/{'a/0' if number % 2 else 'z/known'}.wav", f"{folder}/music/a/{number}.wav")
        client.do("update")
        # It writes more than a thousand records, each of which is synced.
        for _ in range(3_000):
            if client.value("status", "updating_db") is None:
                break
            time.sleep(0.1)
        check("songs", client.value("stats", "songs"), str(MOST))
        wait_for("the last line", lambda: told(daemon, "update 2: 65536 "))
        daemon.kill(signal.SIGTERM)
    wanted = [
        tally(1, 1, new=1),
        tally(2, MOST + 4, new=MOST - 1),
        f"update 2: {MOST} songs are known at most; 4 that were found are not",
    ]
    check("the log", told(daemon, "update "), wanted)


def large_journal(program, folder):
    """Before the opening of a large journal a line says how large it is; where it takes a second, another one how long it took (and
    others meanwhile)."""
    daemon = Daemon(program, folder).create()
    daemon.journal().fill(RECORDS - MANY, 40)
    size = os.path.getsize(f"{folder}/a")
    with daemon.start():
        daemon.has(volume="40")
        daemon.kill(signal.SIGTERM)
        first, *others = [it for it in told(daemon, "the journal ") if "is being opened" not in it]
        check("before it", first, f"the journal is opened, both files have {size} bytes")
        wanted = ("the journal was opened in ", f" seconds, both files have {size} bytes")
        check("behind it", [it for it in others if not it.startswith(wanted[0]) or not it.endswith(wanted[1])], [])


def change(daemon, *volumes):
    """Starts it, sets the volume, and ends it; what it says on standard error."""
    daemon.lines = []
    with daemon.start(), daemon.client() as client:
        client.do(*(f"setvol {it}" for it in volumes))
        daemon.kill(signal.SIGTERM)
    return daemon.lines


def is_served(daemon, volume, *lines):
    """A start that says these lines, whether or not it takes a second, and has this volume."""
    daemon.lines = []
    with daemon.start():
        daemon.has(volume=str(volume))
        daemon.kill(signal.SIGTERM)
    check("standard error", [it for it in daemon.lines if "the journal was opened in " not in it], list(lines))


def journal_file_missing(program, folder):
    """One of the two files is away at a start, and an older state is served: a line tells that. There is none where neither or both are."""
    daemon = Daemon(program, folder, output="-").create()
    daemon.journal().fill(1, 40)
    check("standard error", change(daemon, 41, 42, 43), [])
    os.rename(f"{folder}/b", f"{folder}/away")
    is_served(daemon, 41, f"b: missing, and made empty: {OLDER}")
    is_served(daemon, 41)
    os.rename(f"{folder}/away", f"{folder}/b")
    is_served(daemon, 43)
    for name in "ab":
        os.remove(f"{folder}/{name}")
    refused(program, folder, {"output": "-"}, 2, ["a, b: no journal; `mpd_daemon create CONFIG` makes one", "journal refused: 4"])


def version_told(program, folder):
    """`--version` says which program it is, and what its builder left beside it, as that file's words: it can't know how it was built."""
    os.makedirs(folder)
    copy = f"{folder}/mpd_daemon"
    run = under.copied(program, copy)

    def printed():
        done = ran(run, "--version", text=True)
        return done.returncode, done.stdout.splitlines(), done.stderr

    first = "mpd_daemon 0.1, protocol 0.23"
    check("alone", printed(), (0, [first], ""))
    write(f"{copy}.build", "checked build of commit 1234\nmore\n")
    told_beside = [f"{copy}.build: {it}" for it in ("checked build of commit 1234", "more")]
    check("with a note", printed(), (0, [first, *told_beside], ""))


def kill_where_a_folder_hangs(program, folder):
    """A scan is in a call of the system that doesn't come back: `kill` closes the clients, a line says what the end waits for, and a signal
    ends it. What was answered is kept."""
    os.makedirs(f"{folder}/music/hangs")
    daemon = Daemon(program, folder).create()
    with daemon.start(settings={"LD_PRELOAD": preload.library("hang_calls", folder)}), daemon.client() as client:
        client.do("update")
        wait_for("a call that hangs", lambda: os.path.exists(f"{folder}/hanging"))
        client.do("setvol 41", "stop")
        begun = time.monotonic()
        client.send("kill\n")
        check("the client", client.line(), None)
        wait_for("a line about the scan", lambda: any("the end waits for the scan" in it for it in daemon.lines))
        check("soon", time.monotonic() - begun < 2, True)
        check("that it is there", daemon.process.poll(), None)
        check("the end", daemon.kill(signal.SIGTERM), -signal.SIGTERM)
    os.rmdir(f"{folder}/music/hangs")
    with daemon.start(), daemon.client() as client:
        check("the volume", client.value("status", "volume"), "41")
        update(client)
