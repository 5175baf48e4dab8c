"""Rows of tests/serve: what a job keeps, and what is gone, where the files change while it reads them."""

import os

import preload
from daemons import Daemon, check, put_song, update, wait_for
from log_rows import tally, told
from scripts import text_of, write

RAMP = list(range(0, 4_000, 4))
# Songs in the folder in which a job waits, and at which look at them it does: in the middle of its listing, or where the first is opened.
SONGS, LISTING, OPENING = 8, 4, 9
ALL = ["a.wav", *(f"slow/{it}.wav" for it in range(SONGS)), "z.wav"]


class Slow:
    """A daemon that knows songs, each with a queue entry and a sticker, and whose jobs can be made to wait at a look at one."""

    def __init__(self, program, folder, songs="music/slow"):
        """Those of `slow` stand in this folder, which has a link where it isn't in the music."""
        self.daemon, self.folder = Daemon(program, folder).create(), folder
        for name in "a.wav", "z.wav":
            put_song(self.daemon, name, RAMP)
        for number in range(SONGS):
            put_song(self.daemon, f"../{songs}/{number}.wav", RAMP)
        if songs != "music/slow":
            os.symlink(f"../{songs}", f"{folder}/music/slow")
        self.client = None

    def __enter__(self):
        self.daemon.start(settings={"LD_PRELOAD": preload.library("wait_calls", self.folder)})
        self.client = self.daemon.client()
        update(self.client)
        self.client.do('add ""', *(f"sticker set song {it} n v" for it in ALL))
        self.knows(ALL)
        return self

    def __exit__(self, *_):
        self.client.socket.close()
        self.daemon.__exit__()

    def job(self, number, change):
        """A job that waits before look NUMBER: what is to be looked at is given to CHANGE."""
        write(f"{self.folder}/wait", b"%d" % number)
        self.client.do("update")
        wait_for("a look that waits", lambda: os.path.exists(f"{self.folder}/waiting"))
        change(f"{self.folder}/{text_of(f'{self.folder}/waiting')}")
        for name in "waiting", "wait":
            os.remove(f"{self.folder}/{name}")
        self.client.settle()

    def move(self, path, other):
        os.rename(f"{self.folder}/{path}", f"{self.folder}/{other}")

    def knows(self, songs):
        """These are known, each with its entry and its sticker."""
        for request in "listall", "playlistinfo", 'sticker find song "" n':
            found = [it.removeprefix("file: ") for it in self.client.ask(request) if it.startswith("file: ")]
            check(request, sorted(found), songs)

    def tells(self, job, songs, **counts):
        """The last line of a job."""
        wait_for("its line", lambda: told(self.daemon, f"update {job}: "))
        check("its line", told(self.daemon, f"update {job}: "), [tally(job, songs, **counts)])

    def goes(self, disk, songs, *unread):
        """What stands in this folder is taken out in the middle of a listing, and also between that and the opening of the songs: all are
        kept. So many folders and files aren't read then."""
        for job, number, (folders, files) in zip((2, 3), (LISTING, OPENING), unread):
            self.job(number, lambda _: self.move(disk, "away"))
            self.knows(ALL)
            self.tells(job, songs, folders=folders, files=files)
            self.move("away", disk)
        update(self.client)
        self.knows(ALL)
        self.tells(4, SONGS + 2)


def disk_goes_in_a_listing(program, folder):
    with Slow(program, folder) as slow:
        slow.goes("music", 1, (1, 1), (0, SONGS + 1))


def disk_behind_a_link_goes(program, folder):
    """The same of a disk to which a link leads."""
    with Slow(program, folder, "disk/songs") as slow:
        slow.goes("disk", 2, (1, 0), (0, SONGS))


def folder_replaced_in_a_listing(program, folder):
    """In the middle of its listing a folder gives way to an empty one, as a disk to its mount point: that job keeps its songs. The next one
    finds none there."""
    with Slow(program, folder) as slow:

        def replace(_):
            slow.move("music/slow", "away")
            os.mkdir(f"{folder}/music/slow")

        slow.job(LISTING, replace)
        slow.knows(ALL)
        slow.tells(2, 2, folders=1)
        why = "can't be read: it leads upwards, or changed meanwhile; the songs known there are kept"
        check("its line", [it for it in slow.daemon.lines if it.startswith("music: ")], [f"music: music/slow: {why}"])
        update(slow.client)
        slow.knows(["a.wav", "z.wav"])
        slow.tells(3, 2, gone=SONGS)


def songs_removed_in_a_listing(program, folder):
    """A song that is removed between the reading of its name and the look at it is gone, and one between its listing and its opening."""
    with Slow(program, folder) as slow:
        left = list(ALL)
        for job, number in ((2, LISTING), (3, OPENING - 1)):
            removed = []
            slow.job(number, lambda path: removed.append(path) or os.remove(path))
            left.remove(os.path.relpath(removed[0], f"{folder}/music"))
            slow.knows(left)
            slow.tells(job, len(left), gone=1)
