"""What a client reads of what is kept: each method is named as a command, and gives its lines."""

import model
import refusals
import stock_rows


def listed_commands():
    """What `commands` lists: `noidle` is known, and not listed."""
    return sorted({it.name for it in refusals.commands(refusals.Situation(False, False))} - {"noidle"})


class Readable(model.State):
    """What is kept, with the commands that read it."""

    def ping(self, *words):
        if words:
            raise model.Refused(2, 'wrong number of arguments for "ping"')
        return ""

    def commands(self):
        return "".join(f"command: {it}\n" for it in sorted([*listed_commands(), *(stock_rows.NAMES if self.is_wide else ())]))

    def notcommands(self):
        return ""

    def tagtypes(self):
        return "".join(f"tagtype: {it}\n" for it in stock_rows.TAGS[: None if self.is_wide else 6])

    # The songs.

    def song_lines(self, uris):
        return "".join(f"file: {it}\n{self.songs[it].lines()}" for it in uris)

    def milliseconds(self, uris):
        return sum(self.songs[it].frames * 1000 // 8000 for it in uris) // 1000

    def stats(self):
        times = f"uptime: {self.uptime}\ndb_update: {self.updated}\n" if self.is_wide else ""
        return f"artists: 0\nalbums: 0\nsongs: {len(self.songs)}\ndb_playtime: {self.milliseconds(self.songs)}\n{times}"

    def paths(self):
        """The folders and the songs as they are told: by the bytes of their paths, a folder before a song; or folder by folder."""
        folders = {(uri[:at], "directory") for uri in self.songs for at, it in enumerate(uri) if it == "/"}
        told = lambda it: model.told_key(it[0]) if it[1] == "file" else model.folder_key(it[0])
        paths = [*folders, *((it, "file") for it in self.songs)]
        return sorted(paths, key=told if self.is_wide else lambda it: (it[0].encode(), it[1]))

    def below(self, uri):
        """The folders and songs below a place, with what stands behind it; of a song's URI that song alone."""
        if uri in self.songs:
            return [(uri, "file", uri)]
        front = "" if uri in ("", "/") else uri + "/"
        found = [(path, kind, path.removeprefix(front)) for path, kind in self.paths() if path.startswith(front)]
        if front and not found:
            raise model.Refused(*model.NO_FILE)
        return found

    def listall(self, uri=""):
        return "".join(f"{kind}: {path}\n" for path, kind, _ in self.below(uri))

    def listallinfo(self, uri=""):
        return "".join(self.song_lines([path]) if kind == "file" else f"{kind}: {path}\n" for path, kind, _ in self.below(uri))

    def lsinfo(self, uri=""):
        found = self.below(uri)
        right = [(path, kind) for path, kind, rest in found if "/" not in rest or path == uri]
        folders = "".join(f"directory: {path}\n" for path, kind in right if kind == "directory")
        songs = self.song_lines(path for path, kind in right if kind == "file")
        return songs + folders + (self.listplaylists() if uri in ("", "/") else "") if self.is_wide else folders + songs

    def find(self, *words):
        return self.song_lines(self.found(words, False)[0])

    def search(self, *words):
        return self.song_lines(self.found(words, True)[0])

    def count(self, *words):
        found, _ = self.found(words, False)
        return f"songs: {len(found)}\nplaytime: {self.milliseconds(found)}\n"

    def list(self, tag, *words):
        found = self.found(words, False)[0] if words else self.songs
        of_none = [""] if self.is_wide else []
        values = {it for uri in found for it in self.texts(uri, tag.lower()) or of_none}
        return "".join(f"{tag.capitalize()}: {it}\n" for it in model.by_bytes(values))

    # The queue.

    def entry_lines(self, places):
        return "".join(self.queue[it].lines(self.songs[self.queue[it].uri], it) for it in places)

    def playlistinfo(self, text="0:"):
        return self.entry_lines(range(*model.span(text, len(self.queue))))

    def playlistid(self, number=None):
        return self.entry_lines(range(len(self.queue)) if number is None else [self.position(number)])

    def changed_since(self, version, text):
        late = 0 if int(version) > self.version else int(version)
        return [it for it in range(*model.span(text, len(self.queue))) if self.stamps[it] > late]

    def plchanges(self, version, text="0:"):
        return self.entry_lines(self.changed_since(version, text))

    def plchangesposid(self, version, text="0:"):
        return "".join(f"cpos: {it}\nId: {self.queue[it].id}\n" for it in self.changed_since(version, text))

    def playlistfind(self, *words):
        return self.entry_lines(self.places_found(words, False))

    def playlistsearch(self, *words):
        return self.entry_lines(self.places_found(words, True))

    # Playlists and stickers.

    def listplaylists(self):
        time = "Last-Modified: 1970-01-01T00:00:00Z\n" if self.is_wide else ""
        return "".join(f"playlist: {it}\n{time}" for it in model.by_bytes(self.playlists))

    def listplaylist(self, name):
        return "".join(f"file: {it}\n" for it in self.listed(name))

    def listplaylistinfo(self, name):
        return "".join(self.song_lines([it]) if it in self.songs else f"file: {it}\n" for it in self.listed(name))

    def sticker_get(self, uri, name):
        self.must_know(uri)
        if (uri, name) not in self.stickers:
            raise model.Refused(*model.NO_STICKER)
        return f"sticker: {name}={self.stickers[uri, name]}\n"

    def sticker_list(self, uri):
        self.must_know(uri)
        names = model.by_bytes(name for it, name in self.stickers if it == uri)
        return "".join(f"sticker: {it}={self.stickers[uri, it]}\n" for it in names)

    def sticker_find(self, uri, name, sign=None, bound=""):
        tests = {"=": lambda it: it == bound, "<": lambda it: it.encode() < bound.encode(), ">": lambda it: it.encode() > bound.encode()}
        holds = tests.get(sign, lambda it: True)
        having = [it for it in model.by_bytes(self.songs_at(uri)) if (it, name) in self.stickers and holds(self.stickers[it, name])]
        return "".join(f"file: {it}\nsticker: {name}={self.stickers[it, name]}\n" for it in having)

    # All of it.

    def readings(self, names, uris):
        """Requests that tell all that is kept but the stamps and the order number, with their answers; `names` are those that playlists
        may have, `uris` those that songs may have."""
        requests = [["status"], ["playlistinfo"], ["listplaylists"], ["listallinfo"], *(["listplaylist", it] for it in names)]
        for words in [*requests, *(["sticker", "list", "song", it] for it in uris)]:
            yield words, self.after([words])[1]

    def stamp_readings(self):
        """Requests that tell the stamp of each position, with their answers."""
        for version in sorted({0} | {it - before for it in self.stamps for before in (0, 1)}):
            words = ["plchangesposid", str(version)]
            yield words, self.after([words])[1]
