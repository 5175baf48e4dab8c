"""The tags and the picture of a music file as an ID3v2.4 tag (id3.org), with the frames in which MPD reads its tags."""

import io

import av
import mutagen
from mutagen import id3, mp4

# Each frame, with a description where it has one, and the names by which Vorbis comments, APEv2 (APE), MP4, ASF and ffmpeg tell the same,
# in small letters, without their prefixes, blanks and lines.
FRAMES = """
TIT2:title ©nam
TPE1:artist author ©art
TSOP:artistsort artistsortorder soar
TALB:album albumtitle ©alb
TSOA:albumsort albumsortorder soal
TPE2:albumartist aart
TSO2:albumartistsort albumartistsortorder soaa
TRCK:tracknumber track trkn
TCON:genre ©gen
TDRC:date year ©day
TDOR:originaldate originalyear originalreleaseyear
TCOM:composer ©wrt
TPE4:performer
TPE3:conductor
TIT1:grouping contentgroupdescription ©grp
COMM:comment comments description ©cmt
TPOS:discnumber disc disk partofset
TPUB:label organization publisher
TXXX:MusicBrainz Artist Id
TXXX:MusicBrainz Album Id
TXXX:MusicBrainz Album Artist Id
TXXX:MusicBrainz Track Id
TXXX:MusicBrainz Release Track Id
TXXX:MusicBrainz Work Id
TXXX:COMPOSERSORT
TXXX:NAME
TXXX:WORK
TXXX:MOVEMENT
TXXX:MOVEMENTNUMBER
TXXX:ENSEMBLE
TXXX:LOCATION
"""
# What says, with any text, that the texts are no ID3v2 tag's, and told as they stand.
MARK = "Vorbis comments"
PREFIXES = ("----:com.apple.itunes:", "wm/")
TOTALS = {"tracknumber": ("tracktotal", "totaltracks")}
# The bytes of a text and of a picture, and the texts, of which more aren't told.
MOST_TEXT, MOST_PICTURE, MOST_TEXTS = 512, 1 << 24, 256
# What ffmpeg takes for a picture, and how it says which one is in front, where the format does.
PICTURES = {"mjpeg": "image/jpeg", "png": "image/png", "gif": "image/gif", "webp": "image/webp", "bmp": "image/bmp"}
IN_FRONT, FRONT, OTHER = "Cover (front)", 3, 0


def folded(name):
    """A name without what differs between formats."""
    name = name.lower()
    for prefix in PREFIXES:
        name = name.removeprefix(prefix)
    return "".join(it for it in name if it not in " _-/")


def frames_by_name():
    found = {}
    for line in FRAMES.split("\n"):
        frame, _, names = line.partition(":")
        for name in [names] if frame == "TXXX" else names.split():
            found[folded(name)] = frame, names if frame == "TXXX" else ""
    return found


BY_NAME = frames_by_name()


def texts_of(value):
    """The texts of a tag's value, whatever format it is of."""
    if isinstance(value, str):
        return [value]
    if isinstance(value, bytes):
        return [value.decode(errors="replace")]
    if isinstance(value, tuple):  # A number, and how many there are.
        return ["/".join(str(it) for it in value if it)]
    if isinstance(value, (list, mutagen.apev2.APETextValue)):
        return [text for it in value for text in texts_of(it)]
    return [] if isinstance(value, (mp4.MP4Cover, mutagen.apev2.APEBinaryValue)) else [str(value)]


def texts_by_frame(tags):
    """The texts of each frame that tells one of these tags."""
    found, named = {}, {folded(name): texts_of(value) for name, value in tags}
    for name, totals in TOTALS.items():
        total = next((named[it][0] for it in totals if named.get(it)), None)
        if total and len(named.get(name, ())) == 1 and "/" not in named[name][0]:
            named[name] = [f"{named[name][0]}/{total}"]
    for name, texts in named.items():
        if name in BY_NAME:
            found.setdefault(BY_NAME[name], []).extend(texts)
    return found


def frame_of(name, description, texts):
    how = {"encoding": id3.Encoding.UTF8, "text": [it for it in texts if 0 < len(it.encode()) <= MOST_TEXT]}
    if name == "TXXX":
        how["desc"] = description
    elif name == "COMM":
        how |= {"desc": "", "lang": "XXX"}
    return getattr(id3, name)(**how)


def own_frames(tag):
    """The frames of a file's own ID3v2 tag, of any version."""
    for frame in tag.values():
        if isinstance(frame, id3.TextFrame):
            if frame.encoding != id3.Encoding.UTF8:
                frame.encoding = id3.Encoding.UTF8
            texts = [it for it in frame.text if 0 < len(str(it).encode()) <= MOST_TEXT]
            if len(texts) < len(frame.text):
                frame.text = texts
        if isinstance(frame, id3.UFID) or isinstance(frame, id3.TextFrame) and frame.text:
            yield frame


def read_by_mutagen(path, demuxer):
    """The frames of a file; none where it has no tag that mutagen reads."""
    try:
        if demuxer in ("mp3", "aac"):
            return [*own_frames(id3.ID3(path))]
        file = mutagen.File(path)
        if file is None or not file.tags:
            return []
        if isinstance(file.tags, id3.ID3):
            return [*own_frames(file.tags)]
        pairs = {}
        for name, value in file.tags.items():
            pairs.setdefault(name.lower(), []).extend(value if isinstance(value, list) else [value])
        return frames_of(pairs.items())
    except Exception:  # Whatever is wrong with a tag, the song has none.
        return []


def frames_of(tags):
    """The frames of tags that aren't ID3v2's, and the mark that they aren't."""
    found = [frame_of(*key, texts) for key, texts in texts_by_frame(tags).items()]
    return found and [frame_of("TXXX", MARK, ["decoder"]), *found]


def picture_of(container):
    """The first picture that is a front cover, else the first one: its type, media type and bytes; None without one."""
    found = []
    for stream in container.streams.video:
        if stream.codec_context and stream.codec_context.name in PICTURES:
            kind = FRONT if stream.metadata.get("comment", IN_FRONT) == IN_FRONT else OTHER
            found.append((kind != FRONT, len(found), kind, stream))
    for _, _, kind, stream in sorted(found, key=lambda it: it[:2]):
        try:
            container.seek(0)
            data = bytes(next(container.demux(stream)))
        except (av.AVError, StopIteration):
            continue
        if 0 < len(data) <= MOST_PICTURE:
            return kind, PICTURES[stream.codec_context.name], data
    return None


def tag_of(path, container):
    """The bytes of the tag; none where there is nothing to tell."""
    frames = read_by_mutagen(path, container.format.name)
    if not frames:
        told = {**container.metadata, **container.streams.audio[0].metadata}
        frames = frames_of(told.items())
    tag = id3.ID3()
    for frame in frames[:MOST_TEXTS]:
        tag.add(frame)
    if picture := picture_of(container):
        kind, media, data = picture
        tag.add(id3.APIC(encoding=id3.Encoding.UTF8, mime=media, type=kind, desc="", data=data))
    if not tag:
        return b""
    made = io.BytesIO()
    tag.save(made, v1=0, v2_version=4, padding=lambda _: 0)
    return made.getvalue()
