"""The samples of a music file, as ffmpeg decodes them: 16 bits, one or two channels, from any place on."""

import ctypes
import gc
import itertools
import os
import stat
import sys
import time

import av

av.logging.set_level(av.logging.PANIC)
# PyAV looks for these again with each packet, and finds the module `av` behind them.
sys.modules |= {"av.av": None, "av.codec.av": None}

# A resampler begins no threads of its own then.
ctypes.CDLL(f"libavutil.so.{av.library_versions['libavutil'][0]}").av_cpu_force_count(1)

# The demuxers of music: none of them opens a second file, as lists of files and of streams do.
FORMATS = """3gp,aac,ac3,adts,aiff,amr,ape,asf,au,caf,dsf,dts,eac3,flac,iff,m4a,matroska,mov,mp3,mp4,mpc,mpc8,ogg,oma,shn,tak,tta,voc,w64,
wav,webm,wv,xwma""".replace("\n", "")
# Of an MP3 file so many frames stand one behind the other, as far as a demuxer looks for them, behind its tag and zeros. Their kilobits a
# second and their rates by the header's fields (ISO 11172-3, 13818-3): of the first version, and of those of lower rates.
FRAMES_OF_MP3, LOOKED = 7, 1 << 14
KILOBITS = [[0, 32, 40, 48, 56, 64, 80, 96, 112, 128, 160, 192, 224, 256, 320], [0, *range(8, 64, 8), *range(64, 161, 16)]]
RATES = (44_100, 48_000, 32_000)
# A file is decoded in parts of so many seconds, each from its beginning, or from some seconds before, where a decoder begins anew: so its
# samples are the same from wherever they are read, and however broken the file is.
PART, BEFORE = 300, 2
# Decoders that a few frames put into one state, whatever they decoded before: of these parts are shorter, and give the same samples as one
# decoding of all. Others draw noise, or never forget.
FORGETFUL = ("mp3", "mp3float", "vorbis", "flac", "alac", "wavpack", "tta", "ape")
SHORT_PART = 60
# How many seconds before a place a demuxer looks for it; how many before its end a file is decoded to learn where that is.
LOOKED_BACK, TAIL = (1, 10, 60), 2
# The highest rate of a WAVE file for the daemon; how many frames a decoder of MP3 gives before what was encoded.
MOST_RATE, DECODER_DELAY = 192_000, 529
# How many seconds of a processor a request may take: the daemon waits two seconds.
IN_TIME = 3
# A file of more seconds isn't decoded to count its frames, where its timestamps don't tell them. How many counts are kept.
MOST_COUNTED, MOST_COUNTS = 900, 10_000
# How many packets may pass until one gives sound; how many files are closed until their memory is looked for.
FIRST, EACH = 100, 8
# How many frames of silence come at once, and how many bytes are kept behind the place that is read.
SILENCE, KEPT = 4096, 1 << 17


class NotASong(Exception):
    """The file is none that the decoder knows."""


class Failed(Exception):
    """The file can't be read or decoded, here or now."""


class Deadline:
    """Until when a request must have its answer."""

    def __init__(self):
        self.end = time.thread_time() + IN_TIME

    def check(self):
        if time.thread_time() > self.end:
            raise Failed("it can't be decoded in time")


def stamp_of(path):
    """What changes with a file. Nothing but a plain file is a song, and nothing else is opened: a pipe would wait for its other end."""
    try:
        found = os.stat(path)
    except OSError as fault:
        raise Failed(fault.strerror) from fault
    if not stat.S_ISREG(found.st_mode):
        raise NotASong("it is no plain file")
    return found.st_mtime_ns, found.st_size, found.st_ino


def frame_length(head):
    """The bytes of a frame of MP3 that has this head; 0 of what is none, or doesn't tell it."""
    version, layer, bits, rate = head >> 19 & 3, head >> 17 & 3, head >> 12 & 15, head >> 10 & 3
    if head >> 21 != 0x7FF or version == 1 or layer != 1 or bits in (0, 15) or rate == 3:
        return 0
    is_low, is_lowest = version < 3, version == 0
    return 144_000 * KILOBITS[is_low][bits] // (RATES[rate] >> is_lowest) + (head >> 9 & 1)


def is_mp3(path):
    """Whether it is an MP3 file without doubt, as a demuxer's own look would find, which takes long behind a tag with a picture."""
    with open(path, "rb") as file:
        tag = file.read(10)
        if tag[:3] == b"ID3" and len(tag) == 10:
            size = sum(byte << shift for byte, shift in zip(tag[6:], (21, 14, 7, 0)))
            file.seek(10 + size + (10 if tag[5] & 0x10 else 0))
        else:
            file.seek(0)
        data = file.read(LOOKED).lstrip(b"\0")
    at = 0
    for _ in range(FRAMES_OF_MP3):
        length = frame_length(int.from_bytes(data[at : at + 4], "big"))
        at += length
        if not length or at > len(data):
            return False
    return True


def opened(path):
    """A demuxer of a file and the stream of its sound."""
    options = {"format_whitelist": FORMATS, "protocol_whitelist": "file"}
    try:
        known = "mp3" if is_mp3(path) else None
        container = av.open(path, format=known, metadata_errors="replace", container_options=options)
    except MemoryError as fault:
        raise Failed("no memory") from fault
    except (av.AVError, ValueError) as fault:
        raise NotASong(getattr(fault, "strerror", None) or str(fault)) from fault
    stream = next((it for it in container.streams.audio if it.codec_context), None)
    if stream is None:
        container.close()
        raise NotASong("there is no sound in it that a decoder knows")
    stream.codec_context.thread_count = 1
    return container, stream


def demuxed(container, stream):
    """The packets of a stream, up to the first that can't be read; the last one is empty, and has the decoder give what it holds."""
    packets = container.demux(stream)
    while True:
        try:
            yield next(packets)
        except (av.AVError, StopIteration):
            return


def decoded(packets):
    """The frames of packets. One that can't be decoded gives none."""
    for packet in packets:
        try:
            yield from packet.decode()
        except MemoryError as fault:
            raise Failed("no memory") from fault
        except (av.AVError, ValueError):
            continue


class Converter:
    """Makes 16-bit samples of frames, by libswresample."""

    def __init__(self, rate, channels):
        self.rate, self.size, self.layout = rate, 2 * channels, "mono" if channels == 1 else "stereo"
        self.resampler = None

    def take(self, frame):
        """The samples of a frame, or without one the last of those before."""
        if self.resampler is None:
            self.resampler = av.AudioResampler(format="s16", layout=self.layout, rate=self.rate)
        try:
            made = self.resampler.resample(frame)
        except ValueError:  # Another form than that of the frames before.
            self.resampler = None
            return self.take(frame)
        return b"".join(memoryview(it.planes[0])[: it.samples * self.size] for it in made if it)


class Samples:
    """The frames of a file, numbered from 0 on."""

    counts, closings = {}, itertools.count(1)

    def __init__(self, path):
        self.path, self.stamp, self.deadline = path, stamp_of(path), Deadline()
        self.pieces, self.start, self.held = None, 0, bytearray()
        self.container, self.stream = opened(path)
        try:
            self.look()
        except BaseException:
            self.close()
            raise

    def look(self):
        """Learns form and length by the first packets."""
        packets = demuxed(self.container, self.stream)
        packet = next(packets, None)
        first = next(decoded(itertools.islice(itertools.chain([packet] if packet else [], packets), FIRST)), None)
        if first is None or not first.sample_rate or not first.layout.channels:
            raise NotASong("nothing of it can be decoded")
        self.own_rate = first.sample_rate
        self.is_resampled = self.own_rate > MOST_RATE
        self.rate, self.channels = min(self.own_rate, MOST_RATE), min(len(first.layout.channels), 2)
        self.size = 2 * self.channels
        # The timestamps of one frame. Where they are whole ones they tell its place; so do those of half the rate, of HE-AAC.
        self.ticks, self.origin = 1 / (self.stream.time_base * self.own_rate), first.pts
        is_whole = self.ticks.denominator == 1 or self.ticks * 2 == 1
        self.is_timed = is_whole and first.pts is not None and not self.is_resampled
        decoder = self.stream.codec_context.name
        self.is_forgetful = decoder in FORGETFUL or decoder.startswith("pcm_")
        self.count = self.counted(packet)

    def close(self):
        """Lets go of the demuxer, until samples are read. Streams and decoders stand in circles, which are looked for now and then."""
        if self.stream is not None:
            self.stream = None
            self.container.close()
            if next(Samples.closings) % EACH == 0:
                gc.collect()

    # How many frames there are.

    def counted(self, packet):
        """The number of frames."""
        if self.container.format.name == "mp3" and self.is_timed and (count := self.told_by_info(packet)):
            return count
        if self.is_timed and (count := self.end_by_tail()):
            return count
        key = self.path, self.stamp
        if key not in Samples.counts:
            if len(Samples.counts) >= MOST_COUNTS:
                Samples.counts.clear()
            Samples.counts[key] = self.counted_all()
        return Samples.counts[key]

    def told_by_info(self, packet):
        """What the tag of an MP3 file's encoder says, which stands in a frame of its own before the first packet."""
        info = info_before(self.path, packet.pos) if packet.pos and packet.duration else None
        if not info or info[0] * packet.duration != self.stream.duration:
            return None  # It is another file's, as where two were joined: ffmpeg doesn't heed it.
        frames, padding = info
        skipped = int(self.origin / self.ticks)
        return frames * int(packet.duration / self.ticks) - (skipped - DECODER_DELAY + padding if skipped else 0)

    def end_by_tail(self):
        """Where the last frame ends, decoded from shortly before the end on."""
        base = self.stream.time_base
        duration = self.stream.duration or (self.container.duration or 0) / av.time_base / base
        end = None
        for frame in decoded(self.sought(duration - TAIL / base) or []):
            self.deadline.check()
            end = (self.place(frame) if end is None else end) + frame.samples
        return end

    def counted_all(self):
        """The number of frames of a file that doesn't tell it: all are decoded, or of a long one its duration is taken."""
        duration = (self.container.duration or 0) / av.time_base
        if duration > MOST_COUNTED:
            return int(duration * self.rate)
        return sum(count for _, count, _ in self.placed(0, None))

    # The frames from a place on.

    def place(self, frame):
        """Where the first frame stands that a decoder gives; the others follow it, whatever their timestamps: those at the end of Ogg files
        may be wrong."""
        return round((frame.pts - self.origin) / self.ticks) if self.is_timed and frame.pts is not None else 0

    def packets_from(self, place):
        """The packets from a place on, by timestamps; from the beginning, where these don't tell it."""
        if place <= 0 or not self.is_forgetful or self.stream is None:
            self.reopen()
        if place > 0:
            ticks = self.origin + place * self.ticks
            for seconds in LOOKED_BACK:
                packets = self.sought(ticks - seconds * self.rate * self.ticks)
                if packets and (found := from_ticks(packets, ticks)):
                    return found
            self.reopen()
        return demuxed(self.container, self.stream)

    def reopen(self):
        """Opens the file again: a decoder has nothing left then of what was decoded before."""
        self.close()
        if stamp_of(self.path) != self.stamp:
            raise Failed("the file has changed")
        self.container, self.stream = opened(self.path)

    def sought(self, ticks):
        """The packets from about there on; None where the demuxer finds none."""
        try:
            self.container.seek(max(0, int(ticks)), stream=self.stream)
        except av.AVError:
            return None
        return demuxed(self.container, self.stream)

    def placed(self, begin, wanted):
        """The frames, decoded from `begin` on or from some before: the place of each, how many samples it has, and from the place `wanted`
        on its samples."""
        at, converter = None, Converter(self.rate, self.channels)
        ends = [None] if self.is_resampled else []
        for frame in itertools.chain(decoded(self.packets_from(begin - BEFORE * self.rate)), ends):
            self.deadline.check()
            if frame and frame.sample_rate != self.own_rate:
                continue  # In broken files; to resample it would take those before.
            at = self.place(frame) if at is None else at
            is_wanted = self.is_resampled or wanted is not None and at + frame.samples > wanted
            data = converter.take(frame) if is_wanted else None
            count = len(data) // self.size if is_wanted else frame.samples
            yield at, count, data
            at += count

    def run(self, begin, first, end):
        """The samples from one place up to another, decoded from `begin` on, without gaps: silence stands where the file has none."""
        at = first
        for place, count, data in self.placed(begin, first):
            if place + count <= at:
                continue
            yield from self.silence(min(place, end) - at)
            at = max(at, min(place, end))
            if at == end:
                return
            taken = data[(at - place) * self.size : (end - place) * self.size]
            yield taken
            at += len(taken) // self.size
        yield from self.silence(end - at)

    def silence(self, count):
        while count > 0:
            yield bytes(min(SILENCE, count) * self.size)
            count -= SILENCE

    def pieces_from(self, first):
        """The samples from a place on, up to the end."""
        part = (SHORT_PART if self.is_forgetful else PART) * self.rate if self.is_timed else self.count
        while first < self.count:
            begin = first - first % part
            end = min(self.count, begin + part)
            yield from self.run(begin, first, end)
            first = end

    def end_held(self):
        return self.start + len(self.held) // self.size

    def read(self, first, count):
        """So many frames from a place on, or up to the end."""
        self.deadline = Deadline()
        count = min(count, self.count - first)
        try:
            self.hold(first, first + count)
        except BaseException:
            self.pieces = None
            raise
        at = (first - self.start) * self.size
        answer = bytes(self.held[at : at + count * self.size])
        self.drop((at + len(answer) - KEPT) // self.size)
        return answer

    def hold(self, first, end):
        """Decodes what is wanted, on from what was decoded last where that is near."""
        if self.pieces is None or not self.start <= first <= self.end_held() + self.rate:
            self.pieces, self.start, self.held = self.pieces_from(first), first, bytearray()
        while self.end_held() < end:
            self.held += next(self.pieces)
            self.drop(min(first, self.end_held() - KEPT // self.size) - self.start)

    def drop(self, count):
        """Lets go of so many frames that were held."""
        if count > 0:
            del self.held[: count * self.size]
            self.start += count


def from_ticks(packets, ticks):
    """The packets from the first one on that isn't before these ticks; None where the first that tells its time is behind them."""
    is_known = False
    for packet in packets:
        if packet.pts is None:
            continue
        if packet.pts >= ticks:
            return itertools.chain([packet], packets) if is_known or packet.pts == ticks else None
        is_known = True
    return None


def info_before(path, end):
    """How many frames the tag `Xing` or `Info` tells of an MP3 file, and how many samples of padding stand at its end; None without one."""
    with open(path, "rb") as file:
        file.seek(max(0, end - 3000))
        data = file.read(min(end, 3000))
    at = max(data.rfind(b"Xing"), data.rfind(b"Info"))
    flags = data[at + 7] if 0 <= at < len(data) - 8 else 0
    if not flags & 1:
        return None
    # Behind the flags: frames, bytes, the table of places and the quality, each if its flag is set; then 9 bytes of the encoder's name.
    encoder = at + 8 + sum(size for flag, size in ((1, 4), (2, 4), (4, 100), (8, 4)) if flags & flag)
    is_known = data[encoder : encoder + 4] in (b"LAME", b"Lavf", b"Lavc")
    padding = int.from_bytes(data[encoder + 21 : encoder + 24], "big") & 0xFFF if is_known else 0
    return int.from_bytes(data[at + 8 : at + 12], "big"), padding
