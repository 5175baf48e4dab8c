"""WAVE files and the sound in them, as Python's own reader has it."""

import array
import io
import struct
import sys
import wave

# The sub-format of PCM.
PCM = bytes.fromhex("0100000000001000800000aa00389b71")


def chunk(name, data):
    return name.encode() + len(data).to_bytes(4, "little") + data + b"\0" * (len(data) % 2)


def info(*texts):
    """A LIST INFO of these sub-chunks, each as its name and its text."""
    return chunk("LIST", b"INFO" + b"".join(chunk(name, text.encode() + b"\0") for name, text in texts))


def samples(values, bits=16):
    """Their bytes; 8 bits are unsigned."""
    if bits == 16:
        return struct.pack(f"<{len(values)}h", *values)
    return b"".join((it + 128).to_bytes(1, "little") if bits == 8 else it.to_bytes(bits // 8, "little", signed=True) for it in values)


def wave_of(sound, rate=8_000, channels=1, bits=16, mask=None, more=b""):
    """A WAVE file of these samples, which are values or bytes; with a mask of its channels an extensible one; and more chunks behind it."""
    data, size = sound if isinstance(sound, bytes) else samples(sound, bits), bits // 8 * channels
    form = struct.pack("<HHIIHH", 1 if mask is None else 0xFFFE, channels, rate, rate * size, size, bits)
    form += b"" if mask is None else struct.pack("<HHI", 22, bits, mask) + PCM
    return chunk("RIFF", b"WAVE" + chunk("fmt ", form) + chunk("data", data) + more)


def with_picture(sound, picture):
    """A WAVE file of these samples that has this front cover in its ID3v2 tag."""
    return with_pictures(sound, (3, picture))


def with_pictures(sound, *pictures):
    """One that has these there, each with the number of what it shows."""
    frames = b""
    for shows, picture in pictures:
        frame = b"\0image/png\0" + bytes([shows]) + b"\0" + picture
        frames += b"APIC" + len(frame).to_bytes(4, "big") + b"\0\0" + frame
    tag = b"ID3\x03\0\0" + bytes(len(frames) >> shift & 127 for shift in (21, 14, 7, 0)) + frames
    return wave_of(sound, more=chunk("id3 ", tag))


def wave_file(rate, channels, frames, seed):
    """The bytes of a WAVE file, whose samples go through all values."""
    values = array.array("h", ((it * 7919 + seed * 104729) % 65536 - 32768 for it in range(frames * channels)))
    if sys.byteorder == "big":
        values.byteswap()
    return wave_of(values.tobytes(), rate, channels)


def piece_of(data, first, count, percent):
    """A WAVE file of frames of a WAVE file at a volume."""
    with wave.open(io.BytesIO(data)) as reader:
        return wave_of(sound_of(data, first, count, percent), reader.getframerate(), reader.getnchannels())


def sound_of(data, first, count, percent):
    """The bytes of frames of a WAVE file at a volume: each sample is scaled, and rounded toward zero."""
    with wave.open(io.BytesIO(data)) as reader:
        reader.setpos(first)
        frames = reader.readframes(count)
        if len(frames) != count * reader.getnchannels() * 2:
            raise ValueError(f"there are no {count} frames from {first} on")
    values = [int.from_bytes(frames[at : at + 2], "little", signed=True) for at in range(0, len(frames), 2)]
    return samples([abs(it) * percent // 100 * (1 if it > 0 else -1) for it in values])
