"""The songs of a large library, by their numbers."""

# How many stand in the folder `few`, and in `few` and `many`.
FEW, QUARTER = 100, 16_384


def uri(number):
    """The URI of a song: ten songs an album, four albums an artist. The folders few and many have a quarter of the songs of
    a full queue."""
    top = "few" if number < FEW else "many" if number < QUARTER else "rest"
    return f"{top}/artist {number // 40:03}/album {number // 10:04}/{number:05}.wav"


def infos(number):
    return [f"INAM=Song_{number}", f"IART=Artist_{number // 40}", f"IPRD=Album_{number // 10}", f"ICRD={1960 + number % 60}", "IGNR=Folk"]
