"""What a property says, in words."""

from . import apertures, hevc, metadata
from .boxes import body
from .fold import plural

PROFILES = {1: "Main", 2: "Main 10", 3: "Main Still Picture", 4: "range extensions"}
PRIMARIES = {1: "BT.709", 2: "unspecified", 9: "BT.2020", 12: "Display P3"}
TRANSFERS = {1: "BT.709", 2: "unspecified", 8: "linear", 13: "sRGB", 16: "PQ", 18: "HLG"}
MATRICES = {0: "identity", 1: "BT.709", 2: "unspecified", 5: "BT.601", 6: "BT.601", 9: "BT.2020"}
TURNS = {0: "no turn", 1: "a quarter turn anticlockwise", 2: "half a turn", 3: "a quarter turn clockwise"}


def _hvcc(part):
    said = f"HEVC decoder record of {plural(part.left, 'byte')}"
    record = hevc.record(part.rest())
    if record is None:
        return f"{said}, too short to be one"
    return f"{said}: {PROFILES.get(record.profile, f'profile {record.profile}')}, {record.words}"


def size(part):
    """Width and height of an ispe."""
    return part.number(4), part.number(4)


def _ispe(part):
    width, height = size(part)
    return f"{width} × {height} pixels"


def _colr(part):
    kind = part.four()
    if kind != "nclx":
        return metadata.icc(part.rest()) if kind in ("prof", "rICC") else f"colour as {kind}"
    codes = [part.number(2) for _ in range(3)]
    full = "full range" if part.number(1) >> 7 else "video range"
    named = [table.get(code, "see ISO/IEC 23091-2") for table, code in zip((PRIMARIES, TRANSFERS, MATRICES), codes)]
    same = named[:1] if len(set(named)) == 1 else named
    return f"code points {', '.join(map(str, codes))} ({', '.join(same)}), {full}"


def depths(part):
    """The bits of each channel of a pixi."""
    return [part.number(1) for _ in range(part.number(1))]


def channels(bits):
    """Channels and their bits in words."""
    return f"{plural(len(bits), 'channel')} of {', '.join(map(str, sorted(set(bits)))) or 'no'} bits"


def _pixi(part):
    return channels(depths(part))


def _auxc(part):
    name = part.text()
    known = {"urn:mpeg:hevc:2015:auxid:1": "alpha", "urn:com:apple:photo:2020:aux:hdrgainmap": "gain map"}
    return f"auxiliary picture: {known.get(name, 'of its own kind')} ({name})"


def _irot(part):
    return f"turned: {TURNS[part.number(1) & 3]}"


def _imir(part):
    axis = part.number(1) & 1
    return f"mirrored, axis {axis} ({('top and bottom', 'left and right')[axis]} exchanged, as readers take it)"


def _clap(part):
    return apertures.aperture(part).words


def _clli(part):
    return f"light level: brightest pixel {part.number(2)}, brightest average {part.number(2)} candela per square metre"


SAYINGS = {
    "hvcC": _hvcc, "ispe": _ispe, "colr": _colr, "pixi": _pixi, "auxC": _auxc, "irot": _irot, "imir": _imir,
    "clap": _clap, "clli": _clli,
}  # fmt: skip


def words(data, box):
    """The property in words; of a type that is not known, its length."""
    part = body(data, box)
    say = SAYINGS.get(box.kind)
    return say(part) if say else plural(part.left, "byte")
