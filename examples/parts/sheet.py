"""The panel sheet: a panel as one run of bytes, in the order in which the program `panel` reads it."""

import dataclasses

MOST = 12_288  # bytes of a sheet that the program takes
DEPTHS = {8: 0, 10: 1, 12: 2}
ORIENTATIONS = (
    "Normal", "FlipH", "Rotate180", "FlipV", "Transpose", "Rotate90", "Transverse", "Rotate270",
)  # fmt: skip


@dataclasses.dataclass
class Gain:
    """A gain map: one coded picture, its XMP packet and, if there is one, a tone map."""

    record: bytes
    sample: bytes
    width: int
    height: int
    depth: int
    cicp: tuple
    xmp: bytes
    tone_map: bytes | None = None
    alternate_cicp: tuple | None = None
    alternate_icc: bytes | None = None


@dataclasses.dataclass
class Panel:
    """Everything that one file is made of. A cicp is three codes and whether the range is full."""

    cols: int
    rows: int
    tile: tuple  # width and height
    full: tuple
    depth: int  # of a sample of the colour picture, in bits
    alpha_depth: int
    color_record: bytes
    alpha_record: bytes
    color_samples: list
    alpha_samples: list
    cicp: tuple | None = None
    icc: bytes | None = None
    orientation: str | None = None
    light: tuple | None = None  # the brightest pixel and the brightest average, in candela per square metre
    exif: bytes | None = None
    gain: Gain | None = None


def number(value, width):
    """A number in `width` bytes, the highest first."""
    return value.to_bytes(width, "big")


def string(data):
    """A byte string with its length before it."""
    return number(len(data), 4) + data


def cicp(codes):
    """Three codes, and 1 for full range."""
    *three, full_range = codes
    return b"".join(number(code, 2) for code in three) + number(int(full_range), 1)


def sheet(panel):
    """The panel's sheet: the map of what is present, the fields that every panel has, then those that stand in the map."""
    optional = _optional(panel)
    present = sum(1 << bit for bit, part in enumerate(optional) if part is not None)
    return number(present, 2) + _always(panel) + b"".join(part for part in optional if part is not None)


def _always(panel):
    samples = panel.color_samples + panel.alpha_samples
    numbers = number(panel.cols, 2) + number(panel.rows, 2)
    numbers += b"".join(number(side, 4) for side in panel.tile + panel.full)
    numbers += number(DEPTHS[panel.depth], 1) + number(DEPTHS[panel.alpha_depth], 1)
    records = string(panel.color_record) + string(panel.alpha_record)
    return numbers + records + b"".join(number(len(s), 4) for s in samples) + b"".join(samples)


def _optional(panel):
    """The nine optional fields, None for each that is absent."""

    def maybe(code, value):
        return None if value is None else code(value)

    gain = panel.gain
    return [
        maybe(cicp, panel.cicp),
        maybe(string, panel.icc),
        maybe(lambda name: number(ORIENTATIONS.index(name), 1), panel.orientation),
        maybe(lambda light: number(light[0], 2) + number(light[1], 2), panel.light),
        maybe(string, panel.exif),
        maybe(_gain, gain),
        gain and maybe(string, gain.tone_map),
        gain and maybe(cicp, gain.alternate_cicp),
        gain and maybe(string, gain.alternate_icc),
    ]


def _gain(gain):
    sizes = number(gain.width, 4) + number(gain.height, 4) + number(DEPTHS[gain.depth], 1)
    return string(gain.record) + string(gain.sample) + sizes + cicp(gain.cicp) + string(gain.xmp)
