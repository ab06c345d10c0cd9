"""What a file says of its HEVC: the decoder configuration record (ISO/IEC 14496-15) and the NAL units of a sample."""

import dataclasses

from .fold import plural

SHORTEST = 23  # bytes of a record without parameter sets
CHROMA = {0: "4:0:0", 1: "4:2:0", 2: "4:2:2", 3: "4:4:4"}
WINDOW_STEPS = {0: (1, 1), 1: (2, 2), 2: (2, 1), 3: (1, 1)}  # columns and rows that a conformance window counts as one, by chroma format
SPS = 33
PARAMETER_SETS = {32: "VPS", SPS: "SPS", 34: "PPS"}
FIRST_THAT_IS_NO_SLICE = 32  # NAL unit types below it are of coded slices
MOST_READ = 300  # bytes of an SPS: more than its fields up to the conformance window can take


@dataclasses.dataclass
class Record:
    version: int
    profile: int
    chroma: int
    depths: tuple  # of luma and of chroma, in bits
    length_size: int  # bytes of the length before each NAL unit
    sets: set  # types of the parameter sets in it
    is_whole: bool  # whether its parameter sets end within it
    sizes: set  # that its SPS give, as `size` has them

    @property
    def words(self):
        luma, chroma = self.depths
        depth = f"{luma} bits" if luma == chroma or self.chroma == 0 else f"{luma} bits and {chroma} bits of chroma"
        return f"{CHROMA[self.chroma]}, {depth}"


def record(data):
    """The record, or None where the bytes are too few to be one."""
    if len(data) < SHORTEST:
        return None
    sets, is_whole = _sets(data)
    depths = (8 + (data[17] & 7), 8 + (data[18] & 7))
    sizes = {size(unit) for kind, unit in sets if kind == SPS} if is_whole else set()
    return Record(data[0], data[1] & 31, data[16] & 3, depths, (data[21] & 3) + 1, {kind for kind, _ in sets}, is_whole, sizes)


def _sets(data):
    """The parameter sets, each with its type, and whether all of them end within the record."""
    sets, at = [], SHORTEST
    for _ in range(data[22]):
        if at + 3 > len(data):
            return sets, False
        kind, count = data[at] & 63, int.from_bytes(data[at + 1 : at + 3], "big")
        at += 3
        for _ in range(count):
            if at + 2 > len(data):
                return sets, False
            start, at = at + 2, at + 2 + int.from_bytes(data[at : at + 2], "big")
            sets.append((kind, data[start:at]))
    return sets, at <= len(data)


class _Ends(Exception):
    """A parameter set ends before what is asked for, or says what cannot be."""


class _Bits:
    """Reads the head of a NAL unit bit by bit, without the bytes that keep it from looking like a start code."""

    def __init__(self, unit):
        plain = unit[:MOST_READ].replace(b"\0\0\3", b"\0\0")
        self.bits, self.left = int.from_bytes(plain, "big"), 8 * len(plain)

    def number(self, width):
        if width > self.left:
            raise _Ends
        self.left -= width
        return self.bits >> self.left & (1 << width) - 1

    def golomb(self):
        """A number in Exp-Golomb code: as many zeros as there are bits behind the first 1."""
        zeros = 0
        while not self.number(1):
            zeros += 1
            if zeros > 31:
                raise _Ends
        return (1 << zeros) - 1 + self.number(zeros)


def size(unit):
    """Width and height that an SPS gives: what the decoder puts out, which is the coded picture less what the conformance window
    cuts off. None where the unit is no SPS of the base layer, or cannot be read so far."""
    try:
        return _size(_Bits(unit))
    except _Ends:
        return None


def _size(bits):
    """The fields of an SPS up to its conformance window (ITU-T H.265, 7.3.2.2.1)."""
    _, kind, layer, _ = (bits.number(width) for width in (1, 6, 6, 3))
    if kind != SPS or layer != 0:
        raise _Ends
    _, sub_layers, _ = (bits.number(width) for width in (4, 3, 1))  # sub-layers below the highest
    bits.number(96)  # profile and level
    present = [(bits.number(1), bits.number(1)) for _ in range(sub_layers)]
    bits.number(2 * (8 - sub_layers) if sub_layers else 0)
    for profile, level in present:
        bits.number(88 * profile + 8 * level)
    bits.golomb()  # the set's own number
    chroma = bits.golomb()
    if chroma not in WINDOW_STEPS:
        raise _Ends
    bits.number(1 if chroma == 3 else 0)  # whether the colour planes are coded apart
    width, height = bits.golomb(), bits.golomb()
    left, right, top, bottom = (bits.golomb() for _ in range(4)) if bits.number(1) else (0, 0, 0, 0)
    across, down = WINDOW_STEPS[chroma]
    put_out = width - across * (left + right), height - down * (top + bottom)
    return put_out if min(put_out) > 0 else None


def walk(sample, length_size):
    """A sample's NAL units; then what is wrong with their lengths, or None where they end with the sample."""
    units, at = [], 0
    while at < len(sample):
        length = int.from_bytes(sample[at : at + length_size], "big")
        left = len(sample) - at - length_size
        if left < 0:
            return units, f"{plural(len(sample) - at, 'byte')} left at {at}, too few for a length"
        if length > left:
            return units, f"the unit at {at} says {length:,} bytes, and {left:,} are left"
        if length < 2:
            return units, f"the unit at {at} says {length}, and the header of a unit alone has 2 bytes"
        at += length_size + length
        units.append(sample[at - length : at])
    return units, None


def type_of(unit):
    """The type of a NAL unit."""
    return unit[0] >> 1 & 63


def start_code(sample):
    """The start code that a sample in the form of Annex B begins with, or nothing. A length in 4 bytes may begin with the same three
    bytes: then a start code is behind them only if what follows can be the header of a unit, of the base layer and some sub-layer."""
    if sample.startswith(b"\0\0\0\1"):
        return sample[:4]
    header = sample[3:5]
    follows = len(header) == 2 and header[0] & 0x81 == 0 and 0 < header[1] < 8
    return sample[:3] if sample.startswith(b"\0\0\1") and follows else b""
