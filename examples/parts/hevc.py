"""HEVC pictures as a HEIF file holds them.

x265 codes each tile of a picture as a stream of one IDR picture. With the same settings the streams have the same
parameter sets, as the tiles of one HEIF picture must. A stream is cut into NAL units: the parameter sets go into the
decoder configuration record (ISO/IEC 14496-15, 8.3.3.1), the slices, each with its length before it, are the tile's
sample.
"""

import functools
import hashlib
import pathlib
import subprocess

CHROMA = {"i400": 0, "i420": 1, "i444": 3}
VPS, SPS, PPS = 32, 33, 34
IDR_TYPES = (19, 20)

# One thread, so that the same input gives the same bytes everywhere. A key picture interval of 1 would make x265 name an
# "Intra" profile, which fewer readers know than Main; with one picture in each stream the interval is of no account.
FIXED = [
    "--log-level", "error", "--no-progress", "--fps", "1", "--bframes", "0", "--frame-threads", "1", "--pools", "none",
    "--no-wpp", "--no-info", "--no-hrd", "--no-aud", "--ctu", "32",
]  # fmt: skip
LONGEST = 60  # seconds that one picture may take


class CodecError(Exception):
    """x265 is missing, failed, or gave a stream that is not understood."""


@functools.cache
def encoder_version():
    """x265's version, as '3.5+1-f0c1022b6', or None where there is no x265."""
    try:
        said = subprocess.run(["x265", "--version"], capture_output=True, text=True, check=True)
    except (OSError, subprocess.CalledProcessError):
        return None
    words = (said.stdout + said.stderr).split()
    return words[words.index("version") + 1] if "version" in words else None


def code_tiles(tiles, width, height, csp, depth, options=("--lossless",), cache=None):
    """The record and the samples of tiles of one size.

    A tile is its planes, row by row, in raw bytes: one byte for a value of 8 bits, else two with the lower first. With
    a folder as `cache` a stream that was coded before is not coded again.
    """
    command = ["x265", "--input", "-", "--input-res", f"{width}x{height}", "--input-csp", csp]
    command += ["--input-depth", str(depth), "--output-depth", str(depth), *FIXED, *options, "--output", "-"]
    coded = [_cut(_stream(command, tile, cache)) for tile in tiles]
    sets = coded[0][0]
    if any(other != sets for other, _ in coded):
        raise CodecError("the tiles do not share their parameter sets")
    return _record(sets, csp, depth), [sample for _, sample in coded]


def _stream(command, raw, cache):
    """What x265 makes of a raw picture, from the cache if it is there."""
    if cache is None:
        return _run(command, raw)
    name = hashlib.sha256(repr((encoder_version(), command)).encode() + raw).hexdigest()[:32]
    kept = pathlib.Path(cache) / f"{name}.hevc"
    if not kept.exists():
        kept.parent.mkdir(parents=True, exist_ok=True)
        fresh = kept.with_suffix(".part")
        fresh.write_bytes(_run(command, raw))
        fresh.rename(kept)
    return kept.read_bytes()


def _run(command, raw):
    try:
        done = subprocess.run(command, input=raw, capture_output=True, timeout=LONGEST)
    except (OSError, subprocess.TimeoutExpired) as error:
        raise CodecError(f"x265 cannot be run: {error}") from error
    if done.returncode != 0 or not done.stdout:
        raise CodecError(f"x265 failed: {done.stderr.decode(errors='replace').strip()}")
    return done.stdout


def _nal_units(stream):
    """The NAL units between the start codes of a byte stream (ITU-T H.265, annex B)."""
    units = stream.split(b"\0\0\1")[1:]
    # A zero before a start code belongs to the start code: a NAL unit never ends in one.
    return [unit.rstrip(b"\0") for unit in units]


def _cut(stream):
    """The parameter sets by type, and the sample, of a stream of one picture."""
    sets, sample = {}, b""
    for unit in _nal_units(stream):
        kind = unit[0] >> 1 & 63
        if kind in (VPS, SPS, PPS):
            sets[kind] = unit
        elif kind in IDR_TYPES:
            sample += len(unit).to_bytes(4, "big") + unit
        elif kind < 32:
            raise CodecError(f"a slice of NAL unit type {kind} cannot be decoded alone")
    if set(sets) != {VPS, SPS, PPS} or not sample:
        raise CodecError("the stream lacks a parameter set or a picture")
    return sets, sample


class _Bits:
    """Reads a parameter set bit by bit, without its emulation prevention bytes."""

    def __init__(self, unit):
        plain = unit.replace(b"\0\0\3", b"\0\0")
        self.left = "".join(f"{byte:08b}" for byte in plain[2:])

    def fixed(self, count):
        taken, self.left = self.left[:count], self.left[count:]
        return int(taken, 2)

    def exp_golomb(self):
        zeros = len(self.left) - len(self.left.lstrip("0"))
        return self.fixed(2 * zeros + 1) - 1


def _record(sets, csp, depth):
    """The decoder configuration record, with what it repeats of the sequence parameter set."""
    bits = _Bits(sets[SPS])
    bits.fixed(4)  # which video parameter set
    layers, nested = bits.fixed(3) + 1, bits.fixed(1)
    profile = bytes(bits.fixed(8) for _ in range(12))  # general profile, compatibility, constraints and level
    if layers != 1:
        raise CodecError("the stream has temporal layers")
    bits.exp_golomb()  # this set's own number
    if bits.exp_golomb() != CHROMA[csp]:
        raise CodecError(f"the stream is not {csp}")
    record = b"\1" + profile
    record += b"\xf0\0" + b"\xfc"  # no spatial segmentation, nothing said of parallel decoding
    record += bytes([0xFC | CHROMA[csp], 0xF8 | depth - 8, 0xF8 | depth - 8])
    record += b"\0\0"  # no frame rate
    record += bytes([layers << 3 | nested << 2 | 3])  # lengths of four bytes
    record += bytes([3])
    for kind in (VPS, SPS, PPS):
        complete_here = 0x80
        record += bytes([complete_here | kind]) + b"\0\1" + len(sets[kind]).to_bytes(2, "big") + sets[kind]
    return record
