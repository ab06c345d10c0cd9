"""What a reader gave, held to what was meant."""

import pathlib
import tempfile

import expected
import panels
import pixels
import programs

# Mean difference that is near, in parts of the full range: a matrix and its inverse round; a lossy card loses more; and
# ImageMagick 6 halves the chroma of every picture, which a picture of many small details does not survive.
NEAR = {"exact": 0.0, "near": 0.005, "lossy": 0.015}
HALVED = 0.12


class Tally:
    """What was found, reader by reader."""

    def __init__(self):
        self.failures, self.reports, self.counts = [], [], {}

    def fail(self, reader, name, message):
        self.failures.append(f"{reader}: {name}: {message}")

    def count(self, reader, what, times=1):
        of_reader = self.counts.setdefault(reader, {})
        of_reader[what] = of_reader.get(what, 0) + times

    def add(self, other):
        """All that another has found."""
        self.failures += other.failures
        self.reports += other.reports
        for reader, counts in other.counts.items():
            for what, times in counts.items():
                self.count(reader, what, times)

    def hold(self, reader, name, what, holds, message="is not what was written"):
        """Counts what holds, and notes what does not."""
        if holds:
            self.count(reader, what)
        else:
            self.fail(reader, name, f"{what} {message}")

    def note(self, reader, name, entry, behaviour):
        """Holds what a reader does where docs/DIFFERENCES.md has an entry to what is known of its version."""
        judged = expected.judge(entry, reader.libheif, behaviour)
        if judged is None:
            self.count(reader.name, f"as {entry} says")
        elif judged[0]:
            self.fail(reader.name, name, judged[1])
        else:
            self.reports.append(f"{reader.name}: {name}: {judged[1]}")


def decoded(tally, reader, file, meant):
    """Holds a decoding reader to the pictures. What it showed, or None where it refuses the file."""
    two_depths = meant.difference is not None and meant.difference.startswith("S11")
    try:
        with tempfile.TemporaryDirectory() as room:
            seen = reader.read(file, pathlib.Path(room))
    except programs.Refused as refusal:
        if meant.difference in ("S2", "D12") or two_depths and reader.makes_one_depth:
            tally.note(reader, meant.name, meant.difference, expected.REFUSED)
        else:
            tally.fail(reader.name, meant.name, f"refused: {refusal}")
        return None
    tally.count(reader.name, "files read")
    if meant.difference in ("S2", "D12"):
        tally.note(reader, meant.name, meant.difference, expected.SHOWN)
    elif meant.difference == "S1":
        _mirrored(tally, reader, meant, seen)
    elif meant.difference == "S12":
        _of_cut_tiles(tally, reader, meant, seen)
    elif two_depths:
        _of_two_depths(tally, reader, meant, seen)
    else:
        _pictures(tally, reader, meant, seen)
    return seen


def _mirrored(tally, reader, meant, seen):
    """A mirrored picture is shown as meant or, which is the same as half a turn of that, as the other of its pair."""
    for behaviour, turn in ((expected.AS_MEANT, "Normal"), (expected.OTHER_OF_PAIR, "Rotate180")):
        turned = pixels.TURNS[turn]
        if _shows(meant.colour.map(turned), meant.alpha.map(turned), seen, _allowed(reader, meant)):
            tally.note(reader, meant.name, meant.difference, behaviour)
            return
    tally.fail(reader.name, meant.name, "neither as meant nor as the other mirrored orientation of its pair")


def _of_cut_tiles(tally, reader, meant, seen):
    """Tiles of which a part is to be seen are shown as meant, everything else with them, or whole, a few pixels further apart."""
    shown = [_shows(*pictures, seen, _allowed(reader, meant)) for pictures in ((meant.colour, meant.alpha), meant.uncut)]
    if all(shown):  # of a reader that halves the chroma
        shown = _nearer(seen.colour, meant.colour, meant.uncut[0])
    if shown[0]:
        tally.note(reader, meant.name, meant.difference, expected.AS_MEANT)
        _pictures(tally, reader, meant, seen)
    elif shown[1]:
        tally.note(reader, meant.name, meant.difference, expected.UNCUT)
    else:
        tally.fail(reader.name, meant.name, "neither as meant nor with all that its tiles have")


def _nearer(seen, *pictures):
    """Of each picture whether it is the nearest."""
    off = [pixels.distance(seen.at_depth(picture.depth), picture)[0] for picture in pictures]
    return [each == min(off) for each in off]


def _of_two_depths(tally, reader, meant, seen):
    """The colour is shown as meant. The library gives the alpha exact; a reader that makes one depth of the two keeps as
    many of its bits as the colour has, or shows another alpha, if its version is known for that."""
    if not _shows(meant.colour, None, seen, _allowed(reader, meant)):
        tally.fail(reader.name, meant.name, "the colour is not what was written")
    elif seen.alpha is None:
        tally.note(reader, meant.name, meant.difference, expected.NO_ALPHA)
    elif reader.makes_one_depth:
        as_meant = _same_alpha(_kept(meant.alpha, meant.colour.depth), seen)
        tally.note(reader, meant.name, meant.difference, expected.AS_MEANT if as_meant else expected.OTHER_ALPHA)
    else:
        exact = _same_alpha(_kept(meant.alpha, seen.alpha.depth), seen)
        tally.hold(reader.name, meant.name, "alpha of another depth exact", exact)
        own = seen.alpha.depth == meant.alpha.depth
        tally.note(reader, meant.name, "S11, library", expected.OWN_DEPTH if own else expected.COLOUR_DEPTH)


def _kept(alpha, depth):
    """The alpha in so many bits, if it has more."""
    return alpha.at_depth(min(alpha.depth, depth))


def _allowed(reader, meant):
    return HALVED if reader.halves_chroma and meant.coding == "exact" else NEAR[meant.coding]


def _shows(colour, alpha, seen, allowed):
    """Whether the colour is shown and, where both have one, the alpha."""
    if not pixels.same_size(colour, seen.colour):
        return False
    if pixels.distance(seen.colour.at_depth(colour.depth), colour)[0] > allowed:
        return False
    return None in (alpha, seen.alpha) or _same_alpha(alpha, seen)


def _same_alpha(alpha, seen):
    return seen.alpha.depth >= alpha.depth and seen.alpha.at_depth(alpha.depth).channels == alpha.channels


def _pictures(tally, reader, meant, seen):
    name, colour, alpha = meant.name, meant.colour, meant.alpha
    if not pixels.same_size(colour, seen.colour):
        size = f"{seen.colour.width} × {seen.colour.height} and not {colour.width} × {colour.height}"
        tally.fail(reader.name, name, f"the picture has {size}")
        return
    allowed = _allowed(reader, meant)
    mean, most = pixels.distance(seen.colour.at_depth(colour.depth), colour)
    what = "colour exact" if most == 0 else "colour near"
    tally.hold(reader.name, name, what, mean <= allowed, f"is off by {mean:.4f} on average, and {allowed} is allowed")
    if seen.alpha is not None:
        tally.hold(reader.name, name, "alpha exact", _same_alpha(alpha, seen))
    elif reader.gives_alpha:
        tally.fail(reader.name, name, "no alpha is shown")
    if reader.gives_parts:
        _parts(tally, reader.name, meant, seen)


def _parts(tally, reader, meant, seen):
    """ICC profile, Exif and gain image, of a reader that gives them."""
    panel, name = meant.panel, meant.name
    if panel.icc is not None:
        tally.hold(reader, name, "ICC the same", seen.icc == panel.icc)
    if panel.exif is not None:
        # libheif hands over the four bytes before the Exif, too.
        offset = panels.tiff_header_offset(panel.exif).to_bytes(4, "big")
        tally.hold(reader, name, "Exif the same", seen.exif == offset + panel.exif)
    if meant.gain is not None:
        given = seen.gain and seen.gain.at_depth(meant.gain.depth)
        exact = given is not None and all(channel == meant.gain.channels[0] for channel in given.channels)
        tally.hold(reader, name, "gain image exact", exact)


def described(tally, info, file, meant):
    """Holds what heif-info says to the panel. What it says, or None where it refuses the file."""
    try:
        said = info.read(file, None)
    except programs.Refused as refusal:
        if meant.difference in ("S2", "D12"):
            tally.note(info, meant.name, meant.difference, expected.REFUSED)
        else:
            tally.fail(info.name, meant.name, f"refused: {refusal}")
        return None
    tally.count(info.name, "files read")
    size = "x".join(map(str, meant.size()))
    tally.hold(info.name, meant.name, "size right", f"image: {size} " in said, f"{size} is not named: {said}")
    tally.hold(info.name, meant.name, "alpha named", "alpha channel: yes" in said, "is not named")
    # Not every version speaks of light.
    if meant.panel.light and "light level" in said:
        holds = all(f"light level: {number}" in said for number in meant.panel.light)
        tally.hold(info.name, meant.name, "light level right", holds)
    return said


def tagged(tally, tags, depths, meant):
    """Holds exiftool's tags, and the depths that it reads, to the panel."""
    panel, name = meant.panel, meant.name
    stated = [[panel.depth] * 3, [panel.alpha_depth]]
    if panel.gain is not None:
        stated += [[panel.gain.depth]] + ([[max(panel.depth, 10)] * 3] if panel.gain.tone_map is not None else [])
    tally.hold("exiftool", name, "depths stated", depths == stated, f"are not {stated}, but {depths}")
    warnings = [w for w in _list(tags.get("Warning")) + _list(tags.get("Error")) if w not in expected.EXIFTOOL_WARNINGS]
    tally.hold("exiftool", name, "valid", not warnings, f"is not what it says: {'; '.join(warnings)}")
    if meant.visible is not None:
        # The middle of what is seen lies to the left and up, by half of what is cut away.
        middle = ((seen - coded) / 2 for seen, coded in zip(meant.visible, panel.tile))
        clap, given = " ".join(map(str, (*meant.visible, *middle))), tags.get("CleanAperture")
        tally.hold("exiftool", name, "clap the same", given == clap, f"is not so: {given}, not {clap}")
    if panel.icc is not None:
        tally.hold("exiftool", name, "ICC the same", tags.get("ICC_Profile") == panel.icc)
    if panel.exif is not None:
        offset = panels.tiff_header_offset(panel.exif)
        marked = " behind its marker" if offset else ""
        tally.hold("exiftool", name, f"Exif{marked} the same", tags.get("EXIF") == panel.exif[offset:])
        tally.hold("exiftool", name, "batch named", f"{tags.get('DocumentName')}\0".encode() in panel.exif)
    if panel.gain is not None:
        tally.hold("exiftool", name, "XMP the same", _bytes(tags.get("XMP")) == panel.gain.xmp)
        tally.hold("exiftool", name, "headroom right", float(tags.get("HDRGainMapHeadroom", 0)) == 4.0)


def _list(value):
    return value if isinstance(value, list) else [] if value is None else [value]


def _bytes(value):
    return value.encode() if isinstance(value, str) else value
