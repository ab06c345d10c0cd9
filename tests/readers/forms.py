"""The wide form: every reader takes a wide file as it takes the ordinary one of the same panel (S13); and a wide file of more tiles than
the ordinary form has ids for, which are more than readers take (S14)."""

import pathlib
import subprocess
import tempfile

import compare
import expected
import library
import panels
import programs
from heif import boxes, check, items
from parts import hevc, sheet

COLS, ROWS, TILE = 200, 165, (16, 16)  # 33,000 tiles, where ids of 16 bits number 32,766
GREYS = (40, 80, 120, 160, 200)

# The versions of the boxes that name items, in docs/FORMAT.md.
ORDINARY = {"pitm": 0, "iloc": 1, "iinf": 0, "infe": 2, "iref": 0, "ipma": 0}
WIDE = {"pitm": 1, "iloc": 2, "iinf": 1, "infe": 3, "iref": 1, "ipma": 1}


def check_versions(tally, files, wide):
    """Each file is of its form: what is read is the wide form, and not the ordinary one once more."""
    for every, versions in ((files, ORDINARY), (wide, WIDE)):
        for path, meant in every.items():
            found = set()
            _versions(boxes.read(path.read_bytes()).boxes, found)
            tally.hold("tools/show", meant.name, "versions of the form", found == set(versions.items()), f"are not so: {sorted(found)}")


def _versions(within, found):
    """The types and versions of the boxes that name items, wherever they lie."""
    for box in within:
        if box.kind in WIDE:
            found.add((box.kind, box.version))
        _versions(box.within, found)


def compared(tally, reader, read, file, wide, meant):
    """Holds a reader to what was meant by a file, and what it makes of the wide file to what it makes of this one: the same picture, or the
    same words. Where docs/DIFFERENCES.md has an entry the picture may be another each time, and what is found of it is the same."""
    found, found_wide = compare.Tally(), compare.Tally()
    seen, seen_wide = read(found, reader, file, meant), read(found_wide, reader, wide, meant)
    tally.add(found)
    if seen == seen_wide if meant.difference is None else vars(found) == vars(found_wide):
        tally.note(reader, wide.name, "S13", expected.SAME)
    elif seen_wide is None:
        tally.note(reader, wide.name, "S13", expected.REFUSED)
    else:
        tally.fail(reader.name, wide.name, "it is not taken as the ordinary file is")


def tagged(tally, wide, found, ordinary):
    """Holds exiftool's tags, of which one is the file's name, and the depths that it reads."""
    (tags, depths), (other_tags, other_depths) = found, ordinary
    same = tags is not None and {**tags, "SourceFile": None} == {**other_tags, "SourceFile": None} and depths == other_depths
    tally.hold("exiftool", wide.name, "the same in the wide form", same, "is not so")


def check_many(tally, writer, cache, room):
    """Whether readers take so many tiles, with the limits that they have and, where they can be told to forget these, without."""
    name = "many-tiles"
    path = room / f"{name}.heic"
    (room / f"{name}.sheet").write_bytes(sheet.sheet(_many(cache)))
    subprocess.run([writer, "--wide", room / f"{name}.sheet", path], check=True)
    data = path.read_bytes()
    found = check.findings(data, items.contents(data, boxes.read(data)))
    tally.hold("tools/show", name, "no fault but those known", not found, "is not so: " + "; ".join(found))
    exiftool, itself = programs.Exiftool(), library.Library()
    size = exiftool.read([str(path)])[str(path)].get("ImageSize")
    tally.hold("exiftool", name, "size right", size == f"{COLS * TILE[0]}x{ROWS * TILE[1]}", f"is not so: {size}")
    for reader in (programs.HeifConvert(), programs.HeifInfo(), programs.Magick()):
        if reader.libheif is not None:
            tally.note(reader, name, "S14", expected.REFUSED if _seen(reader, path) is None else expected.SHOWN)
    tally.note(itself, name, "S14", _planes(itself, path, without_limits=False))
    if itself.forgets_limits():
        tally.note(itself, name, "S14, without limits", _planes(itself, path, without_limits=True))
    else:
        tally.reports.append(f"S14, without limits is not tried: libheif {itself.libheif} can't be told to forget its limits")


def _seen(reader, file):
    """What a reader makes of a file, or None where it refuses that."""
    with tempfile.TemporaryDirectory() as room:
        try:
            return reader.read(file, pathlib.Path(room))
        except programs.Refused:
            return None


def _grey(row, col, step):
    return GREYS[(3 * row + col + step) % len(GREYS)]


def _rows(step):
    """The rows of a plane of so many tiles, each of one grey."""
    across, down = TILE
    lines = [b"".join(bytes([_grey(row, col, step)]) * across for col in range(COLS)) for row in range(ROWS)]
    return [line for line in lines for _ in range(down)]


def _planes(itself, file, without_limits):
    """What the library makes of the file: the colour's planes have its greys, and alpha those one further on."""
    try:
        planes = itself.planes(file, without_limits)
    except programs.Refused:
        return expected.REFUSED
    colour, alpha = (8, _rows(0)), (8, _rows(1))
    meant = {**dict.fromkeys(library.COLOUR, colour), library.ALPHA: alpha}
    return expected.AS_MEANT if planes == meant else "shown as another picture"


def _many(cache):
    """Small tiles of five greys in turn, in colour and alpha."""
    area, small = TILE[0] * TILE[1], ("--lossless", "--range", "full", "--ctu", "16")
    raw = [bytes([grey]) * area for grey in GREYS]
    record, colour = hevc.code_tiles([luma + bytes([128]) * (area // 2) for luma in raw], *TILE, "i420", 8, small, cache)
    alpha_record, alpha = hevc.code_tiles(raw, *TILE, "i400", 8, small, cache)
    places = [(row, col) for row in range(ROWS) for col in range(COLS)]
    return sheet.Panel(
        cols=COLS,
        rows=ROWS,
        tile=TILE,
        full=(COLS * TILE[0], ROWS * TILE[1]),
        depth=8,
        alpha_depth=8,
        color_record=record,
        alpha_record=alpha_record,
        color_samples=[colour[GREYS.index(_grey(*place, 0))] for place in places],
        alpha_samples=[alpha[GREYS.index(_grey(*place, 1))] for place in places],
        cicp=panels.YCC,
    )


def check_comparison(tally, decoders, files, wide, room):
    """The comparison sees a wide file that shows another picture, also where the picture may be another, and one that is refused."""
    of = {meant.name: (path, other, meant) for (path, meant), other in zip(files.items(), wide)}
    plain, mirrored, cropped = of["rgb-8"], of["turned-FlipH"], of["cropped"]
    cut = room / "cut-wide.heic"
    cut.write_bytes(plain[1].read_bytes()[:1000])
    another, refused = "it is not taken as the ordinary file is", f"S13: {expected.REFUSED}"
    readers = [(reader, compare.decoded) for reader in decoders] + [(programs.HeifInfo(), compare.described)]
    for reader, read in readers:
        for (path, _, meant), other, wanted in ((plain, cropped[1], another), (mirrored, plain[1], another), (plain, cut, refused)):
            found = compare.Tally()
            compared(found, reader, read, path, other, meant)
            noted = [each for each in found.failures + found.reports if f": {other.name}: " in each]
            if len(noted) != 1 or wanted not in noted[0]:
                tally.fail(reader.name, other.name, f"where '{wanted}' is due it says: {'; '.join(noted) or 'nothing'}")
