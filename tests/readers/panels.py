"""The panels that real readers are given: pictures coded without loss, so that it is known what a reader should show."""

import dataclasses
import pathlib
import sys

ROOT = pathlib.Path(__file__).resolve().parents[2]
sys.path[:0] = [str(ROOT / "examples"), str(ROOT / "tools")]

from parts import cards, drawing, exif, gain, hevc, icc, sheet  # noqa: E402

import pixels  # noqa: E402

COLS, ROWS, TILE = 3, 2, 64
WHOLE, CROPPED = (192, 128), (180, 100)
ODD, ODD_WHOLE, ODD_CROPPED = (63, 65), (189, 130), (180, 121)  # what is seen of each tile, and of all of them
GAIN_SIZE = (96, 64)
HEADROOM = 4.0

RGB = (1, 13, 0, True)  # an identity matrix: the planes are green, blue and red
YCC = (1, 13, 1, True)
PQ = (9, 16, 9, True)
VIDEO = (1, 1, 1, False)
UNSPECIFIED = (2, 2, 2, True)

PROFILE = icc.build("Kahopiru readers' test", "Free for any use")
EXIF = exif.build(exif.Card("Kahopiru Inks", "Test bench", "Readers' test", "T-1", "2026:11:02 09:30:00", "+00:00"))
MARKER = b"Exif\0\0"  # before the TIFF header in JPEG files, and in Exif from some cameras


@dataclasses.dataclass
class Case:
    """A panel, by what it has. `difference` names the entry of docs/DIFFERENCES.md that it shows."""

    name: str
    depth: int = 8
    alpha_depth: int | None = None  # the colour's, unless it is stated
    csp: str = "i444"
    cicp: tuple | None = RGB
    icc: bytes | None = None
    orientation: str | None = None
    light: tuple | None = None
    exif: bytes | None = None
    gain_depth: int | None = None
    toned: bool = False
    full: tuple = WHOLE
    visible: tuple | None = None  # what is seen of each tile, where that is not all of it
    empty_sample: bool = False
    difference: str | None = None

    def __post_init__(self):
        self.alpha_depth = self.alpha_depth or self.depth

    @property
    def step(self):
        """Width and height by which tiles stand apart."""
        return self.visible or (TILE, TILE)

    @property
    def tile(self):
        """Width and height of a tile as it is coded: even, as an encoder wants them for 4:2:0."""
        return tuple(side + side % 2 for side in self.step)


def cases():
    """Depths and samplings, colour, metadata, gain maps, sizes, and every orientation."""
    plain = [Case(f"rgb-{depth}", depth=depth) for depth in (8, 10, 12)]
    plain += [Case(f"yuv420-{depth}", depth=depth, csp="i420", cicp=YCC) for depth in (8, 10, 12)]
    plain += [
        Case("rgb-12-alpha-8", depth=12, alpha_depth=8, difference="S11, identity"),
        Case("yuv420-12-alpha-8", depth=12, alpha_depth=8, csp="i420", cicp=YCC, difference="S11, matrix"),
        Case("rgb-8-alpha-12", alpha_depth=12, difference="S11, identity"),
        Case("gain-toned-alpha-12", alpha_depth=12, gain_depth=8, toned=True, difference="S11, identity"),
        Case("yuv444-8", cicp=YCC),
        Case("yuv420-8-video-range", csp="i420", cicp=VIDEO),
        Case("yuv420-10-pq-light", depth=10, csp="i420", cicp=PQ, light=(1000, 400)),
        Case("unstated", csp="i420", cicp=None),
        Case("icc", csp="i420", cicp=None, icc=PROFILE),
        Case("everything-but-gain", icc=PROFILE, light=(203, 96), exif=EXIF),
        Case("exif-marker", exif=MARKER + EXIF),
        Case("gain-toned-exif-marker", gain_depth=8, toned=True, exif=MARKER + EXIF),
        Case("gain", gain_depth=8),
        Case("gain-toned", depth=10, gain_depth=10, toned=True),
        Case("gain-toned-turned", gain_depth=8, toned=True, orientation="Rotate90", exif=EXIF),
        Case("cropped", full=CROPPED),
        Case("empty-sample", empty_sample=True, difference="S2"),
        Case("uncovered", full=(200, 128), difference="D12"),
        Case("odd-rgb-8", visible=ODD, full=ODD_WHOLE, difference="S12"),
        Case("odd-yuv420-8", csp="i420", cicp=YCC, visible=ODD, full=ODD_WHOLE, difference="S12"),
        Case("odd-everything", depth=10, icc=PROFILE, orientation="Rotate90", light=(203, 96), exif=EXIF, gain_depth=10, toned=True,
             visible=ODD, full=ODD_CROPPED, difference="S12"),
    ]  # fmt: skip
    for turn in sheet.ORIENTATIONS:
        mirrored = "S1" if turn in ("FlipH", "FlipV", "Transpose", "Transverse") else None
        plain.append(Case(f"turned-{turn}", full=CROPPED, orientation=turn, difference=mirrored))
    return plain


def _fill(width, height, value):
    return [[value(x, y) for x in range(width)] for y in range(height)]


def colour_values(case):
    """What each coded plane has at a place of the picture: with an identity matrix all values and every neighbourhood, else smooth
    chroma, so that readers which blend it differently come out near one another. Colour that the file leaves open is grey."""
    width, height = COLS * case.step[0], ROWS * case.step[1]
    top = (1 << case.depth) - 1
    if case.cicp == RGB:
        return [
            lambda x, y: y * top // (height - 1),
            lambda x, y: (x * 7 + y * 13 + (x * y >> 3)) * 5 & top,
            lambda x, y: x * top // (width - 1),
        ]
    reach = 0 if case.cicp is None else 0.18
    middle = 1 << case.depth - 1
    light, most = _light(case, width, height)
    return [
        lambda x, y: round(top * (0.3 + 0.4 * light(x, y) / most)),
        lambda x, y: round(middle + reach * middle * (2 * x / width - 1)),
        lambda x, y: round(middle - reach * middle * (2 * y / height - 1)),
    ]


def _light(case, width, height):
    """The light at a place, and the most that there is: smooth, too, but where tiles are cut, so that a column too many is seen."""
    if case.visible is None:
        return lambda x, y: x + 2 * y, width + 2 * height
    return lambda x, y: (x * 7 + y * 13) % 61, 60


def alpha_value(case):
    top = (1 << case.alpha_depth) - 1
    return lambda x, y: (x * 3 + y * 5) * (1 + top) // 1024 & top


def gain_plane(case):
    top = (1 << case.gain_depth) - 1
    return _fill(*GAIN_SIZE, lambda x, y: (x * 11 + y * 29) % (top + 1))


def _tiles(case, values, half=1):
    """The coded planes of each tile, row by row; `half` is how many pixels of a line share a value of chroma."""
    return [_tile(case, values, half, row, col) for row in range(ROWS) for col in range(COLS)]


def _tile(case, values, half, row, col):
    """Behind what is seen of a tile its last column and its last row are repeated. A value of chroma is that of the first of its pixels."""
    (width, height), (across, down) = case.tile, case.step

    def plane(value, side):
        return _fill(
            width // side,
            height // side,
            lambda x, y: value(col * across + min(x * side, across - 1), row * down + min(y * side, down - 1)),
        )

    return [plane(value, side) for value, side in zip(values, (1, half, half))]


def colour_tiles(case):
    return _tiles(case, colour_values(case), 2 if case.csp == "i420" else 1)


def alpha_tiles(case):
    return _tiles(case, [alpha_value(case)])


def _raw(planes, depth):
    values = [value for plane in planes for row in plane for value in row]
    return b"".join(value.to_bytes(1 if depth == 8 else 2, "little") for value in values)


def panel(case, cache):
    """The case as a panel, with its pictures coded."""
    # Where the file says nothing of the range, as beside an ICC profile alone, a reader takes what the stream says.
    exact = ("--lossless", "--range", "limited" if case.cicp == VIDEO else "full")
    colour_raw = [_raw(planes, case.depth) for planes in colour_tiles(case)]
    alpha_raw = [_raw(planes, case.alpha_depth) for planes in alpha_tiles(case)]
    color_record, color = hevc.code_tiles(colour_raw, *case.tile, case.csp, case.depth, exact, cache)
    alpha_record, alpha = hevc.code_tiles(alpha_raw, *case.tile, "i400", case.alpha_depth, exact, cache)
    if case.empty_sample:
        color[-1] = b""
    return sheet.Panel(
        cols=COLS,
        rows=ROWS,
        tile=case.tile,
        full=case.full,
        depth=case.depth,
        alpha_depth=case.alpha_depth,
        color_record=color_record,
        alpha_record=alpha_record,
        color_samples=color,
        alpha_samples=alpha,
        cicp=case.cicp,
        icc=case.icc,
        orientation=case.orientation,
        light=case.light,
        exif=case.exif,
        gain=_gain(case, cache) if case.gain_depth else None,
    )


def _gain(case, cache):
    raw = _raw([gain_plane(case)], case.gain_depth)
    record, (sample,) = hevc.code_tiles([raw], *GAIN_SIZE, "i400", case.gain_depth, cache=cache)
    toned = {"tone_map": gain.tone_map(HEADROOM), "alternate_cicp": (1, 16, 1, True)} if case.toned else {}
    return sheet.Gain(record, sample, *GAIN_SIZE, case.gain_depth, UNSPECIFIED, gain.xmp(HEADROOM), **toned)


@dataclasses.dataclass
class Meant:
    """What a reader should show of a file: everything turned as the panel says, and whether colour is coded exactly."""

    name: str
    panel: sheet.Panel
    colour: pixels.Picture
    alpha: pixels.Picture
    gain: pixels.Picture | None
    coding: str  # "exact": colour comes back as coded; "near": after a matrix; "lossy": as near as the coder left it
    difference: str | None = None
    visible: tuple | None = None
    uncut: tuple | None = None  # colour and alpha as a reader shows them that cuts nothing away of the tiles

    def size(self):
        """Width and height as shown."""
        quarter = self.panel.orientation in ("Transpose", "Rotate90", "Transverse", "Rotate270")
        return self.panel.full[::-1] if quarter else self.panel.full


def meant(case, cache):
    """The case's panel, and what a reader should show of it."""
    turn = pixels.TURNS[case.orientation or "Normal"]
    colour, alpha = (each.map(turn) for each in picture(case, case.step))
    return Meant(
        case.name,
        panel(case, cache),
        colour,
        alpha,
        gain_picture(case).map(turn) if case.gain_depth else None,
        "exact" if case.cicp == RGB else "near",
        case.difference,
        case.visible,
        tuple(each.map(turn) for each in picture(case, case.tile)) if case.visible else None,
    )


def meant_cards():
    """The example cards, with the drawings that they show, and the first once more with the marker before its Exif."""
    made = []
    for name, ink, panel_of in (("card", cards.BLUE, cards.blue), ("metallic", cards.BRONZE, cards.metallic)):
        card = cards.drawn(ink)
        colour = pixels.rgb(drawing.colour_planes(card), 8, cards.SRGB)
        alpha = pixels.Picture(card.width, card.height, 8, [drawing.alpha_plane(card)])
        gained = pixels.Picture(cards.GAIN_W, cards.GAIN_H, 8, [cards.gain_plane()]) if name == "metallic" else None
        made.append(Meant(name, panel_of(), colour, alpha, gained, "lossy"))
    marked = dataclasses.replace(made[0].panel, exif=MARKER + made[0].panel.exif)
    return made + [dataclasses.replace(made[0], name="card-exif-marker", panel=marked)]


def tiff_header_offset(exif):
    """How many bytes of the Exif come before its TIFF header."""
    return len(MARKER) if exif.startswith(MARKER) else 0


def picture(case, step):
    """The colour and the alpha before they are turned: so much of each tile, side by side, and of that the panel's full size."""
    cicp = case.cicp or YCC  # grey is grey under any matrix
    colour = [pixels.rgb(planes, case.depth, cicp) for planes in colour_tiles(case)]
    alpha = [pixels.Picture(*case.tile, case.alpha_depth, planes) for planes in alpha_tiles(case)]
    return tuple(pixels.joined([tile.cropped(*step) for tile in tiles], COLS).cropped(*case.full) for tiles in (colour, alpha))


def gain_picture(case):
    return pixels.Picture(*GAIN_SIZE, case.gain_depth, [gain_plane(case)])
