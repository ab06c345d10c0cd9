"""The example panels: P, a card with a blue ink, and a card with a metallic."""

from . import drawing, exif, gain, hevc, icc, sheet

COLS, ROWS, TILE = 3, 2, 128
SRGB = (1, 13, 1, True)  # BT.709 primaries, sRGB's curve, BT.709's matrix, full range
UNSPECIFIED = (2, 2, 2, True)
BRIGHT = (1, 16, 1, True)  # of the metallic's bright rendition: the same primaries, perceptual quantisation
HEADROOM = 4.0
GAIN_W, GAIN_H = 96, 64

BLUE = drawing.Ink(colour=(0.012, 0.085, 0.34), hiding=0.94)
BRONZE = drawing.Ink(colour=(0.30, 0.17, 0.055), hiding=0.99, shine=3.0)

COLOUR = ("--qp", "21", "--preset", "slower", "--range", "full", "--colormatrix", "bt709", "--transfer", "iec61966-2-1",
          "--colorprim", "bt709")  # fmt: skip
EXACT = ("--lossless", "--preset", "slower", "--range", "full")

# One tile of 64 x 64 whose records and samples are no HEVC: the smallest panel, for counting bytes.
P = sheet.Panel(
    cols=1,
    rows=1,
    tile=(64, 64),
    full=(64, 64),
    depth=8,
    alpha_depth=8,
    color_record=b"\x01\x01",
    alpha_record=b"\x01\x04",
    color_samples=[b"\xaa"],
    alpha_samples=[b"\xbb"],
)


def drawn(ink):
    """The drawing of a card with this ink."""
    return drawing.Card(COLS * TILE, ROWS * TILE, ink)


def film_card(ink, description, batch, light):
    """A card as a panel, without a gain map."""
    card = drawn(ink)
    colour = drawing.tiles(drawing.colour_planes(card), COLS, ROWS, TILE, TILE)
    alpha = drawing.tiles([drawing.alpha_plane(card)], COLS, ROWS, TILE, TILE)
    color_record, color_samples = hevc.code_tiles(colour, TILE, TILE, "i420", 8, COLOUR)
    alpha_record, alpha_samples = hevc.code_tiles(alpha, TILE, TILE, "i400", 8, EXACT)
    return sheet.Panel(
        cols=COLS,
        rows=ROWS,
        tile=(TILE, TILE),
        full=(card.width, card.height),
        depth=8,
        alpha_depth=8,
        color_record=color_record,
        alpha_record=alpha_record,
        color_samples=color_samples,
        alpha_samples=alpha_samples,
        cicp=SRGB,
        icc=icc.build("Kahopiru card, sRGB primaries", "Free for any use"),
        light=light,
        exif=exif.build(
            exif.Card(
                maker="Kahopiru Inks",
                model="Drawdown bench 2",
                description=description,
                batch=batch,
                date="2026:11:02 09:30:00",
                zone="+00:00",
            )
        ),
    )


def blue():
    """The card with an ordinary ink."""
    return film_card(BLUE, "Process blue 15:3, 24 micrometre film", "153-2611-07", (203, 96))


def gain_plane():
    """The metallic's gain image."""
    return drawing.gain_plane(drawn(BRONZE), GAIN_W, GAIN_H, HEADROOM, gain.sample)


def metallic():
    """The card with a metallic ink: what the lamp does to it is in the gain map."""
    panel = film_card(BRONZE, "Bronze 871, 24 micrometre film", "871-2611-02", (1000, 220))
    raw = b"".join(bytes(row) for row in gain_plane())
    record, (sample,) = hevc.code_tiles([raw], GAIN_W, GAIN_H, "i400", 8, EXACT)
    panel.gain = sheet.Gain(
        record=record,
        sample=sample,
        width=GAIN_W,
        height=GAIN_H,
        depth=8,
        cicp=UNSPECIFIED,
        xmp=gain.xmp(HEADROOM),
        tone_map=gain.tone_map(HEADROOM),
        alternate_cicp=BRIGHT,
    )
    return panel


def all_panels():
    """Each panel by the name of its sheet."""
    return {"p": P, "card": blue(), "metallic": metallic()}
