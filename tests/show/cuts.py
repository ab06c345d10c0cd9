"""Clean apertures in words, and which columns and rows they leave."""

import folding
from build import box, clap, good
from common import boxes, fail, read

from heif import apertures  # common says where it is

ODD = (63, 1), (61, 1), (-1, 2), (-3, 2)  # the first 63 columns and 61 rows of 64 × 64

WORDS = {
    ODD: "63 × 61 pixels, 1/2 left and 3/2 up of the middle",
    ((126, 2), (183, 3), (-2, 4), (-6, 4)): "63 × 61 pixels, 1/2 left and 3/2 up of the middle",
    ((63, 1), (61, 1), (1, 2), (3, 2)): "63 × 61 pixels, 1/2 right and 3/2 down of the middle",
    ((64, 1), (61, 1), (0, 2), (-3, 2)): "64 × 61 pixels, 3/2 up of the middle",
    ((63, 1), (64, 1), (7, 1), (0, 9)): "63 × 64 pixels, 7 right of the middle",
    ((64, 1), (2**32 - 1, 2), (0, 1), (0, 1)): "64 × 4294967295/2 pixels, in the middle",
    ((64, 1), (64, 1), (2**31, 1), (2**31 - 1, 1)):
        "64 × 64 pixels, 2147483648 left and 2147483647 down of the middle",
}  # fmt: skip
FAULTS = {
    ((63, 1), (61, 0), (-1, 2), (-3, 0)): "a denominator of 0, of the height and the vertical offset",
    ((0, 1), (61, 1), (-1, 2), (-3, 2)): "a width of 0",
}


def _body(fractions):
    return boxes.Reader(clap(*fractions), 8, 40, "a clap")


def check_words():
    for fractions, wanted in WORDS.items():
        if apertures.aperture(_body(fractions)).words != f"clean aperture: {wanted}":
            fail(f"where '{wanted}' is due it says '{apertures.aperture(_body(fractions)).words}'")
    for fractions, wanted in FAULTS.items():
        if apertures.aperture(_body(fractions)).words != f"clean aperture with {wanted}":
            fail(f"where '{wanted}' is due it says '{apertures.aperture(_body(fractions)).words}'")


def check_edges():
    """What is left has the size that is asked for, and its middle lies as far from the picture's as the offset says: here in
    whole quarters of a pixel, from the outer edges, where a column has its number on the left of it and the next on the right."""
    for side in range(1, 9):
        for clean in range(1, 9):
            for offset in range(-9, 10):
                fractions = (clean, 2), (side, 1), (offset, 4), (0, 1)
                (first, last), whole = apertures.aperture(_body(fractions)).edges((side, side))
                left, right = 4 * first, 4 * (last + 1)
                if right - left != 2 * clean or left + right != 2 * (2 * side + offset) or whole != (0, side - 1):
                    fail(f"of {side} columns {clean}/2 around {offset}/4 are taken to be {first} to {last}")
    for decoded in range(1, 70):
        for visible in range(1, decoded + 1):
            fractions = (visible, 1), (visible, 1), (visible - decoded, 2), (visible - decoded, 2)
            if apertures.aperture(_body(fractions)).edges((decoded, decoded)) != [(0, visible - 1)] * 2:
                fail(f"of {decoded} columns the first {visible} are not what is left")


def _cut(rows, columns):
    """A file whose tiles are all cut."""
    made = good(rows, columns)
    made.properties.append(clap(*ODD))
    for item in made.items.values():
        if item.kind == "hvc1":
            item.properties.append(-9)
    return made


def check_lines():
    """Tiles that are cut alike are one line; one that is cut in another way stays apart."""
    made = _cut(10, 10)
    seen = read(made.bytes())
    left = "clap leaves columns 0 to 62 and rows 0 to 60 of 64 × 64"
    seen.has(
        f"9 clap clean aperture: {WORDS[ODD]}",
        f"items 1 to 100, hvc1, hidden: {left}",
        f"items 102 to 201, hvc1, hidden: {left}",
        "properties 1* hvcC, 2* ispe, 4* colr, 9* clap",
        "item 101, grid, primary: 10 rows × 10 columns, 640 × 640 pixels",
    )
    folding.drawn(seen.picture, f"9: clean aperture: {WORDS[ODD]}")
    made.properties.append(clap((64, 1), (64, 1), (0, 1), (0, 1)))
    made.items[5].properties[-1] = -10
    made.items[101].properties.append(-9)
    read(made.bytes()).has(
        f"items 1 to 4, hvc1, hidden: {left}",
        "item 5, hvc1, hidden: clap leaves columns 0 to 63 and rows 0 to 63 of 64 × 64",
        f"items 6 to 100, hvc1, hidden: {left}",
        "item 101, grid, primary: 10 rows × 10 columns, 640 × 640 pixels; "
        "clap leaves columns 288 to 350 and rows 288 to 348 of 640 × 640",
    )


def check_damage():
    """Every byte of a clap set to 0 and to 255 has an answer, and so has a clap that is too short for its numbers."""
    data = _cut(1, 2).bytes()
    start = data.index(b"clap") - 4
    for at in range(start, start + 40):
        for value in (b"\0", b"\xff"):
            read(data[:at] + value + data[at + 1 :])
    made = _cut(1, 2)
    made.properties[-1] = box("clap", bytes(31))
    seen = read(made.bytes())
    seen.has("9 clap damaged: too short, or a string in it has no end", "item 1, hvc1, hidden")
    if len(seen.trouble) != 1 or seen.findings != seen.trouble:
        fail("of a clap that is too short --check says:\n" + "\n".join(seen.findings))


def check_all():
    check_words()
    check_edges()
    check_lines()
    check_damage()
    return "clean apertures leave what 14496-12 says"
