"""Each fault that `--check` finds, planted alone in a good file, with the sentences that are due: these and no others."""

import build
from build import PPS, SLICE, SPS, VPS, Item, be, box, clap, exif, good, grid, ispe, pixi, record, sps, unit
from common import ROOT, fail, read, shown, vectors

ANNEX_B = "which is Annex B: HEIF wants each NAL unit behind its length in 4 bytes"
WALK = "the lengths of the NAL units, of 4 bytes each, do not lead to the end of the sample"
SEI = 39  # a NAL unit type that is no slice
FLAGS_2 = "flags 2 call for sizes of 16 bits, a descriptor of 8 bytes, and it has 12: readers take other sizes from it"


def payload(number, data):
    """Plants another payload for an item of the good file, in which 1 and 2 are colour tiles, 3 is their grid, 4 and 5 are
    alpha tiles, 6 is their grid, 7 is Exif and 8 an XMP packet."""

    def plant(file):
        file.items[number].payload = data

    return plant


def item(number, **fields):
    """Plants other fields of an item."""

    def plant(file):
        for name, value in fields.items():
            setattr(file.items[number], name, value)

    return plant


def property_at(position, data):
    """Plants another property: 1 is the colour's record, 2 the tiles' ispe, 3 the grids', 4 the profile, 5 the colour's pixi,
    6 the alpha's record, 7 its pixi and 8 its auxC."""

    def plant(file):
        file.properties[position - 1] = data

    return plant


def cut(*fractions, tiles=(1, 2, 4, 5), listed=lambda own: [*own, -9], full=None):
    """Plants a clap, as property 9, for these tiles, and a size that what it leaves of them covers, if that is another."""

    def plant(made):
        made.properties.append(clap(*fractions))
        for number in tiles:
            made.items[number].properties = listed(made.items[number].properties)
        if full:
            made.properties[2] = ispe(*full)
            made.items[3].payload = made.items[6].payload = grid(1, 2, *full)

    return plant


def turned(behind):
    """Plants a quarter turn of the colour's grid, as property 10, named before its clap or behind it."""

    def plant(made):
        made.properties.append(box("irot", b"\1"))
        properties = made.items[3].properties
        properties.insert(len(properties) - (not behind), -10)

    return plant


def coded(colour, alpha, chroma=1):
    """Plants records with these SPS."""

    def plant(made):
        made.properties[0], made.properties[5] = box("hvcC", record(chroma, sps=[colour])), box("hvcC", record(0, sps=[alpha]))

    return plant


def stated(tile, full):
    """Plants the size that is stated of every tile, and the grids'."""

    def plant(made):
        made.properties[1], made.properties[2] = ispe(*tile), ispe(*full)
        made.items[3].payload = made.items[6].payload = grid(1, 2, *full)

    return plant


def file(**fields):
    """Plants other fields of the file."""

    def plant(made):
        for name, value in fields.items():
            setattr(made, name, value)

    return plant


def also(*plants):
    def plant(made):
        for each in plants:
            each(made)

    return plant


SAMPLES = [
    (payload(1, b"\0\0\0\1" + unit(SLICE, 8)[4:]), [f"item 1, hvc1: the sample begins with a start code (00 00 00 01), {ANNEX_B}"]),
    (payload(1, b"\0\0\1" + unit(SLICE, 8)[4:]), [f"item 1, hvc1: the sample begins with a start code (00 00 01), {ANNEX_B}"]),
    (payload(1, unit(SLICE, 300)), []),  # its length is 00 00 01 2c, and no start code
    (payload(1, unit(SLICE, 300)[:-1]), [f"item 1, hvc1: {WALK}: the unit at 0 says 300 bytes, and 299 are left"]),
    (payload(1, unit(SLICE) + unit(SLICE)), []),
    (payload(1, unit(SLICE) + bytes(3)), [f"item 1, hvc1: {WALK}: 3 bytes left at 8, too few for a length"]),
    (payload(1, unit(SLICE) + unit(SLICE)[:-1]), [f"item 1, hvc1: {WALK}: the unit at 8 says 4 bytes, and 3 are left"]),
    (payload(1, unit(SLICE) + b"\0\0\0\1\x28"),
     [f"item 1, hvc1: {WALK}: the unit at 8 says 1, and the header of a unit alone has 2 bytes"]),
    (also(payload(1, unit(SLICE)[:-1]), payload(2, unit(SLICE, 9)[:-1])),
     [f"items 1, 2, hvc1: {WALK}; of item 1: the unit at 0 says 4 bytes, and 3 are left"]),
    (payload(1, unit(SEI)), ["item 1, hvc1: no NAL unit of the sample is a slice: there is no picture in it"]),
    (item(2, length=0), ["item 2, hvc1: an extent of length 0, which readers take for the whole file or refuse"]),
    (item(2, file=1), ["item 2, hvc1: the payload is in another file, where few readers look and nothing was looked at"]),
    (item(2, method=2), ["item 2, hvc1: construction method 2, which few readers know; the payload was not looked at"]),
]  # fmt: skip

IN_BAND = unit(SPS) + unit(SLICE)
TWO_BYTES = b"\0\4" + unit(SLICE)[4:]  # a NAL unit behind a length of two bytes
RECORDS = [
    (property_at(1, box("hvcC", record(version=2))), ["property 1, hvcC: configurationVersion is 2, and readers know version 1 alone"]),
    (property_at(1, box("hvcC", record()[:22])),
     ["property 1, hvcC: 22 bytes, and a decoder configuration record has at least 23: it wants the body of an hvcC box"]),
    (property_at(1, box("hvcC", record()[:-1])), ["property 1, hvcC: its parameter sets go beyond its end"]),
    (property_at(1, box("hvcC", record(sets=()))),
     ["items 1, 2, hvc1: no VPS, SPS, PPS in the record or in the sample: a decoder cannot begin"]),
    (also(property_at(1, box("hvcC", record(sets=(VPS, PPS)))), payload(1, IN_BAND), payload(2, IN_BAND)), []),
    (also(property_at(1, box("hvcC", record(length_size=2))), payload(1, TWO_BYTES), payload(2, TWO_BYTES)), []),
    (also(property_at(1, box("hvcC", record(length_size=2))), payload(1, TWO_BYTES)),
     ["item 2, hvc1: the lengths of the NAL units, of 2 bytes each, do not lead to the end of the sample: "
      "the unit at 0 says 0, and the header of a unit alone has 2 bytes"]),
    (also(property_at(1, box("hvcC", record(length_size=3))), payload(1, b"\0" + TWO_BYTES), payload(2, b"\0" + TWO_BYTES)),
     ["property 1, hvcC: lengthSizeMinusOne is 2, and lengths of 3 bytes do not exist: 3 stands for 4 bytes"]),
    (property_at(1, box("hvcC", record(luma=10, chroma_depth=10))),
     ["item 3, grid: pixi says 3 channels of 8 bits, and the record of its tiles, property 1, 4:2:0, 10 bits"]),
    (property_at(1, box("hvcC", record(chroma_depth=10))),
     ["item 3, grid: pixi says 3 channels of 8 bits, and the record of its tiles, property 1, 4:2:0, 8 bits and 10 bits of chroma"]),
    (property_at(1, box("hvcC", record(chroma=0))),
     ["item 3, grid: pixi says 3 channels of 8 bits, and the record of its tiles, property 1, 4:0:0, 8 bits"]),
    (property_at(6, box("hvcC", record(chroma=3))),
     ["item 6, grid: pixi says 1 channel of 8 bits, and the record of its tiles, property 6, 4:4:4, 8 bits"]),
    (also(property_at(6, box("hvcC", record(chroma=0, luma=12, chroma_depth=12))), property_at(7, pixi(12))), []),
    (property_at(7, pixi(12)), ["item 6, grid: pixi says 1 channel of 12 bits, and the record of its tiles, property 6, 4:0:0, 8 bits"]),
    (item(1, properties=[-1, -2, 7]), ["item 1, hvc1: pixi says 1 channel of 8 bits, and the record, property 1, 4:2:0, 8 bits"]),
    (item(1, properties=[-2]), ["item 1, hvc1: no hvcC among its properties, and a decoder wants one"]),
    (item(1, properties=[-1, -6, -2]), ["item 1, hvc1: 2 hvcC among its properties, and a decoder wants one",
     "item 3, grid: pixi says 3 channels of 8 bits, and the record of its tiles, property 6, 4:0:0, 8 bits"]),
]  # fmt: skip

WIDER = grid(1, 2, 129, 64)
GRIDS = [
    (payload(3, grid(2, 2, 128, 64)), ["item 3, grid: 2 rows × 2 columns want 4 tiles, and dimg names 2"]),
    (item(3, references=[("dimg", [1])]), ["item 3, grid: 1 row × 2 columns want 2 tiles, and dimg names 1"]),
    (item(3, references=[]), ["item 3, grid: 1 row × 2 columns want 2 tiles, and dimg names 0"]),
    (item(3, references=[("dimg", [1, 3])]), ["item 3, grid: the grid is one of its own tiles",
     "item 3, grid: the tiles are not of one size: item 1 64 × 64; item 3 128 × 64"]),
    (also(payload(3, WIDER), payload(6, WIDER), property_at(3, ispe(129, 64))),
     ["items 3, 6, grid: 2 × 1 tiles of 64 × 64 cover 128 × 64 pixels, and the grid has 129 × 64"]),
    (also(payload(3, grid(1, 2, 128, 65)), property_at(3, ispe(128, 65)), payload(6, grid(1, 2, 128, 65))),
     ["items 3, 6, grid: 2 × 1 tiles of 64 × 64 cover 128 × 64 pixels, and the grid has 128 × 65"]),
    (payload(3, grid(1, 2, 127, 64)), ["item 3, grid: ispe says 128 × 64 pixels, and the descriptor 127 × 64"]),
    (payload(3, grid(1, 2, 128, 64, flags=1)),
     ["item 3, grid: flags 1 call for sizes of 32 bits, a descriptor of 12 bytes, and it has 8: readers take other sizes from it"]),
    (payload(3, b"\1" + grid(1, 2, 128, 64)[1:]), ["item 3, grid: the descriptor's version is 1, and readers know version 0 alone"]),
    (payload(3, bytes(5)), ["item 3, grid: 5 bytes, and a grid's descriptor has 8 or 12"]),
    (also(lambda made: made.properties.append(ispe(32, 64)), item(2, properties=[-1, -9, -4])),
     ["item 3, grid: the tiles are not of one size: item 1 64 × 64; item 2 32 × 64"]),
]  # fmt: skip

ODD = (63, 1), (61, 1), (-1, 2), (-3, 2)  # the first 63 columns and 61 rows of 64 × 64
LEFT = "it leaves columns {} and rows {} of 64 × 64"
TILES = "items 1, 2, 4, 5, hvc1"
UNCOVERED = "items 3, 6, grid: 2 × 1 tiles of 63 × 61, as clap leaves them, cover 126 × 61 pixels, and the grid has {}"
CUTS = [
    (cut(*ODD, full=(126, 61)), []),
    (cut(*ODD, full=(127, 61)), [UNCOVERED.format("127 × 61")]),
    (cut(*ODD, full=(126, 62)), [UNCOVERED.format("126 × 62")]),
    (cut(*ODD), [UNCOVERED.format("128 × 64")]),  # which their ispe would cover
    (cut((64, 1), (64, 1), (0, 1), (0, 1)), []),
    (cut((126, 2), (61, 1), (-3, 6), (-3, 2), full=(126, 61)), []),
    (cut((62, 1), (60, 1), (0, 1), (0, 1), full=(124, 60)), []),
    (cut((63, 1), (61, 1), (1, 2), (3, 2), full=(126, 61)), []),
    (cut((63, 0), (61, 1), (-1, 2), (-3, 2)), [f"property 9, clap: a denominator of 0, of the width, which libheif refuses"]),
    (cut((63, 1), (61, 1), (-1, 0), (-3, 0)),
     [f"property 9, clap: a denominator of 0, of the horizontal offset and the vertical offset, which libheif refuses"]),
    (cut((0, 1), (0, 1), (-1, 2), (-3, 2)), [f"property 9, clap: a width and a height of 0, which libheif refuses"]),
    (cut((63, 1), (0, 1), (-1, 2), (-3, 2)), [f"property 9, clap: a height of 0, which libheif refuses"]),
    (cut((63, 1), (61, 1), (0, 1), (-3, 2)),
     [f"{TILES}: clap does not cut between pixels: {LEFT.format('1/2 to 125/2', '0 to 60')}"]),
    (cut((63, 1), (61, 1), (0, 1), (-3, 2), full=(129, 64)),  # what it covers is open then
     [f"{TILES}: clap does not cut between pixels: {LEFT.format('1/2 to 125/2', '0 to 60')}"]),
    (cut((63, 1), (61, 1), (-1, 2), (-3, 1)),
     [f"{TILES}: clap does not cut between pixels: {LEFT.format('0 to 62', '-3/2 to 117/2')}"]),
    (cut((127, 2), (61, 1), (-1, 4), (-3, 2)),
     [f"{TILES}: clap does not cut between pixels: {LEFT.format('0 to 125/2', '0 to 60')}"]),
    (cut((63, 1), (61, 1), (-3, 2), (-3, 2)),
     [f"{TILES}: clap goes beyond the picture: {LEFT.format('-1 to 61', '0 to 60')}"]),
    (cut((63, 1), (61, 1), (-1, 2), (5, 2)), [f"{TILES}: clap goes beyond the picture: {LEFT.format('0 to 62', '4 to 64')}"]),
    (cut((65, 1), (61, 1), (1, 2), (-3, 2)), [f"{TILES}: clap goes beyond the picture: {LEFT.format('0 to 64', '0 to 60')}"]),
    (cut((64, 1), (61, 1), (2**31, 2), (-3, 2), tiles=(1,)),  # of an offset's numbers the lowest
     [f"item 1, hvc1: clap goes beyond the picture: {LEFT.format('-1073741824 to -1073741761', '0 to 60')}"]),
    (cut((2**32 - 2, 1), (61, 1), (-1, 1), (-3, 2), tiles=(1,)),  # of a width's numbers the highest but one
     [f"item 1, hvc1: clap goes beyond the picture: {LEFT.format('-2147483616 to 2147483677', '0 to 60')}"]),
    (cut(*ODD, full=(126, 61), listed=lambda own: [*own, 9]),
     [f"{TILES}: clap is not marked as essential: a reader that does not know it shows what it cuts away"]),
    (cut(*ODD, full=(126, 61), tiles=(1, 2), listed=lambda own: [own[0], -9, *own[1:]]),
     ["items 1, 2, hvc1: clap is named before ispe, colr: what changes a picture stands behind what describes it"]),
    (cut(*ODD, tiles=(1, 2), listed=lambda own: [own[0], own[1], -9, own[2]], full=(126, 61)),
     ["items 1, 2, hvc1: clap is named before colr: what changes a picture stands behind what describes it"]),
    (cut(*ODD, tiles=(1,)), ["item 3, grid: the tiles, as clap leaves them, are not of one size: item 1 63 × 61; item 2 64 × 64"]),
    (cut((127, 1), (63, 1), (-1, 2), (-1, 2), tiles=(3,)), []),
    (also(cut((127, 1), (63, 1), (-1, 2), (-1, 2), tiles=(3,)), turned(behind=True)), []),  # cut, then turned
    (also(cut((63, 1), (127, 1), (-1, 2), (-1, 2), tiles=(3,)), turned(behind=False)), []),  # turned, then cut
    (also(cut((127, 1), (63, 1), (-1, 2), (-1, 2), tiles=(3,)), turned(behind=False)),
     ["item 3, grid: clap goes beyond the picture: it leaves columns -32 to 94 and rows 32 to 94 of 64 × 128"]),
]  # fmt: skip

def in_band(unit):
    """A sample with a parameter set of its own."""
    return be(len(unit), 4) + unit + build.unit(SLICE)


SAYS = "ispe says {} pixels, and the parameter sets {}"
SQUARE = coded(sps(64, 64), sps(64, 64, 0))
PADDED = coded(sps(64, 72, 1, (0, 0, 0, 3)), sps(64, 72, 0, (0, 0, 0, 6)))  # to 64 × 66, where 63 × 65 are to be seen
ONE = coded(sps(80, 64), sps(64, 64, 0))  # of which the alpha's is right
SIZES = [
    (SQUARE, []),
    (also(SQUARE, item(2, properties=[-1, -3, -4])),
     [f"item 2, hvc1: {SAYS.format('128 × 64', '64 × 64')}",
      "item 3, grid: the tiles are not of one size: item 1 64 × 64; item 2 128 × 64"]),
    (also(PADDED, stated((64, 66), (128, 66))), []),
    (also(PADDED, stated((64, 66), (126, 65))), []),  # so it is with even tiles, of which the grid cuts a part off
    (also(PADDED, stated((64, 66), (126, 65)), cut((63, 1), (65, 1), (-1, 2), (-1, 2))), []),
    (also(PADDED, stated((63, 65), (126, 65))), [f"{TILES}: {SAYS.format('63 × 65', '64 × 66')}"]),
    (also(PADDED, stated((63, 65), (126, 65)), cut((63, 1), (65, 1), (0, 1), (0, 1))), [f"{TILES}: {SAYS.format('63 × 65', '64 × 66')}"]),
    (also(PADDED, stated((64, 72), (128, 72))), [f"{TILES}: {SAYS.format('64 × 72', '64 × 66')}"]),  # the window forgotten
    (also(coded(sps(64, 72, 1, (0, 0, 0, 3)), sps(63, 65, 0)), stated((64, 66), (126, 65))),  # alpha is padded as colour is
     [f"items 4, 5, hvc1: {SAYS.format('64 × 66', '63 × 65')}"]),
    (ONE, [f"items 1, 2, hvc1: {SAYS.format('64 × 64', '80 × 64')}"]),
    (also(SQUARE, property_at(1, box("hvcC", record(sps=[sps(80, 64), sps(80, 64, number=1)])))),
     [f"items 1, 2, hvc1: {SAYS.format('64 × 64', '80 × 64')}"]),
    (also(SQUARE, property_at(1, box("hvcC", record(sps=[sps(80, 64), sps(96, 64, number=1)])))), []),  # either may hold
    (also(ONE, payload(1, in_band(sps(80, 64))), payload(2, in_band(sps(64, 64)))),
     [f"item 1, hvc1: {SAYS.format('64 × 64', '80 × 64')}"]),  # a sample's own set may hold
    (also(ONE, payload(1, IN_BAND), payload(2, in_band(sps(80, 64)[:-1]))), []),
    (also(ONE, payload(1, unit(SLICE)[:-1])), [f"item 1, hvc1: {WALK}: the unit at 0 says 4 bytes, and 3 are left",
     f"items 1, 2, hvc1: {SAYS.format('64 × 64', '80 × 64')}"]),
    (also(ONE, property_at(1, box("hvcC", record(sps=[sps(80, 64)])[:-1]))), ["property 1, hvcC: its parameter sets go beyond its end"]),
    (also(ONE, property_at(1, box("hvcC", record(sps=[sps(80, 64)[:-1]])))), []),
    (also(ONE, property_at(1, box("hvcC", record(sets=(VPS, PPS)))), *(payload(i, in_band(sps(80, 64))) for i in (1, 2))), []),
    (also(ONE, item(1, properties=[-1, -4]), item(2, properties=[-1, -4])),
     ["items 1, 2, hvc1: no ispe among its properties: readers want the size of every picture"]),
]  # fmt: skip
for chroma, whole, window, (w, h) in (
    (1, (64, 64), None, (64, 64)), (1, (72, 72), (2, 3, 1, 2), (62, 66)), (2, (64, 64), None, (64, 64)),
    (2, (72, 72), (2, 3, 4, 3), (62, 65)), (3, (64, 64), None, (64, 64)), (3, (72, 72), (4, 5, 0, 7), (63, 65)),
):  # fmt: skip
    alpha = sps(72, 72, 0, (72 - w, 0, 0, 72 - h)) if window else sps(w, h, 0)
    planted = coded(sps(*whole, chroma, window), alpha, chroma)
    SIZES.append((also(planted, stated((w, h), (2 * w, h))), []))
    for off in ((w + 1, h), (w, h + 1), (w + 1, h + 1)):
        said = SAYS.format(*(f"{width} × {height}" for width, height in (off, (w, h))))
        SIZES.append((also(planted, stated(off, (2 * w, h))), [f"{TILES}: {said}"]))

NAMES = [
    (file(primary=9), ["the primary item is item 9, and there is no such item: a reader has nothing to show"]),
    (file(handler="vide"), ["the handler is vide, and readers take pict alone for pictures"]),
    (file(counted=9), ["iinf says that it has 9 items, and it has 8"]),
    (file(left_out=("pitm",)), ["box meta at 28 has no box of type pitm: readers stop there"]),
    (file(left_out=("hdlr",)), ["box meta at 28 has no box of type hdlr: readers stop there"]),
    (file(left_out=("iloc",)), ["box meta at 28 has no box of type iloc: readers stop there",
     "items 1, 2, 4, 5, hvc1: no payload: iloc does not place it", "items 3, 6, grid: no payload: iloc does not place it"]),
    (file(more=box("cdsc", be(40, 2), be(1, 2), be(3, 2))), ["iref has references from item 40, and iinf has no such item"]),
    (item(3, references=[("dimg", [1, 9])]), ["item 3, grid: dimg refers to what is not there: item 9"]),
    (item(8, references=[("cdsc", [20, 21])]), ["item 8, mime: cdsc refers to what is not there: items 20, 21"]),
    (item(1, properties=[-1, -2, -12]), ["item 1, hvc1: associated with property 12, and there are 8 properties"]),
    (item(1, properties=[-1, -4]), ["item 1, hvc1: no ispe among its properties: readers want the size of every picture"]),
    (item(6, properties=[3, 7]),
     ["item 6, grid: an auxiliary picture (auxl) without auxC, which says what it is: readers refuse it"]),
    (payload(7, exif(before=b"Exif\0\0")), ["item 7, Exif: the TIFF header stands behind the marker Exif 00 00, "
     "and the first four bytes say 0, not 6; exiftool does not find its tags"]),
    (payload(7, exif(before=b"Exif\0\0", distance=6)), []),
    (payload(7, bytes(4)),
     ["item 7, Exif: there is no TIFF header at 4, where the first four bytes put it; exiftool does not find its tags"]),
    (lambda made: made.items.update({30: Item("grid", grid(1, 1, 64, 64), [2], [("dimg", [1])])}), []),
]  # fmt: skip

# What the Rust's writer gives, and docs/DIFFERENCES.md tells of, by the vector that shows it.
STORED = {
    "exif-marker-alone": [
        "item 5, Exif: there is no TIFF header at 10, where the first four bytes put it; exiftool does not find its tags"
    ],
    "full-width-65536": [f"items 2, 4, grid: {FLAGS_2}"],  # S10
    "two-rows": ["items 1, 2, 4, 5, hvc1: an extent of length 0, which readers take for the whole file or refuse"],  # S2
}


def check_planted():
    cases = SAMPLES + RECORDS + GRIDS + CUTS + SIZES + NAMES
    for plant, wanted in [(lambda made: None, []), *cases]:
        made = good()
        plant(made)
        found = read(made.bytes()).findings
        if found != wanted:
            fail("where this is due:\n" + "\n".join(wanted) + "\n--check says:\n" + "\n".join(found))
    return len(cases)


def check_twice():
    """An item whose id is given twice, so that another is not there at all."""
    data = good().bytes()
    second = data.index(b"infe", data.index(b"infe") + 4) + 8
    found = read(data[:second] + b"\0\1" + data[second + 2 :]).findings
    wanted = [
        "iinf has more than one entry for item 1",
        "iloc names item 2, and iinf has no such item",
        "ipma names item 2, and iinf has no such item",
        "item 3, grid: dimg refers to what is not there: item 2",
    ]
    if found != wanted:
        fail("of an item that is listed twice --check says:\n" + "\n".join(found))


def check_stored():
    files = vectors()
    for name, wanted in STORED.items():
        lost = [line for line in wanted if line not in read(files[name]).findings]
        if lost:
            fail(f"of {name} --check does not say: {lost[0]}")


def check_alike():
    """A fault that many items share is one sentence."""
    made = good(10, 10)
    for each in made.items.values():
        if each.kind == "hvc1":
            each.payload = b"\0\0\0\1" + each.payload[4:]
    found = read(made.bytes()).findings
    if found != [f"items 1 to 100, 102 to 201, hvc1: the sample begins with a start code (00 00 00 01), {ANNEX_B}"]:
        fail("of samples that are all Annex B --check says:\n" + "\n".join(found))


def check_sheets():
    """The records and samples of the example cards are real HEVC, and nothing is found in them."""
    for name in ("card", "metallic"):
        found = read(build.from_sheet((ROOT / f"examples/{name}.sheet").read_bytes())).findings
        if found:
            fail(f"of what examples/{name}.sheet holds --check says:\n" + "\n".join(found))


def check_command():
    """What the command prints, and how it ends."""
    faulty = good()
    faulty.primary = 9
    said = "the primary item is item 9, and there is no such item: a reader has nothing to show\n"
    cut = "box mdat at 1030 says that it ends at 1237, but the file ends at 1200: 37 bytes are missing\n"
    beyond = "the payload of item 8 goes beyond the end of the file at 1200 by 37 bytes\n"
    for data, answer in (
        (good().bytes(), (0, "no fault found: 8 items, 4 HEVC samples, 2 grids\n", "")),
        (faulty.bytes(), (1, said, "")),
        (good().bytes()[:1200], (1, cut + beyond, "")),
        (b"GIF89a", (1, "", "show: standard input: not a HEIF file: it does not begin with a box of type ftyp\n")),
    ):
        found = shown("--check", "-", given=data)
        if found != answer:
            fail(f"--check answers {found}, not {answer}")


def check_all():
    count = check_planted()
    check_twice()
    check_stored()
    check_alike()
    check_sheets()
    check_command()
    return f"{count} changes of a good file are judged by --check"
