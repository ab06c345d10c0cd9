"""Small HEIF files, made box by box: a good one, from which each fault is planted by one change, and as large a grid as is
asked for."""

import dataclasses

ALPHA = b"urn:mpeg:hevc:2015:auxid:1\0"
XMP_TYPE = "application/rdf+xml"
PACKET = b'<x:xmpmeta xmlns:x="adobe:ns:meta/"><rdf:RDF xmlns:HDRGainMap="http://ns.apple.com/HDRGainMap/1.0/"/></x:xmpmeta>'
SLICE, VPS, SPS, PPS = 20, 32, 33, 34  # NAL unit types
NAMING = ("pitm", "iloc", "iinf", "infe", "iref", "ipma")  # boxes with item ids or a count of items, of 16 bits or of 32 by their version


def be(value, width):
    return value.to_bytes(width, "big")


def box(kind, *parts):
    body = b"".join(parts)
    return be(8 + len(body), 4) + kind.encode() + body


def full(kind, version, flags, *parts):
    return box(kind, be(version, 1), be(flags, 3), *parts)


def unit(kind, length=4):
    """A NAL unit of a type, with nothing in it, behind its length."""
    return be(length, 4) + be(kind << 1, 1) + b"\1" + bytes(length - 2)


def golomb(value):
    """A number in Exp-Golomb code, as bits."""
    code = f"{value + 1:b}"
    return "0" * (len(code) - 1) + code


def sps(width, height, chroma=1, window=None, sub_layers=(), header=b"\x42\1", number=0):
    """An SPS of a coded picture, up to its conformance window: what that cuts off left, right, above and below, in its own steps. Of
    each sub-layer below the highest it is given whether its profile and whether its level is there."""
    profile = "00000001" + "011" + "0" * 29 + "1001" + "0" * 44  # Main, the profiles it is compatible with, and constraints
    level = f"{93:08b}"
    bits = f"0000{len(sub_layers):03b}1{profile}{level}"
    bits += "".join(f"{first:b}{second:b}" for first, second in sub_layers)
    bits += "00" * (8 - len(sub_layers)) if sub_layers else ""
    bits += "".join(profile * first + level * second for first, second in sub_layers)
    bits += golomb(number) + golomb(chroma) + ("0" if chroma == 3 else "") + golomb(width) + golomb(height)
    bits += "1" + "".join(map(golomb, window)) if window else "0"
    bits += "1" * (-len(bits) % 8)
    return header + guarded(bytes(int(bits[at : at + 8], 2) for at in range(0, len(bits), 8)))


def guarded(data):
    """Bytes as they stand in a NAL unit: where two zeros and then one of 0 to 3 would, a 3 is put between."""
    made = bytearray()
    for byte in data:
        if made[-2:] == b"\0\0" and byte <= 3:
            made.append(3)
        made.append(byte)
    return bytes(made)


def record(chroma=1, luma=8, chroma_depth=8, version=1, length_size=4, sets=(VPS, SPS, PPS), sps=()):
    """A decoder configuration record with parameter sets of four bytes, or with these SPS in the place of its own."""
    head = be(version, 1) + b"\1" + bytes(11) + b"\xf0\0\xfc"
    head += be(0xFC | chroma, 1) + be(0xF8 | luma - 8, 1) + be(0xF8 | chroma_depth - 8, 1) + bytes(2)
    head += be(0x0C | length_size - 1, 1) + be(len(sets), 1)
    units = {kind: sps if kind == SPS and sps else [bytes(4)] for kind in sets}
    each = [be(0x80 | kind, 1) + be(len(given), 2) + b"".join(be(len(unit), 2) + unit for unit in given) for kind, given in units.items()]
    return head + b"".join(each)


def ispe(width, height):
    return full("ispe", 0, 0, be(width, 4), be(height, 4))


def pixi(*depths):
    return full("pixi", 0, 0, be(len(depths), 1), *(be(depth, 1) for depth in depths))


def clap(*fractions):
    """A clean aperture: the fractions of its width and height, and of how far its centre lies to the right and down."""
    return box("clap", *(be(number % 2**32, 4) for fraction in fractions for number in fraction))


def grid(rows, columns, width, height, flags=0):
    side = 4 if width > 65_535 or height > 65_535 else 2
    return be(0, 1) + be(flags, 1) + be(rows - 1, 1) + be(columns - 1, 1) + be(width, side) + be(height, side)


def exif(order="big", make=b"Maker\0", distance=0, before=b""):
    """An Exif item's payload with one field of its first directory."""

    def number(value, width):
        return value.to_bytes(width, order)

    header = (b"MM\0*" if order == "big" else b"II*\0") + number(8, 4)
    entry = number(0x010F, 2) + number(2, 2) + number(len(make), 4) + number(26, 4)
    return be(distance, 4) + before + header + number(1, 2) + entry + number(0, 4) + make


def icc(name="A name", version=4):
    """An ICC profile with nothing but its description."""
    if version == 4:
        text = name.encode("utf-16-be")
        tag = b"mluc" + bytes(4) + be(1, 4) + be(12, 4) + b"enGB" + be(len(text), 4) + be(28, 4) + text
    else:
        text = name.encode() + b"\0"
        tag = b"desc" + bytes(4) + be(len(text), 4) + text
    table = be(1, 4) + b"desc" + be(144, 4) + be(len(tag), 4)
    header = be(144 + len(tag), 4) + bytes(4) + b"\4\x30\0\0mntrRGB XYZ " + bytes(12) + b"acsp" + bytes(88)
    return header + table + tag


@dataclasses.dataclass
class Item:
    kind: str
    payload: bytes = b""
    properties: list = dataclasses.field(default_factory=list)  # positions; a negative one is essential
    references: list = dataclasses.field(default_factory=list)  # of type and targets
    hidden: bool = False
    in_idat: bool = False
    content_type: str = ""
    method: int | None = None  # if not that of where its payload lies
    length: int | None = None  # if not its payload's
    file: int = 0  # in which its payload is said to lie: 0 for this one


@dataclasses.dataclass
class File:
    items: dict
    properties: list
    primary: int
    wide: tuple = ()  # types of boxes with ids, or a count of items, of 32 bits, which are of the next version
    handler: str = "pict"
    counted: int | None = None  # if not the count of its items
    left_out: tuple = ()  # types of boxes of meta
    gap: int = 0  # bytes of mdat before each payload
    more: bytes = b""  # behind the references of iref

    def bytes(self):
        start = len(self._ftyp()) + len(self._meta(0)) + 8
        return self._ftyp() + self._meta(start) + box("mdat", *self._in_mdat())

    def _in_mdat(self):
        return [bytes(self.gap) + item.payload for item in self.items.values() if not item.in_idat]

    def _ftyp(self):
        return box("ftyp", b"heic", bytes(4), b"heic", b"mif1", b"miaf")

    def _id(self, kind, number):
        """An item's id in a box of a type."""
        return be(number, 4 if kind in self.wide else 2)

    def _full(self, kind, version, flags, *parts):
        """A box of a type with ids of 16 bits in this version."""
        return full(kind, version + (kind in self.wide), flags, *parts)

    def _meta(self, start):
        made = {
            "hdlr": full("hdlr", 0, 0, bytes(4), self.handler.encode(), bytes(13)),
            "pitm": self._full("pitm", 0, 0, self._id("pitm", self.primary)),
            "iloc": self._iloc(start),
            "iinf": self._iinf(),
            "iref": self._iref(),
            "iprp": box("iprp", box("ipco", *self.properties), self._ipma()),
            "idat": box("idat", *(item.payload for item in self.items.values() if item.in_idat)),
        }
        return full("meta", 0, 0, *(part for kind, part in made.items() if kind not in self.left_out))

    def _iloc(self, start):
        entries, in_idat = [], 0
        for number, item in self.items.items():
            method = int(item.in_idat) if item.method is None else item.method
            length = len(item.payload) if item.length is None else item.length
            start += 0 if item.in_idat else self.gap
            at = in_idat if item.in_idat else start
            entries.append(self._id("iloc", number) + be(method, 2) + be(item.file, 2) + be(1, 2) + be(at, 4) + be(length, 4))
            in_idat += len(item.payload) if item.in_idat else 0
            start += 0 if item.in_idat else len(item.payload)
        return self._full("iloc", 1, 0, b"\x44\0", self._id("iloc", len(entries)), *entries)

    def _iinf(self):
        entries = [
            self._full("infe", 2, item.hidden, self._id("infe", number), bytes(2), item.kind.encode(), b"\0",
                       item.content_type.encode() + b"\0" if item.kind == "mime" else b"")
            for number, item in self.items.items()
        ]  # fmt: skip
        counted = len(entries) if self.counted is None else self.counted
        return self._full("iinf", 0, 0, self._id("iinf", counted), *entries)

    def _iref(self):
        made = [
            box(kind, self._id("iref", number), be(len(targets), 2), *(self._id("iref", target) for target in targets))
            for number, item in self.items.items()
            for kind, targets in item.references
        ]
        return self._full("iref", 0, 0, *made, self.more)

    def _ipma(self):
        entries = [
            self._id("ipma", number) + be(len(item.properties), 1) + b"".join(be(128 - p if p < 0 else p, 1) for p in item.properties)
            for number, item in self.items.items()
            if item.properties
        ]
        return self._full("ipma", 0, 0, be(len(entries), 4), *entries)


def good(rows=1, columns=2, wide=()):
    """A file that readers show: colour and alpha in tiles of 64 × 64, Exif, and an XMP packet. With n tiles the colour's are
    items 1 to n, their grid n + 1, the alpha's n + 2 to 2n + 1, their grid 2n + 2, Exif 2n + 3 and the packet 2n + 4."""
    n = rows * columns
    properties = [
        box("hvcC", record()), ispe(64, 64), ispe(64 * columns, 64 * rows), box("colr", b"prof", icc()), pixi(8, 8, 8),
        box("hvcC", record(chroma=0)), pixi(8), full("auxC", 0, 0, ALPHA),
    ]  # fmt: skip
    items = {}
    for first, own in ((1, [-1, -2, -4]), (n + 2, [-6, -2])):
        for i in range(n):
            items[first + i] = Item("hvc1", unit(SLICE, 8 + i % 5), list(own), hidden=True)
        descriptor = grid(rows, columns, 64 * columns, 64 * rows)
        listed, auxl = [3, -4, 5] if first == 1 else [3, 7, 8], [("auxl", [n + 1])] if first > 1 else []
        references = [("dimg", list(range(first, first + n))), *auxl]
        items[first + n] = Item("grid", descriptor, listed, references, in_idat=True)
    items[2 * n + 3] = Item("Exif", exif(), references=[("cdsc", [n + 1])])
    items[2 * n + 4] = Item("mime", PACKET, references=[("cdsc", [n + 1])], hidden=True, content_type=XMP_TYPE)
    return File(items, properties, primary=n + 1, wide=wide)


def panel_p(wide=()):
    """The file of panel P."""
    properties = [
        box("hvcC", b"\1\1"), ispe(64, 64), ispe(64, 64), box("colr", b"nclx", be(2, 2), be(2, 2), be(2, 2), b"\x80"), pixi(8, 8, 8),
        box("hvcC", b"\1\4"), pixi(8), full("auxC", 0, 0, ALPHA),
    ]  # fmt: skip
    descriptor = grid(1, 1, 64, 64)
    items = {
        1: Item("hvc1", b"\xaa", [-1, -2, -4], hidden=True),
        2: Item("grid", descriptor, [3, -4, 5], [("dimg", [1])], in_idat=True),
        3: Item("hvc1", b"\xbb", [-6, -2], hidden=True),
        4: Item("grid", descriptor, [3, 7, 8], [("dimg", [3]), ("auxl", [2])], in_idat=True),
    }
    return File(items, properties, primary=2, wide=wide).bytes()


def from_sheet(sheet):
    """A file with the records and samples of a panel's sheet, which are real HEVC."""
    at = 2

    def number(width):
        nonlocal at
        at += width
        return int.from_bytes(sheet[at - width : at], "big")

    def string(length):
        nonlocal at
        at += length
        return sheet[at - length : at]

    columns, rows, tile_w, tile_h, full_w, full_h = number(2), number(2), number(4), number(4), number(4), number(4)
    number(2)  # the depths: 8 bits, and 8 bits of alpha
    records = [string(number(4)), string(number(4))]
    lengths = [number(4) for _ in range(2 * rows * columns)]
    made = good(rows, columns)
    made.properties[:3] = box("hvcC", records[0]), ispe(tile_w, tile_h), ispe(full_w, full_h)
    made.properties[5] = box("hvcC", records[1])
    coded = [item for item in made.items.values() if item.kind == "hvc1"]
    for item, length in zip(coded, lengths):
        item.payload = string(length)
    for item in made.items.values():
        if item.kind == "grid":
            item.payload = grid(rows, columns, full_w, full_h)
    return made.bytes()
