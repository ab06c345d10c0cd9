"""The boxes of a file: each with its type, where it begins, how long it is, and the boxes within it."""

import dataclasses

from .fold import named, plural, words


class NotHeif(Exception):
    """The bytes are no HEIF file, or a part of them cannot be read. The message says what is wrong, for the person who
    reads it."""


@dataclasses.dataclass(slots=True)
class Box:
    kind: str
    start: int  # of its size field, in the file
    size: int  # with its header, as it says itself
    body: int  # where what follows the header begins
    there: int  # how many of its bytes are there: fewer than its size where it is cut
    version: int = 0  # of a full box
    flags: int = 0
    within: list = dataclasses.field(default_factory=list)

    @property
    def end(self):
        return self.start + self.size

    @property
    def is_cut(self):
        return self.there < self.size

    @property
    def is_known(self):
        """Whether its version is one that readers know."""
        return self.version in FULL.get(self.kind, [0])

    @property
    def id_width(self):
        """How many bytes an item's id takes in it; of iinf, the count of items."""
        return IDS[self.kind][self.version]

    def __str__(self):
        return f"box {self.kind} at {self.start}"

    def find(self, kind):
        """The first box of this type within, or None."""
        return next((box for box in self.within if box.kind == kind), None)


@dataclasses.dataclass
class Found:
    """The boxes of a file, as far as they can be read, and a sentence for each thing that cannot."""

    boxes: list
    trouble: list

    def find(self, kind):
        return next((box for box in self.boxes if box.kind == kind), None)


# Of the boxes that name items the versions that there are, each with how many bytes an id takes in it, and in iinf the count of items:
# ISO/IEC 14496-12, 8.11, and 23008-12, 9.3.1. The versions 0 and 1 of infe are for items without a type, and so for no picture.
IDS = {
    "pitm": {0: 2, 1: 4}, "iloc": {0: 2, 1: 2, 2: 4}, "iinf": {0: 2, 1: 4}, "infe": {2: 2, 3: 4}, "iref": {0: 2, 1: 4},
    "ipma": {0: 2, 1: 4},
}  # fmt: skip
# Boxes whose header is followed by a version and flags, with the versions that there are. Any box of these types is read so wherever it
# stands.
FULL = {kind: list(widths) for kind, widths in IDS.items()}
FULL |= dict.fromkeys(("meta", "hdlr", "ispe", "pixi", "auxC", "altr"), [0])
CONTAINERS = {"meta", "iprp", "ipco", "iinf", "iref", "grpl"}
DEEPEST = 12  # boxes within boxes; files that people make have four
HEIF_BRANDS = {"mif1", "mif2", "heic", "heix", "heim", "heis", "msf1", "miaf", "avif"}


def printable(text):
    """Text of a file as it may be printed: what would steer a terminal, or break a picture, is written as a number."""
    return text if text.isprintable() else "".join(c if c.isprintable() else f"\\x{ord(c):02x}" for c in text)


class Reader:
    """Reads numbers and strings from a part of the file, and says what is cut short, a box as a rule, if they are not there."""

    def __init__(self, data, start, end, what):
        self.data, self.at, self.end, self.what = data, start, end, what

    @property
    def left(self):
        return max(0, self.end - self.at)

    def take(self, count):
        if self.at + count > self.end:
            wanted = f"read on from {self.at} for {plural(count, 'byte')}"
            raise NotHeif(f"{self.what} is too short: it ends at {self.end} and is {wanted}")
        taken = self.data[self.at : self.at + count]
        self.at += count
        return taken

    def number(self, width):
        at, self.at = self.at, self.at + width
        if self.at > self.end:
            self.at = at
            self.take(width)  # which says what is wrong
        return int.from_bytes(self.data[at : self.at], "big")

    def four(self):
        """A type of four characters."""
        return printable(self.take(4).decode("ascii", "backslashreplace"))

    def text(self):
        """A string up to its closing zero."""
        stop = self.data.find(b"\0", self.at, self.end)
        if stop < 0:
            raise NotHeif(f"{self.what} has a string at {self.at} without a closing zero")
        taken = self.data[self.at : stop]
        self.at = stop + 1
        return printable(taken.decode("utf-8", "replace"))

    def rest(self):
        return self.take(self.left)


def body(data, box):
    """A reader of a box's body, as far as it is there."""
    return Reader(data, box.body, box.start + box.there, box)


def _are(count):
    return f"{plural(count, 'byte')} {'is' if count == 1 else 'are'}"


class _Reading:
    """Reads boxes as far as it can, and notes what it cannot."""

    def __init__(self, data):
        self.data, self.trouble = data, []

    def boxes(self, start, end, holder=None, depth=0):
        """The boxes from `start` to `end` within a box, or in the file. What ends because the box around it is cut is no
        trouble of its own."""
        around = holder or "the file"
        noted = [] if holder and holder.is_cut else self.trouble
        if depth > DEEPEST:
            noted.append(f"{around} lies within more than {DEEPEST} boxes")
            return []
        found = []
        while start < end:
            try:
                box = self._header(start, end, around)
            except NotHeif as error:
                noted.append(str(error))
                break
            if box.is_cut:
                says = f"{box} says that it ends at {box.end}, but {around} ends at {end}"
                noted.append(f"{says}: {_are(box.size - box.there)} missing")
            self._open(box, holder, depth)
            found.append(box)
            start = box.end
        return found

    def _header(self, start, end, around):
        """The box that begins at `start`, without what is within."""
        if end - start < 8:
            raise NotHeif(f"{_are(end - start)} left at {start} in {around}, too few for a box")
        head = Reader(self.data, start, end, f"the box at {start}")
        size, kind = head.number(4), head.four()
        if size == 1:
            size = head.number(8)
        elif size == 0:
            size = end - start  # up to the end of what holds it
        if size < head.at - start:
            raise NotHeif(f"box {kind} at {start} says that it has {plural(size, 'byte')}, fewer than its own header")
        return Box(kind, start, size, head.at, min(size, end - start))

    def _open(self, box, holder, depth):
        """Reads a box's version and flags, if it has them, and the boxes within. Within iref and grpl a box's type is a
        kind of reference or of group, and holds no boxes."""
        if box.kind in FULL:
            head = body(self.data, box)
            if head.left < 4:
                box.body += head.left
                if not box.is_cut:
                    self.trouble.append(f"{box} is too short for its version and flags")
                return
            box.version, box.flags = head.number(1), head.number(3)
            box.body = head.at
            if not box.is_known:
                known = named("version", FULL[box.kind])
                self.trouble.append(f"{box} has version {box.version}, and readers know {known} alone")
                if box.kind in IDS:
                    return  # what is within it, as how wide an id is, goes by its version
        if box.kind in CONTAINERS and not (holder and holder.kind in ("iref", "grpl")):
            first = box.body + (box.id_width if box.kind == "iinf" else 0)  # the count of entries stands before them
            box.within = self.boxes(first, box.start + box.there, box, depth + 1)


def read(data):
    """The boxes of a HEIF file, as far as they can be read, after checking that it is one."""
    if len(data) < 8 or data[4:8] != b"ftyp":
        raise NotHeif("not a HEIF file: it does not begin with a box of type ftyp")
    reading = _Reading(data)
    found = Found(reading.boxes(0, len(data)), reading.trouble)
    if not found.boxes:
        raise NotHeif(f"not a HEIF file: {found.trouble[0]}")
    brands = brands_of(data, found.boxes[0])
    if not brands:
        raise NotHeif(f"not a HEIF file, or cut short before its brands: it ends at {len(data)}")
    if not HEIF_BRANDS & set(brands):
        raise NotHeif(f"not a HEIF file: its brands are {words(brands)}")
    if not found.find("meta") and not found.boxes[-1].is_cut:
        found.trouble.append(f"there is no box of type meta, so there are no items; the file ends at {len(data)}")
    return found


def brands_of(data, ftyp):
    """The major brand, then the compatible ones, as far as they are there."""
    part = body(data, ftyp)
    if part.left < 8:
        return [part.four()] if part.left >= 4 else []
    major = part.four()
    part.number(4)
    return [major] + [part.four() for _ in range(part.left // 4)]
