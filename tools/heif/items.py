"""The items of a file, and what each has: where its payload lies, its properties, and what it refers to."""

import dataclasses

from . import properties
from .boxes import NotHeif, body
from .fold import named, plural

IN_FILE, IN_IDAT = 0, 1  # construction methods


@dataclasses.dataclass(slots=True)
class Item:
    number: int
    kind: str
    hidden: bool
    content_type: str = ""
    method: int = IN_FILE  # of construction
    elsewhere: bool = False  # whether its payload lies in another file
    limit: int = 0  # where the bytes end among which its payload lies
    extents: list = dataclasses.field(default_factory=list)  # of file position and length
    associations: list = dataclasses.field(default_factory=list)  # of property position and whether essential

    @property
    def is_here(self):
        """Whether its extents are places in this file."""
        return self.method in (IN_FILE, IN_IDAT) and not self.elsewhere

    @property
    def is_whole(self):
        """Whether every byte of its payload is there."""
        return self.is_here and all(offset + length <= self.limit for offset, length in self.extents)

    def there(self, offset, length):
        """How many bytes of an extent are there."""
        return max(0, min(length, self.limit - offset))

    def payload(self, data):
        """Its bytes, as far as they are there."""
        if not self.is_here:
            return b""
        return b"".join(data[offset : offset + self.there(offset, length)] for offset, length in self.extents)


@dataclasses.dataclass(slots=True)
class Reference:
    kind: str
    source: int
    targets: list


@dataclasses.dataclass
class Contents:
    """What the meta box says, as far as it can be read."""

    meta: object = None  # the box
    handler: str | None = None
    primary: int | None = None
    items: dict = dataclasses.field(default_factory=dict)
    properties: list = dataclasses.field(default_factory=list)  # of box and words; the first is at position 1
    groups: list = dataclasses.field(default_factory=list)  # of type, id and members
    trouble: list = dataclasses.field(default_factory=list)  # a sentence for each thing that cannot be read
    counted: int | None = None  # how many items iinf says that it has
    twice: list = dataclasses.field(default_factory=list)  # ids that iinf gives more than once
    unlisted: dict = dataclasses.field(default_factory=dict)  # ids that a box names and iinf does not, by the box's type
    # By where a box begins: the item of an entry, the reference, the position of a property.
    entry_at: dict = dataclasses.field(default_factory=dict)
    reference_at: dict = dataclasses.field(default_factory=dict)
    position_at: dict = dataclasses.field(default_factory=dict)
    references_from: dict = dataclasses.field(default_factory=dict)  # lists by item id

    def targets(self, number, kind):
        """The items that an item refers to in this way."""
        return [t for reference in self.references_from.get(number, []) if reference.kind == kind for t in reference.targets]

    def property(self, position):
        """The box of a property, or None where there is none at the position."""
        return self.properties[position - 1][0] if 0 < position <= len(self.properties) else None

    def named(self, item):
        """The properties that an item is associated with, of those that are there: position, box, and whether essential."""
        found = [(position, self.property(position), essential) for position, essential in item.associations]
        return [each for each in found if each[1]]

    def positions(self, item, kind):
        """The positions of an item's properties of a type."""
        return [position for position, box, _ in self.named(item) if box.kind == kind]

    def value(self, data, item, kind, read):
        """What an item's first property of a type says, or None where it is not there or cannot be read, which is noted then."""
        for position in self.positions(item, kind):
            box = self.property(position)
            try:
                return read(body(data, box)) if box.is_known else None
            except NotHeif:
                return None
        return None


def contents(data, found):
    """The contents of the file whose boxes these are."""
    made = Contents(trouble=list(found.trouble), meta=found.find("meta"))
    if made.meta:
        _Reading(data, made).read()
    return made


class _Reading:
    """Reads the boxes of meta into contents. What a box that is cut does not say is no trouble beside the cut."""

    def __init__(self, data, made):
        self.data, self.made, self.meta = data, made, made.meta

    def read(self):
        iprp = self.meta.find("iprp")
        self._box("hdlr", self._handler)
        self._box("pitm", self._primary)
        if not self.meta.find("iinf") and not self.meta.is_cut:
            self.made.trouble.append(f"{self.meta} has no box of type iinf")
        self._box("iinf", self._count)
        for box in _within(self.meta, "iinf"):
            self._try(box, self._entry)
        self._box("iloc", self._locate)
        for box in _within(iprp, "ipco"):
            self._property(box)
        for box in iprp.within if iprp else []:
            if box.kind == "ipma":
                self._try(box, self._associate)
        for box in _within(self.meta, "iref"):
            self._try(box, self._reference)
        for box in _within(self.meta, "grpl"):
            self._try(box, self._group)
        self._beyond()

    def _try(self, box, read):
        """Reads a box's body, if its version is known; that it is not is noted where the box is found."""
        if not box.is_known:
            return
        try:
            read(box, body(self.data, box))
        except NotHeif as error:
            if not box.is_cut:
                self.made.trouble.append(str(error))

    def _box(self, kind, read):
        box = self.meta.find(kind)
        if box:
            self._try(box, read)

    def _handler(self, _, part):
        part.number(4)
        self.made.handler = part.four()

    def _primary(self, box, part):
        self.made.primary = part.number(box.id_width)

    def _count(self, box, part):
        self.made.counted = part.number(box.id_width)

    def _entry(self, box, part):
        if box.kind != "infe":
            raise NotHeif(f"{box} is no item entry")
        number = part.number(box.id_width)
        part.number(2)  # of protection
        item = Item(number, part.four(), bool(box.flags & 1))
        part.text()  # the name, which nobody uses
        if item.kind == "mime":
            item.content_type = part.text()
        self.made.entry_at[box.start] = item
        if number in self.made.items:
            self.made.twice.append(number)
        else:
            self.made.items[number] = item

    def _listed(self, number, kind):
        """The item of a number that a box names, or None, which is noted."""
        item = self.made.items.get(number)
        if item is None:
            self.made.unlisted.setdefault(kind, []).append(number)
        return item

    def _locate(self, iloc, part):
        """Gives each item its extents, counted from the start of the file."""
        sizes = part.number(2)
        offset_size, length_size, base_size, index_size = sizes >> 12, sizes >> 8 & 15, sizes >> 4 & 15, sizes & 15
        if iloc.version == 0:
            index_size = 0
        width = iloc.id_width
        for _ in range(part.number(width)):
            number = part.number(width)
            method = part.number(2) & 15 if iloc.version > 0 else IN_FILE
            file = part.number(2)  # which file the data is in: 0 for this one
            base, count = part.number(base_size), part.number(2)
            if count > 1 and index_size + offset_size + length_size == 0:
                raise NotHeif(f"{iloc} gives item {number} {count:,} extents that take no bytes")
            extents = []
            for _ in range(count):
                part.number(index_size)
                extents.append((base + part.number(offset_size), part.number(length_size)))
            item = self._listed(number, "iloc")
            if item:
                self._place(item, method, file, extents)

    def _place(self, item, method, file, extents):
        item.method, item.elsewhere = method, file != 0
        item.extents, item.limit = extents, len(self.data)
        idat = self.meta.find("idat")
        if method == IN_IDAT:
            item.limit = idat.start + idat.there if idat else 0
            item.extents = [(idat.body + offset, length) for offset, length in extents] if idat else extents

    def _beyond(self):
        """Notes the payloads that are not whole, those in the file and those in idat apart."""
        idat = self.meta.find("idat")
        ends = {IN_FILE: f"the file at {len(self.data)}"}
        if not self.meta.is_cut:
            ends[IN_IDAT] = f"idat at {idat.end}" if idat else "idat, which is not there,"
        for method, end in ends.items():
            lost = [i for i in self.made.items.values() if i.is_here and i.method == method and not i.is_whole]
            if lost:
                goes = "payload of {} goes" if len(lost) == 1 else "payloads of {} go"
                whose = goes.format(named("item", [item.number for item in lost]))
                missing = sum(length - item.there(offset, length) for item in lost for offset, length in item.extents)
                self.made.trouble.append(f"the {whose} beyond the end of {end} by {plural(missing, 'byte')}")

    def _property(self, box):
        self.made.position_at[box.start] = len(self.made.properties) + 1
        try:
            words = cut(box) if box.is_cut else properties.words(self.data, box) if box.is_known else unknown(box)
        except NotHeif as error:
            self.made.trouble.append(str(error))
            words = "damaged: too short, or a string in it has no end"
        self.made.properties.append((box, words))

    def _associate(self, ipma, part):
        of_id, width = ipma.id_width, 2 if ipma.flags & 1 else 1
        essential = 1 << 8 * width - 1
        for _ in range(part.number(4)):
            number = part.number(of_id)
            values = [part.number(width) for _ in range(part.number(1))]
            item = self._listed(number, "ipma")
            if item:
                item.associations += [(value & essential - 1, bool(value & essential)) for value in values]

    def _reference(self, box, part):
        width = self.meta.find("iref").id_width
        source, count = part.number(width), part.number(2)
        reference = Reference(box.kind, source, [part.number(width) for _ in range(min(count, part.left // width))])
        self.made.reference_at[box.start] = reference
        self.made.references_from.setdefault(source, []).append(reference)
        if len(reference.targets) < count:
            raise NotHeif(f"{box} is too short for the {plural(count, 'item')} that it refers to")

    def _group(self, box, part):
        # Only altr is listed among the full boxes; others are full boxes too, of which nothing more is said here.
        if box.kind == "altr":
            number = part.number(4)
            self.made.groups.append((box.kind, number, [part.number(4) for _ in range(part.number(4))]))


def _within(box, kind):
    """The boxes within the first box of a type, or none."""
    inner = box.find(kind) if box else None
    return inner.within if inner else []


def cut(box):
    """How much of a box is there, in words."""
    return f"cut short: {box.there:,} of {plural(box.size, 'byte')} are there"


def unknown(box):
    """Which version a box has, where that is none that readers know, in words."""
    return f"version {box.version}, which is not known"
