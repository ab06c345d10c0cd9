"""A file as plain text: its boxes with offsets and sizes, then its properties and items in words. Runs that are alike are
drawn together."""

import bisect
import dataclasses

from . import fold, grids, metadata, views
from .fold import plural
from .items import IN_FILE, IN_IDAT, Item
from .rows import Rows, follows, refer

XMP_TYPE = "application/rdf+xml"


def show(data, found, contents):
    """The lines of the text."""
    yield f"{plural(len(data), 'byte')}"
    yield ""
    yield "  offset      size  box"
    yield from _tree(Rows(data, contents).of(found.boxes))
    yield ""
    yield from _properties(contents)
    yield ""
    yield from _Items(data, found, contents).lines()
    for kind, number, members in contents.groups:
        yield ""
        yield f"group {number}, {kind}: {fold.named('item', members)} are alternatives; a reader shows the first that it can"


def _tree(rows, indent=""):
    lines = []
    for row in rows:
        lines.append(f"{row.start:>8}  {row.size:>8}  {indent}{row.label}{'  ' if row.note else ''}{row.note}")
        lines += _tree(row.within, f"{indent}  ") if row.within else []
    return lines


def _properties(contents):
    yield "properties" if contents.properties else "no properties can be read"
    numbered = [(position, box.kind, words) for position, (box, words) in enumerate(contents.properties, 1)]
    for run in fold.runs(numbered, lambda a, b: True if a[1:] == b[1:] else None):
        position, kind, words = run[0]
        yield f"  {position:>3}  {kind}  {words}" if len(run) == 1 else f"  {position} to {run[-1][0]}  {kind}  {words}"


@dataclasses.dataclass
class _Entry:
    """An item with what is said of it besides numbers of its own."""

    item: Item
    summary: str
    place: str | None  # where its one payload lies, in words; none where it has several, or a part of it alone is there
    references: list


class _Items:
    """The items in words."""

    def __init__(self, data, found, contents):
        self.data, self.contents = data, contents
        self.boxes = found.boxes
        self.starts = [box.start for box in found.boxes]

    def lines(self):
        if not self.contents.items:
            yield "no items can be read"
            return
        yield "items (* marks a property that a reader must understand)"
        entries = [self._entry(item) for item in self.contents.items.values()]
        for run in fold.runs(entries, self._step):
            yield from self._run(run)

    def _entry(self, item):
        place = None
        if len(item.extents) == 1:
            offset, length = item.extents[0]
            place = self._place(item, offset, length) if item.there(offset, length) in (0, length) else None
        return _Entry(item, self._summary(item), place, self.contents.references_from.get(item.number, []))

    def _step(self, a, b):
        """How one item follows another, for fold.runs."""
        one, two = a.item, b.item
        alike = (
            two.number == one.number + 1
            and self._marks(one) == self._marks(two)
            and one.associations == two.associations
            and a.summary == b.summary
            and a.place == b.place
            and (a.place is not None or one.extents == two.extents == [])
            and [reference.kind for reference in a.references] == [reference.kind for reference in b.references]
        )
        steps = [follows(x.targets, y.targets) for x, y in zip(a.references, b.references)]
        return steps if alike and None not in steps else None

    def _run(self, run):
        first = run[0].item
        named = fold.named("item", [entry.item.number for entry in run])
        yield f"  {named}, {', '.join(self._marks(first))}{': ' if run[0].summary else ''}{run[0].summary}"
        yield from self._payload(first) if len(run) == 1 else self._payloads(run)
        if first.associations:
            yield f"      properties  {', '.join(self._named(*association) for association in first.associations)}"
        for alike in zip(*(entry.references for entry in run)):
            yield f"      {alike[0].kind:<10}  {refer(alike[0].kind, [reference.targets for reference in alike])}"

    def _marks(self, item):
        marks = ["primary"] if item.number == self.contents.primary else []
        marks += ["hidden"] if item.hidden else []
        return [item.kind, *marks, *([item.content_type] if item.content_type else [])]

    def _payload(self, item):
        for offset, length in item.extents:
            there = item.there(offset, length) if item.is_here else length
            missing = f", of which {there:,} {'is' if there == 1 else 'are'} there" if 0 < there < length else ""
            yield f"      payload     {plural(length, 'byte')} at {offset}{self._place(item, offset, length)}{missing}"
            if length == 0:
                yield "                  (a reader may take length 0 for the whole file)"

    def _payloads(self, run):
        """The payloads of alike items, each of one extent."""
        extents = [extent for entry in run for extent in entry.item.extents]
        if not extents:
            return
        place, lengths = run[0].place, [length for _, length in extents]
        start, end = min(offset for offset, _ in extents), max(offset + length for offset, length in extents)
        said = f"{fold.spread(lengths)} each, {plural(sum(lengths), 'byte')} in all"
        if all(b[0] == a[0] + a[1] for a, b in zip(extents, extents[1:])):
            yield f"      payloads    {said}, one behind the other from {start} on{place}"
        else:
            shared = ", some of them the same bytes" if len(set(extents)) < len(extents) else ""
            yield f"      payloads    {said}, from {start} to {end}{place}, not one behind the other{shared}"
        if 0 in lengths:
            yield "                  (a reader may take length 0 for the whole file)"

    def _place(self, item, offset, length):
        """Where an extent lies, in the words that follow its offset."""
        if item.elsewhere:
            return " in another file"
        if item.method == IN_IDAT:
            return " in idat" if item.there(offset, length) or not length else " in idat, not there"
        if item.method != IN_FILE:
            return f" of another item's payload (construction method {item.method})"
        if length and not item.there(offset, length):
            return f", beyond the end of the file at {item.limit}"
        index = bisect.bisect_right(self.starts, offset) - 1
        if length == 0 and index > 0 and offset == self.starts[index]:
            index -= 1  # nothing lies rather at the end of a box than in the header of the next
        box = self.boxes[index]
        return f" in {box.kind}" if offset <= box.end else " in no box"

    def _named(self, position, essential):
        if position == 0:
            return "none"
        known = self.contents.properties
        kind = known[position - 1][0].kind if position <= len(known) else "not there"
        return f"{position}{'*' if essential else ''} {kind}"

    def _summary(self, item):
        """What the payload says, and what is seen of a picture that a clap cuts."""
        seen = views.view(self.data, self.contents, item).words
        return "; ".join([*filter(None, [self._says(item)]), *seen])

    def _says(self, item):
        """What the payload of a grid, of Exif or of an XMP packet says."""
        if not item.extents or not item.is_whole:
            return ""
        if item.kind == "mime":
            return metadata.xmp(item.payload(self.data)) if item.content_type == XMP_TYPE else ""
        says = {"grid": _grid, "Exif": metadata.exif}.get(item.kind)
        return says(item.payload(self.data)) if says else ""


def _grid(descriptor):
    grid = grids.grid(descriptor)
    return grid.words if grid else f"{plural(len(descriptor), 'byte')}, too short for a grid"
