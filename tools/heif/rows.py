"""The boxes of a file as rows, for the text and the picture alike: runs of boxes and of payloads that are alike are one."""

import bisect
import dataclasses

from . import fold
from .boxes import brands_of
from .items import IN_IDAT, cut, unknown

MEANINGS = {"iloc": "where each item's payload lies", "ipma": "which properties each item has"}
REFERS = {"dimg": "made from", "auxl": "auxiliary to", "cdsc": "describes", "thmb": "thumbnail of"}
OF_DATA = ("mdat", "idat")
NAMING = ("pitm", "iloc", "iref", "ipma")  # boxes that name items by their ids; iinf's entries are boxes of their own


@dataclasses.dataclass
class Row:
    start: int
    size: int
    kind: str  # of the box; none for payloads
    note: str
    count: int = 1  # of boxes that are drawn together
    within: list = dataclasses.field(default_factory=list)

    @property
    def label(self):
        return self.kind if self.count == 1 else f"{self.kind} × {self.count}"


def refers(kind, targets):
    return f"{REFERS.get(kind, 'refers to')} {fold.named('item', targets)}"


def follows(a, b):
    """How one item's references go on from those of another, both lists of targets, or None."""
    if a == b:
        return "the same"
    return "one on" if len(a) == len(b) == 1 and b[0] == a[0] + 1 else None


def refer(kind, lists):
    """What a run of references of one kind says: all to the same items, or each to the next one."""
    if len(lists) == 1 or lists[0] == lists[1]:
        return refers(kind, lists[0])
    return f"{refers(kind, [targets[0] for targets in lists])}, one each"


def entry(item):
    """An item's type, whether it is hidden, without its number."""
    return f"{item.kind}{', hidden' if item.hidden else ''}"


class Rows:
    """Makes the rows of a file. In a picture properties stand in words, and data boxes hold their payloads."""

    def __init__(self, data, contents, in_picture=False):
        self.data, self.contents, self.in_picture = data, contents, in_picture
        self.extents = _extents(contents) if in_picture else []
        self.starts = [offset for offset, _, _ in self.extents]

    def of(self, boxes):
        """The rows of boxes that stand side by side."""
        return [self._row(run) for run in fold.runs(boxes, self._step)]

    def _step(self, a, b):
        """How box b follows a, for fold.runs."""
        if a.kind != b.kind or a.within or b.within or a.is_cut or b.is_cut or a.kind in OF_DATA:
            return None
        known = self.contents
        entries = known.entry_at.get(a.start), known.entry_at.get(b.start)
        if all(entries):
            return True if entries[1].number == entries[0].number + 1 and entry(entries[0]) == entry(entries[1]) else None
        references = known.reference_at.get(a.start), known.reference_at.get(b.start)
        if all(references):
            rises = references[1].source == references[0].source + 1
            return follows(references[0].targets, references[1].targets) if rises else None
        positions = known.position_at.get(a.start), known.position_at.get(b.start)
        if all(positions):
            words = [known.properties[position - 1][1] for position in positions]
            return True if words[0] == words[1] else None
        return True if self._note([a]) == self._note([b]) else None

    def _row(self, run):
        first, last = run[0], run[-1]
        notes = [self._note(run) if first.is_known else unknown(first)]
        if first.kind in NAMING and first.is_known and first.id_width == 4:
            notes.append("ids of 32 bits")
        if first.is_cut and cut(first) not in notes[0]:
            notes.append(cut(first))
        row = Row(first.start, last.end - first.start, first.kind, ", ".join(filter(None, notes)), len(run))
        row.within = self.of(first.within) if first.within else []
        if self.in_picture and first.kind in OF_DATA:
            row.within += self._payloads(first)
        return row

    def _note(self, run):
        """What the row of a run says beside offset, size and type."""
        box, known = run[0], self.contents
        if box.kind == "ftyp":
            brand, *others = brands_of(self.data, box)
            return f"brand {brand}, compatible with {fold.words(others) or 'none'}"
        if box.kind == "hdlr":
            return f"handler {known.handler}" if known.handler else ""
        if box.kind == "pitm":
            return f"primary item {known.primary}" if known.primary is not None else ""
        if box.kind == "iinf":
            read = fold.plural(len(known.items), "item")
            return f"{read} of {known.counted:,} can be read" if known.counted not in (None, len(known.items)) else read
        if box.kind in MEANINGS:
            return MEANINGS[box.kind]
        if box.start in known.entry_at:
            entries = [known.entry_at[each.start] for each in run]
            return f"{fold.named('item', [item.number for item in entries])}, {entry(entries[0])}"
        if box.start in known.reference_at:
            references = [known.reference_at[each.start] for each in run]
            sources = fold.named("item", [reference.source for reference in references])
            return f"{sources}: {refer(box.kind, [reference.targets for reference in references])}"
        if box.start in known.position_at:
            positions = [known.position_at[each.start] for each in run]
            if self.in_picture:
                return f"{fold.numbers(positions)}: {known.properties[positions[0] - 1][1]}"
            return fold.named("property", positions)
        return ""

    def _payloads(self, box):
        """The rows of the payloads that lie in a box of data, in file order."""
        first, last = bisect.bisect_left(self.starts, box.body), bisect.bisect_right(self.starts, box.end)
        inside = [
            (offset, length, [item for item in items if (item.method == IN_IDAT) == (box.kind == "idat")])
            for offset, length, items in self.extents[first:last]
            if offset + length <= box.end
        ]
        return [_payload(run) for run in fold.runs([each for each in inside if each[2]], _payload_step)]


def _extents(contents):
    """Every extent with the items of one type whose payload it is, in file order."""
    found = {}
    for item in contents.items.values():
        for offset, length in item.extents if item.is_here else []:
            found.setdefault((offset, length, item.kind), []).append(item)
    return [(offset, length, items) for (offset, length, _), items in sorted(found.items(), key=_place)]


def _place(found):
    """Payloads stand by where they begin and how long they are, then by the first item that has them."""
    (offset, length, _), items = found
    return offset, length, items[0].number


def _state(offset, length, item):
    there = item.there(offset, length)
    return "whole" if there == length else "part" if there else "none"


def _payload_step(a, b):
    """How one extent follows another, for fold.runs: each of one item, and the items alike."""
    (one_at, one_length, ones), (two_at, two_length, twos) = a, b
    if len(ones) > 1 or len(twos) > 1:
        return None
    one, two = ones[0], twos[0]
    alike = two.number == one.number + 1 and entry(one) == entry(two)
    states = _state(one_at, one_length, one), _state(two_at, two_length, two)
    return True if alike and states[0] == states[1] != "part" else None


def _payload(run):
    offset, length, items = run[0]
    numbers = [item.number for _, _, items in run for item in items]
    missing = {"whole": "", "part": f", {items[0].there(offset, length):,} bytes there", "none": ", not there"}
    note = f"of {fold.named('item', numbers)}, {items[0].kind}{missing[_state(offset, length, items[0])]}"
    if len(run) == 1:
        return Row(offset, length, "", f"payload {note}")
    lengths = [length for _, length, _ in run]
    end = max(offset + length for offset, length, _ in run)
    gaps = "" if sum(lengths) == end - offset else ", with gaps"
    return Row(offset, end - offset, "", f"{fold.plural(len(run), 'payload')} {note}: {fold.spread(lengths)} each{gaps}")
