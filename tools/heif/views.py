"""What is seen of an item's picture after the properties that change it: each clap, irot and imir, in the order in which the
item names them (ISO/IEC 23008-12)."""

import dataclasses

from . import apertures, properties
from .boxes import NotHeif, body

CHANGES = ("clap", "irot", "imir", "iscl")  # the types of such properties


@dataclasses.dataclass
class View:
    size: tuple | None = None  # width and height in the end; None where they are not known
    words: list = dataclasses.field(default_factory=list)  # what each clap leaves
    faults: list = dataclasses.field(default_factory=list)  # what is wrong with a clap on this picture

    def cut(self, aperture):
        """Lets an aperture alone be seen. One that is at fault by itself, or that the picture has no pixels for, leaves the size open."""
        before, self.size = self.size, None
        if before is None or aperture.fault:
            return
        edges = aperture.edges(before)
        area = f"columns {_to(edges[0])} and rows {_to(edges[1])} of {by(before)}"
        self.words.append(f"clap leaves {area}")
        if any(edge.denominator > 1 for pair in edges for edge in pair):
            self.faults.append(f"clap does not cut between pixels: it leaves {area}")
        elif any(first < 0 or last >= side for (first, last), side in zip(edges, before)):
            self.faults.append(f"clap goes beyond the picture: it leaves {area}")
        else:
            self.size = tuple(int(last - first) + 1 for first, last in edges)


def view(data, contents, item):
    """What is seen of an item."""
    seen = View(contents.value(data, item, "ispe", properties.size))
    for _, box, _ in contents.named(item):
        try:
            _change(seen, box.kind, body(data, box))
        except NotHeif:
            seen.size = None  # which is noted where the property is read
    return seen


def _change(seen, kind, part):
    if kind == "clap":
        seen.cut(apertures.aperture(part))
    elif kind == "irot" and part.number(1) & 1 and seen.size:
        seen.size = seen.size[::-1]
    elif kind == "iscl":
        seen.size = None  # scaled: to what size is not worked out here


def by(size):
    return f"{size[0]} × {size[1]}"


def _to(edges):
    return f"{edges[0]} to {edges[1]}"
