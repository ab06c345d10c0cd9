"""The versions of boxes: ids of 32 bits are read in each box that names items, by its own version, and a version that there is not is
named."""

import itertools
import re

import build
from build import NAMING
from common import fail, read, vectors

# ISO/IEC 14496-12, 8.11, and 23008-12, 9.3.1; of infe those that state a type.
VERSIONS = {"pitm": (0, 1), "iloc": (0, 1, 2), "iinf": (0, 1), "infe": (2, 3), "iref": (0, 1), "ipma": (0, 1)}
VERSIONS |= dict.fromkeys(("meta", "hdlr", "ispe", "pixi", "auxC", "altr"), (0,))
SAID = {(0,): "version 0", (0, 1): "versions 0, 1", (2, 3): "versions 2, 3", (0, 1, 2): "versions 0 to 2"}
NOTES = {"pitm": "primary item 3", "iloc": "where each item's payload lies", "iref": "", "ipma": "which properties each item has"}


def _of_items(seen):
    """What is said of properties and items, but for where payloads lie."""
    return [re.sub(r" at \d+", "", line) for line in seen.lines[seen.lines.index("properties") :]]


def check_each():
    """Whichever of the boxes have ids of 32 bits, the items are the same, and the rows of those boxes say so."""
    wanted = _of_items(read(build.good().bytes()))
    for wide in itertools.chain.from_iterable(itertools.combinations(NAMING, count) for count in range(len(NAMING) + 1)):
        seen = read(build.good(wide=wide).bytes())
        if seen.findings or _of_items(seen) != wanted:
            fail(f"with 32 bits in {wide} it says\n" + "\n".join(seen.findings + _of_items(seen)))
        for kind, note in NOTES.items():
            seen.has_rows(" ".join(filter(None, [kind, note])) + (("," if note else "") + " ids of 32 bits" if kind in wide else ""))


def check_ids():
    """Ids are read whole: those that differ in their upper half alone, up to the largest that there is."""
    for more in (65_536, 2**32 - 9):
        made = build.good(wide=NAMING)
        made.items = {number + more: item for number, item in made.items.items()}
        for item in made.items.values():
            item.references = [(kind, [target + more for target in targets]) for kind, targets in item.references]
        made.primary += more
        seen = read(made.bytes())
        seen.has(
            f"item {more + 1}, hvc1, hidden",
            f"item {more + 3}, grid, primary: 1 row × 2 columns, 128 × 64 pixels",
            f"dimg made from items {more + 1}, {more + 2}",
            f"auxl auxiliary to item {more + 3}",
            f"item {more + 7}, Exif: big-endian TIFF of 32 bytes, \"Maker\"",
        )
        if seen.findings:
            fail(f"of items from {more + 1} on --check says:\n" + "\n".join(seen.findings))


def check_unlike():
    """A box whose version says another width than its numbers have is not taken for a good one."""
    for kind in NAMING:
        for wide, step in ((NAMING, -1), ((), 1)):
            data = build.good(wide=wide).bytes()
            at = data.index(kind.encode()) + 4
            if not read(data[:at] + bytes([data[at] + step]) + data[at + 1 :]).findings:
                fail(f"of {kind} of version {data[at] + step} with numbers of version {data[at]} --check says nothing")


def check_unknown():
    """A version that there is not is told with those that there are, and what it holds is not read."""
    data = vectors()["full"]
    for kind, known in VERSIONS.items():
        at = data.index(kind.encode()) + 4
        for version in {*range(9), 255} - {*known}:
            seen = read(data[:at] + bytes([version]) + data[at + 1 :])
            wanted = f"box {kind} at {at - 8} has version {version}, and readers know {SAID[known]} alone"
            if seen.trouble != [wanted] or seen.findings[0] != wanted:
                fail(f"where '{wanted}' is due it says\n" + "\n".join(seen.trouble + seen.findings))
            seen.has_rows(f"{kind} version {version}, which is not known")


def check_property():
    """A property of such a version is shown as that, and nothing is concluded from what it would say: of tiles half as wide."""
    made = build.good()
    made.properties[1] = build.full("ispe", 1, 0, build.be(32, 4), build.be(64, 4))
    data = made.bytes()
    seen = read(data)
    seen.has("2 ispe version 1, which is not known")
    if seen.findings != [f"box ispe at {data.index(b'ispe') - 4} has version 1, and readers know version 0 alone"]:
        fail("of an ispe of version 1 it says\n" + "\n".join(seen.findings))


def check_all():
    check_each()
    check_ids()
    check_unlike()
    check_unknown()
    check_property()
    return "ids of 16 and of 32 bits are read as each box's version says"
