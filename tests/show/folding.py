"""Runs that are alike are one line and one bar, and those that are not stay apart."""

import re
import xml.etree.ElementTree

from build import NAMING, SLICE, Item, box, full, good, record, unit
from common import fail, read

PAGE = 70  # lines


def words(picture):
    """The words of a picture."""
    return [element.text for element in xml.etree.ElementTree.fromstring(picture).iter("{http://www.w3.org/2000/svg}text")]


def drawn(picture, *wanted):
    for each in wanted:
        if each not in words(picture):
            fail(f"the picture lacks '{each}'; it has\n" + "\n".join(map(str, words(picture))))


def check_large(side, wide):
    """A grid of many tiles is a page and a picture. In iloc an item has 16 bytes, in iinf 21, and 2 more in each where ids have
    32 bits; samples have 12, 13, 14, 15 and 16 bytes in turn, 14 on average."""
    data = good(side, side, wide=wide).bytes()
    seen = read(data)
    n, more = side * side, 2 if wide else 0
    first = 87 + more + 16 + more + (2 * n + 4) * (16 + more) + 14 + more  # behind iloc and the head of iinf
    start = data.index(b"mdat") + 4
    seen.has(
        f"{first} {(21 + more) * n} infe × {n} items 1 to {n}, hvc1, hidden",
        f"{first + (21 + more) * n} {21 + more} infe item {n + 1}, grid",
        f"{start - 8} {len(data) - start + 8} mdat",
        f"items 1 to {n}, hvc1, hidden",
        f"payloads 12 to 16 bytes each, {14 * n:,} bytes in all, one behind the other from {start} on in mdat",
        f"payloads 12 to 16 bytes each, {14 * n:,} bytes in all, one behind the other from {start + 14 * n} on in mdat",
        f"item {n + 1}, grid, primary: {side} rows × {side} columns, {64 * side} × {64 * side} pixels",
        f"dimg made from items 1 to {n}",
    )
    drawn(
        seen.picture,
        f"infe × {n}",
        f"items 1 to {n}, hvc1, hidden",
        f"{n:,} payloads of items 1 to {n}, hvc1: 12 to 16 bytes each",
        f"{n:,} payloads of items {n + 2} to {2 * n + 1}, hvc1: 12 to 16 bytes each",
    )
    if len(seen.lines) > PAGE or seen.picture.count("<rect") > PAGE:
        fail(f"{side} × {side} tiles are {len(seen.lines)} lines, and a page has {PAGE}")
    if seen.findings:
        fail(f"of a good file of {side} × {side} tiles --check says:\n" + "\n".join(seen.findings))


def check_threshold():
    """Three tiles are shown one by one, four are one."""
    three, four = read(good(1, 3).bytes()), read(good(1, 4).bytes())
    three.has("item 1, hvc1, hidden", "item 3, hvc1, hidden", "dimg made from items 1 to 3")
    four.has("items 1 to 4, hvc1, hidden", "items 6 to 9, hvc1, hidden")
    if any(line.startswith("  items") for line in three.lines) or any("×" in line and "infe" in line for line in three.lines):
        fail("three tiles are drawn together")
    drawn(three.picture, "payload of item 1, hvc1", "payload of item 3, hvc1")
    drawn(four.picture, "infe × 4", "4 payloads of items 1 to 4, hvc1: 12 to 15 bytes each")


def check_apart():
    """Items that differ in anything stay apart, and payloads with gaps are said to have them."""
    made = good(2, 4)
    made.gap = 1
    seen = read(made.bytes())
    start = made.bytes().index(b"mdat") + 4
    seen.has(f"payloads 12 to 16 bytes each, 109 bytes in all, from {start + 1} to {start + 117} in mdat, not one behind the other")
    drawn(seen.picture, "8 payloads of items 1 to 8, hvc1: 12 to 16 bytes each, with gaps")
    for change in ({"properties": [-1, -2]}, {"hidden": False}, {"references": [("thmb", [9])]}, {"length": 2_000_000}):
        made = good(2, 5)
        for name, value in change.items():
            setattr(made.items[5], name, value)
        lines = read(made.bytes()).lines
        heads = [line.split(":")[0] for line in lines if re.match(r"  items? \d+", line)]
        kind = "item 5, hvc1, hidden" if "hidden" not in change else "item 5, hvc1"
        if heads[:3] != ["  items 1 to 4, hvc1, hidden", f"  {kind}", "  items 6 to 10, hvc1, hidden"]:
            fail(f"items that differ in {change} are shown as {heads[:3]}")


def check_steps():
    """A run goes on in one way: ids rise by one, and references stay at an item or go from each to the next."""
    made = good()
    for number in (*range(20, 24), *range(30, 34)):
        made.items[number] = Item("hvc1", unit(SLICE), [1, 2])
    for number, target in enumerate((3, 3, 3, 3, 4, 5, 6, 7), 40):
        made.items[number] = Item("Exif", b"a", references=[("cdsc", [target])])
    seen = read(made.bytes())
    seen.has("items 20 to 23, hvc1", "items 30 to 33, hvc1", "cdsc describes item 3", "cdsc describes items 4 to 7, one each")
    seen.has_rows(
        "infe × 4 items 20 to 23, hvc1",
        "infe × 4 items 30 to 33, hvc1",
        "cdsc × 4 items 40 to 43: describes item 3",
        "cdsc × 4 items 44 to 47: describes items 4 to 7, one each",
    )


def check_rest():
    """References, properties and long lists are drawn together, too; what would steer a terminal is written as a number."""
    made = good()
    made.items.update({number: Item("Exif", references=[("cdsc", [3])], payload=b"a") for number in range(9, 13)})
    made.items.update({number: Item("hvc1", unit(SLICE), [1, 2], [("thmb", [number - 12])]) for number in range(13, 18)})
    made.properties += [box("hvcC", record())] * 4 + [full("auxC", 0, 0, b"\x1b[2J<&\1\0")]
    made.items[6].references.append(("dimg", list(range(20, 0, -1))))
    seen = read(made.bytes())
    seen.has_rows(
        "cdsc × 6 items 7 to 12: describes item 3",
        "thmb × 5 items 13 to 17: thumbnail of items 1 to 5, one each",
        "hvcC × 4 properties 9 to 12",
        "dimg item 6: made from items 20, 19, 18, 17, 16, 15, 14, 13, 12, 11, 10, 9 and 8 more",
    )
    seen.has(
        "9 to 12 hvcC HEVC decoder record of 50 bytes: Main, 4:2:0, 8 bits",
        "13 auxC auxiliary picture: of its own kind (\\x1b[2J<&\\x01)",
        "thmb thumbnail of items 1 to 5, one each",
    )
    drawn(seen.picture, "9 to 12: HEVC decoder record of 50 bytes: Main, 4:2:0, 8 bits")


def check_shared():
    """Payloads that are one and the same are one bar: here those of four tiles, by their entries of iloc."""
    data = good(1, 4).bytes()
    iloc = data.index(b"iloc") + 12
    for entry in (1, 2, 3):
        at = iloc + 16 * entry + 8
        data = data[:at] + data[iloc + 8 : iloc + 16] + data[at + 8 :]
    seen = read(data)
    drawn(seen.picture, "payload of items 1 to 4, hvc1")
    start = data.index(b"mdat") + 4
    seen.has(
        f"payloads 12 bytes each, 48 bytes in all, from {start} to {start + 12} in mdat, "
        "not one behind the other, some of them the same bytes"
    )


def check_all():
    check_large(100, wide=())
    check_large(185, wide=NAMING)  # with more tiles than ids of 16 bits are enough for
    check_threshold()
    check_apart()
    check_steps()
    check_rest()
    check_shared()
    return "100 × 100 tiles are a page"
