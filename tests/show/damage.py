"""Files that are cut short or damaged: what can be read is shown, then a line says what is missing, and nothing fails."""

import xml.etree.ElementTree

from build import NAMING, full, good, panel_p
from common import boxes, fail, read, shown, vectors

CUT_AT_300 = """300 bytes

  offset      size  box
       0        28  ftyp  brand heic, compatible with heic, mif1, miaf
      28       518  meta  cut short: 272 of 518 bytes are there
      40        33    hdlr  handler pict
      73        14    pitm  primary item 2
      87        80    iloc  where each item's payload lies
     167        98    iinf  4 items
     181        21      infe  item 1, hvc1, hidden
     202        21      infe  item 2, grid
     223        21      infe  item 3, hvc1, hidden
     244        21      infe  item 4, grid
     265        54    iref  cut short: 35 of 54 bytes are there
     277        14      dimg  item 2: made from item 1
     291        14      dimg  cut short: 9 of 14 bytes are there

no properties can be read

items (* marks a property that a reader must understand)
  item 1, hvc1, hidden
      payload     1 byte at 554, beyond the end of the file at 300
  item 2, grid, primary
      payload     8 bytes at 0 in idat, not there
      dimg        made from item 1
  item 3, hvc1, hidden
      payload     1 byte at 555, beyond the end of the file at 300
  item 4, grid
      payload     8 bytes at 8 in idat, not there
"""
META_CUT = "box meta at 28 says that it ends at 546, but the file ends at 300: 246 bytes are missing"
PAYLOADS_CUT = "the payloads of items 1, 3 go beyond the end of the file at 300 by 2 bytes"


def nested(count):
    """Boxes of type iprp, each the only one within another."""
    return b"".join((8 * (count - i)).to_bytes(4, "big") + b"iprp" for i in range(count))


def check_cut(p):
    """What is shown of P's file where it ends at 300, in all three forms."""
    wanted = (1, CUT_AT_300, f"show: standard input: {META_CUT}; {PAYLOADS_CUT}\n")
    if shown("-", given=p[:300]) != wanted:
        fail("P's file cut at 300 is shown as\n" + "\n".join(map(str, shown("-", given=p[:300]))))
    code, out, error = shown("--svg", "-", given=p[:300])
    if (code, error) != wanted[::2] or "cut short: 35 of 54 bytes are there" not in out:
        fail("P's file cut at 300 is not drawn")
    if shown("--check", "-", given=p[:300]) != (1, f"{META_CUT}\n{PAYLOADS_CUT}\n", ""):
        fail("P's file cut at 300 is not judged")


def check_payloads():
    """Payloads that end before the file does, where it ends, and behind it."""
    data = good(2, 5).bytes()
    start = data.index(b"mdat") + 4
    end = start + 12 + 13 + 14 + 15 + 7  # in the fifth sample, of 16 bytes
    seen = read(data[:end])
    seen.has(
        f"payloads 12 to 15 bytes each, 54 bytes in all, one behind the other from {start} on in mdat",
        f"payload 16 bytes at {start + 54} in mdat, of which 7 are there",
        f"payloads 12 to 16 bytes each, 70 bytes in all, one behind the other from {start + 70} on, beyond the end of the file at {end}",
        f"payload 36 bytes at {start + 280}, beyond the end of the file at {end}",
        "item 11, grid, primary: 2 rows × 5 columns, 320 × 128 pixels",
    )
    missing = len(data) - end
    wanted = [
        f"box mdat at {start - 8} says that it ends at {len(data)}, but the file ends at {end}: {missing} bytes are missing",
        f"the payloads of items 5 to 10, 12 to 21, 23, 24 go beyond the end of the file at {end} by {missing} bytes",
    ]
    if seen.trouble != wanted or seen.findings != wanted:
        fail("of samples that are missing it says\n" + "\n".join(seen.trouble + seen.findings))
    for each in ("4 payloads of items 1 to 4, hvc1: 12 to 15 bytes each", "payload of item 5, hvc1, 7 bytes there",
                 "5 payloads of items 6 to 10, hvc1, not there: 12 to 16 bytes each"):  # fmt: skip
        if f">{each}<" not in seen.picture:
            fail(f"the picture of a cut file lacks '{each}'")


def check_errors(p):
    """Of what is no HEIF file nothing is shown; of others what can be read. One line says what is wrong."""
    none = {
        b"\x89PNG\r\n\x1a\n" + bytes(40): "not a HEIF file: it does not begin with a box of type ftyp",
        b"": "not a HEIF file: it does not begin with a box of type ftyp",
        p[:10]: "not a HEIF file, or cut short before its brands: it ends at 10",
        b"\0\0\0\x14ftypisom\0\0\0\0isom": "not a HEIF file: its brands are isom, isom",
        b"\0\0\0\4ftypheic": "not a HEIF file: box ftyp at 0 says that it has 4 bytes, fewer than its own header",
    }
    some = {
        p[:28]: "there is no box of type meta, so there are no items; the file ends at 28",
        p[:24]: "box ftyp at 0 says that it ends at 28, but the file ends at 24: 4 bytes are missing",
        p + b"\0\0\0": "3 bytes are left at 556 in the file, too few for a box",
        p[:555]: "box mdat at 546 says that it ends at 556, but the file ends at 555: 1 byte is missing; "
        "the payload of item 3 goes beyond the end of the file at 555 by 1 byte",
        p[:28] + nested(2000): "box iprp at 124 lies within more than 12 boxes; "
        "there is no box of type meta, so there are no items; the file ends at 16028",
    }
    for data, wanted in (none | some).items():
        code, out, error = shown("-", given=data)
        if code != 1 or bool(out) != (data in some) or error != f"show: standard input: {wanted}\n":
            fail(f"where '{wanted}' is due it ends in {code} and says: {error}{out}")


def check_many():
    """Of many things that cannot be read, three are named, and --check lists all."""
    made = good()
    made.properties += [full("ispe", 0, 0, bytes(7)), full("auxC", 0, 0, b"endless"), full("pixi", 0, 0), full("pixi", 0, 0)]
    code, out, error = shown("-", given=made.bytes())
    damaged = "damaged: too short, or a string in it has no end"
    if code != 1 or any(f"{kind}  {damaged}" not in out for kind in ("ispe", "auxC", "pixi")):
        fail(f"of four damaged properties it ends in {code} and shows {out}")
    wanted = [
        "box ispe at 956 is too short: it ends at 975 and is read on from 972 for 4 bytes",
        "box auxC at 975 has a string at 987 without a closing zero",
        "box pixi at 994 is too short: it ends at 1006 and is read on from 1006 for 1 byte",
        "box pixi at 1006 is too short: it ends at 1018 and is read on from 1018 for 1 byte",
    ]
    if error != f"show: standard input: {'; '.join(wanted[:3])}; and 1 more, which --check lists\n":
        fail(f"of four damaged properties it says: {error}")
    if read(made.bytes()).findings != wanted:
        fail("of four damaged properties --check says:\n" + "\n".join(read(made.bytes()).findings))


def check_everywhere(name, data, drawn):
    """Every cut is seen as one; every byte set to 0 and to 255 has an answer. Of one place in `drawn` the picture is drawn."""
    for at in range(len(data)):
        for changed in (data[:at], data[:at] + b"\0" + data[at + 1 :], data[:at] + b"\xff" + data[at + 1 :]):
            try:
                seen = read(changed, draw=at % drawn == 0)
            except boxes.NotHeif:
                continue
            if seen.picture:
                xml.etree.ElementTree.fromstring(seen.picture)
            if len(changed) == at and not (seen.trouble and seen.findings):
                fail(f"{name} cut at {at} is taken for a whole file")


def check_all():
    files = vectors()
    check_cut(files["p"])
    check_payloads()
    check_errors(files["p"])
    check_many()
    check_everywhere("p", files["p"], drawn=3)
    check_everywhere("p with ids of 32 bits", panel_p(NAMING), drawn=3)
    check_everywhere("full", files["full"], drawn=8)
    return "cut files are shown as far as they go, and damage has an answer"
