"""Exif, ICC profiles and XMP packets in a word or two. Nothing here fails: what is damaged is said to be."""

import re

from .boxes import printable
from .fold import plural, words

MAKE, DESCRIPTION, ASCII = 0x010F, 0x010E, 2  # tags and a type of TIFF 6.0
MARKER = b"Exif\0\0"  # before the TIFF header in JPEG files, and in Exif from some cameras
ORDERS = {b"II*\0": "little", b"MM\0*": "big"}
LONGEST = 60  # characters of a name that are shown

CLASSES = {
    b"mntr": "display", b"scnr": "input", b"prtr": "output", b"spac": "colour space", b"link": "device link",
    b"abst": "abstract", b"nmcl": "named colours",
}  # fmt: skip
ICC_HEADER = 128
NAMESPACES = {
    "http://ns.apple.com/HDRGainMap/1.0/": "gain map", "http://ns.adobe.com/hdr-gain-map/1.0/": "gain map",
    "http://purl.org/dc/elements/1.1/": "Dublin Core", "http://ns.adobe.com/xap/1.0/": "XMP basics",
    "http://ns.adobe.com/tiff/1.0/": "TIFF", "http://ns.adobe.com/exif/1.0/": "Exif",
    "http://ns.adobe.com/photoshop/1.0/": "Photoshop",
}  # fmt: skip
FRAMES = {"adobe:ns:meta/", "http://www.w3.org/1999/02/22-rdf-syntax-ns#"}  # every packet has these


def _number(data, at, width, order="big"):
    """The number at a place, or None where the bytes end before it does."""
    part = data[at : at + width]
    return int.from_bytes(part, order) if len(part) == width else None


def _quoted(name):
    name = printable(name.strip("\0 "))
    return f'"{name}"' if len(name) <= LONGEST else f'"{name[: LONGEST - 1]}…"'


def exif(payload):
    """An Exif item's payload, in words."""
    fault = exif_fault(payload)
    if fault:
        return fault
    tiff = payload[4 + _number(payload, 0, 4) :]
    order = ORDERS[tiff[:4]]
    fields = _directory(tiff, order)
    said = f"{order}-endian TIFF of {plural(len(tiff), 'byte')}"
    if fields is None:
        return f"{said}, whose first directory is not there"
    return ", ".join([said, *(_quoted(fields[tag]) for tag in (MAKE, DESCRIPTION) if tag in fields)])


def exif_fault(payload):
    """What is wrong with where an Exif item has its TIFF header, or None. Its first four bytes tell the distance."""
    distance = _number(payload, 0, 4)
    if distance is None:
        return f"{plural(len(payload), 'byte')}, too short for Exif"
    if payload[4 + distance : 8 + distance] in ORDERS:
        return None
    if payload[4:10] == MARKER and payload[10:14] in ORDERS:
        return f"the TIFF header stands behind the marker Exif 00 00, and the first four bytes say {distance}, not 6"
    return f"there is no TIFF header at {4 + distance}, where the first four bytes put it"


def _directory(tiff, order):
    """The texts of the first directory by their tags, or None where it is not there."""
    start = _number(tiff, 4, 4, order)
    count = _number(tiff, start, 2, order) if start is not None else None
    if count is None:
        return None
    fields = {}
    for at in range(start + 2, min(start + 2 + 12 * count, len(tiff) - 11), 12):
        tag, kind, length = _number(tiff, at, 2, order), _number(tiff, at + 2, 2, order), _number(tiff, at + 4, 4, order)
        if kind == ASCII and tag in (MAKE, DESCRIPTION):
            value = at + 8 if length <= 4 else _number(tiff, at + 8, 4, order)
            fields[tag] = tiff[value : value + length].decode("utf-8", "replace")
    return fields


def icc(profile):
    """An ICC profile, in words."""
    said = f"ICC profile of {plural(len(profile), 'byte')}"
    if len(profile) < ICC_HEADER + 4:
        return f"{said}, too short to be one"
    if profile[36:40] != b"acsp":
        return f"{said}, damaged: it lacks the mark acsp"
    stated = _number(profile, 0, 4)
    if stated != len(profile):
        return f"{said}, damaged: it says that it has {stated:,}"
    space = printable(profile[16:20].decode("latin-1")).strip()
    kinds = [CLASSES.get(profile[12:16], "of its own class"), space]
    return f"{said}: {', '.join(kinds + _icc_name(profile))}"


def _icc_name(profile):
    """The profile's description, as a list of none or one."""
    count = min(_number(profile, ICC_HEADER, 4), (len(profile) - ICC_HEADER - 4) // 12)
    for at in range(ICC_HEADER + 4, ICC_HEADER + 4 + 12 * count, 12):
        if profile[at : at + 4] == b"desc":
            start, length = _number(profile, at + 4, 4), _number(profile, at + 8, 4)
            name = _icc_text(profile[start : start + length])
            return [_quoted(name)] if name else []
    return []


def _icc_text(tag):
    """The text of a description: the first of several languages (version 4), or the one in ASCII (version 2)."""
    if tag[:4] == b"mluc" and len(tag) >= 28:
        length, start = _number(tag, 20, 4), _number(tag, 24, 4)
        return tag[start : start + length].decode("utf-16-be", "replace")
    if tag[:4] == b"desc" and len(tag) >= 12:
        return tag[12 : 12 + _number(tag, 8, 4)].decode("latin-1")
    return ""


def xmp(packet):
    """An XMP packet, in words: what it speaks of, by its namespaces."""
    if b"rdf:RDF" not in packet:
        return f"{plural(len(packet), 'byte')}, no XMP packet: there is no rdf:RDF in it"
    found = re.findall(r"""xmlns:[\w.-]+\s*=\s*["']([^"']*)["']""", packet.decode("utf-8", "replace"))
    speaks = dict.fromkeys(NAMESPACES.get(each, printable(each)) for each in found if each not in FRAMES)
    return f"XMP packet of {plural(len(packet), 'byte')}" + (f": {words(list(speaks))}" if speaks else "")
