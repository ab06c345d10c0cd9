"""Exif, ICC profiles and XMP packets in a word or two, and whatever damage does to them."""

from build import PACKET, XMP_TYPE, exif, good, icc
from common import fail, read

from heif import metadata  # common says where it is

LONG = "A description of a card that goes on for longer than a line of a listing should"

WORDS = {
    metadata.exif: [
        (exif(), 'big-endian TIFF of 32 bytes, "Maker"'),
        (exif("little", make=b"Kahopiru Inks\0"), 'little-endian TIFF of 40 bytes, "Kahopiru Inks"'),
        (exif(before=b"Exif\0\0", distance=6), 'big-endian TIFF of 32 bytes, "Maker"'),
        (exif(before=b"Exif\0\0"), "the TIFF header stands behind the marker Exif 00 00, and the first four bytes say 0, not 6"),
        (b"\0\0\0\6Exif\0\0", "there is no TIFF header at 10, where the first four bytes put it"),
        (exif()[:8], "big-endian TIFF of 4 bytes, whose first directory is not there"),
        (exif()[:20], "big-endian TIFF of 16 bytes"),
        (exif(make=b"a\x1b[31m\0"), 'big-endian TIFF of 33 bytes, "a\\x1b[31m"'),
        (bytes(9), "there is no TIFF header at 4, where the first four bytes put it"),
        (b"\0\0\1\0", "there is no TIFF header at 260, where the first four bytes put it"),
        (b"\0\0", "2 bytes, too short for Exif"),
    ],
    metadata.icc: [
        (icc("A name"), 'ICC profile of 184 bytes: display, RGB, "A name"'),
        (icc("A name", version=2), 'ICC profile of 163 bytes: display, RGB, "A name"'),
        (icc(LONG), f'ICC profile of 330 bytes: display, RGB, "{LONG[:59]}…"'),
        (icc()[:12] + b"prtrCMYK" + icc()[20:], 'ICC profile of 184 bytes: output, CMYK, "A name"'),
        (icc()[:-1], "ICC profile of 183 bytes, damaged: it says that it has 184"),
        (icc().replace(b"acsp", b"acs?"), "ICC profile of 184 bytes, damaged: it lacks the mark acsp"),
        (icc().replace(b"desc", b"cprt"), "ICC profile of 184 bytes: display, RGB"),
        (b"abc", "ICC profile of 3 bytes, too short to be one"),
        (b"", "ICC profile of 0 bytes, too short to be one"),
    ],
    metadata.xmp: [
        (PACKET, "XMP packet of 113 bytes: gain map"),
        (b"<rdf:RDF xmlns:dc='http://purl.org/dc/elements/1.1/' xmlns:own='urn:own'/>", "XMP packet of 74 bytes: Dublin Core, urn:own"),
        (b"<rdf:RDF/>", "XMP packet of 10 bytes"),
        (b"\xff\xfe", "2 bytes, no XMP packet: there is no rdf:RDF in it"),
        (b"", "0 bytes, no XMP packet: there is no rdf:RDF in it"),
    ],
}


def check_words():
    for say, cases in WORDS.items():
        for data, wanted in cases:
            if say(data) != wanted:
                fail(f"where '{wanted}' is due it says '{say(data)}'")


def check_lines():
    """Where these stand in the text."""
    seen = read(good().bytes())
    seen.has(
        '4 colr ICC profile of 184 bytes: display, RGB, "A name"',
        'item 7, Exif: big-endian TIFF of 32 bytes, "Maker"',
        f"item 8, mime, hidden, {XMP_TYPE}: XMP packet of 113 bytes: gain map",
    )


def check_damage():
    """Every cut, and every byte set to 0 and to 255, has an answer."""
    for say, data in ((metadata.exif, exif("little")), (metadata.icc, icc()), (metadata.icc, icc(version=2)), (metadata.xmp, PACKET)):
        for at in range(len(data)):
            for changed in (data[:at], data[:at] + b"\0" + data[at + 1 :], data[:at] + b"\xff" + data[at + 1 :]):
                if not say(changed).isprintable():
                    fail(f"{say.__name__} damaged at {at} gives {say(changed)!r}")


def check_all():
    check_words()
    check_lines()
    check_damage()
    return "Exif, ICC and XMP have their words"
