"""Exif as the cards have it: a TIFF structure from its header on, big-endian, without the marker of JPEG files."""

import dataclasses

ASCII, LONG, UNDEFINED = 2, 4, 7

# Tags of TIFF 6.0 and Exif 2.32.
DOCUMENT_NAME, IMAGE_DESCRIPTION, MAKE, MODEL = 0x010D, 0x010E, 0x010F, 0x0110
DATE_TIME, EXIF_IFD = 0x0132, 0x8769
EXIF_VERSION, DATE_TIME_ORIGINAL, OFFSET_TIME = 0x9000, 0x9003, 0x9010
USER_COMMENT = 0x9286

HEADER = b"MM\0*" + (8).to_bytes(4, "big")  # big-endian; the first directory follows at once


@dataclasses.dataclass
class Card:
    """What the Exif of a card tells."""

    maker: str
    model: str
    description: str
    batch: str
    date: str  # as 2026:11:02 09:30:00
    zone: str  # as +00:00


def _text(words):
    return ASCII, words.encode("ascii") + b"\0"


def _comment(words):
    # A user comment begins with eight bytes that name its character code.
    return UNDEFINED, b"ASCII\0\0\0" + words.encode("ascii")


def _directory(fields, start):
    """An image file directory at `start`, with values of more than four bytes right behind it."""
    count = len(fields)
    behind = start + 2 + 12 * count + 4
    entries, values = b"", b""
    for tag, (kind, data) in sorted(fields.items()):
        entries += tag.to_bytes(2, "big") + kind.to_bytes(2, "big")
        entries += (1 if kind == LONG else len(data)).to_bytes(4, "big")
        if len(data) <= 4:
            entries += data.ljust(4, b"\0")
        else:
            entries += (behind + len(values)).to_bytes(4, "big")
            values += data + b"\0" * (len(data) % 2)  # values begin at even offsets
    no_next = bytes(4)
    return count.to_bytes(2, "big") + entries + no_next + values


def build(card):
    """The Exif of a card. The batch stands as the document's name, and once more among the comments of the shot."""
    first = {
        DOCUMENT_NAME: _text(card.batch),
        IMAGE_DESCRIPTION: _text(card.description),
        MAKE: _text(card.maker),
        MODEL: _text(card.model),
        DATE_TIME: _text(card.date),
        EXIF_IFD: (LONG, bytes(4)),
    }
    shot = {
        EXIF_VERSION: (UNDEFINED, b"0232"),
        DATE_TIME_ORIGINAL: _text(card.date),
        OFFSET_TIME: _text(card.zone),
        USER_COMMENT: _comment(f"Batch {card.batch}"),
    }
    # The first directory's length does not depend on where the second lies, so that it can be asked before.
    second_at = len(HEADER) + len(_directory(first, len(HEADER)))
    first[EXIF_IFD] = (LONG, second_at.to_bytes(4, "big"))
    return HEADER + _directory(first, len(HEADER)) + _directory(shot, second_at)
