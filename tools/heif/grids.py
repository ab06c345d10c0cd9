"""A grid's descriptor: how many tiles it has, and how large the picture is."""

import dataclasses

from .fold import plural

SHORTEST = 8


@dataclasses.dataclass
class Grid:
    version: int
    flags: int
    rows: int
    columns: int
    width: int
    height: int
    length: int  # of the descriptor

    @property
    def wanted_length(self):
        """The length that the flags call for: the lowest tells whether the sizes have 32 bits."""
        return 12 if self.flags & 1 else 8

    @property
    def words(self):
        """In words. The sizes are read by the descriptor's length, and where its flags tell another, that is said."""
        side = 32 if self.length >= 12 else 16
        parts = side != (32 if self.flags & 1 else 16)
        remark = f", though flags {self.flags} call for sizes of {48 - side} bits" if parts else ""
        rows, columns = plural(self.rows, "row"), plural(self.columns, "column")
        return f"{rows} × {columns}, {self.width} × {self.height} pixels{remark}"


def grid(descriptor):
    """The grid, or None where the bytes are too few to be one."""
    if len(descriptor) < SHORTEST:
        return None
    side = 4 if len(descriptor) >= 12 else 2
    width, height = (int.from_bytes(descriptor[at : at + side], "big") for at in (4, 4 + side))
    version, flags, rows, columns = descriptor[:4]
    return Grid(version, flags, rows + 1, columns + 1, width, height, len(descriptor))
