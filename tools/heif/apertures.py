"""Clean apertures (clap): which rectangle of a picture is seen, in the rational numbers of ISO/IEC 14496-12, 12.1.4."""

import dataclasses
from fractions import Fraction

FIELDS = ("width", "height", "horizontal offset", "vertical offset")


@dataclasses.dataclass
class Aperture:
    """What a clap says: of each field its value, or None where the denominator is 0."""

    values: list

    @property
    def fault(self):
        """What is wrong with it whatever the picture, or None."""
        lost = [name for name, value in zip(FIELDS, self.values) if value is None]
        if lost:
            return f"a denominator of 0, of the {' and the '.join(lost)}"
        empty = [name for name, value in zip(FIELDS[:2], self.values) if value == 0]
        return f"a {' and a '.join(empty)} of 0" if empty else None

    @property
    def words(self):
        if self.fault:
            return f"clean aperture with {self.fault}"
        width, height, right, down = self.values
        moved = [f"{abs(right)} {'left' if right < 0 else 'right'}"] if right else []
        moved += [f"{abs(down)} {'up' if down < 0 else 'down'}"] if down else []
        place = f"{' and '.join(moved)} of the middle" if moved else "in the middle"
        return f"clean aperture: {width} × {height} pixels, {place}"

    def edges(self, size):
        """The first and the last column, then row, that are seen of a picture of this size; its first is 0."""
        found = []
        for clean, offset, side in zip(self.values[:2], self.values[2:], size):
            centre = offset + Fraction(side - 1, 2)
            found.append((centre - (clean - 1) / 2, centre + (clean - 1) / 2))
        return found


def aperture(part):
    """The aperture in the body of a clap. Of its numbers only the numerators of the offsets have a sign."""
    values = []
    for name in FIELDS:
        numerator, denominator = part.number(4), part.number(4)
        if name.endswith("offset") and numerator >> 31:
            numerator -= 1 << 32
        values.append(Fraction(numerator, denominator) if denominator else None)
    return Aperture(values)
