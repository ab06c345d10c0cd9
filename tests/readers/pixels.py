"""Pictures as lists of values: what a reader should show, and what it showed."""

import dataclasses

# The weights of red and blue in luma, by matrix code.
WEIGHTS = {1: (0.2126, 0.0722), 9: (0.2627, 0.0593)}


@dataclasses.dataclass
class Picture:
    """Channels of one size, each a list of rows; values go up to 2^depth - 1."""

    width: int
    height: int
    depth: int
    channels: list

    def map(self, change):
        """The picture with every channel changed as a list of rows."""
        channels = [change(channel) for channel in self.channels]
        return Picture(len(channels[0][0]), len(channels[0]), self.depth, channels)

    def cropped(self, width, height):
        return self.map(lambda rows: [row[:width] for row in rows[:height]])

    def at_depth(self, depth):
        """The highest bits alone."""
        if depth == self.depth:
            return self
        away = self.depth - depth
        channels = [[[value >> away for value in row] for row in rows] for rows in self.channels]
        return Picture(self.width, self.height, depth, channels)


def _flip_h(rows):
    return [row[::-1] for row in rows]


def _flip_v(rows):
    return rows[::-1]


def _transpose(rows):
    return [list(column) for column in zip(*rows)]


TURNS = {
    "Normal": lambda rows: rows,
    "FlipH": _flip_h,
    "Rotate180": lambda rows: _flip_h(_flip_v(rows)),
    "FlipV": _flip_v,
    "Transpose": _transpose,
    "Rotate90": lambda rows: _flip_h(_transpose(rows)),  # clockwise
    "Transverse": lambda rows: _flip_h(_flip_v(_transpose(rows))),
    "Rotate270": lambda rows: _flip_v(_transpose(rows)),
}


def rgb(planes, depth, cicp):
    """The planes of a coded picture as red, green and blue: exact for an identity matrix, rounded for another."""
    _, _, matrix, full_range = cicp
    if matrix == 0:
        green, blue, red = planes
        return Picture(len(green[0]), len(green), depth, [red, green, blue])
    luma, cb, cr = planes
    half = len(luma) // len(cb)
    kr, kb = WEIGHTS[matrix]
    top, middle = (1 << depth) - 1, 1 << depth - 1
    unit = 1 << depth - 8
    black, span, chroma_span = (0, top, top) if full_range else (16 * unit, 219 * unit, 224 * unit)
    red, green, blue = [], [], []
    for y, row in enumerate(luma):
        lines = [[], [], []]
        for x, value in enumerate(row):
            light = (value - black) / span
            b = light + 2 * (1 - kb) * (cb[y // half][x // half] - middle) / chroma_span
            r = light + 2 * (1 - kr) * (cr[y // half][x // half] - middle) / chroma_span
            g = (light - kr * r - kb * b) / (1 - kr - kb)
            for line, part in zip(lines, (r, g, b)):
                line.append(min(top, max(0, round(part * top))))
        for channel, line in zip((red, green, blue), lines):
            channel.append(line)
    return Picture(len(luma[0]), len(luma), depth, [red, green, blue])


def joined(tiles, cols):
    """The picture of tiles of one size, row by row, with so many in a row."""
    channels = [
        [
            [value for tile in tiles[first : first + cols] for value in tile.channels[channel][y]]
            for first in range(0, len(tiles), cols)
            for y in range(tiles[0].height)
        ]
        for channel in range(len(tiles[0].channels))
    ]
    return Picture(tiles[0].width * cols, tiles[0].height * (len(tiles) // cols), tiles[0].depth, channels)


def distance(one, other):
    """The mean and the largest difference of two pictures of one size, in parts of the full range."""
    total = most = count = 0
    for rows, others in zip(one.channels, other.channels):
        for row, line in zip(rows, others):
            differences = [abs(a - b) for a, b in zip(row, line)]
            total, most, count = total + sum(differences), max(most, *differences), count + len(row)
    top = (1 << one.depth) - 1
    return total / count / top, most / top


def same_size(one, other):
    return (one.width, one.height) == (other.width, other.height)
