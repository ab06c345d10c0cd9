"""The picture of a drawdown card: a film of ink drawn down over a card whose upper half is white and lower half black.

Everything is worked out in linear light with BT.709 primaries, from sines alone, so that it comes out the same wherever
it is drawn. The film is a little transparent: over the black half it shows darker, which is what a drawdown is for.
"""

import dataclasses
import math

WHITE, BLACK = (0.82, 0.81, 0.77), (0.012, 0.012, 0.013)


@dataclasses.dataclass
class Ink:
    """An ink: its colour in a thick film, how much of the card a film hides, and how much brighter than white paper a
    metallic shines where it mirrors the lamp."""

    colour: tuple
    hiding: float
    shine: float = 0.0


@dataclasses.dataclass
class Card:
    """A card of this many pixels with a film of this ink."""

    width: int
    height: int
    ink: Ink

    def film(self, x, y):
        """Whether the film covers this pixel. The edges waver, and the film ends in tongues where the ink ran out."""
        u, v = (x + 0.5) / self.width, (y + 0.5) / self.height
        waver = 0.004 * math.sin(9 * v) + 0.0015 * math.sin(41 * v + 1)
        tail = 0.90 + 0.02 * math.sin(19 * u + 0.5) + 0.012 * math.sin(47 * u)
        return 0.14 + waver < u < 0.86 - waver and 0.09 < v < tail

    def ground(self, y):
        """The bare card's light."""
        return WHITE if 2 * y < self.height else BLACK

    def lamp(self, x, y):
        """How well the film mirrors the lamp here, from 0 to 1: a band that runs across the card."""
        u, v = (x + 0.5) / self.width, (y + 0.5) / self.height
        away = (u + 0.35 * v - 0.66) / 0.09
        return math.exp(-away * away)

    def light(self, x, y):
        """The light of a pixel, red, green and blue, without the lamp's mirror image."""
        ground = self.ground(y)
        if not self.film(x, y):
            return ground
        u, v = (x + 0.5) / self.width, (y + 0.5) / self.height
        streaks = 0.025 * math.sin(83 * u) + 0.015 * math.sin(151 * u + 2)  # the bar leaves streaks down the card
        hidden = min(1.0, self.ink.hiding - 0.10 * v + streaks)
        shade = 1 + 0.35 * self.lamp(x, y)
        return tuple(shade * (hidden * i + (1 - hidden) * g * i**0.5) for i, g in zip(self.ink.colour, ground))

    def gain(self, x, y):
        """How many times brighter the pixel is with the lamp's mirror image than without."""
        if not self.film(x, y) or not self.ink.shine:
            return 1.0
        return 1 + self.ink.shine * self.lamp(x, y)


def srgb(light):
    """The value from 0 to 1 that sRGB has for a linear light."""
    light = min(1.0, max(0.0, light))
    return 12.92 * light if light <= 0.0031308 else 1.055 * light ** (1 / 2.4) - 0.055


def ycbcr(red, green, blue):
    """BT.709's luma and colour differences, the differences from -1/2 to 1/2."""
    luma = 0.2126 * red + 0.7152 * green + 0.0722 * blue
    return luma, (blue - luma) / 1.8556, (red - luma) / 1.5748


def byte(value):
    """A value from 0 to 1 in full range."""
    return min(255, max(0, math.floor(value * 255 + 0.5)))


def colour_planes(card):
    """The planes of the card in 4:2:0, 8 bits, full range: luma, then the two differences, each a list of rows."""
    full = [[ycbcr(*map(srgb, card.light(x, y))) for x in range(card.width)] for y in range(card.height)]
    luma = [[byte(pixel[0]) for pixel in row] for row in full]

    def mean(x, y, which):
        return sum(full[y + j][x + i][which] for i in (0, 1) for j in (0, 1)) / 4

    def difference(which):
        none = 128 / 255  # the byte for no difference is 128
        across, down = range(0, card.width, 2), range(0, card.height, 2)
        return [[byte(mean(x, y, which) + none) for x in across] for y in down]

    return [luma, difference(1), difference(2)]


def alpha_plane(card):
    """255 where the film is, 0 where the card is bare."""
    return [[255 if card.film(x, y) else 0 for x in range(card.width)] for y in range(card.height)]


def gain_plane(card, width, height, headroom, sample):
    """The gain image, coded by `sample` as shares of the headroom."""
    rows = []
    for y in range(height):
        middle = (2 * y + 1) * card.height // (2 * height)
        across = ((2 * x + 1) * card.width // (2 * width) for x in range(width))
        gains = (min(headroom, card.gain(x, middle)) for x in across)
        rows.append([byte(sample((gain - 1) / (headroom - 1))) for gain in gains])
    return rows


def tiles(planes, cols, rows, width, height):
    """The raw bytes of each tile, row by row of the grid; planes of half the size are cut at half the tile."""
    cut = []
    for row in range(rows):
        for col in range(cols):
            raw = b""
            for plane in planes:
                across, down = width * len(plane[0]) // len(planes[0][0]), height * len(plane) // len(planes[0])
                for line in plane[row * down : (row + 1) * down]:
                    raw += bytes(line[col * across : (col + 1) * across])
            cut.append(raw)
    return cut
