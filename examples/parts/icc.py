"""A small ICC profile (ICC.1:2010, version 4.3) for a display with given primaries and a white of D65.

The colorants are worked out here from chromaticities: the matrix from RGB to XYZ is scaled so that equal parts give the
white, then brought to the profile's white, D50, by the Bradford transform.
"""

D50 = (0.9642, 1.0, 0.8249)  # as the header of every profile has it
D65 = (0.3127, 0.3290)
BT709 = ((0.64, 0.33), (0.30, 0.60), (0.15, 0.06))
BRADFORD = ((0.8951, 0.2664, -0.1614), (-0.7502, 1.7135, 0.0367), (0.0389, -0.0685, 1.0296))

# The curve of sRGB (IEC 61966-2-1) as a parametric curve of type 3: gamma, a, b, c, d.
SRGB_CURVE = (2.4, 1 / 1.055, 0.055 / 1.055, 1 / 12.92, 0.04045)


def _times(m, v):
    return tuple(sum(a * b for a, b in zip(row, v)) for row in m)


def _product(m, n):
    columns = [_times(m, column) for column in zip(*n)]
    return tuple(zip(*columns))


def _inverse(m):
    (a, b, c), (d, e, f), (g, h, i) = m
    det = a * (e * i - f * h) - b * (d * i - f * g) + c * (d * h - e * g)
    rows = (
        (e * i - f * h, c * h - b * i, b * f - c * e),
        (f * g - d * i, a * i - c * g, c * d - a * f),
        (d * h - e * g, b * g - a * h, a * e - b * d),
    )
    return tuple(tuple(x / det for x in row) for row in rows)


def _xyz(chromaticity):
    x, y = chromaticity
    return (x / y, 1.0, (1 - x - y) / y)


def adaptation(white):
    """The matrix that brings colours seen under `white` to D50."""
    have, want = _times(BRADFORD, _xyz(white)), _times(BRADFORD, D50)
    scale = tuple(tuple(want[i] / have[i] if i == j else 0.0 for j in range(3)) for i in range(3))
    return _product(_inverse(BRADFORD), _product(scale, BRADFORD))


def colorants(primaries, white):
    """The XYZ of each primary at D50."""
    columns = tuple(zip(*(_xyz(p) for p in primaries)))
    amounts = _times(_inverse(columns), _xyz(white))
    scaled = tuple(tuple(x * a for x, a in zip(row, amounts)) for row in columns)
    return tuple(zip(*_product(adaptation(white), scaled)))


def _fixed(value):
    return round(value * 65_536).to_bytes(4, "big", signed=True)


def _numbers(kind, values):
    return kind + bytes(4) + b"".join(_fixed(v) for v in values)


def _text(words):
    """A multilocalised text with one entry, in British English."""
    data = words.encode("utf-16-be")
    numbers = {"entries": 1, "entry": 12, "length": len(data), "offset": 28}
    entries, entry, length, offset = (n.to_bytes(4, "big") for n in numbers.values())
    return b"mluc" + bytes(4) + entries + entry + b"enGB" + length + offset + data


def build(name, rights, primaries=BT709, white=D65, date=(2026, 11, 2, 9, 30, 0)):
    """The profile's bytes."""
    red, green, blue = colorants(primaries, white)
    curve = b"para" + bytes(4) + b"\0\3\0\0" + b"".join(_fixed(v) for v in SRGB_CURVE)
    tags = [
        (b"desc", _text(name)),
        (b"cprt", _text(rights)),
        (b"wtpt", _numbers(b"XYZ ", D50)),
        (b"chad", _numbers(b"sf32", [x for row in adaptation(white) for x in row])),
        (b"rXYZ", _numbers(b"XYZ ", red)),
        (b"gXYZ", _numbers(b"XYZ ", green)),
        (b"bXYZ", _numbers(b"XYZ ", blue)),
        (b"rTRC", curve),
        (b"gTRC", curve),
        (b"bTRC", curve),
    ]
    table, data = _table(tags)
    return _header(128 + len(table) + len(data), date) + table + data


def _table(tags):
    """The tag table and the tags' data; equal data are stored once, as the three curves are."""
    start = 128 + 4 + 12 * len(tags)
    table, data, known = len(tags).to_bytes(4, "big"), b"", {}
    for signature, value in tags:
        if value not in known:
            known[value] = start + len(data)
            data += value + bytes(-len(value) % 4)
        table += signature + known[value].to_bytes(4, "big") + len(value).to_bytes(4, "big")
    return table, data


def _header(size, date):
    header = size.to_bytes(4, "big") + bytes(4)  # no preferred colour engine
    header += b"\x04\x30\0\0" + b"mntrRGB XYZ "
    header += b"".join(part.to_bytes(2, "big") for part in date)
    header += b"acsp" + bytes(4 + 4 + 4 + 4 + 8)  # no platform, flags, maker, model or attributes
    header += bytes(4)  # perceptual
    header += b"".join(_fixed(v) for v in D50)
    return header.ljust(128, b"\0")
