"""PNG files, read and written without another library."""

import struct
import zlib


def _chunks(data):
    at = 8
    while at < len(data):
        (length,) = struct.unpack(">I", data[at : at + 4])
        yield data[at + 4 : at + 8], data[at + 8 : at + 8 + length]
        at += 12 + length


def _unfilter(kind, row, above, step):
    """Undoes a row's filter, in place (PNG, clause 9)."""
    if kind == 1:
        for i in range(step, len(row)):
            row[i] = row[i] + row[i - step] & 255
    elif kind == 2:
        row[:] = bytes(a + b & 255 for a, b in zip(row, above))
    elif kind == 3:
        for i in range(len(row)):
            left = row[i - step] if i >= step else 0
            row[i] = row[i] + (left + above[i]) // 2 & 255
    elif kind == 4:
        for i in range(len(row)):
            left, corner = (row[i - step], above[i - step]) if i >= step else (0, 0)
            up = above[i]
            a, b, c = abs(up - corner), abs(left - corner), abs(left + up - 2 * corner)
            row[i] = row[i] + (left if a <= b and a <= c else up if b <= c else corner) & 255


def read(path):
    """A PNG's channels, each a list of rows, its depth, and its ICC profile or None. Interlaced and palette files are not
    read."""
    data = path.read_bytes()
    chunks = list(_chunks(data))
    width, height, bits, colour, _, _, interlace = struct.unpack(">IIBBBBB", chunks[0][1])
    count = {0: 1, 2: 3, 4: 2, 6: 4}.get(colour)
    if count is None or interlace or bits not in (8, 16):
        raise ValueError(f"{path.name} is a PNG of a kind that is not read here")
    raw = zlib.decompress(b"".join(body for kind, body in chunks if kind == b"IDAT"))
    step = count * bits // 8
    stride, above, rows = width * step, bytes(width * step), []
    for y in range(height):
        at = y * (stride + 1)
        row = bytearray(raw[at + 1 : at + 1 + stride])
        _unfilter(raw[at], row, above, step)
        above = row
        rows.append(row if bits == 8 else struct.unpack(f">{width * count}H", row))
    channels = [[list(row[c::count]) for row in rows] for c in range(count)]
    profile = next((body for kind, body in chunks if kind == b"iCCP"), None)
    icc = None if profile is None else zlib.decompress(profile[profile.index(b"\0") + 2 :])
    return channels, bits, icc


def write(path, channels):
    """A PNG of 8 bits, in grey or in colour, of channels that are lists of rows."""
    height, width, count = len(channels[0]), len(channels[0][0]), len(channels)
    raw, above = b"", bytes(width * count)
    for rows in zip(*channels):
        row = bytes(value for pixel in zip(*rows) for value in pixel)
        raw += b"\2" + bytes(a - b & 255 for a, b in zip(row, above))  # filter 2: the difference from the row above
        above = row
    head = struct.pack(">IIBBBBB", width, height, 8, {1: 0, 3: 2, 4: 6}[count], 0, 0, 0)
    out = b"\x89PNG\r\n\x1a\n"
    for kind, body in ((b"IHDR", head), (b"IDAT", zlib.compress(raw, 9)), (b"IEND", b"")):
        out += struct.pack(">I", len(body)) + kind + body + struct.pack(">I", zlib.crc32(kind + body))
    path.write_bytes(out)
