"""What the decoder puts out by an SPS: of sets that x265 made, of sets made here in every form, and of what is none."""

import itertools

from build import sps
from common import fail

from heif import hevc  # common says where it is

# Of x265 3.5, at 4:0:0, 4:2:0, 4:2:2 and 4:4:4, each by the size that was asked for.
OF_X265 = {
    "4201010408000003009ff800000300001ec08204165959a4932b80400000fa00000300fa02": (64, 64),
    "4201010408000003009ff800000300001ec082049f1196566924cae01000003e8000003e8080": (64, 65),
    "42010103700000030090000003000003001ea020810596566924cae01000003e8000003e8080": (64, 64),
    "42010103700000030090000003000003001ea0208127c996566924cae01000003e8000003e8080": (64, 66),
    "4201010408000003009d3800000300001eb020810596566924cae01000003e8000003e8080": (64, 64),
    "4201010408000003009d3800000300001eb0208127c465959a4932b80400000fa000000fa020": (64, 65),
    "4201010408000003009e3800000300001e90041020b2cacd24995c02000007d0000007d010": (64, 64),
    "4201010408000003009e3800000300001e90041024f88cb2b349265700800001f400000301f404": (64, 65),
}
STEPS = {"4:0:0": (0, 1, 1), "4:2:0": (1, 2, 2), "4:2:2": (2, 2, 1), "4:4:4": (3, 1, 1)}  # ITU-T H.265, table 6-1
NONE = {
    "another type of unit": sps(64, 64, header=b"\x44\1"),
    "another layer": sps(64, 64, header=b"\x42\x09"),
    "a chroma format that does not exist": sps(64, 64, chroma=4),
    "a window that leaves no column": sps(64, 64, window=(16, 16, 0, 0)),
    "a window that leaves no row": sps(64, 64, chroma=3, window=(0, 0, 1, 64)),
    "a number above those of the code": sps(2**32 - 1, 64),
    "nothing": b"",
}


def _hold(unit, wanted, what):
    if hevc.size(unit) != wanted:
        fail(f"of {what} the size is taken to be {hevc.size(unit)}, not {wanted}")


def check_all():
    for unit, wanted in OF_X265.items():
        _hold(bytes.fromhex(unit), wanted, f"x265's set {unit}")
    count = 0
    for name, (chroma, across, down) in STEPS.items():
        for coded in itertools.product((8, 64, 72, 131_071, 2**32 - 2), repeat=2):  # the last is the code's largest
            _hold(sps(*coded, chroma), coded, f"{name}, {coded}")
            for window in ((0, 0, 0, 0), (1, 0, 0, 0), (0, 1, 0, 0), (0, 0, 1, 0), (0, 0, 0, 1), (1, 2, 2, 1)):
                left, right, above, below = window
                cut = coded[0] - across * (left + right), coded[1] - down * (above + below)
                _hold(sps(*coded, chroma, window), cut, f"{name}, {coded} less {window}")
                count += 1
    for length in range(1, 8):  # of sub-layers below the highest
        for there in ((0, 0), (0, 1), (1, 0), (1, 1)):
            _hold(sps(72, 72, 3, (0, 9, 0, 7), [(0, 0)] * (length - 1) + [there]), (63, 65), f"{length} sub-layers and {there}")
    _hold(sps(64, 64, number=15), (64, 64), "a set with the number 15")
    for what, unit in NONE.items():
        _hold(unit, None, what)
    for unit in map(bytes.fromhex, OF_X265):
        for at, value in itertools.product(range(len(unit)), (0, 255)):
            found = hevc.size(unit[:at] + bytes([value]) + unit[at + 1 :])
            if found and min(found) < 1:
                fail(f"of a damaged set the size is taken to be {found}")
    longest = sps(2**32 - 2, 2**32 - 2, 2, (0, 2**31 - 2, 2**32 - 3, 0), [(1, 1)] * 7, number=2**32 - 2) + bytes(1000)
    _hold(longest, (2, 1), "the longest set")
    whole = sps(64, 72, 1, (0, 0, 0, 300), [(1, 1)])[:-1]  # whose window is cut
    for end in range(len(whole)):
        _hold(whole[:end], None, f"a set that is cut at {end}")
    return f"{count} parameter sets give the sizes that they were made for"
