"""Canvases at the limit of the grid's 16-bit sizes. From 65,536 pixels on the descriptor has sizes of 32 bits and says so
by its second flag, where readers look at the first (S10)."""

import subprocess

import panels
import expected
import programs
from parts import hevc, sheet

COLS, TILE = 256, (256, 64)


def _panel(width, cache):
    """A row of equal grey tiles, as many as a grid may have."""
    count = TILE[0] * TILE[1]
    record, colour = hevc.code_tiles([bytes([100]) * count + bytes([128]) * (count // 2)], *TILE, "i420", 8, cache=cache)
    alpha_record, alpha = hevc.code_tiles([bytes([200]) * count], *TILE, "i400", 8, cache=cache)
    return sheet.Panel(
        cols=COLS,
        rows=1,
        tile=TILE,
        full=(width, TILE[1]),
        depth=8,
        alpha_depth=8,
        color_record=record,
        alpha_record=alpha_record,
        color_samples=colour * COLS,
        alpha_samples=alpha * COLS,
        cicp=panels.YCC,
    )


def check(tally, writer, cache, room):
    """libheif reads so wide a canvas only if it is told to forget its limits, which not every version can be."""
    reader = programs.HeifConvert()
    if not reader.forgets_limits():
        tally.reports.append(f"S10 is not tried: libheif {reader.libheif} reads no canvas of 65,535 pixels")
        return
    for width in (65_535, 65_536):
        name = f"canvas-{width}"
        (room / f"{name}.sheet").write_bytes(sheet.sheet(_panel(width, cache)))
        subprocess.run([writer, room / f"{name}.sheet", room / f"{name}.heic"], check=True)
        shown = reader.shows_without_limits(room / f"{name}.heic", room / f"{name}.png")
        if width == 65_535:
            tally.hold(reader.name, name, "canvas of 65,535 shown", shown, "is refused")
        else:
            tally.note(reader, name, "S10", expected.SHOWN if shown else expected.REFUSED)
