"""The layout of a file as a picture: every box a bar, in file order, with what it holds within it, and each payload as a
bar of its own; runs that are alike are one bar. Bars are of one height whatever their size, so that small boxes can be read."""

from xml.sax.saxutils import escape

from .fold import plural
from .rows import Rows

LINE, INDENT, INSET, WIDTH, NUMBERS, MARGIN = 24, 18, 5, 680, 118, 10
DIGITS, DIGIT = 7, 8  # of an offset or a size for which there is room, and what each further one takes
FILLS = {
    "ftyp": "#e8eef7", "meta": "#f3f3f3", "mdat": "#fbe9d7", "idat": "#fbe9d7", "iprp": "#e6f2e6", "ipco": "#d8ebd8",
    "iloc": "#ece6f5", "iref": "#ece6f5", "iinf": "#ece6f5",
}  # fmt: skip
PLAIN, PAYLOAD = "#ffffff", "#fdf6ee"


def show(data, found, contents):
    """The SVG document."""
    drawing = _Drawing(max(len(data), *(box.end for box in found.boxes)))
    for row in Rows(data, contents, in_picture=True).of(found.boxes):
        drawing.lay(row, 0)
    return drawing.document(f"Boxes of a HEIF file of {plural(len(data), 'byte')}")


class _Drawing:
    """Bars and words, row by row."""

    def __init__(self, largest):
        self.rows, self.bars = [], []
        self.column = max(0, len(str(largest)) - DIGITS) * DIGIT  # by which a column of numbers is wider than for seven digits
        self.offsets, self.sizes = MARGIN + 52 + self.column, MARGIN + 108 + 2 * self.column
        self.left = MARGIN + NUMBERS + 2 * self.column

    def lay(self, row, depth):
        """Adds a row, those of what it holds, and the bar that goes round them all."""
        first = len(self.rows)
        self.rows.append(self._row(row, first, depth))
        for inner in row.within:
            self.lay(inner, depth + 1)
        self.bars.append((depth, first, len(self.rows) - first, FILLS.get(row.kind, PLAIN) if row.kind else PAYLOAD))

    def document(self, title):
        height = 2 * MARGIN + LINE * (len(self.rows) + 1)
        total = self.left + WIDTH + MARGIN
        lines = [
            f'<svg xmlns="http://www.w3.org/2000/svg" width="{total}" height="{height}" viewBox="0 0 {total} {height}" '
            'font-family="DejaVu Sans Mono, Menlo, Consolas, monospace" font-size="12">',
            f"<title>{title}</title>",
            f'<rect width="{total}" height="{height}" fill="#ffffff"/>',
            _words(self.offsets, MARGIN + 16, "offset", "end", "#666666"),
            _words(self.sizes, MARGIN + 16, "size", "end", "#666666"),
        ]
        lines += [self._bar(*bar) for bar in sorted(self.bars)]
        lines += [line for row in self.rows for line in row]
        return "\n".join(lines + ["</svg>"])

    def _bar(self, depth, first, count, fill):
        x, y = self.left + depth * INDENT, MARGIN + LINE * (first + 1)
        width, height = WIDTH - depth * (INDENT + INSET), LINE * count - 3
        return f'<rect x="{x}" y="{y}" width="{width}" height="{height}" rx="3" fill="{fill}" stroke="#888888"/>'

    def _row(self, row, index, depth):
        y = MARGIN + LINE * (index + 1) + 15
        x = self.left + depth * INDENT + 8
        label = len(row.label) - 4 if row.kind else 0  # by which the type is longer than types are
        room = (WIDTH - depth * INDENT - 60) // 8 - label
        short = row.note if len(row.note) <= room else row.note[: room - 1] + "…"
        words = [_words(self.offsets, y, str(row.start), "end"), _words(self.sizes, y, str(row.size), "end")]
        if row.kind:
            words.append(_words(x, y, row.label, weight="bold"))
        words.append(_words(x + (44 + 8 * label if row.kind else 0), y, short, fill="#333333"))
        return words


def _words(x, y, words, anchor="start", fill="#000000", weight="normal"):
    return f'<text x="{x}" y="{y}" text-anchor="{anchor}" fill="{fill}" font-weight="{weight}">{escape(words)}</text>'
