"""The command tools/show."""

import argparse
import os
import pathlib
import sys

from . import boxes, check, items, svg, text

DESCRIPTION = "Shows what a HEIF file is made of: boxes with offsets and sizes, properties, and items in words."
EPILOG = """Neighbours that are alike are drawn together. Of a file that is cut short or damaged, what can be read is shown, and
a line on standard error says what is missing. The exit status is 0 if the file was read whole and, with --check,
nothing was found; 1 if not; 2 for wrong usage."""


def _asked(arguments):
    parser = argparse.ArgumentParser(
        prog="tools/show",
        description=DESCRIPTION,
        epilog=EPILOG,
        allow_abbrev=False,
        formatter_class=argparse.RawDescriptionHelpFormatter,
    )
    how = parser.add_mutually_exclusive_group()
    how.add_argument("--svg", action="store_true", help="the layout as a picture, to standard output")
    how.add_argument("--check", action="store_true", help="one line for each thing that readers refuse")
    parser.add_argument("file", metavar="FILE", help="a HEIF file, or - for standard input")
    return parser.parse_args(arguments)


def _missing(trouble):
    """What is missing, in one line."""
    more = f"; and {len(trouble) - 3} more, which --check lists" if len(trouble) > 3 else ""
    return "; ".join(trouble[:3]) + more


def _put(words):
    """Prints all of it. Where the reader of our output, as `head`, has had enough, the rest is dropped, and nothing else changes."""
    try:
        print(words, flush=True)
    except BrokenPipeError:
        os.dup2(os.open(os.devnull, os.O_WRONLY), sys.stdout.fileno())  # for what is still to be flushed


def main(arguments):
    """Does what the arguments ask for; the exit status."""
    asked = _asked(arguments)
    name = "standard input" if asked.file == "-" else asked.file
    # A picture is XML without a declaration, and so in UTF-8; in the text a letter that the terminal lacks is a question mark.
    sys.stdout.reconfigure(errors="replace", **({"encoding": "utf-8"} if asked.svg else {}))
    try:
        data = sys.stdin.buffer.read() if asked.file == "-" else pathlib.Path(asked.file).read_bytes()
        found = boxes.read(data)
    except (OSError, boxes.NotHeif) as error:
        print(f"show: {name}: {getattr(error, 'strerror', None) or error}", file=sys.stderr)
        return 1
    contents = items.contents(data, found)
    if asked.check:
        findings = check.findings(data, contents)
        _put("\n".join(findings or [check.nothing(contents)]))
        return 1 if findings else 0
    _put(svg.show(data, found, contents) if asked.svg else "\n".join(text.show(data, found, contents)))
    if contents.trouble:
        print(f"show: {name}: {_missing(contents.trouble)}", file=sys.stderr)
    return 1 if contents.trouble else 0
