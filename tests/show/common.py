"""What every trial of tools/show needs: the command, its modules, and a way to say what is wrong."""

import dataclasses
import io
import pathlib
import subprocess
import sys

ROOT = pathlib.Path(__file__).resolve().parents[2]
sys.path.insert(0, str(ROOT / "tools"))

from heif import boxes, check, command, items, svg, text  # noqa: E402


def fail(message):
    sys.exit(f"show: {message}")


def run(*arguments, given=None):
    """What tools/show answers: its exit status, what it prints, and its errors."""
    done = subprocess.run([ROOT / "tools/show", *arguments], input=given, capture_output=True)
    return done.returncode, done.stdout.decode(), done.stderr.decode()


def shown(*arguments, given=b""):
    """The same, without a process of its own."""
    streams = [io.TextIOWrapper(io.BytesIO(start), "utf-8") for start in (given, b"", b"")]
    kept = sys.stdin, sys.stdout, sys.stderr
    sys.stdin, sys.stdout, sys.stderr = streams
    try:
        status = command.main([str(argument) for argument in arguments])
    except SystemExit as end:
        status = end.code
    finally:
        sys.stdin, sys.stdout, sys.stderr = kept
    out, error = (stream.seek(0) or stream.read() for stream in streams[1:])
    return status, out, error


@dataclasses.dataclass
class Read:
    """All that is said of a file, made without a process of its own."""

    lines: list
    picture: str | None
    findings: list
    trouble: list

    def has(self, *wanted, behind=0):
        """Fails unless each of these lines is there, whatever stands between its words; `behind` so many words."""
        words = [" ".join(line.split()[behind:]) for line in self.lines]
        for line in wanted:
            if line not in words:
                fail(f"the text lacks the line '{line}'; it is\n" + "\n".join(self.lines))

    def has_rows(self, *wanted):
        """Fails unless each of these rows of boxes is there, wherever the box lies."""
        self.has(*wanted, behind=2)


def read(data, draw=True):
    found = boxes.read(data)
    contents = items.contents(data, found)
    picture = svg.show(data, found, contents) if draw else None
    return Read(list(text.show(data, found, contents)), picture, check.findings(data, contents), contents.trouble)


def vectors():
    """The stored files by name."""
    lines = (ROOT / "tests/vectors/upstream.txt").read_text().splitlines()
    return {name: bytes.fromhex(file) for name, _, file in (line.split() for line in lines)}
