"""The readers: what is installed, in which version, and what each makes of a file."""

import base64
import dataclasses
import json
import re
import shutil
import struct
import subprocess

import pixels
from parts import png

LONGEST = 60  # seconds that a reader may take over a file


class Refused(Exception):
    """A reader does not take a file; the message is the reader's own."""


def _run(command, **options):
    done = subprocess.run(command, capture_output=True, timeout=LONGEST, **options)
    said = (done.stdout + b"\n" + done.stderr).decode("utf-8", "replace")
    return done, said


def _first(*names):
    return next((found for found in map(shutil.which, names) if found), None)


@dataclasses.dataclass
class Seen:
    """What a reader shows of a file: colour and alpha, and the profile, Exif and gain image where it gives them."""

    colour: pixels.Picture
    alpha: pixels.Picture | None
    icc: bytes | None = None
    exif: bytes | None = None
    gain: pixels.Picture | None = None


class HeifConvert:
    """heif-convert of libheif; later versions call it heif-dec."""

    name = "heif-convert"
    gives_alpha = gives_parts = makes_one_depth = True
    halves_chroma = False

    def __init__(self):
        self.command = _first("heif-convert", "heif-dec")
        self.libheif = libheif_version()

    def version(self):
        return f"libheif {self.libheif}"

    def read(self, file, room):
        """Decodes a file into PNGs in a folder of its own."""
        out = room / "out.png"
        done, said = _run([self.command, "--with-aux", "--with-exif", "--no-colons", file, out])
        if done.returncode != 0 or not out.exists():
            raise Refused(said.strip())
        channels, depth, icc = png.read(out)
        colour, alpha = split(made(channels, depth))
        gain = next(iter(room.glob("out-*hdrgainmap*.png")), None)
        exif = room / "out.exif"
        return Seen(
            colour,
            alpha,
            icc=icc,
            exif=exif.read_bytes() if exif.exists() else None,
            gain=None if gain is None else made(*png.read(gain)[:2]),
        )

    def forgets_limits(self):
        """Whether this version can be told to read pictures of any size."""
        return "--disable-limits" in _run([self.command, "--help"])[1]

    def shows_without_limits(self, file, out):
        done, _ = _run([self.command, "--disable-limits", "--quiet", file, out])
        return done.returncode == 0 and out.exists()


def libheif_version():
    """The version of the library that libheif's programs are of, or None."""
    command = shutil.which("heif-info")
    if command is None:
        return None
    found = re.search(r"libheif version: *([0-9.]+)", _run([command, "--help"])[1])
    return found.group(1) if found else "unknown"


def made(channels, depth):
    """A picture of these channels."""
    return pixels.Picture(len(channels[0][0]), len(channels[0]), depth, channels)


def split(picture):
    """Colour of three channels, and alpha or None. Grey counts as three equal channels."""
    channels, depth = picture.channels, picture.depth
    colour = channels[:1] * 3 if len(channels) < 3 else channels[:3]
    alpha = made(channels[-1:], depth) if len(channels) in (2, 4) else None
    return made(colour, depth), alpha


class Magick:
    """ImageMagick, which reads HEIF by way of libheif."""

    name = "ImageMagick"
    gives_alpha = gives_parts = False
    makes_one_depth = True

    def __init__(self):
        self.command = _first("magick", "convert-im6.q16")
        self.libheif = None
        # Version 6 asks libheif for 4:2:0 without alpha, whatever the file has.
        self.halves_chroma = self.command is not None and " 6." in _run([self.command, "-version"])[1].split("\n")[0]
        if self.command:
            found = re.search(r"HEIC\*? .*\(([0-9.]+)\)", _run([self.command, "-list", "format"])[1])
            self.libheif = found.group(1) if found else None

    def version(self):
        said = _run([self.command, "-version"])[1]
        found = re.search(r"ImageMagick ([0-9.\-]+)", said)
        return f"{found.group(1) if found else 'unknown'} with libheif {self.libheif}"

    def read(self, file, _room):
        done, said = _run([self.command, f"heic:{file}", "-depth", "16", "-print", "%w %h %A\n", "rgba:-"])
        if done.returncode != 0:
            raise Refused(said.strip()[-400:])
        found = re.match(rb"(\d+) (\d+) (\w+)\n", done.stdout)
        if not found:
            raise Refused("it prints no size")
        width, height = int(found.group(1)), int(found.group(2))
        raw = done.stdout[found.end() :]
        if len(raw) != width * height * 8:
            raise Refused(f"{len(raw)} bytes of pixels for {width} × {height}")
        values = struct.unpack(f"<{width * height * 4}H", raw)
        rows = [values[y * width * 4 : (y + 1) * width * 4] for y in range(height)]
        channels = [[list(row[c::4]) for row in rows] for c in range(4)]
        colour, alpha = split(made(channels, 16))
        return Seen(colour, None if found.group(3) in (b"False", b"Undefined") else alpha)


class HeifInfo:
    """heif-info of libheif: what it says of a file, as text. It decodes, too, to see whether that can be done."""

    name = "heif-info"

    def __init__(self):
        self.command = shutil.which("heif-info")
        self.libheif = libheif_version()

    def read(self, file, _room):
        done, said = _run([self.command, file])
        if done.returncode != 0:
            raise Refused(said.strip())
        return said


class Exiftool:
    """exiftool, which reads everything but the pictures."""

    def __init__(self):
        self.command = shutil.which("exiftool")

    def version(self):
        return _run([self.command, "-ver"])[0].stdout.decode().strip()

    def read(self, files):
        """For each file its tags, by name; binary ones as bytes."""
        wanted = ["-validate", "-warning", "-error", "-ImageSize", "-ICC_Profile", "-XMP", "-Exif", "-HDRGainMapHeadroom", "-CleanAperture"]
        wanted += ["-DocumentName", "-Make", "-DateTimeOriginal"]
        done, said = _run([self.command, "-json", "-binary", "-a", *wanted, *files])
        if not done.stdout:
            raise Refused(said.strip())
        return {tags["SourceFile"]: {k: self._value(v) for k, v in tags.items()} for tags in json.loads(done.stdout)}

    def depths(self, files):
        """For each file what its pixi state, in their order: of each the bits of its channels."""
        found, file = {}, files[0]  # of one file alone exiftool does not say the name
        for line in _run([self.command, "-s3", "-a", "-ImagePixelDepth", *files])[0].stdout.decode().splitlines():
            if line.startswith("======== "):
                file = line.removeprefix("======== ")
            elif re.fullmatch(r"[0-9 ]+", line):  # the last line says how many files were read
                found.setdefault(file, []).append([int(bits) for bits in line.split()])
        return found

    @staticmethod
    def _value(value):
        if isinstance(value, str) and value.startswith("base64:"):
            return base64.b64decode(value[len("base64:") :])
        return value
