"""tools/show is held to the offsets that the specification gives for panel P's file, to small files made here, and to clear
words for everything that is not a whole HEIF file."""

import os
import pathlib
import re
import subprocess
import tempfile

import build
import cuts
import damage
import faults
import folding
import metadata
import sizes
import versions
from common import ROOT, fail, read, run, shown, vectors

# Offset and size of each box of P's file, as the specification lists them, and of P's wide file.
OFFSETS = {
    "ftyp": (0, 28), "meta": (28, 518), "hdlr": (40, 33), "pitm": (73, 14), "iloc": (87, 80), "iinf": (167, 98),
    "iref": (265, 54), "iprp": (319, 203), "ipco": (327, 156), "ipma": (483, 39), "idat": (522, 24), "mdat": (546, 10),
}  # fmt: skip
WIDE_OFFSETS = {
    "ftyp": (0, 28), "meta": (28, 560), "hdlr": (40, 33), "pitm": (73, 16), "iloc": (89, 90), "iinf": (179, 108),
    "iref": (287, 66), "iprp": (353, 211), "ipco": (361, 156), "ipma": (517, 47), "idat": (564, 24), "mdat": (588, 10),
}  # fmt: skip


def check_offsets(data, offsets):
    code, out, _ = shown("-", given=data)
    rows = [line.split() for line in out.splitlines()]
    if code != 0:
        fail("P's file is refused")
    for kind, (offset, size) in offsets.items():
        if [str(offset), str(size), kind] not in [row[:3] for row in rows]:
            fail(f"P's {kind} is not shown at {offset} with {size} bytes")
    for line in (f"payload 1 byte at {len(data) - 2} in mdat", f"payload 1 byte at {len(data) - 1} in mdat", "dimg made from item 1"):
        if line not in [" ".join(row) for row in rows]:
            fail(f"P's text lacks '{line}'")


def check_wide(ordinary):
    """P's wide file, which is made here as its ordinary one is, and the table of docs/FORMAT.md that tells of its boxes."""
    if build.panel_p() != ordinary:
        fail("the file of P that is made here is not P's")
    data = build.panel_p(build.NAMING)
    check_offsets(data, WIDE_OFFSETS)
    rows = re.findall(r"^\| (....) \| (\d+), (\d+) \| (\d+), (\d+) \| (.*) ?\|$", (ROOT / "docs/FORMAT.md").read_text(), re.M)
    told = {kind: tuple(map(int, numbers)) for kind, *numbers, _ in rows}
    if told != {kind: OFFSETS[kind] + WIDE_OFFSETS[kind] for kind in OFFSETS}:
        fail(f"docs/FORMAT.md tells other boxes of P's two files: {told}")
    for kind, _, _, offset, _, words in rows:
        begins = bytes.fromhex("".join(re.findall(r"`([0-9A-F ]+)`", words)))
        if not data[int(offset) :].startswith(begins) or kind in build.NAMING and not begins:
            fail(f"docs/FORMAT.md tells other bytes of P's wide {kind} than {data[int(offset) :][: len(begins)].hex(' ')}")


def check_picture(path):
    code, out, _ = shown("--svg", path)
    if code != 0 or not set(OFFSETS) <= set(folding.words(out)):
        fail("the picture of P's file lacks a box")
    if (ROOT / "docs/file-of-p.svg").read_text() != out:
        fail("docs/file-of-p.svg is not what `tools/show --svg` draws of P's file")


def check_usage(path):
    """`-` is standard input; --help ends in 0, wrong usage in 2, and a file that is not there in 1."""
    for how in ([], ["--svg"], ["--check"]):
        answer = shown(*how, path)
        if shown(*how, "-", given=path.read_bytes()) != answer or run(*how, "-", given=path.read_bytes()) != answer:
            fail(f"{' '.join([*how, '-'])} shows something else than the file's name does")
    code, out, error = shown("--help")
    if code != 0 or error or not out.startswith("usage: tools/show") or "--check" not in out or "standard input" not in out:
        fail(f"--help ends in {code} and says: {out}{error}")
    for wrong in ([], [path, path], ["--svg", "--check", path], ["--words", path]):
        code, out, error = shown(*wrong)
        if code != 2 or out or not error.startswith("usage: tools/show"):
            fail(f"with the arguments {wrong} it ends in {code} and says: {out}{error}")
    answer = shown("nothing")
    if answer != (1, "", "show: nothing: No such file or directory\n"):
        fail(f"of a file that is not there it says {answer}")


def check_streams(path):
    """The verdict stands where nobody reads it to its end, and a stream that is closed is said to be."""
    for how, wanted in (("--check", 1), ("--svg", 0)):
        read_end, write_end = os.pipe()
        os.close(read_end)
        ended = subprocess.run([ROOT / "tools/show", how, path], stdout=write_end, stderr=subprocess.PIPE)
        os.close(write_end)
        if (ended.returncode, ended.stderr) != (wanted, b""):
            fail(f"{how} into a pipe that nobody reads ends in {ended.returncode} and says {ended.stderr.decode()}")
    for closed, name in (("<&-", "standard input"), (">&-", "standard output")):
        ended = subprocess.run(f"tools/show - {closed}", shell=True, cwd=ROOT, stdin=subprocess.DEVNULL, capture_output=True)
        if (ended.returncode, ended.stderr.decode()) != (2, f"show: {name} is closed\n"):
            fail(f"with {name} closed it ends in {ended.returncode} and says {ended.stderr.decode()}")


def main():
    files = vectors()
    for data in files.values():
        if read(data).trouble:
            fail(f"of a whole file it says: {read(data).trouble[0]}")
    with tempfile.TemporaryDirectory() as name:
        path = pathlib.Path(name) / "p.heic"
        path.write_bytes(files["p"])
        check_offsets(files["p"], OFFSETS)
        check_wide(files["p"])
        check_picture(path)
        check_usage(path)
        check_streams(path)
    said = [module.check_all() for module in (folding, versions, metadata, cuts, sizes, faults, damage)]
    print(f"show: P's boxes lie where the specification has them, in either form; {len(files)} files are read; {'; '.join(said)}")


main()
