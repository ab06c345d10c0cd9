"""Writes real panels with the binding and reads them with the readers that are installed.

    check.py WRITER CACHE    WRITER is the program that turns sheets into files, CACHE a folder for coded pictures
"""

import dataclasses
import pathlib
import subprocess
import sys
import tempfile

import panels  # before all else: it says where the modules of examples/ and tools/ are
import canvases
import compare
import expected
import forms
import library
import programs
from heif import boxes, check, fold, items, views
from parts import cards, hevc, sheet

MADE_WITH = ("3.5", "4.1", "4.2")  # the versions of x265 that are known to make the sheets in examples/


def write(writer, every, room, wide=False):
    """Writes the file of each panel, in the wide form or the ordinary one; each file with what it is meant to show."""
    command = [writer]
    for each in every:
        data = sheet.sheet(dataclasses.replace(each.panel, full=covered(each.panel)))
        (room / f"{each.name}.sheet").write_bytes(data)
        # A sheet can't say its file's form, nor what is seen of a tile.
        command += ["--wide"] if wide else []
        command += ["--visible", "{}x{}".format(*each.visible)] if each.visible else []
        command += [room / f"{each.name}.sheet", room / f"{each.name}.heic"]
    subprocess.run(command, check=True)
    files = {room / f"{each.name}.heic": each for each in every}
    for path, each in files.items():
        if each.difference == "D12":
            path.write_bytes(stretched(path.read_bytes(), each.panel))
    return files


def covered(panel):
    """The panel's full size, or as much of it as its tiles cover."""
    reach = panel.cols * panel.tile[0], panel.rows * panel.tile[1]
    return tuple(map(min, panel.full, reach))


def stretched(data, panel):
    """The file of the covered size with the panel's full size in its place, in ispe and in both descriptors: as upstream
    would write a picture that its tiles don't cover, and this writer refuses (D12)."""
    whole, full = covered(panel), panel.full
    for kind, before, size, count in (("ispe", bytes(4), 4, 1), ("", bytes([0, 0, panel.rows - 1, panel.cols - 1]), 2, 2)):
        old, new = (kind.encode() + before + b"".join(n.to_bytes(size, "big") for n in pair) for pair in (whole, full))
        if data.count(old) != count:
            sys.exit(f"readers: the size {whole} stands {data.count(old)} times in '{kind or 'idat'}', not {count} times")
        data = data.replace(old, new)
    return data


def check_examples(tally):
    """The committed sheets are those that examples/make makes."""
    made = cards.all_panels()
    same = [name for name, panel in made.items() if (panels.ROOT / f"examples/{name}.sheet").read_bytes() == sheet.sheet(panel)]
    if len(same) == len(made):
        return
    other = ", ".join(sorted(set(made) - set(same)))
    version = hevc.encoder_version()
    if version.startswith(MADE_WITH):
        tally.fail("examples/make", other, "makes another sheet than is committed")
    else:
        tally.reports.append(f"examples/make: x265 {version} makes other bytes than {MADE_WITH[0]} did: {other}")


def check_payloads(tally, files):
    """The tone map and the XMP packet lie where the file says; no reader here gives the tone map."""
    for path, meant in files.items():
        gain = meant.panel.gain
        if gain is None:
            continue
        data = path.read_bytes()
        found = items.contents(data, boxes.read(data)).items.values()
        payloads = {i.kind: b"".join(data[a : a + n] for a, n in i.extents) for i in found if i.kind in ("tmap", "mime")}
        tally.hold("tools/show", meant.name, "XMP the same", payloads["mime"] == gain.xmp)
        if gain.tone_map is not None:
            tally.hold("tools/show", meant.name, "tone map the same", payloads["tmap"] == gain.tone_map)


def check_views(tally, files):
    """tools/show finds of each tile the part that is to be seen."""
    for path, meant in files.items():
        if meant.visible is None:
            continue
        data = path.read_bytes()
        contents = items.contents(data, boxes.read(data))
        grids = [item.number for item in contents.items.values() if item.kind == "grid"]
        seen = [views.view(data, contents, contents.items[tile]) for grid in grids for tile in contents.targets(grid, "dimg")]
        tally.hold("tools/show", meant.name, "tiles cut as meant", {view.size for view in seen} == {meant.visible})


def check_findings(tally, files):
    """`tools/show --check` finds in each file what docs/DIFFERENCES.md has of it and nothing else, and one fault more where the
    tiles' ispe is put a pixel off what x265 was asked for, in colour and alpha."""
    known = {"S2": ["an extent of length 0"], "D12": ["tiles of 64 × 64 cover"]}
    for path, meant in files.items():
        data, panel = path.read_bytes(), meant.panel
        found = check.findings(data, items.contents(data, boxes.read(data)))
        wanted = known.get(meant.difference, [])
        holds = len(found) == len(wanted) and all(part in said for part, said in zip(wanted, found))
        tally.hold("tools/show", meant.name, "no fault but those known", holds, "is not so: " + "; ".join(found))
        tiles = panel.cols * panel.rows
        coded = fold.named("item", [*range(1, tiles + 1), *range(tiles + 2, 2 * tiles + 2)])
        for off in ((1, 0), (0, 1), (-1, -1)):
            stated = tuple(map(sum, zip(panel.tile, off)))
            faulty = _replaced(data, _ispe(panel.tile), _ispe(stated), 1)
            said = f"{coded}, hvc1: ispe says {views.by(stated)} pixels, and the parameter sets {views.by(panel.tile)}"
            seen = faulty is not None and said in check.findings(faulty, items.contents(faulty, boxes.read(faulty)))
            tally.hold("tools/show", meant.name, "wrong tile sizes found", seen, f"is not so of {views.by(stated)}")


def _ispe(size):
    return b"ispe" + bytes(4) + b"".join(side.to_bytes(4, "big") for side in size)


def installed(tally):
    """The readers that decode; there are heif-info and exiftool besides."""
    convert, itself, magick = programs.HeifConvert(), library.Library(), programs.Magick()
    if convert.libheif != itself.libheif:
        tally.fail("libheif", itself.libheif, f"heif-convert is of another version, {convert.libheif}")
    if magick.libheif is None:
        tally.reports.append("ImageMagick: it is built without HEIF, and is left out")
        return [convert, itself]
    return [convert, itself, magick]


def check_readers(tally, decoders, files, wide):
    """Each reader on each file, and on the wide file of the same panel; the versions of the readers."""
    info, exiftool = programs.HeifInfo(), programs.Exiftool()
    for (path, meant), other in zip(files.items(), wide):
        for reader in decoders:
            forms.compared(tally, reader, compare.decoded, path, other, meant)
        forms.compared(tally, info, compare.described, path, other, meant)
    names = [str(path) for path in [*files, *wide]]
    tags, depths = exiftool.read(names), exiftool.depths(names)
    for (path, meant), other in zip(files.items(), wide):
        compare.tagged(tally, tags.get(str(path), {"Error": "no answer"}), depths.get(str(path), []), meant)
        forms.tagged(tally, other, *((tags.get(str(each)), depths.get(str(each))) for each in (other, path)))
    versions = {reader.name: reader.version() for reader in decoders}
    return {**versions, info.name: f"libheif {info.libheif}", "exiftool": exiftool.version()}


def check_offset(tally, files, room):
    """exiftool goes by the four bytes before the Exif: with upstream's, which say 0 before the marker too, it reads the file
    and finds none of the Exif's tags (D11). A version that finds them is reported."""
    exiftool = programs.Exiftool()
    for path, meant in files.items():
        if meant.panel.exif is None or panels.tiff_header_offset(meant.panel.exif) == 0:
            continue
        data = path.read_bytes()
        at = data.rindex(meant.panel.exif)
        of_upstream = room / f"{meant.name}-of-upstream.heic"
        of_upstream.write_bytes(data[: at - 4] + bytes(4) + data[at:])
        ours, theirs = (exiftool.read([str(file)])[str(file)] for file in (path, of_upstream))
        for tag in ("ImageSize", "Validate"):
            tally.hold("exiftool", of_upstream.name, f"{tag} the same", theirs.get(tag) == ours[tag])
        found = [tag for tag in ("DocumentName", "Make", "DateTimeOriginal") if tag in theirs]
        if found:
            tally.reports.append(f"exiftool: {of_upstream.name}: it finds {', '.join(found)}, which D11 does not say")
        else:
            tally.count("exiftool", "as D11 says")


def check_expected(tally):
    """Each version that an entry lists is held to what is known of it, and one that it does not list is told of and fails nothing."""
    other = "something else"
    for entry, known in expected.LIBHEIF.items():
        judged = [expected.judge(entry, version, behaviour) for version, all_known in known.items() for behaviour in all_known]
        failing = [expected.judge(entry, version, other) for version in known]
        told = expected.judge(entry, "0.0.1", other)
        if any(judged) or not all(each and each[0] for each in failing) or told is None or told[0] or "0.0.1" not in told[1]:
            tally.fail("expected", entry, f"versions are not held to what is known of them: {judged} {failing} {told}")


def check_comparison(tally, writer, cache, room):
    """The comparison sees what it should: with two alpha tiles, or two colour tiles, exchanged a file does not pass."""
    convert, itself = programs.HeifConvert(), library.Library()
    two_depths = {"depth": 12, "alpha_depth": 8, "difference": "S11, identity"}
    both = (convert, itself)
    for which, readers, depths in (("alpha", both, {}), ("color", both, {}), ("alpha", (itself,), two_depths)):
        meant = panels.meant(panels.Case(f"exchanged-{which}", **depths), cache)
        samples = getattr(meant.panel, f"{which}_samples")
        samples[0], samples[1] = samples[1], samples[0]
        (path,) = write(writer, [meant], room)
        for reader in readers:
            found = compare.Tally()
            compare.decoded(found, reader, path, meant)
            if len(found.failures) != 1:
                tally.fail(reader.name, meant.name, "the exchange of two tiles is not seen")


def check_cuts(tally, writer, files, room):
    """The comparison sees tiles that are not cut, that are cut in another place, and that are cut in the colour alone."""
    cut, meant = next((path.read_bytes(), meant) for path, meant in files.items() if meant.name == "odd-rgb-8")
    meant = dataclasses.replace(meant, name="cut")
    (path,) = write(writer, [dataclasses.replace(meant, visible=None)], room)
    whole = path.read_bytes()
    of_alpha = b"\3\x86\x82\x89"  # three properties of an alpha tile: its record, its size, clap; here its size once more instead
    neither = "neither as meant nor with all that its tiles have"
    for what, faulty, wanted in (
        ("not cut", whole, expected.UNCUT),
        ("cut on the left", _replaced(cut, _clap(-1), _clap(1), 1), neither),
        ("cut in the colour alone", _replaced(cut, of_alpha, of_alpha[:3] + b"\2", panels.COLS * panels.ROWS), neither),
    ):
        if faulty is None:
            tally.fail("tools/show", meant.name, f"clap does not stand where it should: no file has tiles that are {what}")
            continue
        path.write_bytes(faulty)
        for reader in (programs.HeifConvert(), library.Library()):
            found = compare.Tally()
            compare.decoded(found, reader, path, meant)
            said = found.failures + found.reports
            if len(said) != 1 or wanted not in said[0]:
                tally.fail(reader.name, meant.name, f"tiles that are {what} give: {'; '.join(said) or 'no failure'}")


def _clap(right):
    """A clap of the size that is seen, so many half pixels to the right of the middle and half a pixel up."""
    width, height = panels.ODD
    return b"clap" + b"".join(number.to_bytes(4, "big", signed=True) for number in (width, 1, height, 1, right, 2, -1, 2))


def _replaced(data, old, new, count):
    """The data with each of so many places changed, or None if there are more or fewer."""
    return data.replace(old, new) if data.count(old) == count else None


def main(writer, cache):
    tally = compare.Tally()
    with tempfile.TemporaryDirectory() as name:
        room = pathlib.Path(name)
        every = [panels.meant(case, cache) for case in panels.cases()] + panels.meant_cards()
        files = write(writer, every, room)
        wide = write(writer, [dataclasses.replace(each, name=f"{each.name}-wide") for each in every], room, wide=True)
        decoders = installed(tally)
        versions = check_readers(tally, decoders, files, wide)
        forms.check_versions(tally, files, wide)
        for written in (files, wide):
            check_payloads(tally, written)
            check_views(tally, written)
            check_findings(tally, written)
        check_offset(tally, files, room)
        check_comparison(tally, writer, cache, room)
        check_cuts(tally, writer, files, room)
        forms.check_comparison(tally, decoders, files, wide, room)
        forms.check_many(tally, writer, cache, room)
        canvases.check(tally, writer, cache, room)
    check_examples(tally)
    check_expected(tally)
    for reader, counts in tally.counts.items():
        found = ", ".join(f"{what} {count}" for what, count in counts.items())
        version = f" {versions[reader]}" if reader in versions else ""
        print(f"readers: {reader}{version}: {found}")
    for report in tally.reports:
        print(f"readers: to be noted: {report}")
    for failure in tally.failures:
        print(f"readers: {failure}", file=sys.stderr)
    if tally.failures:
        sys.exit(f"readers: {len(tally.failures)} of the checks fail")
    print(f"readers: {len(files)} files are read as docs/DIFFERENCES.md has it, and in either form, by {', '.join(versions)}")


if __name__ == "__main__":
    try:
        main(sys.argv[1], sys.argv[2])
    except hevc.CodecError as error:
        sys.exit(f"readers: {error}")
