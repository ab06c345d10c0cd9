"""What readers refuse in a file, one sentence for each; findings that are alike are one sentence for all their items.

Seen with real readers are an extent of length 0, a distance of 0 to a TIFF header behind Exif's marker, tiles that do not cover
their grid, a grid's flags, a clap with a 0, and an ispe that is not what the decoder puts out (S2, D11, D12, S10 and, of the last
two, S12 of docs/DIFFERENCES.md). The others are what the standards ask for; what readers do there is recalled."""

from . import apertures, grids, hevc, metadata, properties, views
from .boxes import NotHeif, body
from .fold import named, plural
from .items import IN_FILE, IN_IDAT
from .views import by

NEEDED = ("hdlr", "pitm", "iloc", "iprp")  # boxes of meta without which a reader stops; iinf is noted where it is read
CODED, PICTURES = "hvc1", ("hvc1", "grid")


def findings(data, contents):
    """A sentence for each thing that was found."""
    check = _Check(data, contents)
    # Where meta is not whole, what it lacks would be found over and over; the cut says it all.
    if contents.meta and not contents.meta.is_cut:
        check.run()
    return contents.trouble + check.lines()


def nothing(contents):
    """What is said where nothing was found: how much was looked at."""
    kinds = [item.kind for item in contents.items.values()]
    looked = [plural(len(kinds), "item"), plural(kinds.count(CODED), "HEVC sample"), plural(kinds.count("grid"), "grid")]
    return f"no fault found: {', '.join(looked)}"


class _Check:
    def __init__(self, data, contents):
        self.data, self.contents = data, contents
        self.about_file = []
        self.alike = {}  # of noun, kind and what was found: numbers, and what is said of each
        self.records = {}  # of the positions of hvcC

    def say(self, sentence):
        self.about_file.append(sentence)

    def of_item(self, item, found, detail=""):
        """Notes what was found of an item; `detail` is what is the item's alone."""
        self.alike.setdefault(("item", item.kind, found), []).append((item.number, detail))

    def of_property(self, position, found):
        kind = self.contents.properties[position - 1][0].kind
        self.alike.setdefault(("property", kind, found), []).append((position, ""))

    def lines(self):
        """The sentences: those about the file first, then the others in the order in which they were found."""
        return self.about_file + [_sentence(*key, cases) for key, cases in self.alike.items()]

    def run(self):
        self._meta()
        self._names()
        for position, (box, _) in enumerate(self.contents.properties, 1):
            if box.kind == "hvcC":
                self._record(position, box)
            elif box.kind == "clap":
                self._aperture(position, box)
        for item in self.contents.items.values():
            self._places(item)
            self._item(item)

    # The boxes of meta, and the ids and positions that they name

    def _meta(self):
        known, meta = self.contents, self.contents.meta
        for kind in NEEDED:
            if not meta.find(kind):
                self.say(f"{meta} has no box of type {kind}: readers stop there")
        if known.handler not in (None, "pict"):
            self.say(f"the handler is {known.handler}, and readers take pict alone for pictures")
        if known.primary is not None and known.primary not in known.items:
            self.say(f"the primary item is item {known.primary}, and there is no such item: a reader has nothing to show")
        if known.counted is not None and known.counted != len(meta.find("iinf").within):
            self.say(f"iinf says that it has {plural(known.counted, 'item')}, and it has {len(meta.find('iinf').within):,}")
        if known.twice:
            self.say(f"iinf has more than one entry for {named('item', known.twice)}")

    def _names(self):
        """Items and properties that are named and not there."""
        known = self.contents
        for kind, given in known.unlisted.items():
            self.say(f"{kind} names {named('item', given)}, and iinf has no such item")
        strangers = [source for source in known.references_from if source not in known.items]
        if strangers:
            self.say(f"iref has references from {named('item', strangers)}, and iinf has no such item")
        for item in known.items.values():
            for reference in known.references_from.get(item.number, []):
                lost = [target for target in reference.targets if target not in known.items]
                if lost:
                    self.of_item(item, f"{reference.kind} refers to what is not there", named("item", lost))
            lost = [position for position, _ in item.associations if position > len(known.properties)]
            if lost:
                there = plural(len(known.properties), "property")
                self.of_item(item, f"associated with {named('property', lost)}, and there are {there}")

    # Payloads

    def _places(self, item):
        if not item.extents and item.kind in PICTURES:
            self.of_item(item, "no payload: iloc does not place it")
        if any(length == 0 for _, length in item.extents):
            self.of_item(item, "an extent of length 0, which readers take for the whole file or refuse")
        if item.elsewhere:
            self.of_item(item, "the payload is in another file, where few readers look and nothing was looked at")
        elif item.method not in (IN_FILE, IN_IDAT):
            self.of_item(item, f"construction method {item.method}, which few readers know; the payload was not looked at")

    def _payload(self, item):
        """An item's payload, or None where it is not all there, or where an extent of length 0 leaves it open."""
        whole = item.extents and item.is_whole and all(length for _, length in item.extents)
        return item.payload(self.data) if whole else None

    def _item(self, item):
        payload = self._payload(item)
        if item.kind in PICTURES and not self.contents.positions(item, "ispe"):
            self.of_item(item, "no ispe among its properties: readers want the size of every picture")
        self._clap(item)
        if item.kind == CODED:
            self._coded(item, payload)
        elif item.kind == "grid":
            self._grid(item, payload)
        elif item.kind == "Exif" and payload is not None and metadata.exif_fault(payload):
            self.of_item(item, f"{metadata.exif_fault(payload)}; exiftool does not find its tags")
        if self.contents.targets(item.number, "auxl") and not self.contents.positions(item, "auxC"):
            self.of_item(item, "an auxiliary picture (auxl) without auxC, which says what it is: readers refuse it")

    # What is seen of a picture

    def _aperture(self, position, box):
        """A clean aperture by itself."""
        try:
            fault = apertures.aperture(body(self.data, box)).fault
        except NotHeif:
            return  # which is noted where it is read
        if fault:
            self.of_property(position, f"{fault}, which libheif refuses")

    def _clap(self, item):
        """An item's clean apertures, held to its picture and to its other properties."""
        kinds = [box.kind for _, box, _ in self.contents.named(item)]
        if "clap" not in kinds:
            return
        if any(box.kind == "clap" and not essential for _, box, essential in self.contents.named(item)):
            self.of_item(item, "clap is not marked as essential: a reader that does not know it shows what it cuts away")
        behind = [kind for kind in kinds[kinds.index("clap") :] if kind not in views.CHANGES]
        if behind:
            self.of_item(item, f"clap is named before {', '.join(behind)}: what changes a picture stands behind what describes it")
        for fault in views.view(self.data, self.contents, item).faults:
            self.of_item(item, fault)

    # HEVC

    def _record(self, position, box):
        """A decoder configuration record by itself."""
        data = body(self.data, box).rest()
        record = self.records[position] = hevc.record(data)
        if record is None:
            shortest = f"and a decoder configuration record has at least {hevc.SHORTEST}"
            self.of_property(position, f"{plural(len(data), 'byte')}, {shortest}: it wants the body of an hvcC box")
            return
        if record.version != 1:
            self.of_property(position, f"configurationVersion is {record.version}, and readers know version 1 alone")
        if record.length_size == 3:
            self.of_property(position, "lengthSizeMinusOne is 2, and lengths of 3 bytes do not exist: 3 stands for 4 bytes")
        if not record.is_whole:
            self.of_property(position, "its parameter sets go beyond its end")

    def _coded(self, item, payload):
        positions = self.contents.positions(item, "hvcC")
        if len(positions) != 1:
            self.of_item(item, f"{len(positions) or 'no'} hvcC among its properties, and a decoder wants one")
        record = self.records.get(positions[0]) if positions else None
        if record:
            self._depths(item, item, positions[:1])
        units = self._sample(item, payload, record) if payload is not None else []
        if record:
            self._decoded(item, record, units)

    def _sample(self, item, sample, record):
        """The NAL units of a sample, by the lengths that its record says; by four bytes where it does not."""
        size = record.length_size if record else 4
        units, fault = hevc.walk(sample, size)
        kinds = {hevc.type_of(unit) for unit in units}
        code = hevc.start_code(sample).hex(" ")
        if fault and code:
            wants = f"HEIF wants each NAL unit behind its length in {plural(size, 'byte')}"
            self.of_item(item, f"the sample begins with a start code ({code}), which is Annex B: {wants}")
        elif fault:
            found = f"the lengths of the NAL units, of {plural(size, 'byte')} each, do not lead to the end of the sample"
            self.of_item(item, found, fault)
        elif not any(kind < hevc.FIRST_THAT_IS_NO_SLICE for kind in kinds):
            self.of_item(item, "no NAL unit of the sample is a slice: there is no picture in it")
        elif record:
            lost = [name for kind, name in hevc.PARAMETER_SETS.items() if kind not in record.sets and kind not in kinds]
            if lost:
                self.of_item(item, f"no {', '.join(lost)} in the record or in the sample: a decoder cannot begin")
        return units

    def _decoded(self, item, record, units):
        """Holds an item's ispe to what the decoder puts out by the record's SPS, unless one of the sample's own says otherwise."""
        own = {hevc.size(unit) for unit in units if hevc.type_of(unit) == hevc.SPS}
        size = self.contents.value(self.data, item, "ispe", properties.size)
        if not record.sizes or len(record.sizes | own) > 1 or size is None:
            return
        (decoded,) = record.sizes
        if decoded and size != decoded:
            self.of_item(item, f"ispe says {by(size)} pixels, and the parameter sets {by(decoded)}")

    def _depths(self, item, coded, positions):
        """Holds an item's pixi to the records at these positions, its own or those of its tiles."""
        bits = self.contents.value(self.data, item, "pixi", properties.depths)
        if bits is None:
            return
        for position in positions:
            record = self.records.get(position)
            if record is None:
                continue
            luma, chroma = record.depths
            if bits != ([luma] if record.chroma == 0 else [luma, chroma, chroma]):
                whose = "the record" if coded is item else "the record of its tiles"
                said = f"pixi says {properties.channels(bits)}, and {whose}, property {position}, {record.words}"
                self.of_item(item, said)

    # Grids

    def _grid(self, item, payload):
        tiles = self.contents.targets(item.number, "dimg")
        there = [self.contents.items[tile] for tile in tiles if tile in self.contents.items]
        if item.number in tiles:
            self.of_item(item, "the grid is one of its own tiles")
        self._depths(item, None, sorted({p for tile in there for p in self.contents.positions(tile, "hvcC")}))
        if payload is None:
            return
        grid = grids.grid(payload)
        if grid is None:
            self.of_item(item, f"{plural(len(payload), 'byte')}, and a grid's descriptor has {grids.SHORTEST} or 12")
            return
        if grid.version != 0:
            self.of_item(item, f"the descriptor's version is {grid.version}, and readers know version 0 alone")
        if grid.length != grid.wanted_length:
            calls = f"flags {grid.flags} call for sizes of {32 if grid.flags & 1 else 16} bits"
            length = f"a descriptor of {grid.wanted_length} bytes, and it has {grid.length:,}"
            self.of_item(item, f"{calls}, {length}: readers take other sizes from it")
        if grid.rows * grid.columns != len(tiles):
            wanted = f"{plural(grid.rows, 'row')} × {plural(grid.columns, 'column')}"
            self.of_item(item, f"{wanted} want {plural(grid.rows * grid.columns, 'tile')}, and dimg names {len(tiles):,}")
        self._sizes(item, grid, there)

    def _sizes(self, item, grid, tiles):
        """Holds a grid's size to its ispe, and to what its tiles cover."""
        size = self.contents.value(self.data, item, "ispe", properties.size)
        if size and size != (grid.width, grid.height):
            self.of_item(item, f"ispe says {by(size)} pixels, and the descriptor {by((grid.width, grid.height))}")
        by_size = {}
        for tile in tiles:
            by_size.setdefault(views.view(self.data, self.contents, tile).size, []).append(tile.number)
        by_size.pop(None, None)
        cut = ", as clap leaves them," if any(self.contents.positions(tile, "clap") for tile in tiles) else ""
        if len(by_size) > 1:
            each = "; ".join(f"{named('item', given)} {by(size)}" for size, given in list(by_size.items())[:3])
            self.of_item(item, f"the tiles{cut} are not of one size: {each}")
        elif by_size:
            (width, height) = next(iter(by_size))
            covered = grid.columns * width, grid.rows * height
            if covered[0] < grid.width or covered[1] < grid.height:
                tiled = f"{grid.columns} × {grid.rows} tiles of {by((width, height))}{cut} cover {by(covered)} pixels"
                self.of_item(item, f"{tiled}, and the grid has {by((grid.width, grid.height))}")


def _sentence(noun, kind, found, cases):
    """One finding of one item or property, or of many at once."""
    given = [number for number, _ in cases]
    details = dict.fromkeys(detail for _, detail in cases if detail)
    if len(details) > 1:
        detail = f"; of {noun} {given[0]}: {cases[0][1]}"
    else:
        detail = f": {next(iter(details))}" if details else ""
    return f"{named(noun, given)}, {kind}: {found}{detail}"
