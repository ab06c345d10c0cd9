//! Faults of a wide file, made on purpose: in the file that is expected, which the archive's must then differ from; and
//! in the ordinary file that is to be widened, of which the widening must say what is wrong. A fault that takes another
//! number of bytes is put in where a writer would make it, so that sizes and offsets go with it; and wherever one thing
//! is made another, what stands there is looked at first.
//!
//! The panel is that of faults.rs: 1 and 2 are the colour tiles, 3 the colour grid, 4 and 5 the alpha tiles, 6 the
//! alpha grid, 7 the Exif, 8 the gain image, 9 its XMP and 10 the tone map. With both counts 48 numbers are widened.

use crate::boxes::{boxes, head, number};
use crate::calls::WIDE;
use crate::compare::same_file;
use crate::faults::{self, because};
use crate::panels::p;
use crate::selftest::Trial;
use crate::widen::widen;
use crate::{many, reference};

/// What is put in the place of what: its name, the path to the box, where in the box, what is there and what becomes of
/// it. Of boxes of one type the first is meant.
type Fault = (&'static str, &'static [&'static [u8; 4]], usize, &'static [u8], &'static [u8]);

/// The same, and what must be said of it.
type Damage = (&'static str, &'static [&'static [u8; 4]], usize, &'static [u8], &'static [u8], &'static str);

const PITM: &[&[u8; 4]] = &[b"meta", b"pitm"];
const ILOC: &[&[u8; 4]] = &[b"meta", b"iloc"];
const IINF: &[&[u8; 4]] = &[b"meta", b"iinf"];
const INFE: &[&[u8; 4]] = &[b"meta", b"iinf", b"infe"];
const IREF: &[&[u8; 4]] = &[b"meta", b"iref"];
const DIMG: &[&[u8; 4]] = &[b"meta", b"iref", b"dimg"];
const CDSC: &[&[u8; 4]] = &[b"meta", b"iref", b"cdsc"];
const IPMA: &[&[u8; 4]] = &[b"meta", b"iprp", b"ipma"];
const ALTR: &[&[u8; 4]] = &[b"meta", b"grpl", b"altr"];

const OF_A_WRITER: [Fault; 26] = [
    ("pitm of version 0", PITM, 8, &[1], &[0]),
    ("iloc of version 1", ILOC, 8, &[2], &[1]),
    ("iinf of version 0", IINF, 8, &[1], &[0]),
    ("infe of version 2", INFE, 8, &[3], &[2]),
    ("infe of version 2 with its id", INFE, 8, &[3, 0, 0, 1, 0, 0, 0, 1], &[2, 0, 0, 1, 0, 1]),
    ("iref of version 0", IREF, 8, &[1], &[0]),
    ("ipma of version 0", IPMA, 8, &[1], &[0]),
    ("pitm's id in 16 bits", PITM, 12, &[0, 0, 0, 3], &[0, 3]),
    ("iloc's count in 16 bits", ILOC, 14, &[0, 0, 0, 10], &[0, 10]),
    ("iinf's count in 16 bits", IINF, 12, &[0, 0, 0, 10], &[0, 10]),
    ("an id of iloc in 16 bits", ILOC, 18, &[0, 0, 0, 1], &[0, 1]),
    ("an id of infe in 16 bits", INFE, 12, &[0, 0, 0, 1], &[0, 1]),
    ("infe's protection in 32 bits", INFE, 16, &[0, 0], &[0, 0, 0, 0]),
    ("a hidden tile that is shown", INFE, 9, &[0, 0, 1], &[0, 0, 0]),
    ("dimg's count in 32 bits", DIMG, 12, &[0, 2], &[0, 0, 0, 2]),
    ("dimg's grid in 16 bits", DIMG, 8, &[0, 0, 0, 3], &[0, 3]),
    ("a tile of dimg in 16 bits", DIMG, 14, &[0, 0, 0, 1], &[0, 1]),
    ("cdsc's count in 32 bits", CDSC, 12, &[0, 1], &[0, 0, 0, 1]),
    ("an id of ipma in 16 bits", IPMA, 16, &[0, 0, 0, 1], &[0, 1]),
    ("ipma's count in 16 bits", IPMA, 12, &[0, 0, 0, 8], &[0, 8]),
    ("a count of associations in 16 bits", IPMA, 20, &[4], &[0, 4]),
    ("an association in 16 bits", IPMA, 21, &[0x81], &[0x80, 1]),
    ("ipma's flag for associations in 16 bits", IPMA, 11, &[0], &[1]),
    ("an id of grpl in 64 bits", ALTR, 20, &[0, 0, 0, 10], &[0, 0, 0, 0, 0, 0, 0, 10]),
    ("an id of grpl in 16 bits", ALTR, 20, &[0, 0, 0, 10], &[0, 10]),
    ("a group of grpl in 64 bits", ALTR, 12, &[0, 0, 0, 11], &[0, 0, 0, 0, 0, 0, 0, 11]),
];

/// A number that is the ordinary file's yet: its name, the path, where in the box, and by how much it should be more.
type Unraised = (&'static str, &'static [&'static [u8; 4]], usize, usize);

const UNRAISED: [Unraised; 12] = [
    ("the size of meta", &[b"meta"], 0, 2 * 48),
    ("the size of pitm", PITM, 0, 2),
    ("the size of iloc", ILOC, 0, 2 * 11),
    ("the size of iinf", IINF, 0, 2 * 11),
    ("the size of infe", INFE, 0, 2),
    ("the size of iref", IREF, 0, 2 * 17),
    ("the size of dimg", DIMG, 0, 2 * 3),
    ("the size of iprp", &[b"meta", b"iprp"], 0, 2 * 8),
    ("the size of ipma", IPMA, 0, 2 * 8),
    ("the offset of a colour tile", ILOC, 18 + 10, 2 * 48),
    ("the offset of an alpha tile", ILOC, 18 + 18 * 4 + 10, 2 * 48),
    ("the offset of the tone map", ILOC, 18 + 18 * 9 + 10, 2 * 48),
];

/// In a file of 255 × 256 tiles: what 16 bits would leave of an id, or of a count. Item 65,536 is the 255th alpha tile.
const CUT: [Fault; 9] = [
    ("iloc's count", ILOC, 14, &[0, 1, 0xFE, 2], &[0, 0, 0xFE, 2]),
    ("iinf's count", IINF, 12, &[0, 1, 0xFE, 2], &[0, 0, 0xFE, 2]),
    ("ipma's count", IPMA, 12, &[0, 1, 0xFE, 2], &[0, 0, 0xFE, 2]),
    ("an id of iloc", ILOC, 18 + 18 * 65_535, &[0, 1, 0, 0], &[0, 0, 0, 0]),
    ("an id of infe", IINF, 16 + 23 * 65_535 + 12, &[0, 1, 0, 0], &[0, 0, 0, 0]),
    ("the alpha grid of dimg", IREF, ALPHA_DIMG + 8, &[0, 1, 0xFE, 2], &[0, 0, 0xFE, 2]),
    ("a tile of dimg", IREF, ALPHA_DIMG + 14 + 4 * 254, &[0, 1, 0, 0], &[0, 0, 0, 0]),
    ("the alpha grid of auxl", IREF, 2 * ALPHA_DIMG - 12 + 8, &[0, 1, 0xFE, 2], &[0, 0, 0xFE, 2]),
    ("an id of ipma", IPMA, 16 + 8 * 65_281 + 7 * 254, &[0, 1, 0, 0], &[0, 0, 0, 0]),
];

/// Where iref has the second dimg: behind its head and the first.
const ALPHA_DIMG: usize = 12 + (14 + 4 * 65_280);

const DAMAGED: [Damage; 24] = [
    ("meta of version 1", &[b"meta"], 8, &[0], &[1], "meta has [01, 00, 00, 00], not [00, 00, 00, 00]"),
    ("pitm of version 1", PITM, 8, &[0], &[1], "pitm has version 1, not 0"),
    ("iloc of version 0", ILOC, 8, &[1], &[0], "iloc has version 0, not 1"),
    ("iloc of version 2", ILOC, 8, &[1], &[2], "iloc has version 2, not 1"),
    ("iinf of version 1", IINF, 8, &[0], &[1], "iinf has version 1, not 0"),
    ("infe of version 3", INFE, 8, &[2], &[3], "infe has version 3, not 2"),
    ("iref of version 1", IREF, 8, &[0], &[1], "iref has version 1, not 0"),
    ("ipma of version 1", IPMA, 8, &[0], &[1], "ipma has version 1, not 0"),
    ("a flag of ipma", IPMA, 11, &[0], &[1], "ipma has [00, 00, 01], not [00, 00, 00]"),
    ("offsets of 8 bytes", ILOC, 12, &[0x44], &[0x84], "iloc has [84, 00], not [44, 00]"),
    ("a base offset", ILOC, 13, &[0], &[0x40], "iloc has [44, 40], not [44, 00]"),
    ("another construction method", ILOC, 16 + 16 * 2 + 2, &[0, 1], &[0, 2], "iloc has construction method 2"),
    ("another data reference", ILOC, 16 + 4, &[0, 0], &[0, 1], "iloc has [00, 01], not [00, 00]"),
    ("two extents", ILOC, 16 + 6, &[0, 1], &[0, 2], "iloc has [00, 02], not [00, 01]"),
    ("an offset within idat that is one of the file", ILOC, 16 + 16 * 2 + 2, &[0, 1], &[0, 0], "iloc has 0 at byte"),
    ("a longer sample", ILOC, 16 + 12, &[0, 0, 0, 2], &[0, 0, 0, 3], "iloc has"),
    ("one entry of iloc less", ILOC, 15, &[10], &[9], "iloc has other entries than it counts"),
    ("one entry of iinf more", IINF, 13, &[10], &[11], "iinf has no box where infe must be"),
    ("one entry of iinf less", IINF, 13, &[10], &[9], "iinf goes on"),
    ("one tile of dimg more", DIMG, 11, &[2], &[3], "a reference ends too soon"),
    ("one tile of dimg less", DIMG, 11, &[2], &[1], "a reference goes on"),
    ("one entry of ipma more", IPMA, 15, &[8], &[9], "ipma ends too soon"),
    ("one entry of ipma less", IPMA, 15, &[8], &[7], "ipma goes on"),
    ("two boxes iloc", PITM, 4, b"pitm", b"iloc", "there is not one iloc"),
];

/// A panel's ordinary file, its wide one as expected, and the archive's.
struct Files {
    ordinary: Vec<u8>,
    expected: Vec<u8>,
    written: Vec<u8>,
}

impl Files {
    fn new() -> Files {
        let case = faults::panel();
        let ordinary = reference::file(&case).expect("upstream writes it");
        Files {
            expected: widen(&ordinary).expect("the file is as it must be"),
            written: WIDE.to_vec(&case.panel()).expect("the panel is accepted"),
            ordinary,
        }
    }

    fn faults(&self) -> Vec<Trial> {
        let of_a_writer =
            OF_A_WRITER.iter().map(|fault| (fault.0, same_file(&with(&self.expected, fault), &self.written)));
        let unraised = UNRAISED.iter().map(|each| (each.0, same_file(&unraised(&self.expected, each), &self.written)));
        let whole = [
            ("the ordinary file", same_file(&self.ordinary, &self.written)),
            ("a wide file for the ordinary one", same_file(&self.ordinary, &self.expected)),
        ];
        of_a_writer.chain(unraised).chain(whole).collect()
    }

    fn damaged(&self) -> Vec<Trial> {
        let said = |file: &[u8], why| widen(file).map(|_| ()).or_else(|said| because(said, why));
        let damaged = DAMAGED.iter().map(|&(name, path, at, is, wrong, why)| {
            (name, said(&with(&self.ordinary, &(name, path, at, is, wrong)), why))
        });
        let mut elsewhere = self.ordinary.clone();
        let at = place(&elsewhere, ILOC).pop().expect("a path has an end") + 16 + 8 + 3;
        elsewhere[at] ^= 1;
        let longer = [&self.ordinary[..], &[0]].concat();
        let whole = [
            ("an offset elsewhere", said(&elsewhere, "iloc has")),
            ("one byte more of file", said(&longer, "no box is at byte")),
            ("a wide file to be widened", said(&self.expected, "iloc has other entries than it counts")),
        ];
        damaged.chain(whole).collect()
    }
}

/// Every fault, and whether it was reported.
pub fn trials() -> Vec<Trial> {
    let files = Files::new();
    let [expected, written] = most_tiles();
    let cut = CUT.iter().map(|fault| (fault.0, same_file(&with(&expected, fault), &written)));
    files.faults().into_iter().chain(files.damaged()).chain(cut).collect()
}

/// Without a fault the archive's files are those that are expected.
pub fn right() -> Result<(), String> {
    let files = Files::new();
    same_file(&files.expected, &files.written)?;
    let [expected, written] = most_tiles();
    same_file(&expected, &written)
}

/// P with 255 × 256 tiles: its wide file as expected, and the archive's.
fn most_tiles() -> [Vec<u8>; 2] {
    let case = p().with_empty_grid(255, 256);
    let expected = many::file(&case).expect("upstream writes one tile");
    [expected, WIDE.to_vec(&case.panel()).expect("the panel is accepted")]
}

/// Where the boxes of a path begin.
fn place(file: &[u8], path: &[&[u8; 4]]) -> Vec<usize> {
    let mut part = 0..file.len();
    let mut begins = Vec::new();
    for kind in path {
        let inner = boxes(file, part).expect("there are boxes");
        let found =
            inner.into_iter().find(|each| file[each.start + 4..].starts_with(*kind)).expect("the path leads there");
        begins.push(found.start);
        part = found.start + head(&file[found.start..])..found.end;
    }
    begins
}

/// A file with a fault. Where that takes another number of bytes, the sizes of the boxes around it, and the offsets of
/// a wide file's items, are those that follow.
fn with(file: &[u8], &(name, path, at, is, wrong): &Fault) -> Vec<u8> {
    let begins = place(file, path);
    let at = begins.last().expect("a path has an end") + at;
    assert_eq!(&file[at..at + is.len()], is, "{name}");
    let mut changed = file.to_vec();
    let more = wrong.len() as isize - is.len() as isize;
    if more != 0 {
        let iloc = place(file, ILOC)[1];
        let entries = (0..number(file, iloc + 14, 4)).map(|k| iloc + 18 + 18 * k);
        let offsets = entries.filter(|entry| number(file, entry + 4, 2) == 0).map(|entry| entry + 10);
        for each in offsets.chain(begins) {
            put(&mut changed, each, more);
        }
    }
    changed.splice(at..at + is.len(), wrong.iter().copied());
    changed
}

/// A file with a number that is not raised.
fn unraised(file: &[u8], &(_, path, at, by): &Unraised) -> Vec<u8> {
    let mut file = file.to_vec();
    let at = place(&file, path).last().expect("a path has an end") + at;
    put(&mut file, at, -(by as isize));
    file
}

/// Makes a number of four bytes so much more.
fn put(file: &mut [u8], at: usize, more: isize) {
    let number = number(file, at, 4).checked_add_signed(more).expect("it is not less than 0") as u32;
    file[at..at + 4].copy_from_slice(&number.to_be_bytes());
}
