//! Faults of a clap, made on purpose: at a wrong place, and in the file that is expected, which the archive's must then
//! differ from. Each fault is put in where a writer would make it, so that sizes and offsets go with it; and wherever
//! one thing is made another, what stands there is looked at first.
//!
//! The panel has two tiles: 1 and 2 are the colour tiles, 3 the colour grid, 4 and 5 the alpha tiles, 6 the alpha grid,
//! 8 the gain image and 10 the tone map. Its clap is at position 13, behind clli and before the gain image's record.

use crate::clap::{self, Change};
use crate::compare::same_file;
use crate::panels::{full, Case};
use crate::selftest::Trial;
use crate::{reference, upstream};
use kahopiru::{GridDims, Metadata, Panel};

/// A panel with a visible size and with all that stands before the clap or moves with it, of two tiles.
pub fn panel() -> Case {
    let mut case = full().with_grid(2, 1, vec![2, 1], vec![1, 3]);
    (case.dims.full_w, case.dims.full_h) = (120, 60);
    case.with_visible(63, 61)
}

/// Every fault, and whether it was reported.
pub fn trials() -> Vec<Trial> {
    let cut = Cut::new();
    let numbers = NUMBERS.iter().map(|fault| (fault.0, cut.with_number(fault)));
    let lists = LISTS.iter().map(|fault| (fault.0, cut.with_list(fault)));
    let unmoved = UNMOVED.iter().map(|fault| (fault.0, cut.with_unmoved(fault)));
    let before_clli = [("a clap before clli in the file", cut.with_clap_before_clli())];
    let all = places(&cut).into_iter().chain(sizes(&cut)).chain(numbers).chain(lists).chain(unmoved);
    all.chain(before_clli).collect()
}

/// Without a fault the archive's file is the one that is expected.
pub fn right() -> Result<(), String> {
    let cut = Cut::new();
    cut.held(&cut.expected)?;
    cut.held(&cut.file(&cut.clap, &mut |_, _| ()))
}

/// The panel's clap box, the files without it and with it, and the archive's.
struct Cut {
    case: Case,
    clap: Vec<u8>,
    of_upstream: Vec<u8>,
    expected: Vec<u8>,
    written: Vec<u8>,
}

impl Cut {
    fn new() -> Cut {
        let case = panel();
        Cut {
            clap: clap::of(&case.panel()).expect("it has a visible size"),
            of_upstream: upstream::write(&case).expect("upstream writes it"),
            expected: reference::file(&case).expect("upstream writes it"),
            written: kahopiru::to_vec(&case.panel()).expect("the panel is accepted"),
            case,
        }
    }

    /// Where the clap is.
    fn place(&self) -> usize {
        clap::place(&self.case.panel())
    }

    /// The archive's file, held to this one.
    fn held(&self, file: &[u8]) -> Result<(), String> {
        same_file(file, &self.written)
    }

    /// The file with this clap box, and with each item's list changed.
    fn file(&self, clap: &[u8], change: Change<'_>) -> Vec<u8> {
        let mut file = self.of_upstream.clone();
        clap::put_with(&mut file, &self.case.panel(), self.place(), clap, change)
            .expect("upstream's file is as it must be");
        file
    }

    fn with_number(&self, &(name, at, is, wrong): &Number) -> Result<(), String> {
        let mut clap = self.clap.clone();
        put_number(name, &mut clap, 8 + 4 * at, is, wrong);
        self.held(&self.file(&clap, &mut |_, _| ()))
    }

    fn with_list(&self, &(name, item, is, wrong): &List) -> Result<(), String> {
        let mut change = |id: usize, list: &mut Vec<u8>| {
            if id == item {
                assert_eq!(list, is, "{name}");
                *list = wrong.to_vec();
            }
        };
        self.held(&self.file(&self.clap, &mut change))
    }

    fn with_unmoved(&self, &(name, bytes, behind, more): &Unmoved) -> Result<(), String> {
        let place = |file: &[u8]| only(file, bytes).wrapping_add_signed(behind);
        let before = number(&self.of_upstream, place(&self.of_upstream));
        let mut file = self.expected.clone();
        let at = place(&file);
        put_number(name, &mut file, at, before + more, before);
        self.held(&file)
    }

    /// The clap at 12 and clli at 13, and so named.
    fn with_clap_before_clli(&self) -> Result<(), String> {
        let mut exchanged = 0;
        let mut file = self.file(&self.clap, &mut |_, list| {
            for each in list.iter_mut().filter(|each| [12, 13].contains(&(**each & 0x7F))) {
                *each ^= 12 ^ 13;
                exchanged += 1;
            }
        });
        assert_eq!(exchanged, 5, "each tile names the clap and the colour grid clli");
        let clli = b"\0\0\0\x0Cclli\x03\xE8\x01\x90";
        let both = &mut file[self.place() - clli.len()..self.place() + self.clap.len()];
        assert_eq!(both, [clli, &self.clap[..]].concat());
        both.rotate_left(clli.len());
        self.held(&file)
    }
}

/// A number of four bytes.
fn number(bytes: &[u8], at: usize) -> i32 {
    i32::from_be_bytes(bytes[at..at + 4].try_into().expect("four bytes"))
}

/// Puts a wrong number in the place of the one that is there.
fn put_number(name: &str, bytes: &mut [u8], at: usize, is: i32, wrong: i32) {
    assert_eq!(number(bytes, at), is, "{name}");
    bytes[at..at + 4].copy_from_slice(&wrong.to_be_bytes());
}

/// Where these bytes are in a file, which must have them once.
fn only(file: &[u8], bytes: &[u8]) -> usize {
    let found: Vec<usize> = (0..file.len()).filter(|&at| file[at..].starts_with(bytes)).collect();
    assert_eq!(found.len(), 1, "{bytes:02X?}");
    found[0]
}

/// A clap at a wrong place, or with another panel around it; and what must be said of it.
fn places(cut: &Cut) -> Vec<Trial> {
    let (panel, place, file) = (cut.case.panel(), cut.place(), &cut.of_upstream);
    let put = |file: &[u8], panel: &Panel<'_>, at: usize| clap::put(&mut file.to_vec(), panel, at, &cut.clap);
    let dark = Panel { metadata: Metadata { content_light_level: None, ..panel.metadata }, ..panel };
    let longer = [&file[..], &[0]].concat();
    let mut other = file.clone();
    other[only(file, &[0, 4, 2, 0x86, 0x82]) + 3] = 0x87;
    let short = clap::put(&mut file.clone(), &panel, place, &cut.clap[..39]);
    let all = [
        ("a clap one byte too far", put(file, &panel, place + 1), "no property ends at byte"),
        ("a clap before clli", put(file, &panel, place - 12), "no [00, 00, 00, 0C, 63, 6C, 6C, 69"),
        (
            "a clap behind the gain image's record",
            put(file, &panel, place + 8 + 3),
            "no [00, 00, 00, 0C, 63, 6C, 6C, 69",
        ),
        ("a second clap", put(&cut.expected, &panel, place), "the gain image's record is not at"),
        (
            "a clap for a panel without the file's light level",
            put(file, &dark, clap::place(&dark)),
            "the gain image's record is not at",
        ),
        ("a clap for one byte more of file", put(&longer, &panel, place), "no box is at byte"),
        (
            "a clap for a tile that names another property",
            put(&other, &panel, place),
            "item 4 in upstream's file names [87, 82], not [86, 82]",
        ),
        ("a clap of 39 bytes", short, "no clap box of 40 bytes"),
    ];
    all.into_iter().map(|(name, said, why)| (name, said.or_else(|said| because(said, why)))).collect()
}

/// What was said, if this is why.
pub fn because(said: String, why: &str) -> Result<(), String> {
    if said.contains(why) {
        Err(said)
    } else {
        Ok(())
    }
}

/// Sizes that are not the panel's.
fn sizes(cut: &Cut) -> Vec<Trial> {
    let of = |case: Case| cut.held(&reference::file(&case).expect("upstream writes it"));
    let case = &cut.case;
    let small = Case { dims: GridDims { tile_w: 63, tile_h: 61, ..case.dims }, ..case.clone() };
    let mut ispe = upstream::write(&small).expect("upstream writes it");
    clap::put(&mut ispe, &small.panel(), cut.place(), &cut.clap).expect("upstream's file is as it must be");
    vec![
        ("visible width and height exchanged", of(case.clone().with_visible(61, 63))),
        ("the whole tile visible", of(case.clone().with_visible(64, 64))),
        ("the visible size in the tiles' ispe", cut.held(&ispe)),
        ("the visible size for the decoded one, in ispe and clap", of(small)),
        ("no visible size", of(Case { visible: None, ..case.clone() })),
    ]
}

/// A wrong number of the clap: its name, which of the eight it is, what it is and what it becomes.
type Number = (&'static str, usize, i32, i32);

const NUMBERS: [Number; 8] = [
    ("the decoded width in the clap", 0, 63, 64),
    ("a denominator of 2 below the width", 1, 1, 2),
    ("the decoded height in the clap", 2, 61, 64),
    ("a denominator of 2 below the height", 3, 1, 2),
    ("decoded minus visible, across", 4, -1, 1),
    ("a denominator of 1, across", 5, 2, 1),
    ("decoded minus visible, down", 6, -3, 3),
    ("a denominator of 1, down", 7, 2, 1),
];

/// A wrong list of associations: its name, the item, what it is and what it becomes.
type List = (&'static str, usize, &'static [u8], &'static [u8]);

const COLOUR: &[u8] = &[0x81, 0x82, 0x84, 0x8D];
const ALPHA: &[u8] = &[0x86, 0x82, 0x8D];
const COLOUR_GRID: &[u8] = &[0x03, 0x84, 0x05, 0x09, 0x0C, 0x8A, 0x8B];
const ALPHA_GRID: &[u8] = &[0x03, 0x07, 0x08, 0x8A, 0x8B];
const GAIN: &[u8] = &[0x8E, 0x0F, 0x10, 0x11, 0x12, 0x8A, 0x8B];
const TONE: &[u8] = &[0x13, 0x14, 0x15, 0x16];

const LISTS: [List; 16] = [
    ("a clap that is not essential to a colour tile", 1, COLOUR, &[0x81, 0x82, 0x84, 0x0D]),
    ("a clap that is not essential to an alpha tile", 4, ALPHA, &[0x86, 0x82, 0x0D]),
    ("a clap that a colour tile names before its colr", 2, COLOUR, &[0x81, 0x82, 0x8D, 0x84]),
    ("a clap that an alpha tile names before its ispe", 5, ALPHA, &[0x86, 0x8D, 0x82]),
    ("a colour tile that names what is behind the clap", 1, COLOUR, &[0x81, 0x82, 0x84, 0x8E]),
    ("an alpha tile that names what is before the clap", 4, ALPHA, &[0x86, 0x82, 0x8C]),
    ("a colour tile that does not name the clap", 2, COLOUR, &[0x81, 0x82, 0x84]),
    ("an alpha tile that does not name the clap", 5, ALPHA, &[0x86, 0x82]),
    ("a colour tile that names the clap twice", 1, COLOUR, &[0x81, 0x82, 0x84, 0x8D, 0x8D]),
    ("a colour grid that names the clap", 3, COLOUR_GRID, &[0x03, 0x84, 0x05, 0x09, 0x0C, 0x8A, 0x8B, 0x8D]),
    ("an alpha grid that names the clap", 6, ALPHA_GRID, &[0x03, 0x07, 0x08, 0x8A, 0x8B, 0x8D]),
    ("a gain image that names the clap", 8, GAIN, &[0x8E, 0x0F, 0x10, 0x11, 0x12, 0x8A, 0x8B, 0x8D]),
    ("a gain image's first property that has not moved", 8, GAIN, &[0x8D, 0x0F, 0x10, 0x11, 0x12, 0x8A, 0x8B]),
    ("a gain image's turn that has moved", 8, GAIN, &[0x8E, 0x0F, 0x10, 0x11, 0x12, 0x8B, 0x8B]),
    ("a tone map's first property that has not moved", 10, TONE, &[0x12, 0x14, 0x15, 0x16]),
    ("a tone map's last property that has not moved", 10, TONE, &[0x13, 0x14, 0x15, 0x15]),
];

/// A number that is upstream's yet: its name, bytes that the file has once, how far behind their beginning it is, and
/// by how much it should be more.
type Unmoved = (&'static str, &'static [u8], isize, i32);

const UNMOVED: [Unmoved; 6] = [
    ("a meta that has not grown", b"meta", -4, 40 + 4),
    ("an iprp that has not grown", b"iprp", -4, 40 + 4),
    ("an ipco that has not grown", b"ipco", -4, 40),
    ("an ipma that has not grown", b"ipma", -4, 4),
    // Ten entries in iloc, of which the first begins with id, method, reference and the count of one extent.
    ("the offset of a tile that has not moved", &[0x44, 0, 0, 10, 0, 1, 0, 0, 0, 0, 0, 1], 12, 40 + 4),
    ("the offset of a tone map that has not moved", &[0, 10, 0, 0, 0, 0, 0, 1], 8, 40 + 4),
];
