//! The lettered trials of the specification, with the bytes that it names; three of a visible size, byte by byte; and
//! those of the wide form.

use crate::calls::{Calls, WIDE};
use crate::panels::{full, p, small_gain, Case, LIGHT};
use crate::predict::{Answer, Form};
use crate::run::Run;
use kahopiru::{GridDims, Orientation};

/// A trial: its letter, its calls, its panel, the room given, the answer, and bytes that the file holds.
struct Trial {
    name: &'static str,
    calls: Calls,
    case: Case,
    room: usize,
    answer: Answer,
    holds: Vec<Vec<u8>>,
}

fn trial(name: &'static str, case: Case, answer: Answer, holds: Vec<Vec<u8>>) -> Trial {
    Trial { name, calls: Calls::Plain, case, room: 65_536, answer, holds }
}

/// A trial of the wide form, whose file may be long.
fn in_wide_form(name: &'static str, case: Case, answer: Answer, holds: Vec<Vec<u8>>) -> Trial {
    Trial { calls: WIDE, room: 8_000_000, ..trial(name, case, answer, holds) }
}

/// P of so great a width, its one tile too.
fn of_width(width: u32) -> Case {
    let mut case = p();
    (case.dims.tile_w, case.dims.full_w) = (width, width);
    case
}

/// The same panel with tiles of 64 × 66, of which so much is visible.
fn shown(case: Case, w: u32, h: u32) -> Case {
    let dims = GridDims { tile_w: 64, tile_h: 66, ..case.dims };
    Case { dims, ..case }.with_visible(w, h)
}

/// The same panel with tiles of 64 × 66, of which 63 × 65 are visible.
fn odd(case: Case) -> Case {
    shown(case, 63, 65)
}

/// The clap box of such tiles.
fn odd_clap() -> Vec<u8> {
    let numbers = [63, 1, 65, 1, -1, 2, -1, 2].map(i32::to_be_bytes).concat();
    [&[0, 0, 0, 40], &b"clap"[..], &numbers].concat()
}

/// The clap box of tiles of 64 × 66, of which 63 × 61 are visible: its head, width, height, and how far either is below
/// the tile's.
const CLAP_63_61: [[u8; 8]; 5] = [
    [0x00, 0x00, 0x00, 0x28, 0x63, 0x6C, 0x61, 0x70],
    [0x00, 0x00, 0x00, 0x3F, 0x00, 0x00, 0x00, 0x01],
    [0x00, 0x00, 0x00, 0x3D, 0x00, 0x00, 0x00, 0x01],
    [0xFF, 0xFF, 0xFF, 0xFF, 0x00, 0x00, 0x00, 0x02],
    [0xFF, 0xFF, 0xFF, 0xFB, 0x00, 0x00, 0x00, 0x02],
];

/// A box's type and what follows it.
fn after(kind: &[u8; 4], bytes: &[u8]) -> Vec<u8> {
    [kind, bytes].concat()
}

/// An infe of version 2, from its version on.
fn infe(hidden: u8, id: u8, kind: &[u8; 4]) -> Vec<u8> {
    after(b"infe", &[&[2, 0, 0, hidden, 0, id, 0, 0], &kind[..], &[0]].concat())
}

fn trials() -> Vec<Trial> {
    let transposed = Case { orientation: Orientation::Transpose, ..p() };
    let exif = Case { exif: Some(Vec::new()), ..p() };
    let light = Case { light: Some(LIGHT), ..p() };
    let toned = Case { gain: Some(small_gain(Some(Vec::new()))), ..p() };
    let lit_and_toned = Case { light: Some(LIGHT), ..toned.clone() };
    vec![
        trial("(a)", p(), Ok(556), vec![after(b"mdat", &[0xAA, 0xBB])]),
        Trial { room: 555, ..trial("(b)", p(), Err(6), vec![]) },
        trial("(c)", of_width(65_535), Ok(556), vec![after(b"idat", &[0, 0, 0, 0, 0xFF, 0xFF, 0, 0x40])]),
        trial("(d)", of_width(65_536), Ok(564), vec![after(b"idat", &[0, 2, 0, 0, 0, 1, 0, 0, 0, 0, 0, 0x40])]),
        trial("(e)", p().with_empty_grid(1, 256), Ok(461 + 89 * 256 + 4), vec![after(b"idat", &[0, 0, 0xFF, 0])]),
        trial("(f)", p().with_empty_grid(1, 257), Err(1), vec![]),
        trial(
            "(g)",
            transposed,
            Ok(556 + 22),
            vec![after(b"irot", &[3]), after(b"imir", &[0]), vec![0, 2, 5, 0x03, 0x84, 0x05, 0x89, 0x8A]],
        ),
        trial("(h)", exif, Ok(611), vec![infe(0, 5, b"Exif"), after(b"mdat", &[0xAA, 0xBB, 0, 0, 0, 0])]),
        trial("(i)", light, Ok(569), vec![after(b"clli", &[0x03, 0xE8, 0x01, 0x90])]),
        trial("(j)", p(), Ok(556), vec![after(b"colr", b"nclx\x00\x02\x00\x02\x00\x02\x80")]),
        trial(
            "(k)",
            toned,
            Ok(556 + 243 + 3 + 134),
            vec![
                infe(1, 5, b"hvc1"),
                infe(1, 6, b"mime"),
                infe(0, 7, b"tmap"),
                after(b"altr", &[0, 0, 0, 0, 0, 0, 0, 8, 0, 0, 0, 2, 0, 0, 0, 7, 0, 0, 0, 2]),
            ],
        ),
        trial(
            "a visible size",
            odd(p()),
            Ok(556 + 40 + 2),
            vec![
                after(b"ispe", &[0, 0, 0, 0, 0, 0, 0, 64, 0, 0, 0, 66]),
                [&odd_clap(), &[0, 0, 0, 41][..], b"ipma"].concat(),
                vec![0, 1, 4, 0x81, 0x82, 0x84, 0x89, 0, 2, 3, 3, 0x84, 5, 0, 3, 3, 0x86, 0x82, 0x89, 0, 4, 3, 3, 7, 8],
            ],
        ),
        trial(
            "a visible size that takes one column off and five rows",
            shown(p(), 63, 61),
            Ok(556 + 40 + 2),
            vec![
                after(b"ispe", &[0, 0, 0, 0, 0, 0, 0, 64, 0, 0, 0, 66]),
                CLAP_63_61.concat(),
                after(b"idat", &[0, 0, 0, 0, 0, 63, 0, 61]),
            ],
        ),
        trial(
            "a visible size between a light level and a gain map",
            odd(lit_and_toned),
            Ok(556 + 13 + 243 + 3 + 134 + 40 + 2),
            vec![
                [&after(b"clli", &[0x03, 0xE8, 0x01, 0x90]), &odd_clap()[..], &[0, 0, 0, 10], b"hvcC"].concat(),
                vec![0, 1, 4, 0x81, 0x82, 0x84, 0x8A, 0, 2, 4, 3, 0x84, 5, 9, 0, 3, 3, 0x86, 0x82, 0x8A],
                vec![0, 5, 5, 0x8B, 12, 13, 14, 15, 0, 7, 2, 16, 17],
            ],
        ),
    ]
}

fn wide_trials() -> Vec<Trial> {
    let toned = Case { gain: Some(small_gain(Some(Vec::new()))), ..p() };
    // A gain map without tone map, and Exif, for which 254 × 129 tiles leave no ids of 16 bits.
    let more_ids = Case { exif: Some(Vec::new()), gain: Some(small_gain(None)), ..p() }.with_empty_grid(254, 129);
    // Two turns, light level, Exif, profile beside code points, gain map, which meets the turns and brings a brand,
    // tone map, alternate code points and profile; and 19 ids more.
    let everything = 2 * 11 + 13 + (55 + 4) + (13 + 3) + (243 + 8) + 2 + 4 + (134 + 3) + 20 + (13 + 2) + 2 * 19;
    vec![
        in_wide_form(
            "P in the wide form",
            p(),
            Ok(556 + 2 * (19 + 2)),
            vec![
                after(b"pitm", &[1, 0, 0, 0, 0, 0, 0, 2]),
                after(b"iloc", &[2, 0, 0, 0, 0x44, 0, 0, 0, 0, 4]),
                vec![0, 0, 0, 1, 0, 0, 0, 0, 0, 1, 0, 0, 2, 0x54, 0, 0, 0, 1],
                vec![0, 0, 0, 2, 0, 1, 0, 0, 0, 1, 0, 0, 0, 0, 0, 0, 0, 8],
                vec![0, 0, 0, 3, 0, 0, 0, 0, 0, 1, 0, 0, 2, 0x55, 0, 0, 0, 1],
                vec![0, 0, 0, 4, 0, 1, 0, 0, 0, 1, 0, 0, 0, 8, 0, 0, 0, 8],
                after(b"iinf", &[1, 0, 0, 0, 0, 0, 0, 4, 0, 0, 0, 23]),
                after(b"infe", b"\x03\0\0\x01\0\0\0\x01\0\0hvc1\0\0\0\0\x17infe\x03\0\0\0\0\0\0\x02\0\0grid\0"),
                after(b"iref", &[1, 0, 0, 0, 0, 0, 0, 18]),
                after(b"dimg", &[0, 0, 0, 2, 0, 1, 0, 0, 0, 1, 0, 0, 0, 18]),
                after(b"auxl", &[0, 0, 0, 4, 0, 1, 0, 0, 0, 2, 0, 0, 0, 211]),
                after(b"ipma", &[1, 0, 0, 0, 0, 0, 0, 4, 0, 0, 0, 1, 3, 0x81, 0x82, 0x84, 0, 0, 0, 2, 3, 3, 0x84, 5]),
                vec![0, 0, 0, 3, 2, 0x86, 0x82, 0, 0, 0, 4, 3, 3, 7, 8, 0, 0, 0, 24],
            ],
        ),
        Trial { room: 597, ..in_wide_form("P in the wide form, and a byte too little", p(), Err(6), vec![]) },
        in_wide_form(
            "(k) in the wide form",
            toned,
            Ok(556 + 243 + 3 + 134 + 2 * (19 + 9 + 6 + 2)),
            vec![
                after(b"altr", &[0, 0, 0, 0, 0, 0, 0, 8, 0, 0, 0, 2, 0, 0, 0, 7, 0, 0, 0, 2]),
                after(b"dimg", &[0, 0, 0, 7, 0, 2, 0, 0, 0, 2, 0, 0, 0, 5]),
            ],
        ),
        in_wide_form(
            "255 by 256 tiles in the wide form",
            p().with_empty_grid(255, 256),
            Ok(461 + 4 + 89 * 65_280 + 2 * (11 + 8 * 65_280 + 2)),
            vec![
                after(b"iloc", &[2, 0, 0, 0, 0x44, 0, 0, 1, 0xFE, 2]),
                after(b"iinf", &[1, 0, 0, 0, 0, 1, 0xFE, 2]),
                after(b"dimg", &[0, 0, 0xFF, 1, 0xFF, 0]),
                after(b"dimg", &[0, 1, 0xFE, 2, 0xFF, 0, 0, 0, 0xFF, 2]),
                after(b"idat", &[0, 0, 0xFF, 0xFE]),
            ],
        ),
        in_wide_form(
            "255 by 256 tiles in the wide form, with everything",
            full().with_empty_grid(255, 256),
            Ok(461 + 4 + 89 * 65_280 + 2 * (11 + 8 * 65_280 + 2) + everything),
            vec![],
        ),
        in_wide_form("256 by 256 tiles in the wide form", p().with_empty_grid(256, 256), Err(4), vec![]),
        trial("254 by 129 tiles with a gain map and Exif", more_ids.clone(), Err(4), vec![]),
        Trial {
            calls: Calls::Told(Form::Ordinary),
            ..trial("254 by 129 tiles with a gain map and Exif in form 0", more_ids.clone(), Err(4), vec![])
        },
        in_wide_form(
            "254 by 129 tiles with a gain map and Exif in the wide form",
            more_ids,
            Ok(461 + 4 + 89 * 32_766 + 55 + 246 + 2 * (11 + 8 * 32_766 + 4 + 9 + 2)),
            vec![
                after(b"cdsc", &[0, 0, 0xFF, 0xFF, 0, 1, 0, 0, 0x7F, 0xFF]),
                after(b"cdsc", &[0, 1, 0, 1, 0, 1, 0, 1, 0, 0]),
            ],
        ),
    ]
}

/// Offset, size and type of each box of P's file.
const BOXES: [(usize, u32, &[u8; 4]); 12] = [
    (0, 28, b"ftyp"),
    (28, 518, b"meta"),
    (40, 33, b"hdlr"),
    (73, 14, b"pitm"),
    (87, 80, b"iloc"),
    (167, 98, b"iinf"),
    (265, 54, b"iref"),
    (319, 203, b"iprp"),
    (327, 156, b"ipco"),
    (483, 39, b"ipma"),
    (522, 24, b"idat"),
    (546, 10, b"mdat"),
];

/// The same of its wide file.
const WIDE_BOXES: [(usize, u32, &[u8; 4]); 12] = [
    (0, 28, b"ftyp"),
    (28, 560, b"meta"),
    (40, 33, b"hdlr"),
    (73, 16, b"pitm"),
    (89, 90, b"iloc"),
    (179, 108, b"iinf"),
    (287, 66, b"iref"),
    (353, 211, b"iprp"),
    (361, 156, b"ipco"),
    (517, 47, b"ipma"),
    (564, 24, b"idat"),
    (588, 10, b"mdat"),
];

/// Runs every trial.
pub fn run(run: &mut Run) {
    for t in trials().into_iter().chain(wide_trials()) {
        run.panel(&format!("trial {}", t.name), &t.case);
        let mut out = vec![0x5A; t.room];
        let answer = t.calls.write(&t.case.panel(), &mut out);
        if answer != t.answer {
            run.fail(t.name, &format!("answers {answer:?}, the specification {:?}", t.answer), &t.case);
            continue;
        }
        let file = &out[..answer.unwrap_or(0) as usize];
        for bytes in &t.holds {
            if !file.windows(bytes.len()).any(|w| w == bytes) {
                run.fail(t.name, &format!("the file does not hold {bytes:02X?}"), &t.case);
            }
        }
    }
    p_boxes(run, Calls::Plain, &BOXES);
    p_boxes(run, WIDE, &WIDE_BOXES);
}

fn p_boxes(run: &mut Run, calls: Calls, boxes: &[(usize, u32, &[u8; 4])]) {
    let file = calls.to_vec(&p().panel()).unwrap_or_default();
    for &(at, size, kind) in boxes {
        if file.get(at..at + 8) != Some(&[&size.to_be_bytes()[..], kind].concat()[..]) {
            let kind = String::from_utf8_lossy(kind);
            run.fail("P", &format!("{kind}{calls} is not at {at} with {size} bytes"), &p());
        }
    }
}
