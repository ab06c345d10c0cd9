//! Where upstream parts from the specification, as docs/DIFFERENCES.md tells it (D1 to D5, D12): the writer follows the
//! specification there, and upstream still does what is told of it.

use crate::panels::{p, small_gain, Case};
use crate::run::Run;
use crate::upstream;
use kahopiru::GridDims;

/// What upstream does with a panel that the specification refuses.
#[derive(PartialEq, Debug)]
enum Does {
    /// Writes a file that holds these bytes.
    Writes(Vec<u8>),
    /// Says that there are too many items.
    Refuses,
    Panics,
}

fn expected() -> Vec<(&'static str, Case, Does)> {
    let exif = Some(Vec::new());
    let gain = || Some(small_gain(None));
    let grid = |rows, cols| Does::Writes([b"idat", &[0, 0, rows, cols][..]].concat());
    // iloc: version 1, sizes 44 00, then how many entries.
    let entries = |low| Does::Writes([b"iloc", &[1, 0, 0, 0, 0x44, 0, 0, low][..]].concat());
    let sized = |tile_w, tile_h, full_w, full_h| {
        let dims = GridDims { tile_w, tile_h, full_w, full_h, ..p().dims };
        Case { dims, ..p() }
    };
    // Descriptor, of one row and one column; and ispe, whose sizes have 32 bits.
    let descriptor = |full_w, full_h| Does::Writes([b"idat", &[0, 0, 0, 0, 0, full_w, 0, full_h][..]].concat());
    let ispe = |w, h| Does::Writes([b"ispe", &[0, 0, 0, 0, 0, 0, 0, w, 0, 0, 0, h][..]].concat());
    vec![
        ("D1, 257 rows", p().with_empty_grid(1, 257), grid(0, 0)),
        ("D1, 512 columns", p().with_empty_grid(512, 1), grid(0, 0xFF)),
        ("D2, no columns", p().with_empty_grid(0, 1), Does::Panics),
        ("D3, with Exif", Case { exif, gain: gain(), ..p() }.with_empty_grid(254, 129), entries(1)),
        ("D3, without Exif", Case { gain: gain(), ..p() }.with_empty_grid(254, 129), Does::Refuses),
        ("D4", p().with_empty_grid(217, 151), entries(0)),
        ("D5", p().with_empty_grid(256, 256), Does::Panics),
        ("D12, one wider", sized(64, 64, 65, 64), descriptor(65, 64)),
        ("D12, one higher", sized(64, 64, 64, 65), descriptor(64, 65)),
        ("D12, no full width", sized(64, 64, 0, 64), descriptor(0, 64)),
        ("D12, no full height", sized(64, 64, 64, 0), descriptor(64, 0)),
        ("D12, no tile width", sized(0, 64, 64, 64), ispe(0, 64)),
        ("D12, no tile height", sized(64, 0, 64, 64), ispe(64, 0)),
    ]
}

/// Looks at each, on both sides. Answers how many there are.
pub fn run(run: &mut Run) -> usize {
    for (name, case, _) in expected() {
        if run.panel(name, &case).is_none() {
            run.fail(name, "by the prediction it is accepted", &case);
        }
    }
    // Upstream's panics are expected here, and their messages would only alarm.
    let hook = std::panic::take_hook();
    std::panic::set_hook(Box::new(|_| ()));
    let seen: Vec<_> = expected().into_iter().map(|(name, case, does)| (name, upstream::write(&case), does)).collect();
    std::panic::set_hook(hook);
    let count = seen.len();
    for (name, outcome, does) in seen {
        let as_told = match (&does, &outcome) {
            (Does::Writes(bytes), Ok(file)) => file.windows(bytes.len()).any(|w| w == bytes),
            (Does::Refuses, Err(why)) => why.contains("too many HEIF items"),
            (Does::Panics, Err(why)) => why == "panics",
            _ => false,
        };
        if !as_told {
            let seen = outcome.map(|file| format!("a file of {} bytes", file.len()));
            run.fail(name, "upstream does something else than docs/DIFFERENCES.md tells", &(does, seen));
        }
    }
    count
}
