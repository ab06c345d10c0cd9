//! The wide form where it ends: around as many tiles as a reference can lead to, and around as many as the ordinary
//! form has ids for; and predictions of this form that are wrong.

use crate::calls::{Calls, WIDE};
use crate::panels::{full, p, small_gain, Case};
use crate::predict::{self, Answer, Form};
use crate::run::{Rooms, Run};
use crate::sets::{self, Named};
use kahopiru::Panel;

/// Columns and rows: 65,025 tiles, 65,280 both ways round, and 65,536.
const MOST: [(u32, u32); 4] = [(255, 255), (255, 256), (256, 255), (256, 256)];

/// The same, then the most tiles that the ordinary form takes, one more and two more.
fn every_grid() -> impl Iterator<Item = (u32, u32)> {
    MOST.into_iter().chain([(254, 129), (217, 151), (256, 128)])
}

/// Panels with nothing optional, with each thing that takes an id, and with everything.
fn options() -> [(&'static str, Case); 6] {
    let gain = |tmap| Some(small_gain(tmap));
    [
        ("nothing optional", p()),
        ("Exif", Case { exif: Some(Vec::new()), ..p() }),
        ("a gain map", Case { gain: gain(None), ..p() }),
        ("a tone map", Case { gain: gain(Some(Vec::new())), ..p() }),
        ("everything", full()),
        ("everything and a visible size", full().with_visible(63, 1)),
    ]
}

/// Every option with the most tiles, and with one row more; into every room where there are as many as can be.
fn panels(run: &mut Run) {
    for (cols, rows) in MOST {
        let rooms = if (cols, rows) == (255, 256) { Rooms::Every } else { Rooms::Two };
        for (option, case) in options() {
            let name = format!("{cols} by {rows} tiles, {option}");
            run.panel_with(Some(rooms), &name, &case.with_mixed_grid(cols, rows));
        }
    }
}

/// Lists that are one short or one long, and sums that are off by one.
fn spoiled() -> Named {
    let mut all = Vec::new();
    for (cols, rows) in every_grid() {
        for (way, spoil) in sets::SPOILED.iter().enumerate() {
            let mut case = full().with_mixed_grid(cols, rows);
            spoil(&mut case);
            all.push((format!("{cols} by {rows} tiles, spoiled in way {way}"), case));
        }
    }
    all
}

pub fn run(run: &mut Run) {
    panels(run);
    sets::run_all(run, spoiled());
}

// ---- predictions that are wrong

/// A prediction that is wrong: its name, and what it answers.
type Wrong = (&'static str, fn(&Panel<'_>) -> Answer);

/// What a prediction would answer that asks 4 by another rule. The panel has no other fault.
fn with_rule(panel: &Panel<'_>, refused: bool) -> Answer {
    if refused {
        return Err(4);
    }
    Ok(predict::length_in(Form::Wide, panel) as u64)
}

/// What a prediction would answer by which the file has so many bytes more.
fn longer(panel: &Panel<'_>, by: i128) -> Answer {
    WIDE.expected(panel, None).map(|length| (i128::from(length) + by) as u64)
}

const WRONG: [Wrong; 10] = [
    ("4 by the last id", |p| with_rule(p, predict::last_id(p) > 65_535)),
    ("4 by the last id of a tile", |p| with_rule(p, 2 * predict::tiles(p) + 1 > 65_535)),
    ("65,536 tiles accepted", |p| with_rule(p, predict::tiles(p) > 65_536)),
    ("65,280 tiles refused", |p| with_rule(p, predict::tiles(p) >= 65_280)),
    ("the ordinary form", |p| Calls::Plain.expected(p, None)),
    ("the ordinary length", |p| WIDE.expected(p, None).map(|_| predict::length(p) as u64)),
    ("one count in 16 bits", |p| longer(p, -2)),
    ("a count of 32 bits in each reference of a grid", |p| longer(p, 2 + 2)),
    ("ids of 16 bits in ipma", |p| longer(p, -2 * (2 * predict::tiles(p) + 2))),
    ("ids of 64 bits in grpl", |p| longer(p, if p.gain_map.is_some_and(|g| g.tmap.is_some()) { 12 } else { 0 })),
];

/// Each wrong prediction, and whether a listed panel is answered otherwise.
pub fn predictions() -> Vec<(String, bool)> {
    let mut listed = Vec::new();
    for (cols, rows) in every_grid().chain([(1, 1)]) {
        listed.extend(options().into_iter().map(|(_, case)| case.with_empty_grid(cols, rows)));
    }
    let answers: Vec<Answer> = listed.iter().map(|case| WIDE.length(&case.panel())).collect();
    let reported = |(name, wrong): Wrong| {
        let differs = listed.iter().zip(&answers).any(|(case, &answer)| wrong(&case.panel()) != answer);
        (format!("of the wide form, {name}"), differs)
    };
    WRONG.into_iter().map(reported).collect()
}
