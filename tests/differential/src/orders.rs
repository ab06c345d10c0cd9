//! The order of the checks: for each two checks of a call that can hold at once, calls at which they do: 22 for each of
//! its causes, the others without a visible size and with one. What they must answer is compared; and the self-test
//! exchanges each two checks in the prediction, which must be reported here.

use crate::calls::{Calls, WIDE};
use crate::compare::{judge, Room};
use crate::memory::Zeros;
use crate::panels::{p, Case};
use crate::predict::{self, Answer};
use crate::random::Rng;
use crate::raw;
use crate::run::Run;
use crate::sheet::sheet;
use crate::sheets::{self, ROOM};
use crate::tiles::{self, MOST_TILES};
use kahopiru::{sys, Cicp, Panel, Refusal, Samples, VisibleSize};
use std::fmt;

/// A call that makes checks.
#[derive(Clone, Copy, Debug, PartialEq)]
enum What {
    Write(Calls),
    Length(Calls),
    Tile,
    Sheet,
}

impl fmt::Display for What {
    fn fmt(&self, f: &mut fmt::Formatter<'_>) -> fmt::Result {
        match self {
            What::Write(calls) => write!(f, "write{calls}"),
            What::Length(calls) => write!(f, "file_length{calls}"),
            What::Tile => f.write_str("tile"),
            What::Sheet => f.write_str("sheet"),
        }
    }
}

/// The checks of each call, in the order in which they are made; that 13 comes before them, codes.rs tries. Where a
/// sheet is spoiled, the reading meets the depths (13) before the end (11).
const ORDERS: [(What, &[u32]); 6] = [
    (What::Write(Calls::Plain), &[1, 22, 8, 2, 3, 4, 5, 6]),
    (What::Length(Calls::Plain), &[1, 22, 8, 2, 3, 4, 5]),
    (What::Write(WIDE), &[1, 22, 8, 2, 3, 4, 5, 6]),
    (What::Length(WIDE), &[1, 22, 8, 2, 3, 4, 5]),
    (What::Tile, &[2, 3, 4, 7]),
    (What::Sheet, &[15, 12, 13, 11, 14, 1, 8, 6]),
];

/// A sheet that ends too soon has no bytes left over.
const NEVER_AT_ONCE: Pair = [11, 14];

/// Two checks, in the order in which they are made.
pub type Pair = [u32; 2];

/// A call at which two checks hold.
#[derive(Debug)]
struct Call {
    what: What,
    pair: Pair,
    /// What holds by the prediction, in its order.
    holding: Vec<u32>,
    answer: Answer,
    /// Whether the output is as it was, where there is one.
    kept: bool,
}

/// Each two checks of each call that can hold at once.
fn pairs() -> Vec<(What, Pair)> {
    let mut pairs = Vec::new();
    for (what, order) in ORDERS {
        for (i, &first) in order.iter().enumerate() {
            pairs.extend(order[i + 1..].iter().map(|&second| (what, [first, second])));
        }
    }
    pairs.retain(|&(_, pair)| pair != NEVER_AT_ONCE);
    pairs
}

/// Whether an output was kept by a call that answered so.
fn kept(answer: Answer, room: &Room) -> bool {
    judge(answer, &[], answer, room).is_ok()
}

// ---- panels

/// A tile for P: its size, and what is shown of it.
struct Tile {
    size: (u32, u32),
    visible: Option<(u32, u32)>,
}

const fn tile(size: (u32, u32), visible: (u32, u32)) -> Tile {
    Tile { size, visible: Some(visible) }
}

/// Tiles without a visible size, and with one that is not refused.
const GOOD: [Tile; 4] = [
    Tile { size: (64, 64), visible: None },
    tile((64, 64), (64, 64)),
    tile((66, 66), (65, 64)),
    tile((66, 66), (64, 65)),
];

/// Tiles for which 22 holds, by one cause each, and that cover P.
const MISFITS: [Tile; 6] = [
    tile((64, 64), (65, 64)),
    tile((64, 64), (64, 65)),
    tile((0, 64), (64, 64)),
    tile((64, 0), (64, 64)),
    tile((1 << 31, 64), (64, 64)),
    tile((64, 1 << 31), (64, 64)),
];

/// Tiles for which 22 holds, and that cover nothing, so that 8 does, too.
const SHOWING_NOTHING: [Tile; 3] = [tile((64, 64), (0, 64)), tile((64, 64), (64, 0)), tile((0, 0), (0, 0))];

/// The tiles of panels for which these two checks hold, and none that is made before the second.
fn tiles_for(pair: Pair) -> Vec<&'static Tile> {
    match pair {
        [1, 22] | [22, 8] => MISFITS.iter().chain(&SHOWING_NOTHING).collect(),
        _ if pair.contains(&22) => MISFITS.iter().collect(),
        _ => GOOD.iter().collect(),
    }
}

/// A panel for which these checks hold.
fn spoiled(pair: Pair, tile: &Tile) -> Case {
    let has = |number| pair.contains(&number);
    let mut case = match (has(1), has(4)) {
        (false, false) => p(),
        (true, false) => p().with_empty_grid(1, 257),
        (false, true) => p().with_empty_grid(256, 256),
        (true, true) => p().with_empty_grid(256, 257),
    };
    (case.dims.tile_w, case.dims.tile_h) = tile.size;
    case.visible = tile.visible.map(|(w, h)| VisibleSize { w, h });
    if has(8) {
        case.dims.full_w = case.dims.cols * case.shown().w + 1;
    }
    if has(2) {
        case.color_lengths.push(0);
    }
    if has(3) {
        case.color_samples.push(0);
    }
    case
}

/// A panel for which these checks hold. The Exif that makes a file too long is not read.
fn spoiled_panel<'a>(pair: Pair, case: &'a Case, zeros: &'a [u8]) -> Panel<'a> {
    let mut panel = case.panel();
    if pair.contains(&5) {
        panel.metadata.exif = Some(zeros);
    }
    panel
}

fn length_call(calls: Calls, pair: Pair, panel: &Panel<'_>) -> Call {
    let holding = predict::holding_in(calls.form(), panel, None);
    Call { what: What::Length(calls), pair, holding, answer: calls.length(panel), kept: true }
}

fn write_call(calls: Calls, pair: Pair, panel: &Panel<'_>) -> Call {
    let size = if pair.contains(&6) { 0 } else { 700 };
    let mut room = Room::new();
    let answer = calls.write(panel, room.lend(size));
    let holding = predict::holding_in(calls.form(), panel, Some(size));
    Call { what: What::Write(calls), pair, holding, answer, kept: kept(answer, &room) }
}

/// What is done with a panel for which two checks hold: the pair, the panel's numbers, and its parts.
pub type Numbers<'a> = &'a mut dyn FnMut(Pair, sys::Panel, &sys::Lent<'_>);

/// Hands over each panel for which two checks of the writing call hold, as the archive's own interface takes it.
pub fn each_spoiled(hand_over: Numbers<'_>) {
    let zeros = Zeros::new(1 << 32);
    for (_, pair) in pairs().into_iter().filter(|(what, _)| *what == What::Write(Calls::Plain)) {
        for tile in tiles_for(pair) {
            let case = spoiled(pair, tile);
            let mut numbers = raw::numbers(&case, &mut Rng::new(0));
            let mut lent = raw::lent(&case, &[]);
            if pair.contains(&5) {
                (numbers.has_exif, lent.exif) = (1, zeros.slice());
            }
            hand_over(pair, numbers, &lent);
        }
    }
}

// ---- tile lookups

fn lookup_call(pair: Pair) -> Call {
    let has = |number| pair.contains(&number);
    let lengths = vec![0; MOST_TILES + 2];
    let count = if has(4) { MOST_TILES + 1 } else { 1 };
    let color = Samples { lengths: &lengths[..count], bytes: if has(3) { &[0] } else { &[] } };
    let alpha = Samples { lengths: &lengths[..count + usize::from(has(2))], bytes: &[] };
    let id = if has(7) { 0 } else { 1 };
    let answer = kahopiru::tile(id, color, alpha).map(|part| part.len() as u64).map_err(Refusal::number);
    Call { what: What::Tile, pair, holding: tiles::holding(id, color, alpha), answer, kept: true }
}

// ---- sheets

/// The places of a sheet's two depths.
const DEPTH: usize = 22;
const ALPHA_DEPTH: usize = 23;

/// A sheet for which these checks hold, 13 by the code at a place. Exif comes last, so that what is cut off is missing
/// there.
fn spoiled_sheet(pair: Pair, code: usize) -> Vec<u8> {
    let has = |number| pair.contains(&number);
    let mut base = if has(1) { p().with_empty_grid(1, 257) } else { p() };
    if has(8) {
        base.dims.full_h = base.dims.rows * base.dims.tile_h + 1;
    }
    let exif = Some(vec![0; if has(15) { 12_288 } else { 8 }]);
    let mut bytes = sheet(&Case { exif, ..base });
    if has(12) {
        bytes[0] |= 1 << 1; // bit 9 of the map
    }
    if has(13) {
        bytes[code] = 3;
    }
    if has(11) {
        bytes.pop();
    }
    if has(14) {
        bytes.push(0);
    }
    bytes
}

/// A colour that ends before its last code, and whose first names nothing: 13 is met first.
fn half_a_colour() -> Vec<u8> {
    let mut case = p();
    case.color.cicp = Some(Cicp::bt709());
    let mut bytes = sheet(&case);
    let at = bytes.len() - 7;
    bytes[at + 1] = 3;
    bytes.pop();
    bytes
}

fn sheet_call(pair: Pair, bytes: &[u8]) -> Call {
    let size = if pair.contains(&6) { 0 } else { ROOM };
    let mut room = Room::new();
    let answer = raw::answer(sys::sheet(bytes, room.lend(size)));
    Call { what: What::Sheet, pair, holding: sheets::holding(bytes, size).0, answer, kept: kept(answer, &room) }
}

// ---- all of them

fn calls() -> Vec<Call> {
    let zeros = Zeros::new(1 << 32);
    let of_panels = |pair, call: &dyn Fn(&Panel<'_>) -> Call| {
        let of_tile = |tile| call(&spoiled_panel(pair, &spoiled(pair, tile), zeros.slice()));
        tiles_for(pair).into_iter().map(of_tile).collect()
    };
    let of_pair = |(what, pair)| match what {
        What::Write(calls) => of_panels(pair, &|panel| write_call(calls, pair, panel)),
        What::Length(calls) => of_panels(pair, &|panel| length_call(calls, pair, panel)),
        What::Tile => vec![lookup_call(pair)],
        What::Sheet => vec![sheet_call(pair, &spoiled_sheet(pair, DEPTH))],
    };
    let mut calls: Vec<Call> = pairs().into_iter().flat_map(of_pair).collect();
    let codes = pairs().into_iter().filter(|(what, pair)| *what == What::Sheet && pair.contains(&13));
    calls.extend(codes.map(|(_, pair)| sheet_call(pair, &spoiled_sheet(pair, ALPHA_DEPTH))));
    calls.push(sheet_call([13, 11], &half_a_colour()));
    calls
}

/// Compares the panels of which no part is too long to be read, by every call that judges a panel.
pub fn panels(run: &mut Run) {
    for (what, pair) in pairs() {
        if what == What::Length(Calls::Plain) && !pair.contains(&5) {
            for tile in tiles_for(pair) {
                run.panel(&format!("a panel where {} and {} hold", pair[0], pair[1]), &spoiled(pair, tile));
            }
        }
    }
}

/// Compares each call. Answers how many there are.
pub fn run(run: &mut Run) -> usize {
    let calls = calls();
    for call in &calls {
        let name = format!("{} where {} and {} hold", call.what, call.pair[0], call.pair[1]);
        if !call.holding.starts_with(&call.pair) {
            run.fail(&name, "by the prediction others hold, or in another order", call);
        }
        if call.answer.err() != call.holding.first().copied() {
            run.fail(&name, "another answer than predicted", call);
        }
        if !call.kept {
            run.fail(&name, "touches the output", call);
        }
    }
    calls.len()
}

/// What a prediction would answer that makes two checks in the other order.
fn exchanged(holding: &[u32], [a, b]: Pair) -> Option<u32> {
    let mut holding = holding.to_vec();
    let place = |number| holding.iter().position(|&n| n == number);
    if let (Some(i), Some(j)) = (place(a), place(b)) {
        holding.swap(i, j);
    }
    holding.first().copied()
}

/// Each two checks of each call, exchanged in the prediction: its name, and whether a call answers something else.
pub fn exchanges() -> Vec<(String, bool)> {
    let calls = calls();
    let reported = |(what, pair): (What, Pair)| {
        let differs = |call: &Call| call.what == what && exchanged(&call.holding, pair) != call.answer.err();
        (format!("{what} with {} and {} exchanged", pair[0], pair[1]), calls.iter().any(differs))
    };
    pairs().into_iter().map(reported).collect()
}
