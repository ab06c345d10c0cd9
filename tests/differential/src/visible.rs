//! Panels with a visible size that are listed, not drawn; the causes of refusal 22; and predictions that are wrong in
//! one of them.

use crate::panels::{full, p, Case};
use crate::predict::{self, Answer};
use crate::random::{Rng, MOST_DECODED};
use crate::run::Run;
use crate::sets;
use kahopiru::{Panel, Refusal, VisibleSize};

/// Whether a visible size is refused for a cause.
type Cause = fn(&Case, VisibleSize) -> bool;

/// What a visible size is refused for.
pub const CAUSES: [(&str, Cause); 6] = [
    ("a visible width of 0", |_, v| v.w == 0),
    ("a visible height of 0", |_, v| v.h == 0),
    ("a visible width above the tile's", |c, v| v.w > c.dims.tile_w),
    ("a visible height above the tile's", |c, v| v.h > c.dims.tile_h),
    ("a tile wider than 2,147,483,647", |c, _| c.dims.tile_w >> 31 == 1),
    ("a tile higher than 2,147,483,647", |c, _| c.dims.tile_h >> 31 == 1),
];

/// Whether a cause holds for a panel.
pub fn caused(case: &Case, cause: Cause) -> bool {
    case.visible.is_some_and(|visible| cause(case, visible))
}

/// The causes that hold for a panel.
pub fn causes(case: &Case) -> Vec<&'static str> {
    CAUSES.iter().filter(|(_, cause)| caused(case, *cause)).map(|(name, _)| *name).collect()
}

// ---- sizes

/// Decoded and visible sizes around each cause, along one axis, with pictures around what is covered: by what is shown
/// of the tiles, and by the tiles.
fn sizes() -> Vec<(String, Case)> {
    let most = u64::from(MOST_DECODED);
    let mut all = Vec::new();
    for tiles in [1, 3, 256] {
        for tile in [0, 1, 2, 63, 64, 65_535, 65_536, most - 1, most, most + 1, u64::from(u32::MAX)] {
            for shown in around(&[0, 1, tile / 2, tile, most, u64::from(u32::MAX)]) {
                for full_size in around(&[0, u64::from(tiles) * u64::from(shown), u64::from(tiles) * tile]) {
                    let name = format!("{shown} of {tile}, {tiles} times, for {full_size}");
                    let tile = tile as u32;
                    for base in [p(), full()] {
                        let mut case = base.with_empty_grid(tiles, 1);
                        (case.dims.tile_w, case.dims.full_w) = (tile, full_size);
                        case.visible = Some(VisibleSize { w: shown, h: 64 });
                        all.push((format!("{name}, across"), case));
                    }
                    let mut case = p().with_empty_grid(1, tiles);
                    (case.dims.tile_h, case.dims.full_h) = (tile, full_size);
                    case.visible = Some(VisibleSize { w: 64, h: shown });
                    all.push((format!("{name}, down"), case));
                }
            }
        }
    }
    all
}

/// These numbers and their neighbours, as far as they have 32 bits.
fn around(numbers: &[u64]) -> Vec<u32> {
    let near = |n: u64| [n.checked_sub(1), Some(n), n.checked_add(1)];
    let mut all: Vec<u32> = numbers.iter().flat_map(|&n| near(n)).flatten().filter_map(|n| n.try_into().ok()).collect();
    all.sort_unstable();
    all.dedup();
    all
}

/// Sizes of one axis or of both, as upstream's clap has them: each side alone and with each other, then at random.
fn claps(rng: &mut Rng) -> Vec<(String, Case)> {
    let most = MOST_DECODED;
    let sides = [(64, 64), (64, 63), (64, 1), (66, 65), (1, 1), (2, 1), (65_536, 65_535), (most, most), (most, 1)];
    let sides =
        [&sides[..], &[(most, most - 1), (most - 1, most - 2), (most, most / 2), (most, most / 2 + 1)]].concat();
    let mut pairs: Vec<_> = sides.iter().flat_map(|&across| sides.iter().map(move |&down| (across, down))).collect();
    for _ in 0..2_000 {
        let mut side = || {
            let tile = 1 + (rng.next() as u32 & most) % (most >> rng.below(31));
            (tile, 1 + rng.below(u64::from(tile)) as u32)
        };
        pairs.push((side(), side()));
    }
    let mut all = Vec::new();
    for ((tile_w, w), (tile_h, h)) in pairs {
        for base in [p(), full()] {
            let mut case = base;
            (case.dims.tile_w, case.dims.tile_h) = (tile_w, tile_h);
            all.push((format!("{w} by {h} of {tile_w} by {tile_h}"), case.with_visible(w, h)));
        }
    }
    all
}

/// Panels around each cause of 22 and around what 8 asks, and the sizes that upstream's clap is compared on.
pub fn run_sizes(run: &mut Run) {
    let mut rng = Rng::new(0xC1A9);
    for (name, case) in sizes().into_iter().chain(claps(&mut rng)) {
        run.panel(&name, &case);
    }
}

/// Each listed panel that is accepted without a visible size, with one: of all of a tile, and cut across, down and both
/// ways.
pub fn run_beside(run: &mut Run) {
    for (name, case) in sets::whole() {
        let dims = case.dims;
        for (w, h) in [(dims.tile_w, dims.tile_h), (dims.tile_w - 1, dims.tile_h), (dims.tile_w, 1), (61, 63)] {
            run.panel(&format!("{name}, {w} by {h} shown"), &case.clone().with_visible(w, h));
        }
    }
}

// ---- predictions that are wrong

/// What a prediction would answer that asks 22 by another rule, and all else as it is.
fn with_rule(panel: &Panel<'_>, refused: bool) -> Answer {
    let mut holding = predict::holding(panel, None);
    holding.retain(|&number| number != 22);
    if refused && !holding.contains(&1) {
        holding.insert(0, 22);
    }
    holding.first().map_or(Ok(predict::length(panel) as u64), |&number| Err(number))
}

/// What a prediction would answer that judges what is covered by the decoded sizes.
fn by_decoded(panel: &Panel<'_>) -> Answer {
    let first = predict::holding(panel, None).first().copied();
    let whole = predict::answer(&Panel { visible: None, ..*panel }, None);
    match first {
        Some(8) => whole.map(|_| predict::length(panel) as u64),
        Some(number) => Err(number),
        None => Ok(predict::length(panel) as u64),
    }
}

/// A prediction that is wrong: its name, and what it answers.
type Wrong = (String, Box<dyn Fn(&Case) -> Answer>);

fn wrong() -> Vec<Wrong> {
    let mut all: Vec<Wrong> = Vec::new();
    for (without, _) in CAUSES {
        let rule = move |case: &Case| {
            let others = causes(case).into_iter().any(|name| name != without);
            with_rule(&case.panel(), others)
        };
        all.push((format!("a prediction that lets {without} pass"), Box::new(rule)));
    }
    let mut stricter = |name: &str, rule: fn(&Case, VisibleSize) -> bool| {
        let rule = move |case: &Case| with_rule(&case.panel(), !causes(case).is_empty() || caused(case, rule));
        all.push((format!("a prediction that refuses {name}"), Box::new(rule)));
    };
    stricter("a visible width of all of the tile's", |c, v| v.w == c.dims.tile_w);
    stricter("a visible height of all of the tile's", |c, v| v.h == c.dims.tile_h);
    stricter("a visible width of 1", |_, v| v.w == 1);
    stricter("a visible height of 1", |_, v| v.h == 1);
    stricter("a tile of a width of 2,147,483,647", |c, _| c.dims.tile_w == MOST_DECODED);
    stricter("a tile of a height of 2,147,483,647", |c, _| c.dims.tile_h == MOST_DECODED);
    all.push(("a prediction that judges the cover by decoded sizes".into(), Box::new(|c| by_decoded(&c.panel()))));
    let short = |less: fn(u64) -> u64| {
        move |case: &Case| {
            let answer = predict::answer(&case.panel(), None);
            answer.map(|length| length - less(u64::from(case.dims.cols * case.dims.rows)))
        }
    };
    all.push(("a length that counts one kind of tile".into(), Box::new(short(|n| n))));
    all.push(("a length without the clap".into(), Box::new(short(|_| 40))));
    all
}

/// Each wrong prediction, and whether a listed panel is answered otherwise.
pub fn predictions() -> Vec<(String, bool)> {
    let listed = sizes();
    let answers: Vec<Answer> =
        listed.iter().map(|(_, case)| kahopiru::file_length(&case.panel()).map_err(Refusal::number)).collect();
    let reported = |(name, wrong): Wrong| {
        let differs = listed.iter().zip(&answers).any(|((_, case), &answer)| wrong(case) != answer);
        (name, differs)
    };
    wrong().into_iter().map(reported).collect()
}
