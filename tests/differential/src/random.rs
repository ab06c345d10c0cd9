//! Random panels: every part present or absent, full or empty, and now and then one that is to be refused.

use crate::exifs::near_misses;
use crate::panels::{Case, Color, Gain};
use crate::reference::MARKER;
use kahopiru::TransferFunction;
use kahopiru::{BitDepth, Cicp, ContentLightLevel, GridDims, MatrixCoefficients, Orientation, Primaries, VisibleSize};

/// A generator of random numbers (SplitMix64): the same seed gives the same panels everywhere.
pub struct Rng(u64);

impl Rng {
    pub fn new(seed: u64) -> Rng {
        Rng(seed)
    }

    pub fn next(&mut self) -> u64 {
        self.0 = self.0.wrapping_add(0x9E37_79B9_7F4A_7C15);
        let mut z = self.0;
        z = (z ^ (z >> 30)).wrapping_mul(0xBF58_476D_1CE4_E5B9);
        z = (z ^ (z >> 27)).wrapping_mul(0x94D0_49BB_1331_11EB);
        z ^ (z >> 31)
    }

    /// A number below a bound.
    pub fn below(&mut self, bound: u64) -> u64 {
        self.next() % bound
    }

    /// True once in so many times.
    pub fn once_in(&mut self, times: u64) -> bool {
        self.below(times) == 0
    }

    fn pick<T: Clone>(&mut self, from: &[T]) -> T {
        from[self.below(from.len() as u64) as usize].clone()
    }

    fn maybe<T>(&mut self, make: impl FnOnce(&mut Rng) -> T) -> Option<T> {
        if self.once_in(2) {
            return None;
        }
        Some(make(self))
    }
}

/// Bytes: often none, mostly few, seldom some hundreds.
pub fn bytes(rng: &mut Rng) -> Vec<u8> {
    let count = match rng.below(16) {
        0..=3 => 0,
        4 => 1,
        5 => 2,
        6..=14 => rng.below(24),
        _ => rng.below(700),
    };
    (0..count).map(|_| rng.next() as u8).collect()
}

/// Exif: one in three begins with its marker, one in three nearly does, alone or with something behind it.
fn exif(rng: &mut Rng) -> Vec<u8> {
    let front = match rng.below(3) {
        0 => MARKER.to_vec(),
        1 => rng.pick(&near_misses()).bytes,
        _ => Vec::new(),
    };
    [front, bytes(rng)].concat()
}

/// A decoder configuration record, one in three of the range extensions profile where it is long enough to say so.
fn record(rng: &mut Rng) -> Vec<u8> {
    let mut record = bytes(rng);
    if rng.once_in(3) {
        if let Some(second) = record.get_mut(1) {
            *second = (*second & 0xE0) | 4;
        }
    }
    record
}

fn cicp(rng: &mut Rng) -> Cicp {
    Cicp {
        primaries: rng.pick(&Primaries::ALL),
        transfer: rng.pick(&TransferFunction::ALL),
        matrix: rng.pick(&MatrixCoefficients::ALL),
        full_range: rng.once_in(2),
    }
}

fn color(rng: &mut Rng) -> Color {
    Color { cicp: rng.maybe(cicp), icc: rng.maybe(bytes) }
}

/// A size in pixels, often at a place where its width in bytes matters.
fn size(rng: &mut Rng) -> u32 {
    match rng.below(8) {
        0 => rng.pick(&[0, 1, 255, 256, 65_534, 65_535, 65_536, u32::MAX]),
        1 => rng.next() as u32,
        2 => rng.below(70_000) as u32,
        _ => rng.below(5_000) as u32,
    }
}

/// The longest side of a tile of which a part is shown.
pub const MOST_DECODED: u32 = i32::MAX as u32;

/// Along one axis: the size of a tile, what is shown of it, and the full size.
struct Axis {
    tile: u32,
    shown: u32,
    full: u32,
}

/// Sizes along an axis with so many tiles, which cover it: often exactly, or with one to spare.
fn axis(rng: &mut Rng, tiles: u32, visible: bool) -> Axis {
    let tile = size(rng).max(1);
    let tile = if visible { tile.min(MOST_DECODED) } else { tile };
    let shown = if visible { shown(rng, tile) } else { tile };
    let most = shown.saturating_mul(tiles);
    let full = match rng.below(8) {
        0 | 1 => most,
        2 => most - 1,
        3 => 1,
        _ => 1 + rng.below(u64::from(most)) as u32,
    };
    Axis { tile, shown, full: full.max(1) }
}

/// What is shown of a tile's side: all, all but one, one, little, or anything.
fn shown(rng: &mut Rng, tile: u32) -> u32 {
    let shown = match rng.below(8) {
        0 | 1 => tile,
        2 | 3 => tile - 1,
        4 => 1,
        5 => rng.below(u64::from(tile / 8) + 1) as u32,
        _ => rng.below(u64::from(tile)) as u32,
    };
    shown.max(1)
}

/// Gives a panel sizes that its tiles cover; one panel in three has a visible size.
fn sizes(rng: &mut Rng, case: &mut Case) {
    let visible = rng.once_in(3);
    let (across, down) = (axis(rng, case.dims.cols, visible), axis(rng, case.dims.rows, visible));
    (case.dims.tile_w, case.dims.full_w) = (across.tile, across.full);
    (case.dims.tile_h, case.dims.full_h) = (down.tile, down.full);
    case.visible = visible.then_some(VisibleSize { w: across.shown, h: down.shown });
}

/// Sides of the grid: mostly few tiles, seldom a long side.
fn grid(rng: &mut Rng) -> (u32, u32) {
    match rng.below(64) {
        0 => (256, 1 + rng.below(2) as u32),
        1 => (1 + rng.below(2) as u32, 256),
        2..=5 => (1 + rng.below(17) as u32, 1 + rng.below(17) as u32),
        _ => (1 + rng.below(4) as u32, 1 + rng.below(4) as u32),
    }
}

fn lengths(rng: &mut Rng, tiles: u32) -> Vec<u32> {
    let most = rng.pick(&[1, 3, 10, 40]);
    (0..tiles).map(|_| rng.below(most) as u32).collect()
}

fn gain(rng: &mut Rng) -> Gain {
    Gain {
        hvcc: record(rng),
        sample: bytes(rng),
        width: size(rng),
        height: size(rng),
        bit_depth: rng.pick(&BitDepth::ALL),
        cicp: cicp(rng),
        xmp: bytes(rng),
        tmap: rng.maybe(bytes),
        alternate: rng.maybe(color),
    }
}

/// A panel, most probably one that is accepted.
pub fn panel(rng: &mut Rng) -> Case {
    let (cols, rows) = grid(rng);
    let tiles = cols * rows;
    let (color_lengths, alpha_lengths) = (lengths(rng, tiles), lengths(rng, tiles));
    let bit_depth = rng.pick(&BitDepth::ALL);
    let samples = |rng: &mut Rng, lengths: &[u32]| (0..lengths.iter().sum()).map(|_| rng.next() as u8).collect();
    let mut case = Case {
        dims: GridDims { cols, rows, ..GridDims::default() },
        visible: None,
        bit_depth,
        // Upstream has one depth for both.
        alpha_bit_depth: if rng.once_in(2) { bit_depth } else { rng.pick(&BitDepth::ALL) },
        color_hvcc: record(rng),
        alpha_hvcc: record(rng),
        color_samples: samples(rng, &color_lengths),
        alpha_samples: samples(rng, &alpha_lengths),
        color_lengths,
        alpha_lengths,
        color: color(rng),
        orientation: rng.pick(&Orientation::ALL),
        light: rng.maybe(|rng| ContentLightLevel {
            max_content_light_level: rng.next() as u16,
            max_pic_average_light_level: rng.next() as u16,
        }),
        exif: rng.maybe(exif),
        gain: rng.maybe(gain),
    };
    if rng.once_in(4000) {
        case = around_the_last_id(rng, case);
    }
    sizes(rng, &mut case);
    if rng.once_in(100) {
        misfit(rng, &mut case);
    }
    while rng.once_in(25) {
        spoil(rng, &mut case);
    }
    case
}

/// The panel with so many empty tiles that the last id comes close to 65,535, on either side.
fn around_the_last_id(rng: &mut Rng, case: Case) -> Case {
    let (cols, rows) = rng.pick(&[(254, 129), (129, 254), (217, 151), (255, 128), (255, 129), (256, 128), (256, 256)]);
    case.with_empty_grid(cols, rows)
}

/// A visible size that the tiles do not have, or tiles too large for one; mostly one of these alone.
fn misfit(rng: &mut Rng, case: &mut Case) {
    let mut visible = case.shown();
    let dims = &mut case.dims;
    (dims.tile_w, dims.tile_h) = (dims.tile_w.min(MOST_DECODED), dims.tile_h.min(MOST_DECODED));
    (visible.w, visible.h) = (visible.w.min(dims.tile_w), visible.h.min(dims.tile_h));
    let (shown, tile) =
        if rng.once_in(2) { (&mut visible.w, &mut dims.tile_w) } else { (&mut visible.h, &mut dims.tile_h) };
    let too_large = [MOST_DECODED + 1, u32::MAX, 1 << 31 | rng.next() as u32];
    match rng.below(5) {
        0 => *shown = 0,
        1 => *shown = *tile + 1,
        2 => *shown = tile.saturating_add(rng.next() as u32),
        3 => *tile = rng.pick(&too_large),
        _ => *tile = 0,
    }
    case.visible = Some(visible);
}

/// Breaks one of the rules of a panel. Done twice it may mend it again, or break two.
fn spoil(rng: &mut Rng, case: &mut Case) {
    let side = |rng: &mut Rng| rng.pick(&[0, 257, 512, 65_536, 65_537, u32::MAX]);
    match rng.below(10) {
        0 => case.dims.cols = side(rng),
        1 => case.dims.rows = side(rng),
        2 => case.color_lengths.push(0),
        3 => case.alpha_lengths.truncate(case.alpha_lengths.len().saturating_sub(1)),
        4 => case.color_samples.push(0),
        5 => case.alpha_samples.truncate(case.alpha_samples.len().saturating_sub(1)),
        6 => std::mem::swap(&mut case.color_lengths, &mut case.alpha_lengths),
        7 => uncover(rng, case),
        8 => {
            let dims = &mut case.dims;
            let size = [&mut dims.tile_w, &mut dims.tile_h, &mut dims.full_w, &mut dims.full_h];
            *size.into_iter().nth(rng.below(4) as usize).expect("there are four") = 0;
        }
        _ => {
            if let Some(first) = case.alpha_lengths.first_mut() {
                *first = first.wrapping_sub(1);
            }
        }
    }
}

/// Makes the picture one wider or higher than what is shown of its tiles reaches, where 32 bits have that size.
fn uncover(rng: &mut Rng, case: &mut Case) {
    let (shown, dims) = (case.shown(), &mut case.dims);
    if rng.once_in(2) {
        dims.full_w = dims.cols.saturating_mul(shown.w).saturating_add(1);
    } else {
        dims.full_h = dims.rows.saturating_mul(shown.h).saturating_add(1);
    }
}
