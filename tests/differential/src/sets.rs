//! Sets of panels that are listed, not drawn.

use crate::exifs::{near_misses, Start};
use crate::panels::{full, p, small_gain, Case, Color, Gain, LIGHT};
use crate::reference::MARKER;
use crate::run::{Rooms, Run};
use kahopiru::{BitDepth, Cicp, Orientation, VisibleSize};

/// Panels and their names.
pub type Named = Vec<(String, Case)>;

/// Compares all of them.
pub fn run_all(run: &mut Run, panels: Named) {
    for (name, case) in panels {
        run.panel(&name, &case);
    }
}

pub fn grids(run: &mut Run) {
    run_all(run, every_grid());
}

pub fn combinations(run: &mut Run) {
    run_all(run, every_combination());
}

pub fn depths(run: &mut Run) {
    run_all(run, every_depth());
}

pub fn exif_markers(run: &mut Run) {
    run_all(run, every_marker());
}

/// The panels of these four sets: all are accepted, and have no visible size.
pub fn whole() -> Named {
    [every_grid(), every_combination(), every_depth(), every_marker()].concat()
}

/// Every grid from 1 × 1 to 8 × 8, its samples of different lengths, empty ones among them.
fn every_grid() -> Named {
    let mut all = Vec::new();
    for rows in 1..=8 {
        for cols in 1..=8 {
            for base in [p(), full()] {
                all.push((format!("{rows} rows, {cols} columns"), base.with_mixed_grid(cols, rows)));
            }
        }
    }
    all
}

/// Every combination of small options, 384 of them: the gain map changes fastest, cicp slowest.
fn every_combination() -> Named {
    let mut all = Vec::new();
    for cicp in [None, Some(Cicp::bt709())] {
        for icc in [None, Some(vec![0])] {
            for orientation in Orientation::ALL {
                for light in [None, Some(LIGHT)] {
                    for exif in [None, Some(Vec::new())] {
                        for gain in [None, Some(small_gain(None)), Some(small_gain(Some(Vec::new())))] {
                            let color = Color { cicp, icc: icc.clone() };
                            let case = Case { color, orientation, light, exif: exif.clone(), gain, ..p() };
                            all.push((format!("combination {}", all.len()), case));
                        }
                    }
                }
            }
        }
    }
    assert_eq!(all.len(), 384);
    all
}

/// Every pair of depths, of colour and alpha, in panels that have different things in front of the alpha depth.
fn every_depth() -> Named {
    let mut all = Vec::new();
    let profile = Color { cicp: None, icc: Some(vec![7; 5]) };
    let gain = |hvcc: &[u8], tmap| Some(Gain { hvcc: hvcc.to_vec(), ..small_gain(tmap) });
    for bit_depth in BitDepth::ALL {
        for alpha_bit_depth in BitDepth::ALL {
            for case in [
                p(),
                full(),
                p().with_grid(3, 2, vec![1, 2, 3, 4, 5, 6], vec![6, 5, 4, 3, 2, 1]),
                Case { color_hvcc: vec![1; 40], alpha_hvcc: vec![], ..p() },
                Case { color: profile.clone(), exif: Some(vec![1, 2]), ..p() },
                Case { gain: gain(&[1, 4], None), ..p() },
                Case { gain: gain(&[1, 4], Some(vec![9])), color_hvcc: vec![1, 4], ..p() },
                Case { color: profile.clone(), ..full() },
            ] {
                let name = format!("{bit_depth:?}, alpha {alpha_bit_depth:?}");
                all.push((name, Case { bit_depth, alpha_bit_depth, ..case }));
            }
        }
    }
    all
}

/// Exif with its marker and nearly so, as it is, with a TIFF header behind it and with the marker behind it, in panels
/// that have different things behind the Exif.
fn every_marker() -> Named {
    let mut all = Vec::new();
    let marker = Start { name: "the marker", bytes: MARKER.to_vec() };
    for Start { name, bytes } in near_misses().into_iter().chain([marker]) {
        for tail in [&b""[..], b"MM\0*", &MARKER] {
            let exif = Some([&bytes, tail].concat());
            for case in [
                p(),
                Case { gain: Some(small_gain(None)), ..p() },
                Case { alpha_bit_depth: BitDepth::Twelve, ..full() },
            ] {
                all.push((name.to_string(), Case { exif: exif.clone(), ..case }));
            }
        }
    }
    all
}

/// Sizes on either side of where the descriptor widens, for either side of the picture, in one tile.
pub fn descriptors(run: &mut Run) {
    let sizes = [0, 1, 65_534, 65_535, 65_536, u32::MAX];
    for full_w in sizes {
        for full_h in sizes {
            for base in [p(), full()] {
                let mut case = base;
                (case.dims.full_w, case.dims.full_h) = (full_w, full_h);
                (case.dims.tile_w, case.dims.tile_h) = (full_w, full_h);
                run.panel(&format!("full size {full_w} by {full_h}"), &case);
            }
        }
    }
}

/// Sizes around what tiles cover, on either axis: no size, one short, exactly, one over, and sums of tiles about 2³² and
/// beyond, where 32 bits would lose what is carried.
pub fn covers(run: &mut Run) {
    for tiles in [1, 2, 3, 128, 255, 256] {
        let most = u32::MAX / tiles;
        for tile in [0, 1, 2, 63, 64, 65, 65_535, 65_536, most - 1, most, most.saturating_add(1), 1 << 31, u32::MAX] {
            let sum = u64::from(tiles) * u64::from(tile);
            let carried = u64::from(sum as u32);
            let mut fulls = Vec::new();
            for edge in [0, sum, carried, u64::from(u32::MAX)] {
                fulls.extend([edge.checked_sub(1), Some(edge), edge.checked_add(1)].into_iter().flatten());
            }
            fulls.retain(|&full| full <= u64::from(u32::MAX));
            fulls.sort_unstable();
            fulls.dedup();
            for full in fulls {
                on_each_axis(run, tiles, tile, full as u32);
            }
        }
    }
}

/// So many tiles of a size for a full size: as columns, as rows, and as columns of a panel with every part.
fn on_each_axis(run: &mut Run, tiles: u32, tile: u32, full_size: u32) {
    let name = format!("{tiles} tiles of {tile} for {full_size}");
    for base in [p(), full()] {
        let mut case = base.with_empty_grid(tiles, 1);
        (case.dims.tile_w, case.dims.full_w) = (tile, full_size);
        run.panel(&format!("{name}, across"), &case);
    }
    let mut case = p().with_empty_grid(1, tiles);
    (case.dims.tile_h, case.dims.full_h) = (tile, full_size);
    run.panel(&format!("{name}, down"), &case);
}

/// Grids around the last item id, with and without what takes more ids.
pub fn last_ids(run: &mut Run) {
    for (name, case) in around_the_last_id() {
        run.panel_with(Some(Rooms::Two), &name, &case);
    }
}

/// Their panels.
pub fn around_the_last_id() -> Named {
    let mut all = Vec::new();
    for (cols, rows) in [(254, 129), (129, 254), (217, 151), (255, 129), (255, 128), (256, 127), (256, 256)] {
        for gain in [None, Some(small_gain(None)), Some(small_gain(Some(Vec::new())))] {
            for exif in [None, Some(Vec::new())] {
                let case = Case { gain: gain.clone(), exif, ..p() }.with_empty_grid(cols, rows);
                all.push((format!("{cols} by {rows} tiles"), case));
            }
        }
    }
    all
}

/// Panels that break a rule, and panels that break several, of which the first is answered.
pub fn refusals(run: &mut Run) {
    for side in [0, 257, 512, 65_536, u32::MAX] {
        for other in [0, 1, 256, side] {
            for (cols, rows) in [(side, other), (other, side)] {
                let mut case = p();
                (case.dims.cols, case.dims.rows) = (cols, rows);
                run.panel(&format!("{cols} by {rows} tiles"), &case);
            }
        }
    }
    for spoil in SPOILED {
        for base in [p(), full()] {
            let mut case = base.with_grid(2, 2, vec![1, 0, 2, 3], vec![0, 0, 1, 1]);
            spoil(&mut case);
            run.panel("spoiled", &case);
            // With a picture that is too wide for its tiles, with more shown of them than there is, and with no rows
            // besides.
            case.dims.full_w = 129;
            run.panel("spoiled and too wide", &case);
            case.dims.full_w = 131;
            case.visible = Some(VisibleSize { w: 65, h: 64 });
            run.panel("spoiled, too wide, and with too wide a visible size", &case);
            case.dims.rows = 0;
            run.panel("spoiled, too wide, with too wide a visible size, and without rows", &case);
        }
    }
}

/// Ways to break rules 2 and 3 by one.
pub const SPOILED: [fn(&mut Case); 14] = [
    |c| c.color_lengths.push(0),
    |c| c.alpha_lengths.push(0),
    |c| c.color_lengths.truncate(c.color_lengths.len() - 1),
    |c| c.alpha_lengths.truncate(c.alpha_lengths.len() - 1),
    |c| c.color_lengths.clear(),
    |c| c.alpha_lengths.clear(),
    |c| c.color_samples.push(0),
    |c| c.alpha_samples.push(0),
    |c| c.color_samples.truncate(c.color_samples.len() - 1),
    |c| c.alpha_samples.truncate(c.alpha_samples.len() - 1),
    |c| c.color_lengths[0] += 1,
    |c| c.alpha_lengths[3] -= 1,
    // Sums that are right but for a multiple of 2³².
    |c| c.color_lengths = vec![u32::MAX, u32::MAX, 8, 0],
    // Too many entries and too few bytes: the count is looked at first.
    |c| {
        c.color_lengths.push(0);
        c.color_samples.clear();
    },
];
