//! What several tests use: the smallest panel, one with a grid and one with a gain map, here; boxes, random panels,
//! sheets and the tables of docs/LENGTH.md, each in a module.
#![allow(dead_code)] // each test file uses its own part

pub mod accepted;
pub mod boxes;
pub mod listed;
pub mod random;
pub mod sheet;
pub mod table;

use kahopiru::{EncodedGainMap, GridDims, Panel, Samples};

/// One tile of 64 × 64, colour sample AA, alpha sample BB, nothing optional.
pub fn p() -> Panel<'static> {
    Panel {
        dims: GridDims { cols: 1, rows: 1, tile_w: 64, tile_h: 64, full_w: 64, full_h: 64 },
        color_hvcc: &[0x01, 0x01],
        alpha_hvcc: &[0x01, 0x04],
        color_samples: Samples { lengths: &[1], bytes: &[0xAA] },
        alpha_samples: Samples { lengths: &[1], bytes: &[0xBB] },
        ..Panel::default()
    }
}

/// The same with a grid of empty tiles, one for each of these lengths.
pub fn grid(cols: u32, rows: u32, lengths: &[u32]) -> Panel<'_> {
    let samples = Samples { lengths, bytes: &[] };
    let dims = GridDims { cols, rows, ..p().dims };
    Panel { dims, color_samples: samples, alpha_samples: samples, ..p() }
}

/// P with a gain map: record 01 01, sample CC, no XMP.
pub fn with_gain(tmap: Option<&'static [u8]>) -> Panel<'static> {
    let gain = EncodedGainMap {
        hvcc: &[0x01, 0x01],
        sample: &[0xCC],
        width: 32,
        height: 32,
        tmap,
        ..EncodedGainMap::default()
    };
    Panel { gain_map: Some(gain), ..p() }
}
