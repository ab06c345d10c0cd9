//! The panels that are timed, in the types of either side.

use kahopiru::{GridDims, Panel, Samples};

/// A panel without options: a grid of tiles, each of the same length.
pub struct Tiles {
    dims: GridDims,
    lengths: Vec<u32>,
    color: Vec<u8>,
    alpha: Vec<u8>,
    each: usize,
}

const COLOR_HVCC: &[u8] = &[0x01, 0x01];
const ALPHA_HVCC: &[u8] = &[0x01, 0x04];

impl Tiles {
    pub fn new(cols: u32, rows: u32, each: usize) -> Tiles {
        let count = (cols * rows) as usize;
        // Colour and alpha have bytes of their own, as in a picture; shared ones would be read from a nearer cache.
        let bytes = |from: usize| (from..from + count * each).map(|i| (i % 251) as u8).collect();
        Tiles {
            dims: GridDims { cols, rows, tile_w: 64, tile_h: 64, full_w: 64 * cols, full_h: 64 * rows },
            lengths: vec![each as u32; count],
            color: bytes(0),
            alpha: bytes(100),
            each,
        }
    }

    /// As the binding takes it.
    pub fn ours(&self) -> Panel<'_> {
        Panel {
            dims: self.dims,
            color_hvcc: COLOR_HVCC,
            alpha_hvcc: ALPHA_HVCC,
            color_samples: Samples { lengths: &self.lengths, bytes: &self.color },
            alpha_samples: Samples { lengths: &self.lengths, bytes: &self.alpha },
            ..Panel::default()
        }
    }

    /// As upstream's function takes it.
    pub fn theirs(&self) -> oracle::Panel<'_> {
        oracle::Panel {
            cols: self.dims.cols,
            rows: self.dims.rows,
            tile_w: self.dims.tile_w,
            tile_h: self.dims.tile_h,
            full_w: self.dims.full_w,
            full_h: self.dims.full_h,
            bit_depth: oracle::fmt::BitDepth::Eight,
            color_hvcc: COLOR_HVCC,
            alpha_hvcc: ALPHA_HVCC,
            color_samples: self.color.chunks(self.each).collect(),
            alpha_samples: self.alpha.chunks(self.each).collect(),
            color_meta: oracle::color::ColorMetadata { cicp: None, icc: None },
            metadata: oracle::metadata::Metadata::default(),
            gain_map: None,
        }
    }
}
