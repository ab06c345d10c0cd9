//! Upstream's `wrap_hevc_grid_with_alpha` (awxkee/hpvca), built from its own source with its records and samples handed
//! in. This is what the writer is compared with and timed against. Upstream's `write_clap`, which that function does
//! not call, is there beside it.
//!
//! build.rs puts the source together; this file stands in for what upstream's crate has around it.

use std::panic::{AssertUnwindSafe, catch_unwind};

include!(concat!(env!("OUT_DIR"), "/modules.rs"));

mod hevc;

use hevc::NaluStream;

/// Stands in for upstream's largest picture side, which only one of its error messages names.
pub const MAX_DIM: u32 = 65_536;

/// A panel in upstream's types, its records and samples given.
pub struct Panel<'a> {
    pub cols: u32,
    pub rows: u32,
    pub tile_w: u32,
    pub tile_h: u32,
    pub full_w: u32,
    pub full_h: u32,
    pub bit_depth: fmt::BitDepth,
    pub color_hvcc: &'a [u8],
    pub alpha_hvcc: &'a [u8],
    pub color_samples: Vec<&'a [u8]>,
    pub alpha_samples: Vec<&'a [u8]>,
    pub color_meta: color::ColorMetadata,
    pub metadata: metadata::Metadata,
    pub gain_map: Option<GainMap<'a>>,
}

/// A gain map in upstream's types, its record and sample given.
pub struct GainMap<'a> {
    pub hvcc: &'a [u8],
    pub sample: &'a [u8],
    pub width: u32,
    pub height: u32,
    pub bit_depth: fmt::BitDepth,
    pub cicp: color::Cicp,
    pub xmp: &'a [u8],
    pub tmap: Option<&'a [u8]>,
    pub alternate_color: Option<color::ColorMetadata>,
}

/// A panel with everything that upstream's function owns already in its hands, so that a run of it copies no sample
/// but into the file. It serves for one run.
pub struct Prepared {
    color_tiles: Vec<NaluStream>,
    alpha_tiles: Vec<NaluStream>,
    dims: isobmff::GridDims,
    bit_depth: fmt::BitDepth,
    color_meta: color::ColorMetadata,
    metadata: metadata::Metadata,
    gain_map: Option<gain_map::EncodedGainMap>,
}

/// Tiles as upstream has them. It asks only the first for its record.
fn tiles(record: &[u8], samples: &[&[u8]]) -> Vec<NaluStream> {
    let record_of = |i| if i == 0 { record } else { &[] };
    samples.iter().enumerate().map(|(i, s)| NaluStream::new(record_of(i), s)).collect()
}

impl Prepared {
    /// Copies a panel's parts into upstream's own types.
    pub fn new(p: &Panel<'_>) -> Prepared {
        let gain = |g: &GainMap<'_>| gain_map::EncodedGainMap {
            stream: NaluStream::new(g.hvcc, g.sample),
            width: g.width,
            height: g.height,
            bit_depth: g.bit_depth,
            cicp: g.cicp,
            xmp: g.xmp.to_vec(),
            tmap: g.tmap.map(<[u8]>::to_vec),
            alternate_color: g.alternate_color.clone(),
        };
        Prepared {
            color_tiles: tiles(p.color_hvcc, &p.color_samples),
            alpha_tiles: tiles(p.alpha_hvcc, &p.alpha_samples),
            dims: isobmff::GridDims {
                cols: p.cols,
                rows: p.rows,
                tile_w: p.tile_w,
                tile_h: p.tile_h,
                full_w: p.full_w,
                full_h: p.full_h,
            },
            bit_depth: p.bit_depth,
            color_meta: p.color_meta.clone(),
            metadata: p.metadata.clone(),
            gain_map: p.gain_map.as_ref().map(gain),
        }
    }

    /// Upstream's function itself. It may panic.
    #[inline]
    pub fn run(&self) -> Result<Vec<u8>, String> {
        let img = isobmff::ImageMeta {
            bit_depth: self.bit_depth,
            color_meta: &self.color_meta,
            metadata: &self.metadata,
            gain_map: self.gain_map.as_ref(),
        };
        isobmff::wrap_hevc_grid_with_alpha(&self.color_tiles, &self.alpha_tiles, self.dims, img)
            .map_err(|e| e.to_string())
    }
}

/// Upstream's clap box, for a picture of this decoded size of which this visible size is shown: each a width and a
/// height of at most 2³¹ - 1, since upstream subtracts in 32 bits with a sign.
pub fn clap(decoded: (u32, u32), visible: (u32, u32)) -> Vec<u8> {
    let mut bytes = Vec::new();
    isobmff::write_clap(&mut bytes, decoded, visible);
    bytes
}

/// What upstream makes of a panel: its file, its error, or where it panics.
pub fn write(panel: &Panel<'_>) -> Result<Vec<u8>, String> {
    let prepared = Prepared::new(panel);
    catch_unwind(AssertUnwindSafe(|| prepared.run())).unwrap_or_else(|_| Err("panics".into()))
}
