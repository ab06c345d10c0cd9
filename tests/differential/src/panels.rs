//! A panel that owns its parts, and the panels that the sets begin from.

use kahopiru::Samples;
use kahopiru::{
    BitDepth, Cicp, ColorMetadata, ContentLightLevel, EncodedGainMap, GridDims, Metadata, Orientation, Panel,
    VisibleSize,
};

/// A colour that owns its profile.
#[derive(Clone, Debug, Default, PartialEq)]
pub struct Color {
    pub cicp: Option<Cicp>,
    pub icc: Option<Vec<u8>>,
}

/// A gain map that owns its parts.
#[derive(Clone, Debug, Default, PartialEq)]
pub struct Gain {
    pub hvcc: Vec<u8>,
    pub sample: Vec<u8>,
    pub width: u32,
    pub height: u32,
    pub bit_depth: BitDepth,
    pub cicp: Cicp,
    pub xmp: Vec<u8>,
    pub tmap: Option<Vec<u8>>,
    pub alternate: Option<Color>,
}

/// A panel that owns its parts.
#[derive(Clone, Debug, Default, PartialEq)]
pub struct Case {
    pub dims: GridDims,
    pub visible: Option<VisibleSize>,
    pub bit_depth: BitDepth,
    pub alpha_bit_depth: BitDepth,
    pub color_hvcc: Vec<u8>,
    pub alpha_hvcc: Vec<u8>,
    pub color_lengths: Vec<u32>,
    pub alpha_lengths: Vec<u32>,
    pub color_samples: Vec<u8>,
    pub alpha_samples: Vec<u8>,
    pub color: Color,
    pub orientation: Orientation,
    pub light: Option<ContentLightLevel>,
    pub exif: Option<Vec<u8>>,
    pub gain: Option<Gain>,
}

impl Color {
    fn lend(&self) -> ColorMetadata<'_> {
        ColorMetadata { cicp: self.cicp, icc: self.icc.as_deref() }
    }
}

impl Gain {
    fn lend(&self) -> EncodedGainMap<'_> {
        EncodedGainMap {
            hvcc: &self.hvcc,
            sample: &self.sample,
            width: self.width,
            height: self.height,
            bit_depth: self.bit_depth,
            cicp: self.cicp,
            xmp: &self.xmp,
            tmap: self.tmap.as_deref(),
            alternate_color: self.alternate.as_ref().map(Color::lend),
        }
    }
}

impl Case {
    /// The panel as the binding takes it.
    pub fn panel(&self) -> Panel<'_> {
        Panel {
            dims: self.dims,
            visible: self.visible,
            bit_depth: self.bit_depth,
            alpha_bit_depth: Some(self.alpha_bit_depth),
            color_hvcc: &self.color_hvcc,
            alpha_hvcc: &self.alpha_hvcc,
            color_samples: Samples { lengths: &self.color_lengths, bytes: &self.color_samples },
            alpha_samples: Samples { lengths: &self.alpha_lengths, bytes: &self.alpha_samples },
            color_meta: self.color.lend(),
            metadata: Metadata {
                orientation: self.orientation,
                content_light_level: self.light,
                exif: self.exif.as_deref(),
            },
            gain_map: self.gain.as_ref().map(Gain::lend),
        }
    }

    /// The same panel with another grid, whose tiles have these lengths.
    pub fn with_grid(mut self, cols: u32, rows: u32, color: Vec<u32>, alpha: Vec<u32>) -> Case {
        self.dims.cols = cols;
        self.dims.rows = rows;
        self.color_samples = counted_bytes(&color, 1);
        self.alpha_samples = counted_bytes(&alpha, 101);
        self.color_lengths = color;
        self.alpha_lengths = alpha;
        self
    }

    /// The same panel with a visible size, and with no more of a picture than that covers.
    pub fn with_visible(mut self, w: u32, h: u32) -> Case {
        self.visible = Some(VisibleSize { w, h });
        self.dims.full_w = self.dims.full_w.min(w.saturating_mul(self.dims.cols));
        self.dims.full_h = self.dims.full_h.min(h.saturating_mul(self.dims.rows));
        self
    }

    /// The size of what is shown of a tile.
    pub fn shown(&self) -> VisibleSize {
        self.visible.unwrap_or(VisibleSize { w: self.dims.tile_w, h: self.dims.tile_h })
    }

    /// The same panel with this depth for colour and alpha.
    pub fn with_depth(self, depth: BitDepth) -> Case {
        Case { bit_depth: depth, alpha_bit_depth: depth, ..self }
    }

    /// The same panel with a grid of tiles of different lengths, empty ones among them.
    pub fn with_mixed_grid(self, cols: u32, rows: u32) -> Case {
        let color = (0..rows * cols).map(|i| i % 4).collect();
        let alpha = (0..rows * cols).map(|i| (i + 2) % 3).collect();
        self.with_grid(cols, rows, color, alpha)
    }

    /// The same panel with a grid of empty tiles.
    pub fn with_empty_grid(self, cols: u32, rows: u32) -> Case {
        let lengths = vec![0; (cols * rows) as usize];
        self.with_grid(cols, rows, lengths.clone(), lengths)
    }
}

/// As many bytes as the lengths sum to; neighbours differ, so that a shift shows.
fn counted_bytes(lengths: &[u32], from: u64) -> Vec<u8> {
    let sum: u64 = lengths.iter().map(|&l| u64::from(l)).sum();
    (from..from + sum).map(|i| (i % 251) as u8).collect()
}

/// Panel P: one tile of 64 × 64, nothing optional.
pub fn p() -> Case {
    Case {
        dims: GridDims { cols: 1, rows: 1, tile_w: 64, tile_h: 64, full_w: 64, full_h: 64 },
        color_hvcc: vec![0x01, 0x01],
        alpha_hvcc: vec![0x01, 0x04],
        color_lengths: vec![1],
        alpha_lengths: vec![1],
        color_samples: vec![0xAA],
        alpha_samples: vec![0xBB],
        ..Case::default()
    }
}

/// The small gain map: record 01 01, sample CC, 32 × 32, 8 bits, unspecified full-range, empty XMP.
pub fn small_gain(tmap: Option<Vec<u8>>) -> Gain {
    Gain { hvcc: vec![0x01, 0x01], sample: vec![0xCC], width: 32, height: 32, tmap, ..Gain::default() }
}

/// The light level that the trials use.
pub const LIGHT: ContentLightLevel =
    ContentLightLevel { max_content_light_level: 1000, max_pic_average_light_level: 400 };

/// P with every part present and nothing empty.
pub fn full() -> Case {
    Case {
        color: Color { cicp: Some(Cicp::srgb()), icc: Some(vec![1, 2, 3]) },
        orientation: Orientation::Transverse,
        light: Some(LIGHT),
        exif: Some(b"II*\0".to_vec()),
        gain: Some(Gain {
            hvcc: vec![0x01, 0x04, 0x05],
            xmp: b"<x/>".to_vec(),
            tmap: Some(vec![0, 7, 8]),
            alternate: Some(Color { cicp: Some(Cicp::bt2020_pq()), icc: Some(vec![9, 10]) }),
            bit_depth: BitDepth::Twelve,
            ..small_gain(None)
        }),
        ..p().with_depth(BitDepth::Ten)
    }
}
