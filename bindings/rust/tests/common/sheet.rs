//! Sheets read back: the panel that a sheet says, field by field as docs/SHEET.md lists them.

use kahopiru::{BitDepth, Cicp, ColorMetadata, ContentLightLevel, EncodedGainMap, GridDims};
use kahopiru::{MatrixCoefficients, Metadata, Orientation, Panel, Primaries, Samples, TransferFunction};

/// A sheet as far as it has not been read.
struct Reader<'a>(&'a [u8]);

impl<'a> Reader<'a> {
    fn take(&mut self, count: usize) -> &'a [u8] {
        let (front, rest) = self.0.split_at(count);
        self.0 = rest;
        front
    }

    fn n8(&mut self) -> u8 {
        self.take(1)[0]
    }

    fn n16(&mut self) -> u16 {
        u16::from_be_bytes(self.take(2).try_into().unwrap())
    }

    fn n32(&mut self) -> u32 {
        u32::from_be_bytes(self.take(4).try_into().unwrap())
    }

    fn string(&mut self) -> &'a [u8] {
        let count = self.n32();
        self.take(count as usize)
    }

    fn lengths(&mut self, count: u32) -> Vec<u32> {
        (0..count).map(|_| self.n32()).collect()
    }

    fn depth(&mut self) -> BitDepth {
        BitDepth::from_code(self.n8()).unwrap()
    }

    fn cicp(&mut self) -> Cicp {
        Cicp {
            primaries: Primaries::from_code(self.n16()).unwrap(),
            transfer: TransferFunction::from_code(self.n16()).unwrap(),
            matrix: MatrixCoefficients::from_code(self.n16()).unwrap(),
            full_range: self.n8() == 1,
        }
    }
}

fn sum(lengths: &[u32]) -> usize {
    lengths.iter().map(|&l| l as usize).sum()
}

/// What is made of the panel that a sheet says. The panel is lent: its lists of lengths are read into vectors here.
pub fn with_panel<T>(sheet: &[u8], make: impl FnOnce(&Panel<'_>) -> T) -> T {
    let mut r = Reader(sheet);
    let map = r.n16();
    let has = |bit: u8| map >> bit & 1 == 1;
    let (cols, rows) = (u32::from(r.n16()), u32::from(r.n16()));
    let dims = GridDims { cols, rows, tile_w: r.n32(), tile_h: r.n32(), full_w: r.n32(), full_h: r.n32() };
    let (bit_depth, alpha_bit_depth) = (r.depth(), Some(r.depth()));
    let (color_hvcc, alpha_hvcc) = (r.string(), r.string());
    let (color_lengths, alpha_lengths) = (r.lengths(cols * rows), r.lengths(cols * rows));
    let color_samples = Samples { lengths: &color_lengths, bytes: r.take(sum(&color_lengths)) };
    let alpha_samples = Samples { lengths: &alpha_lengths, bytes: r.take(sum(&alpha_lengths)) };
    let color_meta = ColorMetadata { cicp: has(0).then(|| r.cicp()), icc: has(1).then(|| r.string()) };
    let metadata = Metadata {
        orientation: if has(2) { Orientation::from_code(r.n8()).unwrap() } else { Orientation::Normal },
        content_light_level: has(3)
            .then(|| ContentLightLevel { max_content_light_level: r.n16(), max_pic_average_light_level: r.n16() }),
        exif: has(4).then(|| r.string()),
    };
    let gain_map = has(5).then(|| EncodedGainMap {
        hvcc: r.string(),
        sample: r.string(),
        width: r.n32(),
        height: r.n32(),
        bit_depth: r.depth(),
        cicp: r.cicp(),
        xmp: r.string(),
        tmap: has(6).then(|| r.string()),
        alternate_color: (has(7) || has(8))
            .then(|| ColorMetadata { cicp: has(7).then(|| r.cicp()), icc: has(8).then(|| r.string()) }),
    });
    assert!(r.0.is_empty(), "bytes are left over");
    make(&Panel {
        dims,
        visible: None,
        bit_depth,
        alpha_bit_depth,
        color_hvcc,
        alpha_hvcc,
        color_samples,
        alpha_samples,
        color_meta,
        metadata,
        gain_map,
    })
}
