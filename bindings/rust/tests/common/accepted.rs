//! Random panels, all of which are accepted: each part is there or not, whatever else is, and may be empty.

use super::random::Random;
use kahopiru::{BitDepth, Cicp, ColorMetadata, ContentLightLevel, EncodedGainMap, GridDims};
use kahopiru::{Metadata, Orientation, Panel, Samples, VisibleSize};

/// What the panels borrow: bytes, of which half say range extensions where they come second in a record, and lengths.
pub struct Pool {
    bytes: Vec<u8>,
    lengths: Vec<u32>,
}

impl Pool {
    pub fn new(random: &mut Random) -> Pool {
        let byte = |random: &mut Random| {
            let byte = random.below(256) as u8;
            random.pick(&[byte, byte & 0xE0 | 4])
        };
        Pool {
            bytes: (0..8_000).map(|_| byte(random)).collect(),
            lengths: (0..500).map(|_| random.below(60) as u32).collect(),
        }
    }

    /// Some bytes: often none, one or two, else up to some hundreds.
    fn bytes(&self, random: &mut Random) -> &[u8] {
        let most = random.pick(&[0, 1, 2, 2, 40, 700]);
        let count = if most > 2 { random.below(most) } else { most };
        let from = random.below(self.bytes.len() - count);
        &self.bytes[from..from + count]
    }

    fn samples(&self, random: &mut Random, tiles: usize) -> Samples<'_> {
        let from = random.below(self.lengths.len() - tiles);
        let lengths = &self.lengths[from..from + tiles];
        Samples { lengths, bytes: &self.bytes[..lengths.iter().sum::<u32>() as usize] }
    }

    fn color(&self, random: &mut Random) -> ColorMetadata<'_> {
        ColorMetadata { cicp: random.maybe(cicp), icc: random.maybe(|random| self.bytes(random)) }
    }

    /// Exif, one in two with its marker at the front, or with a part of it and nothing else.
    fn exif(&self, random: &mut Random) -> &[u8] {
        const MARKED: &[u8] = b"Exif\0\0MM\0*\0\0\0\x08";
        if random.below(2) == 0 {
            return self.bytes(random);
        }
        &MARKED[..random.below(MARKED.len() + 1)]
    }

    fn gain_map(&self, random: &mut Random) -> EncodedGainMap<'_> {
        EncodedGainMap {
            hvcc: self.bytes(random),
            sample: self.bytes(random),
            width: side(random),
            height: side(random),
            bit_depth: random.pick(&BitDepth::ALL),
            cicp: cicp(random),
            xmp: self.bytes(random),
            tmap: random.maybe(|random| self.bytes(random)),
            alternate_color: random.maybe(|random| self.color(random)),
        }
    }

    /// A panel of 1 to 64 tiles a picture.
    pub fn panel(&self, random: &mut Random) -> Panel<'_> {
        let (cols, rows) = (1 + random.below(8) as u32, 1 + random.below(8) as u32);
        let tiles = (cols * rows) as usize;
        let visible = random.below(2) == 1;
        let (across, down) = (Axis::new(random, cols, visible), Axis::new(random, rows, visible));
        Panel {
            dims: GridDims {
                cols,
                rows,
                tile_w: across.tile,
                tile_h: down.tile,
                full_w: across.full,
                full_h: down.full,
            },
            visible: visible.then_some(VisibleSize { w: across.shown, h: down.shown }),
            bit_depth: random.pick(&BitDepth::ALL),
            alpha_bit_depth: random.maybe(|random| random.pick(&BitDepth::ALL)),
            color_hvcc: self.bytes(random),
            alpha_hvcc: self.bytes(random),
            color_samples: self.samples(random, tiles),
            alpha_samples: self.samples(random, tiles),
            color_meta: self.color(random),
            metadata: Metadata {
                orientation: random.pick(&Orientation::ALL),
                content_light_level: random.maybe(|_| ContentLightLevel::default()),
                exif: random.maybe(|random| self.exif(random)),
            },
            gain_map: random.maybe(|random| self.gain_map(random)),
        }
    }
}

fn cicp(random: &mut Random) -> Cicp {
    random.pick(&[Cicp::unspecified(), Cicp::srgb(), Cicp::bt2020_pq()])
}

/// A side of a picture, mostly around where a descriptor becomes longer.
fn side(random: &mut Random) -> u32 {
    random.pick(&[1, 64, 1_000, 65_534, 65_535, 65_536, 65_537, 1_000_000])
}

/// Along an axis: the size of a tile, what is shown of it, and the size of the picture, which is covered.
struct Axis {
    tile: u32,
    shown: u32,
    full: u32,
}

impl Axis {
    fn new(random: &mut Random, tiles: u32, visible: bool) -> Axis {
        let full = side(random);
        let shown = full.div_ceil(tiles) + random.pick(&[0, 0, 1, 65_536]);
        let hidden = if visible { random.pick(&[0, 1, 2, 65_536]) } else { 0 };
        Axis { tile: shown + hidden, shown, full }
    }
}
