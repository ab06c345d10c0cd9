//! A reader of panel sheets, written from the specification's text alone: what the comparison holds the sheet call to.

use crate::panels::{Case, Color, Gain};
use kahopiru::{
    BitDepth, Cicp, ContentLightLevel, GridDims, MatrixCoefficients, Orientation, Primaries, TransferFunction,
};

const MOST_BYTES: usize = 12_288;

/// What is left of a sheet, and the refusals that the reading has met. It goes on behind a refusal, with whatever can
/// still be read, so that what else is wrong is met too.
struct Left<'a> {
    rest: &'a [u8],
    met: Vec<u32>,
}

impl<'a> Left<'a> {
    fn meet(&mut self, number: u32) {
        if !self.met.contains(&number) {
            self.met.push(number);
        }
    }

    /// The next bytes; 11 and none where the sheet ends before them.
    fn bytes(&mut self, count: u64) -> &'a [u8] {
        if (self.rest.len() as u64) < count {
            self.meet(11);
            self.rest = &[];
            return &[];
        }
        let (taken, left) = self.rest.split_at(count as usize);
        self.rest = left;
        taken
    }

    fn number(&mut self, count: u64) -> u32 {
        self.bytes(count).iter().fold(0, |n, &b| n << 8 | u32::from(b))
    }

    /// A byte string: its length in 32 bits, then as many bytes.
    fn string(&mut self) -> Vec<u8> {
        let length = self.number(4);
        self.bytes(length.into()).to_vec()
    }

    /// As many lengths as there are tiles, or as the sheet holds.
    fn lengths(&mut self, tiles: u64) -> Vec<u32> {
        let mut lengths = Vec::new();
        while (lengths.len() as u64) < tiles && !self.met.contains(&11) {
            lengths.push(self.number(4));
        }
        lengths
    }

    /// A code of so many bytes: the value that has it; 13 and the first value where none has.
    fn code<T: Copy>(&mut self, count: u64, values: &[T], code: fn(T) -> u32) -> T {
        let number = self.number(count);
        values.iter().copied().find(|&v| code(v) == number).unwrap_or_else(|| {
            self.meet(13);
            values[0]
        })
    }

    fn depth(&mut self) -> BitDepth {
        self.code(1, &[BitDepth::Eight, BitDepth::Ten, BitDepth::Twelve], |v| (u32::from(v.bits()) - 8) / 2)
    }

    fn cicp(&mut self) -> Cicp {
        Cicp {
            primaries: self.code(2, &Primaries::ALL, |v| v.code().into()),
            transfer: self.code(2, &TransferFunction::ALL, |v| v.code().into()),
            matrix: self.code(2, &MatrixCoefficients::ALL, |v| v.code().into()),
            full_range: self.code(1, &[false, true], u32::from),
        }
    }

    fn light(&mut self) -> ContentLightLevel {
        ContentLightLevel {
            max_content_light_level: self.number(2) as u16,
            max_pic_average_light_level: self.number(2) as u16,
        }
    }

    fn gain(&mut self) -> Gain {
        Gain {
            hvcc: self.string(),
            sample: self.string(),
            width: self.number(4),
            height: self.number(4),
            bit_depth: self.depth(),
            cicp: self.cicp(),
            xmp: self.string(),
            tmap: None,
            alternate: None,
        }
    }
}

/// Bits 9 to 15 stand for nothing, a tone map wants a gain map, and an alternate colour a tone map.
fn bad_map(map: u32) -> bool {
    let stands = |bit: u32| map >> bit & 1 == 1;
    map >> 9 != 0 || (stands(6) && !stands(5)) || ((stands(7) || stands(8)) && !stands(6))
}

/// What a sheet is refused with, of 11 to 15, in the order in which the reading meets it; and the panel that it says.
pub fn read(sheet: &[u8]) -> (Vec<u32>, Case) {
    let mut left = Left { rest: sheet, met: Vec::new() };
    if sheet.len() > MOST_BYTES {
        left.meet(15);
    }
    let map = left.number(2);
    if bad_map(map) {
        left.meet(12);
    }
    let case = fields(&mut left, |bit| map >> bit & 1 == 1);
    if !left.rest.is_empty() {
        left.meet(14);
    }
    (left.met, case)
}

/// The fields behind the map, of which some are there only where their bit stands.
fn fields(left: &mut Left<'_>, stands: impl Fn(u32) -> bool) -> Case {
    let (cols, rows) = (left.number(2), left.number(2));
    let [tile_w, tile_h, full_w, full_h] = std::array::from_fn(|_| left.number(4));
    let (bit_depth, alpha_bit_depth) = (left.depth(), left.depth());
    let (color_hvcc, alpha_hvcc) = (left.string(), left.string());
    let tiles = u64::from(cols) * u64::from(rows);
    let (color_lengths, alpha_lengths) = (left.lengths(tiles), left.lengths(tiles));
    let sum = |lengths: &[u32]| lengths.iter().map(|&l| u64::from(l)).sum::<u64>();
    let color_samples = left.bytes(sum(&color_lengths)).to_vec();
    let alpha_samples = left.bytes(sum(&alpha_lengths)).to_vec();
    let color = Color { cicp: stands(0).then(|| left.cicp()), icc: stands(1).then(|| left.string()) };
    let turned = stands(2).then(|| left.code(1, &Orientation::ALL, |v| v.code().into()));
    let orientation = turned.unwrap_or(Orientation::Normal);
    let light = stands(3).then(|| left.light());
    let exif = stands(4).then(|| left.string());
    let gain = stands(5).then(|| left.gain());
    let tmap = stands(6).then(|| left.string());
    let other = Color { cicp: stands(7).then(|| left.cicp()), icc: stands(8).then(|| left.string()) };
    let alternate = (stands(7) || stands(8)).then_some(other);
    Case {
        dims: GridDims { cols, rows, tile_w, tile_h, full_w, full_h },
        visible: None,
        bit_depth,
        alpha_bit_depth,
        color_hvcc,
        alpha_hvcc,
        color_lengths,
        alpha_lengths,
        color_samples,
        alpha_samples,
        color,
        orientation,
        light,
        exif,
        gain: gain.map(|gain| Gain { tmap, alternate, ..gain }),
    }
}
