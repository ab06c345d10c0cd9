//! What the program crate program_files must write, from upstream's writer: panel P with each value of each enum, by
//! upstream's own names and not the binding's, its alpha at each depth; a panel with every part, in the ordinary form
//! and in the wide one; and the tiles of both.

use crate::{panels, reference, tiles, widen};
use kahopiru::Samples;
use oracle::color::{Cicp, ColorMetadata, MatrixCoefficients, Primaries, TransferFunction};
use oracle::fmt::BitDepth;
use oracle::metadata::{ContentLightLevel, Metadata, Orientation};
use oracle::{GainMap, Panel};

/// What the program's outputs hold before a file is written into them, and how long they are.
const MARK: u8 = 0xEE;
const OUTPUT: usize = 600;
const FULL_OUTPUT: usize = 1_282;

/// Every value of an enum. It does not compile if upstream has a value that is not named, or lacks one.
macro_rules! every {
    ($type:ident: $($name:ident)+) => {{
        // The match is there for the compiler, which sees that no value is left out.
        let _ = |value: $type| match value { $($type::$name => (),)+ };
        [$($type::$name),+]
    }};
}

// ---- panel P with each value of each enum

/// What is told of P beside its grid.
struct Told {
    bit_depth: BitDepth,
    color: ColorMetadata,
    orientation: Orientation,
}

fn p() -> Told {
    let color = ColorMetadata { cicp: None, icc: None };
    Told { bit_depth: BitDepth::Eight, color, orientation: Orientation::Normal }
}

fn by_codes(primaries: Primaries, transfer: TransferFunction, matrix: MatrixCoefficients) -> Told {
    let cicp = Cicp { primaries, transfer, matrix, full_range: true };
    Told { color: ColorMetadata { cicp: Some(cicp), icc: None }, ..p() }
}

/// The colours by their codes, the orientations.
fn every_value() -> Vec<Told> {
    let primaries = every!(Primaries: Reserved Bt709 Unspecified Bt470M Bt470Bg Bt601 Smpte240 GenericFilm Bt2020 Xyz
        Smpte431 Smpte432 Ebu3213);
    let transfers = every!(TransferFunction: Reserved Bt709 Unspecified Bt470M Bt470Bg Bt601 Smpte240 Linear Log100
        Log100sqrt10 Iec61966 Bt1361 Srgb Bt202010bit Bt202012bit Smpte2084 Smpte428 Hlg);
    let matrices = every!(MatrixCoefficients: Identity Bt709 Unspecified Reserved Fcc Bt470Bg Smpte170m Smpte240m YCgCo
        Bt2020Ncl Bt2020Cl Smpte2085 ChromaticityDerivedNCL ChromaticityDerivedCL ICtCp IPtC2 YCgCoRe YCgCoRo);
    let orientations = every!(Orientation: Normal FlipH Rotate180 FlipV Transpose Rotate90 Transverse Rotate270);
    // There are fewer primaries than matrices.
    let primaries = primaries.into_iter().chain(std::iter::repeat(Primaries::Unspecified));
    let colors = primaries.zip(transfers).zip(matrices).map(|((p, t), m)| by_codes(p, t, m));
    let mut all: Vec<Told> = colors.collect();
    all.extend(orientations.map(|orientation| Told { orientation, ..p() }));
    all
}

/// P's files at each depth, with alpha at each.
fn every_depth() -> Result<Vec<Vec<u8>>, String> {
    let at = reference::alpha_depth_at(&panels::p().panel());
    let mut files = Vec::new();
    for (bit_depth, bits) in every!(BitDepth: Eight Ten Twelve).into_iter().zip([8, 10, 12]) {
        let file = oracle::write(&p_with(Told { bit_depth, ..p() }))?;
        for alpha_bits in [8, 10, 12] {
            let mut masked = file.clone();
            reference::put_alpha_depth(&mut masked, at, [bits, alpha_bits])?;
            files.push(masked);
        }
    }
    Ok(files)
}

/// The lengths and the samples of a panel, colour and alpha.
type Tiles = [(&'static [u32], &'static [u8]); 2];

const P_TILES: Tiles = [(&[1], &[0xAA]), (&[1], &[0xBB])];

fn p_with(told: Told) -> Panel<'static> {
    Panel {
        cols: 1,
        rows: 1,
        tile_w: 64,
        tile_h: 64,
        full_w: 64,
        full_h: 64,
        bit_depth: told.bit_depth,
        color_hvcc: &[1, 1],
        alpha_hvcc: &[1, 4],
        color_samples: split(P_TILES[0]),
        alpha_samples: split(P_TILES[1]),
        color_meta: told.color,
        metadata: Metadata { orientation: told.orientation, content_light_level: None, exif: None },
        gain_map: None,
    }
}

// ---- a panel with every part

const FULL_TILES: Tiles = [(&[2, 1], &[0xA1, 0xA2, 0xA3]), (&[1, 3], &[0xB1, 0xB2, 0xB3, 0xB4])];

fn wide(icc: &[u8]) -> ColorMetadata {
    let cicp = Cicp {
        primaries: Primaries::Bt2020,
        transfer: TransferFunction::Smpte2084,
        matrix: MatrixCoefficients::Bt2020Ncl,
        full_range: false,
    };
    ColorMetadata { cicp: Some(cicp), icc: Some(icc.to_vec()) }
}

fn full() -> Panel<'static> {
    let gain = GainMap {
        hvcc: &[1, 1, 0x33],
        sample: &[0x31, 0x32],
        width: 32,
        height: 16,
        bit_depth: BitDepth::Eight,
        cicp: Cicp {
            primaries: Primaries::Bt709,
            transfer: TransferFunction::Srgb,
            matrix: MatrixCoefficients::Identity,
            full_range: true,
        },
        xmp: &[0x41, 0x42, 0x43],
        tmap: Some(&[0x51]),
        alternate_color: Some(wide(&[0x61, 0x62])),
    };
    Panel {
        cols: 2,
        rows: 1,
        tile_w: 64,
        tile_h: 48,
        full_w: 100,
        full_h: 40,
        bit_depth: BitDepth::Ten,
        color_hvcc: &[1, 4, 7],
        alpha_hvcc: &[1, 1],
        color_samples: split(FULL_TILES[0]),
        alpha_samples: split(FULL_TILES[1]),
        color_meta: wide(&[0x11, 0x12, 0x13]),
        metadata: Metadata {
            orientation: Orientation::Transverse,
            content_light_level: Some(ContentLightLevel::new(1000, 400)),
            exif: Some(vec![0x21, 0x22]),
        },
        gain_map: Some(gain),
    }
}

fn split((lengths, bytes): (&[u32], &'static [u8])) -> Vec<&'static [u8]> {
    crate::upstream::split(lengths, bytes)
}

// ---- the tile lookup

/// A line of the lookup: the number of the refusal or 0, and the bytes.
fn line(refusal: u32, part: &[u8]) -> Vec<u8> {
    [refusal.to_string().as_bytes(), b" ", part, b"\n"].concat()
}

/// The ids from 0 to 7: of a tile, the bytes that its entry in upstream's file names; of any other, 7 and nothing.
fn found(file: &[u8], n: u16) -> Result<Vec<u8>, String> {
    let mut lines = Vec::new();
    for id in 0..8 {
        if (1..=n).contains(&id) || (n + 2..=2 * n + 1).contains(&id) {
            let (offset, length) = tiles::located(file, id).ok_or(format!("upstream's file has no item {id}"))?;
            lines.extend(line(0, &file[offset..offset + length]));
        } else {
            lines.extend(line(7, &[]));
        }
    }
    Ok(lines)
}

/// An id that the lists alone refuse, by the prediction.
fn refused([color, alpha]: [(&[u32], &[u8]); 2]) -> Result<Vec<u8>, String> {
    let samples = |(lengths, bytes)| Samples { lengths, bytes };
    match tiles::expected(1, samples(color), samples(alpha)) {
        Ok(_) => Err("a lookup that is to be refused is not".into()),
        Err(number) => Ok(line(number, &[])),
    }
}

// ---- all that the program writes

/// A file and what of the output lies behind it.
fn output(file: &[u8], count: usize) -> Result<Vec<u8>, String> {
    let rest = count.checked_sub(file.len()).ok_or(format!("a file of {} bytes is too long", file.len()))?;
    Ok([file, &vec![MARK; rest]].concat())
}

pub fn bytes() -> Result<Vec<u8>, String> {
    let mut all = Vec::new();
    for file in every_depth()? {
        all.extend(output(&file, OUTPUT)?);
    }
    for told in every_value() {
        all.extend(output(&oracle::write(&p_with(told))?, OUTPUT)?);
    }
    let file = oracle::write(&full())?;
    all.extend(output(&file, FULL_OUTPUT)?);
    all.extend(output(&widen::widen(&file)?, FULL_OUTPUT)?);
    all.extend(found(&oracle::write(&p_with(p()))?, 1)?);
    all.extend(found(&file, 2)?);
    let lengths = [0; tiles::MOST_TILES + 1];
    all.extend(refused([(&lengths[..2], &[]), (&lengths[..1], &[])])?);
    all.extend(refused([(&[], &[]), (&[], &[])])?);
    all.extend(refused([(&lengths[..2], &[]), (&lengths[..2], &[0])])?);
    all.extend(refused([(&lengths, &[]), (&lengths, &[])])?);
    Ok(all)
}
