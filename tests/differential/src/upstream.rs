//! A panel in upstream's types. Enums are matched by name, so that the binding's codes are compared with upstream's too.

use crate::panels::{Case, Color, Gain};
use kahopiru::{BitDepth, Cicp, MatrixCoefficients, Orientation, Primaries, TransferFunction};

/// A function that takes each named variant to the variant of the same name. It does not compile if the binding has one
/// that is not named, or if upstream lacks one.
macro_rules! by_name {
    ($function:ident, $ours:ident, $theirs:path, $($name:ident)+) => {
        fn $function(value: $ours) -> $theirs {
            use $theirs as Theirs;
            match value { $($ours::$name => Theirs::$name,)+ }
        }
    };
}

by_name!(bit_depth, BitDepth, oracle::fmt::BitDepth, Eight Ten Twelve);
by_name!(orientation, Orientation, oracle::metadata::Orientation,
    Normal FlipH Rotate180 FlipV Transpose Rotate90 Transverse Rotate270);
by_name!(primaries, Primaries, oracle::color::Primaries,
    Reserved Bt709 Unspecified Bt470M Bt470Bg Bt601 Smpte240 GenericFilm Bt2020 Xyz Smpte431 Smpte432 Ebu3213);
by_name!(transfer, TransferFunction, oracle::color::TransferFunction,
    Reserved Bt709 Unspecified Bt470M Bt470Bg Bt601 Smpte240 Linear Log100 Log100sqrt10 Iec61966 Bt1361 Srgb
    Bt202010bit Bt202012bit Smpte2084 Smpte428 Hlg);
by_name!(matrix, MatrixCoefficients, oracle::color::MatrixCoefficients,
    Identity Bt709 Unspecified Reserved Fcc Bt470Bg Smpte170m Smpte240m YCgCo Bt2020Ncl Bt2020Cl Smpte2085
    ChromaticityDerivedNCL ChromaticityDerivedCL ICtCp IPtC2 YCgCoRe YCgCoRo);

fn cicp(c: Cicp) -> oracle::color::Cicp {
    oracle::color::Cicp {
        primaries: primaries(c.primaries),
        transfer: transfer(c.transfer),
        matrix: matrix(c.matrix),
        full_range: c.full_range,
    }
}

fn color(c: &Color) -> oracle::color::ColorMetadata {
    oracle::color::ColorMetadata { cicp: c.cicp.map(cicp), icc: c.icc.clone() }
}

fn gain(g: &Gain) -> oracle::GainMap<'_> {
    oracle::GainMap {
        hvcc: &g.hvcc,
        sample: &g.sample,
        width: g.width,
        height: g.height,
        bit_depth: bit_depth(g.bit_depth),
        cicp: cicp(g.cicp),
        xmp: &g.xmp,
        tmap: g.tmap.as_deref(),
        alternate_color: g.alternate.as_ref().map(color),
    }
}

/// The samples one by one. The lengths must sum to the bytes.
pub fn split<'a>(lengths: &[u32], bytes: &'a [u8]) -> Vec<&'a [u8]> {
    let mut rest = bytes;
    let mut samples = Vec::with_capacity(lengths.len());
    for &length in lengths {
        let (sample, behind) = rest.split_at(length as usize);
        samples.push(sample);
        rest = behind;
    }
    assert!(rest.is_empty(), "lengths that do not sum to the bytes have no samples");
    samples
}

/// The panel for upstream's function, whose tiles have no visible size.
pub fn panel(case: &Case) -> oracle::Panel<'_> {
    oracle::Panel {
        cols: case.dims.cols,
        rows: case.dims.rows,
        tile_w: case.dims.tile_w,
        tile_h: case.dims.tile_h,
        full_w: case.dims.full_w,
        full_h: case.dims.full_h,
        bit_depth: bit_depth(case.bit_depth),
        color_hvcc: &case.color_hvcc,
        alpha_hvcc: &case.alpha_hvcc,
        color_samples: split(&case.color_lengths, &case.color_samples),
        alpha_samples: split(&case.alpha_lengths, &case.alpha_samples),
        color_meta: color(&case.color),
        metadata: oracle::metadata::Metadata {
            orientation: orientation(case.orientation),
            content_light_level: case.light.map(|l| {
                oracle::metadata::ContentLightLevel::new(l.max_content_light_level, l.max_pic_average_light_level)
            }),
            exif: case.exif.clone(),
        },
        gain_map: case.gain.as_ref().map(gain),
    }
}

/// Upstream's file for a panel, or what it says instead. Its one depth is the colour's.
pub fn write(case: &Case) -> Result<Vec<u8>, String> {
    oracle::write(&panel(case))
}
