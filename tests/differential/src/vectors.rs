//! A fixed list of upstream's files, to be replayed where neither upstream's source nor Rust is at hand. Each line is a
//! name, the panel's sheet and upstream's file, both in hexadecimal; where alpha has a depth of its own, or Exif begins
//! with its marker, upstream's with that depth, or the offset 6, in its place (reference.rs).

use crate::panels::{full, p, small_gain, Case, Color, Gain, LIGHT};
use crate::reference;
use crate::sheet::sheet;
use kahopiru::{BitDepth, Cicp, MatrixCoefficients, Orientation, Primaries, TransferFunction};

/// What the whole list may take, and one file of it.
const MOST_TEXT: usize = 131_072;
const MOST_FILE: usize = 2_048;

type Vector = (String, Case);

fn named(name: &str, change: impl FnOnce(&mut Case)) -> Vector {
    let mut case = p();
    change(&mut case);
    (name.to_string(), case)
}

/// P and the trials that change little of it.
fn trials() -> Vec<Vector> {
    vec![
        named("p", |_| ()),
        named("full-width-65535", |c| (c.dims.tile_w, c.dims.full_w) = (65_535, 65_535)),
        named("full-width-65536", |c| (c.dims.tile_w, c.dims.full_w) = (65_536, 65_536)),
        named("full-height-65536", |c| (c.dims.tile_h, c.dims.full_h) = (65_536, 65_536)),
        named("sizes-of-1", |c| {
            (c.dims.tile_w, c.dims.tile_h, c.dims.full_w, c.dims.full_h) = (1, 1, 1, 1);
        }),
    ]
}

/// Each option alone, empty and not.
fn options() -> Vec<Vector> {
    let reserved = Cicp {
        primaries: Primaries::Ebu3213,
        transfer: TransferFunction::Reserved,
        matrix: MatrixCoefficients::Reserved,
        full_range: false,
    };
    let mut all = vec![
        named("cicp-bt709", |c| c.color.cicp = Some(Cicp::bt709())),
        named("cicp-reserved", |c| c.color.cicp = Some(reserved)),
        named("icc-empty", |c| c.color.icc = Some(vec![])),
        named("icc-alone", |c| c.color.icc = Some(vec![0x11, 0x22])),
        named("cicp-and-icc", |c| c.color = Color { cicp: Some(Cicp::srgb()), icc: Some(vec![0x33]) }),
        named("light", |c| c.light = Some(LIGHT)),
        named("exif-empty", |c| c.exif = Some(vec![])),
        named("exif", |c| c.exif = Some(b"MM\0*".to_vec())),
        named("exif-marker", |c| c.exif = Some(b"Exif\0\0MM\0*".to_vec())),
        named("exif-marker-alone", |c| c.exif = Some(b"Exif\0\0".to_vec())),
        named("exif-marker-cut", |c| c.exif = Some(b"Exif\0".to_vec())),
        named("exif-marker-late", |c| c.exif = Some(b"\0Exif\0\0MM\0*".to_vec())),
        ("ten-bits".into(), p().with_depth(BitDepth::Ten)),
        ("twelve-bits".into(), p().with_depth(BitDepth::Twelve)),
        named("twelve-bits-alpha-eight", |c| c.bit_depth = BitDepth::Twelve),
        named("eight-bits-alpha-ten", |c| c.alpha_bit_depth = BitDepth::Ten),
        named("records-empty", |c| (c.color_hvcc, c.alpha_hvcc) = (vec![], vec![])),
        named("record-of-one", |c| c.color_hvcc = vec![4]),
        named("rext-colour", |c| c.color_hvcc = vec![1, 0x64, 9]),
    ];
    for orientation in &Orientation::ALL[1..] {
        all.push(named(&format!("{orientation:?}").to_lowercase(), |c| c.orientation = *orientation));
    }
    all
}

/// Gain maps: without and with tone map, and what meets them.
fn gains() -> Vec<Vector> {
    let gain = |name: &str, change: fn(&mut Gain)| {
        let mut gain = small_gain(Some(vec![]));
        change(&mut gain);
        (name.to_string(), Case { gain: Some(gain), ..p() })
    };
    let alternate = |cicp, icc| Some(Color { cicp, icc });
    let mut all = vec![
        gain("gain-alone", |g| g.tmap = None),
        gain("gain-rext", |g| (g.hvcc, g.tmap) = (vec![1, 4], None)),
        gain("gain-toned", |_| ()),
        gain("gain-of-twelve-bits", |g| (g.bit_depth, g.xmp, g.tmap) = (BitDepth::Twelve, b"<x/>".to_vec(), None)),
    ];
    for (name, color) in [
        ("alternate-cicp", alternate(Some(Cicp::bt2020_pq()), None)),
        ("alternate-icc", alternate(None, Some(vec![7]))),
        ("alternate-both", alternate(Some(Cicp::srgb()), Some(vec![]))),
    ] {
        let gain = Gain { alternate: color, ..small_gain(Some(vec![0x0F])) };
        all.push((name.to_string(), Case { gain: Some(gain), ..p() }));
    }
    all
}

/// More tiles, and everything at once.
fn together() -> Vec<Vector> {
    vec![
        ("two-columns".into(), p().with_grid(2, 1, vec![1, 2], vec![0, 3])),
        ("two-rows".into(), p().with_grid(1, 2, vec![0, 0], vec![0, 0])),
        ("full".into(), full()),
        ("full-of-tiles".into(), full().with_grid(3, 1, vec![2, 0, 1], vec![1, 1, 1])),
        ("full-turned".into(), Case { orientation: Orientation::Transpose, ..full() }.with_depth(BitDepth::Twelve)),
        ("full-alpha-twelve".into(), Case { alpha_bit_depth: BitDepth::Twelve, ..full() }),
        ("full-exif-marker".into(), Case { exif: Some(b"Exif\0\0II*\0".to_vec()), ..full() }),
        ("full-both-rext".into(), Case { color_hvcc: vec![1, 4], orientation: Orientation::FlipV, ..full() }),
    ]
}

fn hex(bytes: &[u8]) -> String {
    bytes.iter().map(|b| format!("{b:02x}")).collect()
}

/// The list as text, or what stands in its way.
pub fn text() -> Result<String, String> {
    let mut text = String::new();
    for (name, case) in [trials(), options(), gains(), together()].concat() {
        let file = reference::file(&case).map_err(|e| format!("{name}: upstream: {e}"))?;
        if file.len() > MOST_FILE {
            return Err(format!("{name}: a file of {} bytes is too long for the list", file.len()));
        }
        text.push_str(&format!("{name} {} {}\n", hex(&sheet(&case)), hex(&file)));
    }
    if text.len() > MOST_TEXT {
        return Err(format!("the list has {} bytes, more than {MOST_TEXT}", text.len()));
    }
    Ok(text)
}
