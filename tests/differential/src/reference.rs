//! The file that a panel must have: upstream's, with what the specification adds to it.
//!
//! Upstream has one depth for colour and alpha. Where a panel has two, its file is upstream's of the panel whose alpha
//! depth is made the colour's, but for one byte, which is the alpha depth. Upstream writes four zero bytes before all
//! Exif. Where that begins with its marker, the file is upstream's but for the fourth of them, which is 6. Where these
//! bytes lie is worked out by hand from the panel's lengths, as a sum of shares, and upstream's file is held to what it
//! must have there before it is changed. Upstream's grids have no visible size: what it adds is put in last (clap.rs).

use crate::panels::Case;
use crate::predict::{length, one_if, rext, tiles};
use crate::widen::widen;
use crate::{clap, many, upstream};
use kahopiru::Panel;

/// The file of a panel that is accepted, or what upstream says instead.
pub fn file(case: &Case) -> Result<Vec<u8>, String> {
    let mut file = upstream::write(case)?;
    let whole = Panel { visible: None, ..case.panel() };
    if case.alpha_bit_depth != case.bit_depth {
        let depths = [case.bit_depth.bits(), case.alpha_bit_depth.bits()];
        put_alpha_depth(&mut file, alpha_depth_at(&whole), depths)?;
    }
    if case.exif.as_ref().is_some_and(|exif| exif.starts_with(&MARKER)) {
        put_tiff_offset(&mut file, tiff_offset_at(&whole))?;
    }
    if case.visible.is_some() {
        let panel = case.panel();
        clap::put(&mut file, &panel, clap::place(&panel), &clap::of(&panel)?)?;
    }
    Ok(file)
}

/// The wide file of a panel that is accepted in that form, given its ordinary file: that file widened, or, where there
/// is none, one that is written item by item.
pub fn wide_file(case: &Case, ordinary: Option<&[u8]>) -> Result<Vec<u8>, String> {
    match ordinary {
        Some(file) => widen(file),
        None => many::file(case),
    }
}

/// What Exif may begin with, before its TIFF header: "Exif" and two zero bytes.
pub const MARKER: [u8; 6] = [0x45, 0x78, 0x69, 0x66, 0x00, 0x00];

/// Puts 6 in the place of the last of four zero bytes, behind which Exif must begin with its marker.
pub fn put_tiff_offset(file: &mut [u8], at: usize) -> Result<(), String> {
    if file.get(at - 3..at + 7) != Some(&[&[0; 4], &MARKER[..]].concat()) {
        return Err(format!("in upstream's file byte {at} is not the last of four zeros before Exif with its marker"));
    }
    file[at] = 6;
    Ok(())
}

/// Where the last of the four bytes before the Exif lies: behind it come the Exif and the gain map's payloads, and then
/// the file ends.
pub fn tiff_offset_at(panel: &Panel<'_>) -> usize {
    let exif = panel.metadata.exif.map_or(0, <[u8]>::len);
    let gain = panel.gain_map.map_or(0, |g| g.sample.len() + g.xmp.len() + g.tmap.map_or(0, <[u8]>::len));
    length(panel) as usize - gain - exif - 1
}

/// Puts the second depth in the place of the first, where a pixi of one channel must end.
pub fn put_alpha_depth(file: &mut [u8], at: usize, [from, to]: [u8; 2]) -> Result<(), String> {
    let pixi = [0, 0, 0, 14, b'p', b'i', b'x', b'i', 0, 0, 0, 0, 1, from];
    if file.get(at - 13..=at) != Some(&pixi) {
        return Err(format!("in upstream's file no pixi of one channel of {from} bits ends at byte {at}"));
    }
    file[at] = to;
    Ok(())
}

/// What lies before the alpha depth in a file without tiles, whose records are empty: ftyp, the head of meta, hdlr and
/// pitm; iloc, iinf and iref with what they have of the two grids; the heads of iprp and ipco; six properties; and of the
/// alpha picture's pixi all but its last byte.
const BARE: i128 =
    28 + 12 + 33 + 14 + (16 + 2 * 16) + (14 + 2 * 21) + (12 + 2 * 12 + 14) + (8 + 8) + BARE_PROPERTIES + 13;

/// hvcC, ispe of a tile and of the whole, an nclx colr, pixi of three channels, and hvcC.
const BARE_PROPERTIES: i128 = 8 + 20 + 20 + 19 + 16 + 8;

/// Where the alpha depth lies in a file.
pub fn alpha_depth_at(panel: &Panel<'_>) -> usize {
    let gain = panel.gain_map;
    let profile = match (panel.color_meta.cicp, panel.color_meta.icc) {
        // In the place of an nclx of 19 bytes; beside code points it comes later.
        (None, Some(icc)) => 12 + icc.len() as i128 - 19,
        _ => 0,
    };
    let at = BARE
        // Two entries of iloc and of iinf, two ids of iref.
        + 2 * (16 + 21 + 2) * tiles(panel)
        + (panel.color_hvcc.len() + panel.alpha_hvcc.len()) as i128
        + profile
        // An entry of iloc (16) and of iinf (21), and a reference to the grid (14).
        + (16 + 21 + 14) * one_if(panel.metadata.exif.is_some())
        // The same for the gain image and for its XMP, whose entry of iinf also names application/rdf+xml (20).
        + (2 * (16 + 21 + 14) + 20) * one_if(gain.is_some())
        // The same for the tone map, which refers to two (2 more), and the brand tmap.
        + (16 + 21 + 16 + 4) * one_if(gain.is_some_and(|g| g.tmap.is_some()))
        // The brand heix, which a colour record of that profile would have brought already.
        + 4 * one_if(gain.is_some_and(|g| rext(g.hvcc)) && !rext(panel.color_hvcc));
    at as usize
}
