//! The panel sheet: a panel as one run of bytes, as the sheet program reads it.

use crate::panels::{Case, Gain};
use kahopiru::{Cicp, Orientation};

/// The sheet of a panel. An alternate colour that is empty or has no tone map cannot be said in a sheet and is left out.
pub fn sheet(case: &Case) -> Vec<u8> {
    let mut out = Vec::new();
    let gain = case.gain.as_ref();
    let tmap = gain.and_then(|g| g.tmap.as_ref());
    let alternate = gain.and_then(|g| g.alternate.as_ref()).filter(|_| tmap.is_some());
    let present = [
        case.color.cicp.is_some(),
        case.color.icc.is_some(),
        case.orientation != Orientation::Normal,
        case.light.is_some(),
        case.exif.is_some(),
        gain.is_some(),
        tmap.is_some(),
        alternate.is_some_and(|a| a.cicp.is_some()),
        alternate.is_some_and(|a| a.icc.is_some()),
    ];
    let map = present.iter().enumerate().map(|(bit, &is)| u16::from(is) << bit).sum();
    put16(&mut out, map);
    always(&mut out, case);
    case.color.cicp.iter().for_each(|&c| cicp(&mut out, c));
    case.color.icc.iter().for_each(|b| bytes(&mut out, b));
    if present[2] {
        out.push(case.orientation.code());
    }
    if let Some(light) = case.light {
        put16(&mut out, light.max_content_light_level);
        put16(&mut out, light.max_pic_average_light_level);
    }
    case.exif.iter().for_each(|b| bytes(&mut out, b));
    gain.iter().for_each(|g| gain_fields(&mut out, g));
    tmap.iter().for_each(|b| bytes(&mut out, b));
    alternate.and_then(|a| a.cicp).iter().for_each(|&c| cicp(&mut out, c));
    alternate.and_then(|a| a.icc.as_ref()).iter().for_each(|b| bytes(&mut out, b));
    out
}

/// A sheet with this map, and the fields that its bits call for, whether or not the map is a good one.
pub fn every_field(map: u16, case: &Case) -> Vec<u8> {
    let mut out = Vec::new();
    put16(&mut out, map);
    always(&mut out, case);
    let gain = case.gain.as_ref().expect("the panel has every part");
    let other = gain.alternate.as_ref().expect("the panel has every part");
    let light = case.light.expect("the panel has every part");
    for bit in (0..16).filter(|bit| map >> bit & 1 == 1) {
        match bit {
            0 => case.color.cicp.iter().for_each(|&c| cicp(&mut out, c)),
            1 => case.color.icc.iter().for_each(|b| bytes(&mut out, b)),
            2 => out.push(case.orientation.code()),
            3 => {
                put16(&mut out, light.max_content_light_level);
                put16(&mut out, light.max_pic_average_light_level);
            }
            4 => case.exif.iter().for_each(|b| bytes(&mut out, b)),
            5 => gain_fields(&mut out, gain),
            6 => gain.tmap.iter().for_each(|b| bytes(&mut out, b)),
            7 => other.cicp.iter().for_each(|&c| cicp(&mut out, c)),
            8 => other.icc.iter().for_each(|b| bytes(&mut out, b)),
            _ => {}
        }
    }
    out
}

/// A gain map's own fields.
fn gain_fields(out: &mut Vec<u8>, gain: &Gain) {
    bytes(out, &gain.hvcc);
    bytes(out, &gain.sample);
    put32(out, gain.width);
    put32(out, gain.height);
    out.push(gain.bit_depth.code());
    cicp(out, gain.cicp);
    bytes(out, &gain.xmp);
}

/// The fields that every sheet has.
fn always(out: &mut Vec<u8>, case: &Case) {
    put16(out, case.dims.cols as u16);
    put16(out, case.dims.rows as u16);
    for size in [case.dims.tile_w, case.dims.tile_h, case.dims.full_w, case.dims.full_h] {
        put32(out, size);
    }
    out.push(case.bit_depth.code());
    out.push(case.alpha_bit_depth.code());
    bytes(out, &case.color_hvcc);
    bytes(out, &case.alpha_hvcc);
    case.color_lengths.iter().chain(&case.alpha_lengths).for_each(|&l| put32(out, l));
    out.extend_from_slice(&case.color_samples);
    out.extend_from_slice(&case.alpha_samples);
}

fn put16(out: &mut Vec<u8>, number: u16) {
    out.extend_from_slice(&number.to_be_bytes());
}

fn put32(out: &mut Vec<u8>, number: u32) {
    out.extend_from_slice(&number.to_be_bytes());
}

/// A byte string with its length.
fn bytes(out: &mut Vec<u8>, bytes: &[u8]) {
    put32(out, bytes.len() as u32);
    out.extend_from_slice(bytes);
}

fn cicp(out: &mut Vec<u8>, c: Cicp) {
    put16(out, c.primaries.code());
    put16(out, c.transfer.code());
    put16(out, c.matrix.code());
    out.push(c.full_range.into());
}
