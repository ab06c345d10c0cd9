//! The archive's own interface: a panel's numbers and parts with anything at all beside the absent ones.

use crate::panels::{Case, Color, Gain};
use crate::predict::Answer;
use crate::random::Rng;
use kahopiru::{sys, Cicp};

/// An answer of the archive. A refusal must come with length 0.
pub fn answer(a: sys::Answer) -> Answer {
    match a {
        sys::Answer { refusal: 0, length } => Ok(length),
        sys::Answer { refusal, length: 0 } => Err(refusal),
        // No refusal has this number, so that the comparison reports it.
        sys::Answer { .. } => Err(u32::MAX),
    }
}

fn cicp(c: Cicp) -> sys::Cicp {
    sys::Cicp {
        primaries: c.primaries as u16,
        transfer: c.transfer as u16,
        matrix: c.matrix as u16,
        full_range: c.full_range as u8,
    }
}

/// Codes that need name nothing.
fn stray_cicp(rng: &mut Rng) -> sys::Cicp {
    sys::Cicp {
        primaries: rng.next() as u16,
        transfer: rng.next() as u16,
        matrix: rng.next() as u16,
        full_range: rng.next() as u8,
    }
}

fn color(c: &Color, rng: &mut Rng) -> sys::Color {
    sys::Color {
        has_cicp: c.cicp.is_some() as u8,
        has_icc: c.icc.is_some() as u8,
        cicp: c.cicp.map_or_else(|| stray_cicp(rng), cicp),
    }
}

fn stray_color(rng: &mut Rng) -> sys::Color {
    sys::Color { has_cicp: rng.next() as u8, has_icc: rng.next() as u8, cicp: stray_cicp(rng) }
}

fn gain(g: &Gain, rng: &mut Rng) -> sys::Gain {
    sys::Gain {
        width: g.width,
        height: g.height,
        bit_depth: g.bit_depth as u8,
        has_tmap: g.tmap.is_some() as u8,
        has_alternate: g.alternate.is_some() as u8,
        cicp: cicp(g.cicp),
        alternate: match &g.alternate {
            Some(c) => color(c, rng),
            None => stray_color(rng),
        },
    }
}

fn stray_gain(rng: &mut Rng) -> sys::Gain {
    sys::Gain {
        width: rng.next() as u32,
        height: rng.next() as u32,
        bit_depth: rng.next() as u8,
        has_tmap: rng.next() as u8,
        has_alternate: rng.next() as u8,
        cicp: stray_cicp(rng),
        alternate: stray_color(rng),
    }
}

/// The numbers of a panel, with stray ones where a part is absent.
pub fn numbers(case: &Case, rng: &mut Rng) -> sys::Panel {
    let levels = case.light.map(|l| (l.max_content_light_level, l.max_pic_average_light_level));
    let (most, average) = levels.unwrap_or_else(|| (rng.next() as u16, rng.next() as u16));
    // Beside none, often one that would be refused.
    let stray_size = |rng: &mut Rng| if rng.once_in(2) { 0 } else { rng.next() as u32 };
    let visible = case.visible.map(|v| (v.w, v.h));
    let (visible_w, visible_h) = visible.unwrap_or_else(|| (stray_size(rng), stray_size(rng)));
    sys::Panel {
        cols: case.dims.cols,
        rows: case.dims.rows,
        tile_w: case.dims.tile_w,
        tile_h: case.dims.tile_h,
        full_w: case.dims.full_w,
        full_h: case.dims.full_h,
        bit_depth: case.bit_depth as u8,
        alpha_bit_depth: case.alpha_bit_depth as u8,
        orientation: case.orientation as u8,
        has_light: case.light.is_some() as u8,
        has_exif: case.exif.is_some() as u8,
        has_gain: case.gain.is_some() as u8,
        max_content_light_level: most,
        max_pic_average_light_level: average,
        color: color(&case.color, rng),
        gain: match &case.gain {
            Some(g) => gain(g, rng),
            None => stray_gain(rng),
        },
        has_visible: case.visible.is_some() as u8,
        visible_w,
        visible_h,
    }
}

/// The parts of a panel, with stray bytes lent where a part is absent.
pub fn lent<'a>(case: &'a Case, stray: &'a [u8]) -> sys::Lent<'a> {
    let or_stray = |part: Option<&'a Vec<u8>>| part.map_or(stray, Vec::as_slice);
    let gain = case.gain.as_ref();
    let alternate = gain.and_then(|g| g.alternate.as_ref());
    sys::Lent {
        color_hvcc: &case.color_hvcc,
        alpha_hvcc: &case.alpha_hvcc,
        color_lengths: &case.color_lengths,
        alpha_lengths: &case.alpha_lengths,
        color_samples: &case.color_samples,
        alpha_samples: &case.alpha_samples,
        icc: or_stray(case.color.icc.as_ref()),
        exif: or_stray(case.exif.as_ref()),
        gain_hvcc: or_stray(gain.map(|g| &g.hvcc)),
        gain_sample: or_stray(gain.map(|g| &g.sample)),
        gain_xmp: or_stray(gain.map(|g| &g.xmp)),
        gain_tmap: or_stray(gain.and_then(|g| g.tmap.as_ref())),
        alternate_icc: or_stray(alternate.and_then(|c| c.icc.as_ref())),
    }
}
