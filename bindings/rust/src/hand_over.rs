//! A panel as the archive takes it: its numbers in one struct, its byte parts beside it.

use crate::{sys, Cicp, ColorMetadata, EncodedGainMap, Panel};

/// Code points, each by its code.
fn cicp(c: Cicp) -> sys::Cicp {
    sys::Cicp {
        primaries: c.primaries.code(),
        transfer: c.transfer.code(),
        matrix: c.matrix.code(),
        full_range: c.full_range.into(),
    }
}

/// The numbers of a colour. Those of an absent part are zeros, which are not looked at.
fn color(c: ColorMetadata<'_>) -> sys::Color {
    sys::Color {
        has_cicp: c.cicp.is_some().into(),
        has_icc: c.icc.is_some().into(),
        cicp: c.cicp.map(cicp).unwrap_or_default(),
    }
}

/// The numbers of a gain map.
fn gain(g: EncodedGainMap<'_>) -> sys::Gain {
    sys::Gain {
        width: g.width,
        height: g.height,
        bit_depth: g.bit_depth.code(),
        has_tmap: g.tmap.is_some().into(),
        has_alternate: g.alternate_color.is_some().into(),
        cicp: cicp(g.cicp),
        alternate: g.alternate_color.map(color).unwrap_or_default(),
    }
}

/// The numbers of a panel.
fn numbers(p: &Panel<'_>) -> sys::Panel {
    let light = p.metadata.content_light_level;
    let visible = p.visible.unwrap_or_default();
    sys::Panel {
        cols: p.dims.cols,
        rows: p.dims.rows,
        tile_w: p.dims.tile_w,
        tile_h: p.dims.tile_h,
        full_w: p.dims.full_w,
        full_h: p.dims.full_h,
        bit_depth: p.bit_depth.code(),
        alpha_bit_depth: p.alpha_bit_depth.unwrap_or(p.bit_depth).code(),
        orientation: p.metadata.orientation.code(),
        has_light: light.is_some().into(),
        has_exif: p.metadata.exif.is_some().into(),
        has_gain: p.gain_map.is_some().into(),
        max_content_light_level: light.unwrap_or_default().max_content_light_level,
        max_pic_average_light_level: light.unwrap_or_default().max_pic_average_light_level,
        color: color(p.color_meta),
        gain: p.gain_map.map(gain).unwrap_or_default(),
        has_visible: p.visible.is_some().into(),
        visible_w: visible.w,
        visible_h: visible.h,
    }
}

/// The byte parts of a panel; an absent one is lent as nothing.
fn parts<'a>(p: &Panel<'a>) -> sys::Lent<'a> {
    let g = p.gain_map.unwrap_or_default();
    sys::Lent {
        color_hvcc: p.color_hvcc,
        alpha_hvcc: p.alpha_hvcc,
        color_lengths: p.color_samples.lengths,
        alpha_lengths: p.alpha_samples.lengths,
        color_samples: p.color_samples.bytes,
        alpha_samples: p.alpha_samples.bytes,
        icc: p.color_meta.icc.unwrap_or_default(),
        exif: p.metadata.exif.unwrap_or_default(),
        gain_hvcc: g.hvcc,
        gain_sample: g.sample,
        gain_xmp: g.xmp,
        gain_tmap: g.tmap.unwrap_or_default(),
        alternate_icc: g.alternate_color.and_then(|c| c.icc).unwrap_or_default(),
    }
}

/// What the archive is given of a panel.
pub(crate) fn of<'a>(p: &Panel<'a>) -> (sys::Panel, sys::Lent<'a>) {
    (numbers(p), parts(p))
}
