//! What the specification says of a panel: the file's length, or the refusal. It follows the specification's text, not
//! upstream's code, which refuses less; the length is worked out by hand, as a sum of shares. It looks at lengths alone, so that
//! parts may be far too long to be written.

use kahopiru::{EncodedGainMap, Orientation, Panel, Samples, VisibleSize};

/// A length, or the number of a refusal.
pub type Answer = Result<u64, u32>;

/// A form of the file, and its code.
#[derive(Clone, Copy, Debug, PartialEq)]
pub enum Form {
    Ordinary = 0,
    Wide = 3,
}

const MOST_BYTES: i128 = 4_294_967_295;
/// The highest id that 16 bits hold, and the most tiles that a reference of that many can lead to.
const MOST_16: i128 = 65_535;

/// What the writing call answers with so much room; the length call, with no room named. The form is the ordinary one.
pub fn answer(panel: &Panel<'_>, room: Option<usize>) -> Answer {
    answer_in(Form::Ordinary, panel, room)
}

/// The same in a form.
pub fn answer_in(form: Form, panel: &Panel<'_>, room: Option<usize>) -> Answer {
    match holding_in(form, panel, room).first() {
        Some(&number) => Err(number),
        None => Ok(length_in(form, panel) as u64),
    }
}

/// The checks that hold for a panel in the ordinary form, in the order in which they are made: the first is answered.
pub fn holding(panel: &Panel<'_>, room: Option<usize>) -> Vec<u32> {
    holding_in(Form::Ordinary, panel, room)
}

/// The same in a form.
pub fn holding_in(form: Form, panel: &Panel<'_>, room: Option<usize>) -> Vec<u32> {
    let (rows, cols) = (i128::from(panel.dims.rows), i128::from(panel.dims.cols));
    let good_side = |side: i128| (1..=256).contains(&side);
    let dims = panel.dims;
    let shown = panel.visible.unwrap_or(VisibleSize { w: dims.tile_w, h: dims.tile_h });
    let counts = |s: Samples<'_>| s.lengths.len() as i128 == tiles(panel);
    let length = length_in(form, panel);
    let too_many = match form {
        Form::Ordinary => last_id(panel) > MOST_16,
        Form::Wide => tiles(panel) > MOST_16,
    };
    let checks = [
        (1, !good_side(rows) || !good_side(cols)),
        (22, panel.visible.is_some_and(|v| !shows(v.w, dims.tile_w) || !shows(v.h, dims.tile_h))),
        (8, !covered(dims.cols, shown.w, dims.full_w) || !covered(dims.rows, shown.h, dims.full_h)),
        (2, !counts(panel.color_samples) || !counts(panel.alpha_samples)),
        (3, !sums(panel.color_samples) || !sums(panel.alpha_samples)),
        (4, too_many),
        (5, length > MOST_BYTES),
        (6, room.is_some_and(|room| (room as i128) < length)),
    ];
    checks.into_iter().filter(|&(_, holds)| holds).map(|(number, _)| number).collect()
}

/// How many tiles each picture has.
pub fn tiles(panel: &Panel<'_>) -> i128 {
    i128::from(panel.dims.rows) * i128::from(panel.dims.cols)
}

/// Whether a tile has a side of which so much can be shown: something, and no more than there is, of a side that is
/// also a number of 32 bits with a sign.
fn shows(visible: u32, decoded: u32) -> bool {
    i32::try_from(decoded).is_ok() && (1..=decoded).contains(&visible)
}

/// Whether a side of the picture has tiles enough: as many as its size takes, the last of which may be cut. Of a tile
/// counts what is shown. A size of 0 is none.
fn covered(tiles: u32, shown: u32, full: u32) -> bool {
    shown > 0 && full > 0 && full.div_ceil(shown) <= tiles
}

/// Whether lengths sum to the bytes lent.
fn sums(s: Samples<'_>) -> bool {
    s.lengths.iter().map(|&l| i128::from(l)).sum::<i128>() == s.bytes.len() as i128
}

/// One for what is there.
pub fn one_if(present: bool) -> i128 {
    i128::from(present)
}

/// The last item id, which is how many items there are: both tile lists and both grids, then Exif, gain image, XMP and
/// tone map.
pub fn last_id(panel: &Panel<'_>) -> i128 {
    let tone = panel.gain_map.is_some_and(|g| g.tmap.is_some());
    2 * tiles(panel) + 2 + one_if(panel.metadata.exif.is_some()) + 2 * one_if(panel.gain_map.is_some()) + one_if(tone)
}

fn bytes(part: &[u8]) -> i128 {
    part.len() as i128
}

/// Whether a decoder configuration record is of the range extensions profile.
pub fn rext(record: &[u8]) -> bool {
    record.get(1).is_some_and(|byte| byte & 0x1F == 4)
}

/// How many of irot and imir an orientation brings.
fn transforms(orientation: Orientation) -> i128 {
    // In enum order: 0 none, 0 false, 2 none, 0 true, 3 false, 3 none, 1 false, 1 none.
    [0, 1, 1, 1, 2, 1, 2, 1][orientation as usize]
}

/// The file's length in a form.
pub fn length_in(form: Form, panel: &Panel<'_>) -> i128 {
    match form {
        Form::Ordinary => length(panel),
        Form::Wide => length(panel) + 2 * (ids(panel) + COUNTS),
    }
}

/// The counts that the wide form widens: that of iloc and that of iinf.
const COUNTS: i128 = 2;

/// How often a file has an id in pitm, iloc, iinf, iref and ipma.
fn ids(panel: &Panel<'_>) -> i128 {
    let n = tiles(panel);
    let exif = one_if(panel.metadata.exif.is_some());
    let gain = one_if(panel.gain_map.is_some());
    let tone = one_if(panel.gain_map.is_some_and(|g| g.tmap.is_some()));
    let in_pitm = 1;
    let in_iloc_and_iinf = 2 * last_id(panel);
    // Each grid with its tiles; alpha grid, Exif and gain image with the colour grid; XMP with the gain image; and the
    // tone map with colour grid and gain image.
    let in_iref = 2 * (1 + n) + 2 + 2 * exif + 2 * gain + 2 * gain + 3 * tone;
    // Tiles, grids, gain image and tone map name properties.
    let in_ipma = 2 * n + 2 + gain + tone;
    in_pitm + in_iloc_and_iinf + in_iref + in_ipma
}

/// The ordinary file's length: the bare file's, and the share of each thing that is more.
pub fn length(panel: &Panel<'_>) -> i128 {
    let bare = 461
        + 89 * tiles(panel)
        + bytes(panel.color_hvcc)
        + bytes(panel.alpha_hvcc)
        + bytes(panel.color_samples.bytes)
        + bytes(panel.alpha_samples.bytes);
    let wide = panel.dims.full_w > 65_535 || panel.dims.full_h > 65_535;
    let turns = transforms(panel.metadata.orientation);
    let visible = if panel.visible.is_some() { 40 + 2 * tiles(panel) } else { 0 };
    let light = if panel.metadata.content_light_level.is_some() { 13 } else { 0 };
    let exif = panel.metadata.exif.map_or(0, |e| 55 + bytes(e));
    let gain = panel.gain_map.map_or(0, |g| gain_share(&g, rext(panel.color_hvcc), turns));
    bare + if wide { 8 } else { 0 } + 11 * turns + light + visible + exif + profile_share(panel) + gain
}

/// What a profile adds: a second colr beside code points, or one in place of the nclx of 19 bytes.
fn profile_share(panel: &Panel<'_>) -> i128 {
    match (panel.color_meta.cicp, panel.color_meta.icc) {
        (_, None) => 0,
        (Some(_), Some(icc)) => 13 + bytes(icc),
        (None, Some(icc)) => 12 + bytes(icc) - 19,
    }
}

/// What a gain map adds, with its tone map and alternate colour, and where it meets transforms and another brand.
fn gain_share(g: &EncodedGainMap<'_>, color_rext: bool, turns: i128) -> i128 {
    let brand = if rext(g.hvcc) && !color_rext { 4 } else { 0 };
    let own = 243 + bytes(g.hvcc) + bytes(g.sample) + bytes(g.xmp);
    own + turns + brand + g.tmap.map_or(0, |tmap| 134 + bytes(tmap) + alternate_share(g))
}

/// What an alternate colour adds beside a tone map.
fn alternate_share(g: &EncodedGainMap<'_>) -> i128 {
    let Some(alternate) = g.alternate_color else { return 0 };
    let codes = if alternate.cicp.is_some() { 20 } else { 0 };
    codes + alternate.icc.map_or(0, |icc| 13 + bytes(icc))
}
