//! A panel as a list of rows of docs/LENGTH.md: which rows of its tables it is listed in, and with what numbers.

use super::table::Row;
use kahopiru::{Orientation, Panel};

const TURN: &str = "a turn: the orientation `Rotate180`, `Transpose`, `Rotate90`, `Transverse` or `Rotate270`";
const MIRROR: &str = "a mirror: the orientation `FlipH`, `FlipV`, `Transpose` or `Transverse`";

/// The rows that a panel is listed in.
pub fn rows(panel: &Panel<'_>) -> Vec<Row> {
    [bare(panel), extras(panel), meetings(panel)].into_iter().flatten().flatten().collect()
}

/// A row without a letter, where it holds of the panel.
fn when(holds: bool, name: &'static str) -> Option<Row> {
    holds.then(|| Row { name, letters: vec![] })
}

/// A row whose letter is how many bytes a part has, where there is that part.
fn of_bytes(part: Option<&[u8]>, name: &'static str, letter: &'static str) -> Option<Row> {
    part.map(|bytes| Row { name, letters: vec![(letter, bytes.len())] })
}

/// A row whose letter is how many tiles a picture has.
fn of_tiles(panel: &Panel<'_>, name: &'static str) -> Row {
    Row { name, letters: vec![("n", panel.color_samples.lengths.len())] }
}

/// Whether a row names an orientation.
fn names(row: &str, orientation: Orientation) -> bool {
    row.contains(&format!("`{orientation:?}`"))
}

pub fn rext(record: &[u8]) -> bool {
    record.get(1).is_some_and(|second| second & 0x1F == 4)
}

fn bare(panel: &Panel<'_>) -> Vec<Option<Row>> {
    vec![
        Some(of_tiles(panel, "n tiles in each picture")),
        of_bytes(Some(panel.color_hvcc), "a colour record of r bytes", "r"),
        of_bytes(Some(panel.alpha_hvcc), "an alpha record of r bytes", "r"),
        of_bytes(Some(panel.color_samples.bytes), "colour samples, s bytes for all tiles together", "s"),
        of_bytes(Some(panel.alpha_samples.bytes), "alpha samples, s bytes for all tiles together", "s"),
    ]
}

fn extras(panel: &Panel<'_>) -> Vec<Option<Row>> {
    let Panel { dims, visible, color_meta, metadata, gain_map, .. } = *panel;
    let tone_map = gain_map.and_then(|gain| gain.tmap);
    let alternate = tone_map.and(gain_map).and_then(|gain| gain.alternate_color).unwrap_or_default();
    let (beside, alone) = if color_meta.cicp.is_some() { (color_meta.icc, None) } else { (None, color_meta.icc) };
    vec![
        when(dims.full_w > 65_535 || dims.full_h > 65_535, "a picture wider or higher than 65,535 pixels"),
        when(names(TURN, metadata.orientation), TURN),
        when(names(MIRROR, metadata.orientation), MIRROR),
        when(metadata.content_light_level.is_some(), "a light level"),
        visible.map(|_| of_tiles(panel, "a visible size, with n tiles in each picture")),
        of_bytes(metadata.exif, "Exif of e bytes", "e"),
        of_bytes(beside, "an ICC profile of c bytes, beside code points", "c"),
        of_bytes(alone, "an ICC profile of c bytes, without code points", "c"),
        gain_map.map(|gain| Row {
            name: "a gain map with a record of r bytes, a sample of s bytes and an XMP packet of x bytes",
            letters: vec![("r", gain.hvcc.len()), ("s", gain.sample.len()), ("x", gain.xmp.len())],
        }),
        of_bytes(tone_map, "a tone map of t bytes", "t"),
        when(alternate.cicp.is_some(), "alternate code points, beside a tone map"),
        of_bytes(alternate.icc, "an alternate ICC profile of c bytes, beside a tone map", "c"),
    ]
}

fn meetings(panel: &Panel<'_>) -> Vec<Option<Row>> {
    let Some(gain) = panel.gain_map else { return vec![] };
    let orientation = panel.metadata.orientation;
    vec![
        when(names(TURN, orientation), "a turn and a gain map"),
        when(names(MIRROR, orientation), "a mirror and a gain map"),
        when(
            rext(gain.hvcc) && !rext(panel.color_hvcc),
            "range extensions in the gain map's record and not in the colour record",
        ),
    ]
}
